//! Conditions over rows: OR, NOT and unknown comparisons at both ends of a partition, by the builder
//! and by the query's text, against SQL's tables written out here.

#![allow(clippy::restriction)]

use mireladle::{col, text, Comparison, Condition, Error, Query, Rows};

/// The rows at which a letter with this condition holds.
fn holds(condition: impl Into<Condition>, rows: &[i32], columns: u8) -> Vec<usize> {
    let query = Query::builder(columns)
        .pattern("A")
        .define('A', [condition.into()])
        .build()
        .unwrap();
    found(&query, rows)
}

fn found(query: &Query, rows: &[i32]) -> Vec<usize> {
    let report = query.search(Rows::new(rows, query.columns())).unwrap();
    report.matches().map(|found| found.first_row()).collect()
}

/// The same of a text over the columns x and y.
fn holds_by_text(condition: &str, rows: &[i32]) -> Vec<usize> {
    let names = ["x", "y"].map(String::from);
    let text = format!("PATTERN (A) MEASURES MAX(x), MAX(y) DEFINE A AS {condition}");
    let query = text::read_with(&text, &names).unwrap().build().unwrap();
    found(&query, rows)
}

/// True, false and unknown at row 1 of three.
fn comparison(truth: Option<bool>) -> Comparison {
    match truth {
        Some(true) => col(0).eq(1),
        Some(false) => col(0).eq(2),
        None => col(0).prev(2).eq(1),
    }
}

const TRUTHS: [Option<bool>; 3] = [Some(true), Some(false), None];

fn is_true_at_row_1(condition: Condition) -> bool {
    holds(condition, &[0, 1, 0], 1).contains(&1)
}

fn and(one: Option<bool>, other: Option<bool>) -> Option<bool> {
    match (one, other) {
        (Some(false), _) | (_, Some(false)) => Some(false),
        (Some(true), Some(true)) => Some(true),
        _ => None,
    }
}

fn or(one: Option<bool>, other: Option<bool>) -> Option<bool> {
    match (one, other) {
        (Some(true), _) | (_, Some(true)) => Some(true),
        (Some(false), Some(false)) => Some(false),
        _ => None,
    }
}

/// A condition and what it comes to; NOT of it tells false and unknown apart.
fn assert_truth(condition: Condition, truth: Option<bool>) {
    let about = format!("{condition:?}");
    assert_eq!(
        is_true_at_row_1(condition.clone()),
        truth == Some(true),
        "{about}"
    );
    assert_eq!(
        is_true_at_row_1(!condition),
        truth == Some(false),
        "{about}"
    );
}

#[test]
fn tables_of_one_two_and_three() {
    for one in TRUTHS {
        let a = comparison(one);
        assert_truth(Condition::from(a), one);
        assert_truth(!a, one.map(|it| !it));
        for two in TRUTHS {
            let b = comparison(two);
            assert_truth(a & b, and(one, two));
            assert_truth(a | b, or(one, two));
            assert_truth(!a & b, and(one.map(|it| !it), two));
            assert_truth(!(a | b), or(one, two).map(|it| !it));
            for three in TRUTHS {
                let c = comparison(three);
                assert_truth(a & b | c, or(and(one, two), three));
                assert_truth(a | b & c, or(one, and(two, three)));
                assert_truth((a | b) & c, and(or(one, two), three));
                assert_truth(a & b & c, and(and(one, two), three));
                assert_truth(a | (b | c), or(one, or(two, three)));
                assert_truth(a & !(b | c), and(one, or(two, three).map(|it| !it)));
            }
        }
    }
}

#[test]
fn not_of_a_row_that_is_not_there() {
    let rows = [5, 5, 6, 6];
    let same = col(0).eq(col(0).prev(1));
    assert_eq!(holds(same, &rows, 1), [1, 3]);
    assert_eq!(holds(!same, &rows, 1), [2]);
    assert_eq!(holds(!!same, &rows, 1), [1, 3]);
    assert_eq!(holds(same | !same, &rows, 1), [1, 2, 3]);
    assert_eq!(holds(!(same & !same), &rows, 1), [1, 2, 3]);
    // Behind the last row too, and where the left side is the one that is missing.
    let next = col(0).next(1).eq(col(0));
    assert_eq!(holds(!next, &rows, 1), [1]);
    assert_eq!(holds(!(next & same), &rows, 1), [1, 2]);
    assert_eq!(holds(!(next | same), &rows, 1), [] as [usize; 0]);
    let far = col(0).prev(2).lt(col(0).next(2));
    assert_eq!(holds(far | !far, &rows, 1), [] as [usize; 0]);
    assert_eq!(holds(far | !far | col(0).eq(5), &rows, 1), [0, 1]);
    // False AND unknown is false, and so NOT of it is true.
    assert_eq!(holds(!(col(0).eq(7) & same), &rows, 1), [0, 1, 2, 3]);
    // Of a number on the right no row can be missing.
    assert_eq!(holds(!col(0).eq(6), &rows, 1), [0, 1]);
    assert_eq!(holds(!same, &[], 1), [] as [usize; 0]);
    assert_eq!(holds(!same, &[1], 1), [] as [usize; 0]);
}

#[test]
fn texts_at_both_ends() {
    let rows = [1, 10, 5, 20, 3, 30, 9, 40];
    for (condition, expected) in [
        ("x BETWEEN 3 AND 5", &[1, 2][..]),
        ("x NOT BETWEEN 3 AND 5", &[0, 3]),
        ("NOT x BETWEEN 3 AND 5", &[0, 3]),
        ("x BETWEEN PREV(x) AND NEXT(x)", &[]),
        ("x NOT BETWEEN PREV(x) AND NEXT(x)", &[1, 2]),
        // One end is enough where it is false: row 0 has none before it and is not above 3.
        ("x NOT BETWEEN 3 AND NEXT(x)", &[0, 1]),
        ("NOT (x BETWEEN 3 AND NEXT(x))", &[0, 1]),
        ("x IN (1, 9, PREV(x) + 4)", &[0, 1, 3]),
        ("x NOT IN (1, PREV(x) + 4)", &[2, 3]),
        ("NOT x IN (1, PREV(x) + 4)", &[2, 3]),
        ("NOT x = 1 AND y < 40", &[1, 2]),
        ("NOT (x = 1 AND y < 40)", &[1, 2, 3]),
        ("x = 1 OR x = 9 AND y = 10", &[0]),
        ("(x = 1 OR x = 9) AND y <> 10", &[3]),
        ("x <> PREV(x) OR x != NEXT(x)", &[0, 1, 2, 3]),
        ("FALSE OR x = 3", &[2]),
        ("NOT FALSE AND x = 3", &[2]),
        ("TRUE OR x = 3", &[0, 1, 2, 3]),
        ("NOT TRUE", &[]),
    ] {
        assert_eq!(holds_by_text(condition, &rows), expected, "{condition}");
    }
}

/// A letter with a condition is a letter like any other: in repetitions, beside letters with lists of
/// comparisons, and where the row that is tested lies behind the last.
#[test]
fn in_patterns() {
    let text = "PATTERN (A+ B?) MEASURES COUNT(A) \
                DEFINE A AS NOT x < PREV(x) OR x = 9, B AS x = 3";
    let query = text::read(text).unwrap().build().unwrap();
    let rows = [1, 5, 5, 3, 9, 9];
    let report = query.search(Rows::new(&rows, 1)).unwrap();
    let matches: Vec<_> = report.matches().map(|m| (m.rows(), m.labels())).collect();
    assert_eq!(matches, [(1..4, "AAB"), (4..6, "AA")]);
}

#[test]
fn lengths_and_parts_that_are_refused() {
    let with = |condition: Condition| {
        Query::builder(1)
            .pattern("A")
            .define('A', [condition])
            .build()
    };
    let any = |count| Condition::any(vec![col(0).eq(1); count]);
    assert!(with(!any(8)).is_ok());
    assert_eq!(
        with(!!any(8)),
        Err(Error::ConditionTooLong {
            letter: 'A',
            comparisons: 8,
            entries: 17
        })
    );
    assert_eq!(
        with(any(9)),
        Err(Error::ConditionTooLong {
            letter: 'A',
            comparisons: 9,
            entries: 17
        })
    );
    for wrong in [
        any(0),
        !any(0),
        any(0) | col(0).eq(1),
        any(0) & col(0).eq(1),
        col(0).eq(1) | col(1).eq(1),
        !col(0).prev(65).eq(1),
    ] {
        assert_eq!(with(wrong), Err(Error::WrongField));
    }
    let twice = Query::builder(1)
        .pattern("A")
        .define('A', [!col(0).eq(1)])
        .define('A', [col(0).eq(1)]);
    assert_eq!(twice.build(), Err(Error::DefinedTwice));
}
