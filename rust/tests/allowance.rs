//! An allowance of steps: every one from 0 to the whole of small searches and beyond, with
//! every skip; which of 13, 15 and 16 comes first; what lent buffers hold; refusals, which come
//! before it; and a long search that is given few steps. What a search without an allowance gives
//! is tested in search.rs, and is what these tests compare with.

#![allow(clippy::restriction)]

use mireladle::{
    col, lent, Ending, Error, Limits, Measure, Query, QueryBuilder, Report, Rows, Skip,
};

const X: [i32; 5] = [100, 110, 120, 115, 130];

fn w1() -> QueryBuilder {
    Query::builder(1)
        .pattern("A+ B")
        .define('A', [col(0).gt(col(0).prev(1))])
        .define('B', [col(0).lt(col(0).prev(1))])
        .measure(Measure::count().of('A'))
        .measure(Measure::last(0).of('B'))
}

/// Which letter holds at a row says the row's entry: 1 is A, 2 is B, 3 is C; others hold at all.
fn by_entry(pattern: &str) -> QueryBuilder {
    ('A'..='C')
        .zip(1..)
        .fold(Query::builder(1).pattern(pattern), |query, (letter, is)| {
            query.define(letter, [col(0).eq(is)])
        })
}

fn within(query: &QueryBuilder, entries: &[i32], limits: Limits) -> Report {
    let query = query.build().unwrap();
    query.search_within(Rows::new(entries, 1), limits).unwrap()
}

/// How a search with so many steps ends, how many matches it has, and its steps.
fn ended(query: &QueryBuilder, entries: &[i32], limits: Limits) -> (Ending, usize, u64) {
    let report = within(query, entries, limits);
    (report.ending(), report.len(), report.steps())
}

fn steps(most: u64) -> Limits {
    Limits::default().steps(most)
}

/// Tries every allowance, and gives how many matches each has that is less than the whole.
fn every_allowance(query: &QueryBuilder, entries: &[i32], limits: Limits) -> Vec<usize> {
    let whole = within(query, entries, limits);
    let mut counts = Vec::new();
    for allowance in 0..whole.steps() {
        let report = within(query, entries, limits.steps(allowance));
        let context = format!("{query:?} on {entries:?}, {limits:?}, {allowance} steps");
        assert_eq!(report.ending(), Ending::OutOfSteps, "{context}");
        assert_eq!(report.steps(), allowance, "{context}");
        // Matches are equal only with their numbers, rows, labels and measures.
        let first: Vec<_> = whole.matches().take(report.len()).collect();
        assert_eq!(report.matches().collect::<Vec<_>>(), first, "{context}");
        counts.push(report.len());
    }
    let enough = [whole.steps(), whole.steps() + 1, 1 << 32, 1 << 63, u64::MAX];
    for enough in enough {
        assert_eq!(within(query, entries, limits.steps(enough)), whole);
    }
    // A larger allowance begins with the same matches, so that it has at least as many.
    let never_less = counts.windows(2).all(|two| two[0] <= two[1]);
    assert!(never_less, "{query:?} on {entries:?}: {counts:?}");
    counts
}

/// Searches of the bench sheet. Each match is there from the step on that enters END.
#[test]
fn a_match_is_there_with_its_last_step() {
    let counts = |query: &QueryBuilder, entries: &[i32]| {
        let counts = every_allowance(query, entries, Limits::default());
        (counts, within(query, entries, Limits::default()).len())
    };
    // One match, found with the eighth step.
    let of_w1 = [vec![0; 8], vec![1; 4]].concat();
    assert_eq!(counts(&w1(), &X), (of_w1, 1));
    let free = |pattern: &str| Query::builder(1).pattern(pattern);
    assert_eq!(
        counts(&free("A A"), &[0; 3]),
        (vec![0, 0, 0, 1, 1], 1),
        "W6"
    );
    let each = free("A A").skip(Skip::ToNextRow);
    assert_eq!(
        counts(&each, &[0; 3]),
        (vec![0, 0, 0, 1, 1, 1, 2, 2], 2),
        "W6 to the next row"
    );
    let above_0 = |pattern| free(pattern).define('A', [col(0).gt(0)]);
    assert_eq!(
        counts(&above_0("A*"), &[1, 1, 0]),
        (vec![0, 0, 0, 0, 0, 0, 0, 1, 1], 2),
        "W3"
    );
    assert_eq!(
        counts(&above_0("A*?"), &[1, 1, 0]),
        (vec![0, 0, 1, 1, 2, 2], 3),
        "W4"
    );
    assert_eq!(counts(&free("()"), &[0; 3]), (vec![0, 1, 2], 3));
    assert_eq!(counts(&w1(), &[]), (vec![], 0), "W2");
}

/// All rows of up to so many entries, each 1 or 2.
fn all_rows(most: usize) -> Vec<Vec<i32>> {
    let mut all = vec![Vec::new()];
    let mut from = 0;
    for _ in 0..most {
        let longest = all.split_off(from);
        let longer = longest.iter().flat_map(|rows| {
            [1, 2].map(|entry| {
                let mut rows = rows.clone();
                rows.push(entry);
                rows
            })
        });
        let longer: Vec<_> = longer.collect();
        from += longest.len();
        all.extend(longest);
        all.extend(longer);
    }
    all
}

/// One or two parts in each pattern, up to three rows, every skip, every allowance.
#[test]
fn every_allowance_of_small_searches() {
    let parts = [
        "A", "B", "A?", "B*", "A+?", "(A|B)", "(A|B C)*", "(A?){2}", "()", "^", "$", "D",
    ];
    let one = parts.map(String::from);
    let two = parts
        .iter()
        .flat_map(|first| parts.map(|second| format!("{first} {second}")));
    let skips = [
        Skip::PastLastRow,
        Skip::ToNextRow,
        Skip::ToFirst('A'),
        Skip::ToLast('B'),
    ];
    let rows = all_rows(3);
    assert_eq!(rows.len(), 15);
    let (mut searches, mut stopped) = (0, 0);
    for pattern in one.into_iter().chain(two) {
        for skip in skips {
            let query = by_entry(&pattern).skip(skip).measure(Measure::sum(0));
            let Ok(accepted) = query.build() else {
                // The pattern does not have the skip's letter.
                assert_eq!(query.build(), Err(Error::MeasureLetter));
                continue;
            };
            for rows in &rows {
                stopped += every_allowance(&query, rows, Limits::default()).len();
                searches += 1;
                let n = u64::try_from(rows.len()).unwrap();
                let bound = 2 * accepted.places() * (n + 1);
                if skip == Skip::PastLastRow {
                    let enough = within(&query, rows, steps(bound));
                    assert_eq!(enough.ending(), Ending::Done, "{pattern} {rows:?}");
                }
            }
        }
    }
    assert!(searches > 5_000 && stopped > 50_000);
}

/// `A* B` fails from row 0 with all pairs there are: three places at each of six positions. The
/// starts behind it enter nothing, so that they need no allowance.
#[test]
fn starts_that_enter_nothing_take_no_step() {
    let query = by_entry("A* B");
    let done = (Ending::Done, 0, 18);
    assert_eq!(ended(&query, &[1; 5], Limits::default()), done);
    assert_eq!(ended(&query, &[1; 5], steps(18)), done);
    let stopped = (Ending::OutOfSteps, 0, 17);
    assert_eq!(ended(&query, &[1; 5], steps(17)), stopped);
}

#[test]
fn without_rows_no_step_is_needed() {
    assert_eq!(ended(&w1(), &[], steps(0)), (Ending::Done, 0, 0));
    assert_eq!(ended(&w1(), &X, steps(0)), (Ending::OutOfSteps, 0, 0));
}

/// The second match of `A A` is found with the sixth step.
#[test]
fn a_match_that_does_not_fit_comes_first_with_its_last_step() {
    let query = Query::builder(1).pattern("A A").skip(Skip::ToNextRow);
    for room in [
        Limits::default().matches(1),
        Limits::default().labels(3),
        Limits::default().labels(2),
    ] {
        let ended = |most| ended(&query, &[0; 3], room.steps(most));
        assert_eq!(ended(5), (Ending::OutOfSteps, 1, 5));
        for enough in [6, 7, u64::MAX] {
            assert_eq!(ended(enough), (Ending::Stopped, 1, 6));
        }
        assert_eq!(every_allowance(&query, &[0; 3], room), [0, 0, 0, 1, 1, 1]);
    }
    let none = |most| ended(&query, &[0; 3], Limits::default().matches(0).steps(most));
    assert_eq!(none(2), (Ending::OutOfSteps, 0, 2));
    assert_eq!(none(3), (Ending::Stopped, 0, 3));
}

/// The second match has no row to skip to. The first takes four steps, A, the fork, B and END; its
/// row with B is tried next and is no A, one step; the second takes five: A, the fork, B, which
/// fails, C and END.
#[test]
fn a_match_without_a_row_to_skip_to_comes_first_with_its_last_step() {
    let query = by_entry("A (B | C)").skip(Skip::ToLast('B'));
    let entries = [1, 2, 1, 3, 1];
    let last = within(&query, &entries, Limits::default());
    assert_eq!((last.ending(), last.len()), (Ending::NoSkipRow, 2));
    let enough = last.steps();
    assert_eq!(enough, 4 + 1 + 5);
    let before = (Ending::OutOfSteps, 1, enough - 1);
    assert_eq!(ended(&query, &entries, steps(enough - 1)), before);
    for most in [enough, enough + 1, u64::MAX] {
        assert_eq!(within(&query, &entries, steps(most)), last);
    }
    every_allowance(&query, &entries, Limits::default());
    // Of the match that is found with the last step allowed, its room decides before its labels.
    let query = by_entry("A").skip(Skip::ToFirst('A'));
    let ended = |limits: Limits| ended(&query, &[1, 1], limits);
    assert_eq!(ended(steps(1)), (Ending::OutOfSteps, 0, 1));
    assert_eq!(ended(steps(2)), (Ending::NoSkipRow, 1, 2));
    assert_eq!(ended(steps(2).matches(0)), (Ending::Stopped, 0, 2));
    assert_eq!(ended(steps(1).matches(0)), (Ending::OutOfSteps, 0, 1));
}

/// The four buffers, with what they hold before and after a search.
#[derive(Clone, Debug, PartialEq)]
struct Lent {
    notes: Vec<u8>,
    trail: Vec<u32>,
    numbers: Vec<i64>,
    labels: Vec<u8>,
}

impl Lent {
    fn new(notes: usize, trail: usize) -> Lent {
        Lent {
            notes: vec![0xAA; notes],
            trail: vec![7; trail],
            numbers: vec![-7; 10],
            labels: b"?????".to_vec(),
        }
    }

    fn search(&mut self, query: &[u8], rows: &[i32]) -> lent::Outcome {
        let (notes, trail) = (&mut self.notes, &mut self.trail);
        lent::search(
            query,
            rows,
            notes,
            trail,
            &mut self.numbers,
            &mut self.labels,
        )
    }

    fn search_within(&mut self, query: &[u8], rows: &[i32], allowance: u64) -> lent::Outcome {
        let (notes, trail) = (&mut self.notes, &mut self.trail);
        let (numbers, labels) = (&mut self.numbers, &mut self.labels);
        lent::search_within(query, rows, allowance, notes, trail, numbers, labels)
    }
}

/// W1 has the places A, fork, A, B, END; a pair's bit is five times its position plus its place.
/// With the first step A fails at row 0. With the second to the eighth the match is found, where
/// the second A fails at row 3 with the sixth. From row 4 on A and the fork stay open until, behind
/// the second A, B fails with the twelfth.
#[test]
fn notes_hold_what_has_failed_and_nothing_that_is_open() {
    let query = w1().to_bytes();
    let failed_at = |steps: u64| {
        let all = [(1, 0), (6, 17), (11, 27), (12, 28), (12, 26), (12, 20)];
        let failed = all.into_iter().filter(|(step, _)| *step <= steps);
        failed.fold(0_u32, |notes, (_, bit)| notes | 1 << bit)
    };
    for allowance in 0..=14 {
        let mut lent = Lent::new(6, 33);
        let outcome = lent.search_within(&query, &X, allowance);
        let found = allowance >= 8;
        let expected = lent::Outcome {
            answer: if allowance < 12 { 16 } else { 0 },
            matches: u64::from(found),
            labels: if found { 3 } else { 0 },
            steps: allowance.min(12),
            offset: 0,
        };
        assert_eq!(outcome, expected);
        let (notes, behind) = lent.notes.split_at(4);
        let notes = u32::from_le_bytes(notes.try_into().unwrap());
        assert_eq!(notes, failed_at(allowance), "{allowance} steps");
        assert_eq!(behind, [0xAA; 2]);
        assert_eq!(lent.trail, [vec![0; 30], vec![7; 3]].concat());
        let report = if found {
            ([1, 1, 3, 1, 2, 1, 115, -7, -7, -7], b"AAB??")
        } else {
            ([-7; 10], b"?????")
        };
        assert_eq!(
            (&lent.numbers[..], &lent.labels[..]),
            (&report.0[..], &report.1[..])
        );
    }
}

/// The same buffers as without an allowance, where it is not passed.
#[test]
fn an_allowance_that_is_not_passed_changes_no_buffer() {
    for skip in [Skip::PastLastRow, Skip::ToNextRow, Skip::ToFirst('A')] {
        let query = w1().skip(skip).to_bytes();
        let mut plain = Lent::new(6, 33);
        let outcome = plain.search(&query, &X);
        for allowance in [outcome.steps, outcome.steps + 1, u64::MAX] {
            let mut lent = Lent::new(6, 33);
            assert_eq!(lent.search_within(&query, &X, allowance), outcome);
            assert_eq!(lent, plain);
        }
    }
}

#[test]
fn refusals_come_first_whatever_the_allowance() {
    let bytes = w1().to_bytes();
    let text = |text: &str| Query::builder(1).pattern(text).to_bytes();
    let refused = [
        (1, 0, bytes[..bytes.len() - 1].to_vec(), &X[..], [4, 30]),
        (2, 0, vec![], &X, [4, 30]),
        (3, 0, Query::builder(9).pattern("A").to_bytes(), &X, [4, 30]),
        (4, 0, text("((((((((("), &X, [4, 30]),
        (5, 2, text("A**"), &X, [4, 30]),
        (14, 3, text("A |"), &X, [4, 30]),
        (6, 0, text("((((()*)*)*)*)*"), &X, [4, 30]),
        (7, 0, text("(A{99}){99}"), &X, [4, 30]),
        (10, 0, bytes.clone(), &[0; 4097], [4, 30]),
        (11, 0, bytes.clone(), &X, [3, 30]),
        (12, 0, bytes.clone(), &X, [4, 29]),
    ];
    for (answer, offset, query, rows, [notes, trail]) in refused {
        let expected = lent::Outcome {
            answer,
            matches: 0,
            labels: 0,
            steps: 0,
            offset,
        };
        for allowance in [0, 1, u64::MAX] {
            let mut lent = Lent::new(notes, trail);
            assert_eq!(lent.search_within(&query, rows, allowance), expected);
            assert_eq!(lent, Lent::new(notes, trail), "{answer}");
        }
    }
    let query = Query::builder(2).pattern("A").build().unwrap();
    for limits in [steps(0), steps(u64::MAX)] {
        let search = |rows| query.search_within(rows, limits);
        assert_eq!(search(Rows::new(&[1, 2, 3], 2)), Err(Error::WrongRows));
        let columns = Error::ColumnCount { query: 2, rows: 1 };
        assert_eq!(search(Rows::new(&[1, 2], 1)), Err(columns));
    }
}

/// The README's longest search to the next row, which takes seconds. Its first match takes a
/// million steps, 254 for each row; then each `$` has failed, and the next take half of that each.
#[test]
fn a_long_search_is_left_early() {
    let query = Query::builder(1).pattern("(($|()){99}($|()){27}A)*");
    let query = query.skip(Skip::ToNextRow);
    let entries = [0; 4096];
    for (most, matches) in [(0, 0), (100_000, 0), (1_000_000, 0), (3_000_000, 4)] {
        let expected = (Ending::OutOfSteps, matches, most);
        assert_eq!(ended(&query, &entries, steps(most)), expected);
    }
}
