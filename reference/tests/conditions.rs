//! Document 02, R-7, OR, NOT and the third truth: records of kind 6 byte by byte, the
//! three tables, rows that are not there, the ranks of the answers, and every short
//! list of entries judged a second time, from its bytes, by numbers and a stack.

mod common;

use common::*;
use reference::generate::conditions::{
    self, body, compare, cut_or_counted, every_list, long_lists, of_truth, operator, with_entries,
    Entry, FALSE, TRUE, UNKNOWN,
};
use reference::generate::draft::{self, with_column, with_number, Draft, Numbers, SMALL};
use reference::generate::{limits, mix, Random};
use reference::letters::{self, Truth};
use reference::query::{self, AND, CONDITION, DEFINE, NOT, OR};
use reference::search;

fn answer(draft: &Draft) -> u8 {
    search::room(&draft.query(), &draft.rows).0
}

/// Where A holds among the rows of a draft.
fn held(draft: &Draft) -> Vec<usize> {
    let read = query::read(&draft.query()).expect("a query that is right");
    let n = draft.rows.len() / read.columns;
    (0..n)
        .filter(|&row| letters::holds(&read, &draft.rows, b'A', row as u64))
        .collect()
}

#[test]
fn the_record_in_bytes() {
    // A: NOT (c0 = 1) OR PREV(c0) <> 5, on rows 1, 5, 1, 2.
    let bytes = [
        b'A', 4, 0, 0, 0, 1, 0, 0, 0, 0, 0, 1, 0, 0, 0, 3, 0, 0, 0xFF, 2, 0, 0, 0, 0, 0, 5, 0, 0,
        0, 2,
    ];
    let mut draft = Draft::new(1, b"A", vec![1, 5, 1, 2]);
    draft.add_record((CONDITION, bytes.to_vec()));
    let entries = [
        compare(with_number(0, 0, 1, 1)),
        operator(NOT),
        compare(with_number(0, -1, 2, 5)),
        operator(OR),
    ];
    assert_eq!(body(b'A', &entries), bytes);
    assert_eq!(answer(&draft), 0);
    // Row 0: false or unknown. Row 1: true. Row 2: false or false. Row 3: true.
    assert_eq!(held(&draft), [1, 3]);
    assert_eq!(matches(&draft), [found(1, "A"), found(3, "A")]);
}

#[test]
fn the_tables() {
    use Truth::{False, True, Unknown};
    let and = [
        [True, False, Unknown],
        [False, False, False],
        [Unknown, False, Unknown],
    ];
    let or = [
        [True, True, True],
        [True, False, Unknown],
        [True, Unknown, Unknown],
    ];
    let all = [True, False, Unknown];
    for (left, &one) in all.iter().enumerate() {
        for (right, &other) in all.iter().enumerate() {
            assert_eq!(letters::and(one, other), and[left][right]);
            assert_eq!(letters::or(one, other), or[left][right]);
        }
    }
    assert_eq!(all.map(letters::not), [False, True, Unknown]);
}

/// A missing neighbour is unknown on either side, and NOT leaves it so.
#[test]
fn missing_neighbours() {
    let rows = || vec![1, 1, 1];
    let with = |entries: &[Entry]| held(&Draft::new(1, b"A", rows()).condition(b'A', entries));
    let back = compare(with_number(0, -1, 1, 1));
    let on = compare(with_number(0, 1, 1, 1));
    let right_back = compare(with_column((0, 0), 1, (0, -1), 0));
    let right_on = compare(with_column((0, 0), 2, (0, 1), 0));
    let yes = compare(with_number(0, 0, 1, 1));
    let no = compare(with_number(0, 0, 2, 1));
    assert_eq!(with(&[back.clone()]), [1, 2]);
    assert_eq!(with(&[back.clone(), operator(NOT)]), []);
    assert_eq!(with(&[on.clone()]), [0, 1]);
    assert_eq!(with(&[right_back.clone(), operator(NOT)]), []);
    assert_eq!(with(&[right_on.clone()]), []);
    assert_eq!(with(&[right_on, operator(NOT)]), [0, 1]);
    assert_eq!(with(&[back.clone(), yes, operator(OR)]), [0, 1, 2]);
    assert_eq!(with(&[back.clone(), no.clone(), operator(OR)]), [1, 2]);
    // Unknown and false is false, so its NOT holds at row 0 too.
    let list = [back, no, operator(AND), operator(NOT)];
    assert_eq!(with(&list), [0, 1, 2]);
    // With a number on the right no other row is read.
    let far = compare(with_number(0, 0, 1, 1));
    assert_eq!(with(&[far, operator(NOT), operator(NOT)]), [0, 1, 2]);
}

/// Kind 3 keeps its meaning: unknown is not met, whatever the operator.
#[test]
fn kind_3_as_before() {
    let unequal = with_number(0, -1, 2, 1_000);
    let draft = Draft::new(1, b"A", vec![1, 2]).define(b'A', &[unequal]);
    assert_eq!(held(&draft), [1]);
    let draft = Draft::new(1, b"A", vec![1, 2]).condition(b'A', &[compare(unequal)]);
    assert_eq!(held(&draft), [1]);
}

/// Kinds 3 and 6 stand in any order, and are counted together.
#[test]
fn order_and_counts() {
    let equal = with_number(0, 0, 1, 1);
    let entry = [compare(equal)];
    let with = |kinds: &[u16]| {
        let draft = Draft::new(1, b"A", vec![1]);
        let letters = (b'A'..=b'Z').cycle();
        kinds
            .iter()
            .zip(letters)
            .fold(draft, |draft, (&kind, letter)| match kind {
                DEFINE => draft.define(letter, &[equal]),
                _ => draft.condition(letter, &entry),
            })
    };
    for kinds in [[3, 6, 3], [6, 3, 6], [6, 6, 3], [3, 3, 6]] {
        assert_eq!(answer(&with(&kinds)), 0);
    }
    assert_eq!(answer(&with(&[6; 26])), 0);
    assert_eq!(answer(&with(&[6; 27])), 2);
    let mixed: Vec<u16> = (0..27).map(|at| if at % 2 == 0 { 3 } else { 6 }).collect();
    assert_eq!(answer(&with(&mixed[..26])), 0);
    assert_eq!(answer(&with(&mixed)), 2);
    // Misplaced: before the text, behind the skip, behind a measure.
    let right = with(&[6]).measure(1, 0, 0);
    for to in [0, 1, 3, 4] {
        let mut draft = right.clone();
        let record = draft.records.remove(2);
        draft.records.insert(to, record);
        assert_eq!(answer(&draft), 2, "{to}");
    }
    // Two for one letter, of either kind, in the pattern or not.
    for letter in [b'A', b'Q'] {
        let three = |draft: Draft| draft.define(letter, &[equal]);
        let six = |draft: Draft| draft.condition(letter, &entry);
        let new = || Draft::new(1, b"A", vec![1]);
        assert_eq!(answer(&six(new())), 0);
        assert_eq!(answer(&three(six(new()))), 8);
        assert_eq!(answer(&six(three(new()))), 8);
        assert_eq!(answer(&six(six(new()))), 8);
    }
    // Kinds 0x0106 and 0x0600 are no kind.
    for kind in [0x0106, 0x0600, 7] {
        let mut draft = with(&[6]);
        draft.records[2].0 = kind;
        assert_eq!(answer(&draft), 2);
    }
}

/// Each field outside its values is 3, also for a letter that the pattern lacks, and
/// also where the entries would be short-circuited.
#[test]
fn fields() {
    let yes = || of_truth(TRUE, 0);
    let of = |letter: u8, entries: &[Entry]| {
        let mut draft = Draft::new(1, b"A", vec![1]);
        draft.add_record((CONDITION, body(letter, entries)));
        answer(&draft)
    };
    assert_eq!(of(b'A', &[yes()]), 0);
    assert_eq!(of(b'Z', &[yes()]), 0);
    for letter in [0, b'@', b'[', b'a', 255] {
        assert_eq!(of(letter, &[yes()]), 3);
    }
    let refused: [Vec<Entry>; 12] = [
        vec![],
        vec![operator(NOT)],
        vec![operator(AND)],
        vec![yes(), operator(AND)],
        vec![yes(), operator(OR)],
        vec![operator(NOT), yes()],
        vec![yes(), operator(AND), yes()],
        vec![yes(), yes()],
        vec![yes(), yes(), operator(NOT)],
        vec![yes(), yes(), operator(AND), operator(OR)],
        vec![yes(), yes(), yes(), operator(OR)],
        vec![yes(), operator(4)],
    ];
    for entries in refused {
        assert_eq!(of(b'A', &entries), 3, "{entries:?}");
        assert_eq!(of(b'Q', &entries), 3, "{entries:?}");
    }
    // A wrong comparison behind one that settles the OR.
    let wrong = [
        with_number(1, 0, 1, 0),
        with_number(0, 65, 1, 0),
        with_number(0, 0, 7, 0),
    ];
    for comparison in wrong {
        assert_eq!(of(b'A', &[yes(), compare(comparison), operator(OR)]), 3);
    }
    // 16 entries are the most.
    let chain = |count: usize| {
        let mut entries = vec![yes()];
        entries.resize(count, operator(NOT));
        entries
    };
    assert_eq!(of(b'A', &chain(16)), 0);
    assert_eq!(of(b'A', &chain(17)), 3);
    let joined = |count: usize| {
        let mut entries = vec![yes(); count];
        entries.resize(2 * count - 1, operator(AND));
        entries
    };
    assert_eq!(of(b'A', &joined(8)), 0);
    assert_eq!(of(b'A', &joined(9)), 3);
}

/// Cut at each byte, with a byte too many, and with every count.
#[test]
fn lengths() {
    let entries = [of_truth(TRUE, 0), of_truth(FALSE, 1), operator(OR)];
    let whole = body(b'A', &entries);
    let mut right = 0;
    for body in cut_or_counted(&entries) {
        let mut draft = Draft::new(1, b"A", vec![1]);
        draft.add_record((CONDITION, body.clone()));
        let expected = if body == whole { 0 } else { 3 };
        assert_eq!(answer(&draft), expected, "{body:?}");
        right += usize::from(expected == 0);
    }
    // Uncut, and with its own count.
    assert_eq!(right, 2);
}

/// What a list comes to, by numbers: 0 false, 1 unknown, 2 true. None if it runs short or
/// leaves more than one.
fn judged_again(entries: &[Entry], truth: &dyn Fn(&Entry) -> u8) -> Option<u8> {
    let mut stack: Vec<u8> = Vec::new();
    for entry in entries {
        match entry[0] {
            0 => stack.push(truth(entry)),
            3 => {
                let top = stack.last_mut()?;
                *top = 2 - *top;
            }
            sort => {
                let (right, left) = (stack.pop()?, stack.pop()?);
                let two = [left, right].into_iter();
                stack.push(if sort == 1 { two.min()? } else { two.max()? });
            }
        }
    }
    (stack.len() == 1).then(|| stack[0])
}

/// By the sort of each comparison, as the generator made it.
fn truth_of(entry: &Entry) -> u8 {
    let is = |truth| (0..5).any(|number| of_truth(truth, number) == *entry);
    match (is(TRUE), is(FALSE), is(UNKNOWN)) {
        (true, false, false) => 2,
        (false, true, false) => 0,
        (false, false, true) => 1,
        _ => panic!("{entry:?}"),
    }
}

fn check_list(entries: &[Entry]) -> Option<u8> {
    let judged = judged_again(entries, &truth_of);
    for n in [1, 2] {
        let draft = with_entries(entries, n);
        match judged {
            Some(truth) if entries.len() <= 16 => {
                let labels = if truth == 2 { "A" } else { "B" };
                let expected: Vec<_> = (0..n as i64).map(|row| found(row, labels)).collect();
                assert_eq!(matches(&draft), expected, "{entries:?}");
            }
            _ => assert_eq!(answer(&draft), 3, "{entries:?}"),
        }
    }
    judged
}

#[test]
fn every_short_list() {
    let mut judged = [0; 4];
    for entries in every_list(6) {
        judged[check_list(&entries).map_or(3, usize::from)] += 1;
    }
    assert_eq!(
        judged.iter().sum::<usize>(),
        6 + 36 + 216 + 1_296 + 7_776 + 46_656
    );
    // A list that is well formed is one comparison of 3, or one that is well formed and a
    // NOT, or two of them and one of two operators.
    let mut formed = vec![0, 3];
    for length in 2..=6 {
        let two = (1..length - 1).map(|left| formed[left] * formed[length - 1 - left]);
        formed.push(formed[length - 1] + 2 * two.sum::<usize>());
    }
    assert_eq!(
        judged[..3].iter().sum::<usize>(),
        formed.iter().sum::<usize>()
    );
    // NOT and the tables are symmetric, and so are the comparisons.
    assert_eq!(judged[0], judged[2]);
    assert!(judged[1] > 300, "{judged:?}");
}

#[test]
fn every_long_list() {
    let lists = long_lists();
    let mut judged = [0; 4];
    for entries in &lists {
        let sort = check_list(entries).filter(|_| entries.len() <= 16);
        judged[sort.map_or(3, usize::from)] += 1;
    }
    assert!(judged.iter().all(|&count| count > 100), "{judged:?}");
}

/// Random conditions, each comparison worked out by the record of kind 3 that has it
/// alone: unknown where neither it nor its opposite is met.
#[test]
fn random_conditions() {
    let mut random = Random::new(31);
    let mut held = [0; 3];
    let mut lengths = [0; 17];
    for number in 0..6_000 {
        let numbers = [Numbers::Low, Numbers::Extreme][number % 2];
        let columns = 1 + random.below(3) as u8;
        let n = random.below(6);
        let rows: Vec<i32> = (0..n * usize::from(columns))
            .map(|_| draft::number(&mut random, numbers))
            .collect();
        let entries = conditions::random_entries(&mut random, columns, numbers);
        lengths[entries.len()] += 1;
        let alone = |entry: &Entry, row: usize| {
            let mut bytes: [u8; 12] = entry[1..].try_into().expect("twelve bytes");
            let mut is_met = |operator| {
                bytes[2] = operator;
                let draft = Draft::new(columns, b"A", rows.clone()).define(b'A', &[bytes]);
                let read = query::read(&draft.query()).expect("right fields");
                letters::holds(&read, &rows, b'A', row as u64)
            };
            let opposite = [0, 2, 1, 6, 5, 4, 3][usize::from(entry[3])];
            match (is_met(entry[3]), is_met(opposite)) {
                (true, false) => 2,
                (false, true) => 0,
                (false, false) => 1,
                (true, true) => panic!("{entry:?}"),
            }
        };
        let draft = Draft::new(columns, b"A", rows.clone()).condition(b'A', &entries);
        let read = query::read(&draft.query()).expect("right fields");
        for row in 0..n {
            let expected = judged_again(&entries, &|entry| alone(entry, row));
            let expected = expected.expect("well formed");
            assert_eq!(
                letters::holds(&read, &rows, b'A', row as u64),
                expected == 2
            );
            held[usize::from(expected)] += 1;
        }
    }
    assert!(held.iter().all(|&count| count > 1_500), "{held:?}");
    assert!(lengths[1..].iter().all(|&count| count > 30), "{lengths:?}");
}

/// Of the records of kinds 3 and 6 among all inputs that are made, both are many, also
/// in one query, before and behind one another.
#[test]
fn both_kinds_among_all_inputs() {
    let mut random = Random::new(32);
    let (mut three, mut six, mut orders) = (0, 0, [0; 2]);
    for number in 0..6_000 {
        let input = mix::input(&mut random, &SMALL, number);
        let Ok(accepted) = search::accept(&input.query, &input.rows) else {
            continue;
        };
        let records = query::records(&input.query).expect("accepted");
        let kinds: Vec<u16> = records.iter().map(|record| record.kind).collect();
        three += kinds.iter().filter(|&&kind| kind == DEFINE).count();
        six += kinds.iter().filter(|&&kind| kind == CONDITION).count();
        orders[0] += usize::from(kinds.windows(2).any(|two| two == [DEFINE, CONDITION]));
        orders[1] += usize::from(kinds.windows(2).any(|two| two == [CONDITION, DEFINE]));
        assert_eq!(
            accepted.query.defines.len(),
            kinds
                .iter()
                .filter(|&&kind| query::stands_as(kind) == DEFINE)
                .count()
        );
    }
    assert!(three > 1_500 && six > 700, "{three} {six}");
    assert!(orders.iter().all(|&count| count > 100), "{orders:?}");
}

/// The longest accepted query: text and records as long as may be, and in each of 26
/// records of kind 6 8 comparisons and 8 operators.
#[test]
fn the_longest_query() {
    let mut draft = limits::with_most_conditions();
    let before = matches(&draft);
    assert_eq!(before, matches(&limits::with_most_records()));
    assert!(!before.is_empty());
    for at in draft.defines() {
        let mut entries = conditions::entries_of(&draft.records[at].1);
        assert_eq!(entries.len(), 15);
        entries.push(operator(NOT));
        draft.records[at].1 = body(draft.records[at].1[0], &entries);
    }
    assert_eq!(answer(&draft), 0);
    assert_eq!(draft.query().len(), 3_404);
}
