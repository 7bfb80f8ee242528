//! Document 02, R-6, the test of a letter at a row: cases worked out by hand, rows that
//! are not there, bytes that are no letter, refusals, and for random queries the count a
//! second time from the bytes of the record.

mod common;

use reference::generate::conditions::compare;
use reference::generate::draft::{with_column, with_number, Draft, MIDDLE, SMALL};
use reference::generate::tested::{every_choice, every_letter, random, Test};
use reference::generate::Random;
use reference::query::{self, DEFINE};
use reference::search;

fn test(draft: &Draft, letter: u8, row: u64) -> [u64; 4] {
    search::test(&draft.query(), &draft.rows, letter, row)
}

/// Column 0 is 5, above PREV, and below NEXT; on 4, 5, 5, 5, 6.
fn three() -> Draft {
    let five = with_number(0, 0, 1, 5);
    let above = with_column((0, 0), 5, (0, -1), 0);
    let below = with_column((0, 0), 3, (0, 1), 0);
    Draft::new(1, b"A", vec![4, 5, 5, 5, 6]).define(b'A', &[five, above, below])
}

#[test]
fn up_to_the_first_unmet() {
    let draft = three();
    assert_eq!(test(&draft, b'A', 0), [0, 0, 1, 0]);
    assert_eq!(test(&draft, b'A', 1), [0, 0, 3, 0]);
    assert_eq!(test(&draft, b'A', 2), [0, 0, 2, 0]);
    assert_eq!(test(&draft, b'A', 3), [0, 0, 2, 0]);
    assert_eq!(test(&draft, b'A', 4), [0, 0, 1, 0]);
    let mut met = draft.clone();
    met.rows = vec![4, 5, 6];
    assert_eq!(test(&met, b'A', 1), [0, 1, 3, 0]);
    // Unknown is unmet, and counted.
    let mut missing = draft;
    missing.rows = vec![5, 6];
    assert_eq!(test(&missing, b'A', 0), [0, 0, 2, 0]);
    missing.rows = vec![4, 5];
    assert_eq!(test(&missing, b'A', 1), [0, 0, 3, 0]);
}

#[test]
fn without_a_record_of_kind_3() {
    let no = compare(with_number(0, 0, 1, 9));
    let draft = three().condition(b'B', &[no]);
    assert_eq!(test(&draft, b'B', 0), [0, 0, 0, 0]);
    assert_eq!(test(&draft, b'C', 0), [0, 1, 0, 0]);
    for byte in [0, 1, b'@', b'[', b'a', b'b', 255] {
        assert_eq!(test(&draft, byte, 0), [0, 1, 0, 0]);
    }
    // A letter outside the pattern with a record is judged.
    let outside = three().define(b'Q', &[with_number(0, 0, 2, 4), with_number(0, 0, 1, 4)]);
    assert_eq!(test(&outside, b'Q', 0), [0, 0, 1, 0]);
    assert_eq!(test(&outside, b'Q', 1), [0, 0, 2, 0]);
}

/// Comparisons come to what they read: from behind the last row, PREV reads rows.
#[test]
fn rows_that_are_not_there() {
    let back = |offset| {
        Draft::new(1, b"A", vec![7, 8]).define(
            b'A',
            &[with_number(0, offset, 5, 6), with_number(0, offset, 5, 7)],
        )
    };
    assert_eq!(test(&back(-1), b'A', 0), [0, 0, 1, 0]);
    assert_eq!(test(&back(-1), b'A', 1), [0, 0, 2, 0]);
    assert_eq!(test(&back(-1), b'A', 2), [0, 1, 2, 0]);
    assert_eq!(test(&back(-1), b'A', 3), [0, 0, 1, 0]);
    assert_eq!(test(&back(-64), b'A', 65), [0, 1, 2, 0]);
    assert_eq!(test(&back(-64), b'A', 66), [0, 0, 1, 0]);
    // No number wraps.
    assert_eq!(test(&back(1), b'A', u64::MAX), [0, 0, 1, 0]);
    assert_eq!(test(&back(64), b'A', u64::MAX - 62), [0, 0, 1, 0]);
    assert_eq!(test(&back(0), b'A', 1 << 32), [0, 0, 1, 0]);
    assert_eq!(test(&back(-1), b'B', u64::MAX), [0, 1, 0, 0]);
    let none = Draft::new(1, b"A", Vec::new());
    assert_eq!(test(&none, b'A', 0), [0, 1, 0, 0]);
}

#[test]
fn refusals() {
    let of_text = |text: &[u8]| Draft::new(1, text, vec![1]);
    assert_eq!(test(&of_text(b"A B )"), b'A', 0), [5, 0, 0, 4]);
    assert_eq!(test(&of_text(b"A (B"), b'A', 0), [14, 0, 0, 4]);
    assert_eq!(test(&of_text(b"(((((((((A"), b'A', 0), [4, 0, 0, 0]);
    let rows = Draft::new(2, b"A", vec![1, 2, 3]);
    assert_eq!(test(&rows, b'A', 0), [10, 0, 0, 0]);
    assert_eq!(search::test(&[], &[], b'A', 0), [2, 0, 0, 0]);
    // Notes and trail play no part, so neither do 11 and 12.
    assert_eq!(test(&of_text(b"A"), b'A', 0), [0, 1, 0, 0]);
}

/// From the bytes of the letter's record, in 128 bits: each comparison met or not.
fn judged_again(test: &Test) -> Option<(bool, u64)> {
    let query = test.draft.query();
    let columns = query::read(&query).ok()?.columns;
    let n = (test.draft.rows.len() / columns) as i128;
    let read = |column: u8, offset: u8| {
        let at = i128::from(test.row) + i128::from(offset as i8);
        let index = at * columns as i128 + i128::from(column);
        (0..n)
            .contains(&at)
            .then(|| i128::from(test.draft.rows[index as usize]))
    };
    let is_met = |bytes: &[u8]| {
        let number = i128::from(i32::from_le_bytes(bytes[8..12].try_into().expect("four")));
        let right = match bytes[3] {
            0 => Some(number),
            _ => read(bytes[4], bytes[5]).map(|entry| entry + number),
        };
        let order = read(bytes[0], bytes[1])?.cmp(&right?);
        Some(match bytes[2] {
            1 => order.is_eq(),
            2 => order.is_ne(),
            3 => order.is_lt(),
            4 => order.is_le(),
            5 => order.is_gt(),
            _ => order.is_ge(),
        })
    };
    let records = query::records(&query).expect("whole records");
    let record = records
        .iter()
        .find(|it| it.kind == DEFINE && it.body[0] == test.letter)?;
    let results: Vec<bool> = record.body[2..]
        .chunks(12)
        .map(|bytes| is_met(bytes) == Some(true))
        .collect();
    Some(match results.iter().position(|met| !met) {
        Some(at) => (false, at as u64 + 1),
        None => (true, results.len() as u64),
    })
}

/// Whether the letter has a record of kind 3.
fn check(test: &Test) -> bool {
    let query = test.draft.query();
    let [answer, holds, judged, offset] =
        search::test(&query, &test.draft.rows, test.letter, test.row);
    assert_eq!(answer, search::room(&query, &test.draft.rows).0.into());
    assert_eq!(offset, search::offset(&query, answer as u8));
    if answer != 0 {
        assert_eq!((holds, judged), (0, 0));
        return false;
    }
    match judged_again(test) {
        Some((met, count)) => assert_eq!((holds, judged), (met.into(), count), "{test:?}"),
        None => assert_eq!(judged, 0),
    }
    judged_again(test).is_some()
}

#[test]
fn every_small_choice() {
    let with_record = every_choice().filter(check).count();
    // 3 and up to 3 to the 5th, and twice the pairs of 9, each at two rows.
    assert_eq!(with_record, 2 * (3 + 9 + 27 + 81 + 243 + 2 * 45));
}

#[test]
fn every_byte_as_a_letter() {
    let with_record = every_letter().filter(check).count();
    assert_eq!(with_record, 4 * 19);
}

#[test]
fn random_tests() {
    let mut generator = Random::new(41);
    let mut with_record = 0;
    for number in 0..12_000 {
        let size = if number % 20 == 0 { MIDDLE } else { SMALL };
        with_record += usize::from(check(&random(&mut generator, &size, number)));
    }
    assert!(with_record > 3_000, "{with_record}");
}
