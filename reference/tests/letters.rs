//! Letters at rows: every operator, every offset, missing rows on either side,
//! and random comparisons worked out a second time with wide numbers straight
//! from their bytes. From document 01, "Rows and query records".

mod common;

use common::*;
use reference::generate::draft::random_define;
use reference::generate::draft::{with_column, with_number, Draft, Numbers};
use reference::generate::Random;
use reference::{letters, query};

fn first_rows(draft: &Draft) -> Vec<i64> {
    matches(draft).iter().map(|found| found.0).collect()
}

#[test]
fn every_operator() {
    let held = |operator, left, right: i32| {
        let draft = Draft::new(1, b"A", vec![left]);
        let draft = draft.define(b'A', &[with_number(0, 0, operator, right)]);
        matches(&draft).len() == 1
    };
    for (left, right) in [(1, 2), (2, 2), (3, 2), (-1, 1), (i32::MIN, i32::MAX)] {
        let expected = [
            left == right,
            left != right,
            left < right,
            left <= right,
            left > right,
            left >= right,
        ];
        let found: Vec<bool> = (1..=6)
            .map(|operator| held(operator, left, right))
            .collect();
        assert_eq!(found, expected);
    }
}

#[test]
fn every_offset() {
    for n in [0, 1, 2, 63, 64, 65, 66, 130] {
        let rows: Vec<i32> = (0..n).collect();
        for offset in -64..=64i8 {
            let inside = |row: &i64| (0..i64::from(n)).contains(&(row + i64::from(offset)));
            let expected: Vec<i64> = (0..i64::from(n)).filter(inside).collect();
            // Each is met wherever its rows are there.
            let left = with_number(0, offset, 2, 1_000);
            let right = with_column((0, 0), 2, (0, offset), 1_000);
            let equal = with_column((0, 0), 1, (0, offset), -i32::from(offset));
            for comparison in [left, right, equal] {
                let draft = Draft::new(1, b"A", rows.clone()).define(b'A', &[comparison]);
                assert_eq!(first_rows(&draft), expected);
            }
        }
    }
}

#[test]
fn columns_and_many_comparisons() {
    // Column 1 of the row before is below column 0 of this row, and column 2 is
    // not 0: of the rows (5,1,0), (2,9,1), (9,0,1), (1,0,0) only the second.
    let rows = vec![5, 1, 0, 2, 9, 1, 9, 0, 1, 1, 0, 0];
    let both = [with_column((1, -1), 3, (0, 0), 0), with_number(2, 0, 2, 0)];
    let draft = Draft::new(3, b"A", rows).define(b'A', &both);
    assert_eq!(first_rows(&draft), [1]);
}

/// From the bytes of a DEFINE alone, in 128 bits.
fn met_again(bytes: &[u8], rows: &[i32], columns: usize, row: usize) -> bool {
    let read = |column: u8, offset: u8| -> Option<i128> {
        let at = row as i128 + i128::from(offset as i8);
        let index = at * columns as i128 + i128::from(column);
        let whole = (rows.len() / columns) as i128;
        (at >= 0 && at < whole).then(|| i128::from(rows[index as usize]))
    };
    let number = i128::from(i32::from_le_bytes(bytes[8..12].try_into().unwrap()));
    let right = match bytes[3] {
        0 => Some(number),
        _ => read(bytes[4], bytes[5]).map(|entry| entry + number),
    };
    let (Some(left), Some(right)) = (read(bytes[0], bytes[1]), right) else {
        return false;
    };
    let order = left.cmp(&right);
    match bytes[2] {
        1 => order.is_eq(),
        2 => order.is_ne(),
        3 => order.is_lt(),
        4 => order.is_le(),
        5 => order.is_gt(),
        _ => order.is_ge(),
    }
}

#[test]
fn random_defines() {
    let mut random = Random::new(11);
    let mut held = [0, 0];
    for number in 0..20_000 {
        let numbers = [Numbers::Low, Numbers::Extreme][number % 2];
        let columns = 1 + random.below(8);
        let n = random.below(9);
        let range = if numbers == Numbers::Low {
            3
        } else {
            i64::from(i32::MAX)
        };
        let entry = |random: &mut Random| random.between(-range, range) as i32;
        let rows: Vec<i32> = (0..n * columns).map(|_| entry(&mut random)).collect();
        let body = random_define(&mut random, b'K', columns as u8, numbers);
        let mut draft = Draft::new(columns as u8, b"K", rows.clone());
        draft.add_define(body.clone());
        let read = query::read(&draft.query()).expect("fields in range");
        for row in 0..n {
            let expected = body[2..]
                .chunks(12)
                .all(|bytes| met_again(bytes, &rows, columns, row));
            assert_eq!(letters::holds(&read, &rows, b'K', row as u64), expected);
            assert!(letters::holds(&read, &rows, b'L', row as u64));
            held[usize::from(expected)] += 1;
        }
    }
    assert!(held.iter().all(|&count| count > 10_000), "{held:?}");
}
