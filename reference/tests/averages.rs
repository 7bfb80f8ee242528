//! Document 02, R-5, the average of a column: its record, its results worked out by
//! hand, null, what is printed, and what 13 and 16 leave of it. And for many random
//! searches that each average is the sum divided by the count, cut toward zero, as SUM
//! and COUNT of the same rows tell it.

mod common;

use common::*;
use reference::generate::draft::{self, with_column, with_number, Draft, Numbers, Room};
use reference::generate::draft::{MIDDLE, SMALL};
use reference::generate::{averages, limits, stdin, Random};
use reference::program::program;
use reference::query::{self, Function, AVG, COUNT, MEASURE, SUM};
use reference::search;

const LEAST: i32 = i32::MIN;
const GREATEST: i32 = i32::MAX;

fn answer(draft: &Draft) -> u8 {
    search::room(&draft.query(), &draft.rows).0
}

/// The average of these entries in one match of all rows, and of its letter.
fn average(entries: &[i32]) -> i64 {
    let draft = Draft::new(1, b"A+", entries.to_vec())
        .measure(AVG, 0, 0)
        .measure(AVG, b'A', 0);
    let numbers = call(&draft.finish()).numbers;
    let [1, 0, rows, 1, of_all, 1, of_letter] = numbers[..] else {
        panic!("{numbers:?}");
    };
    assert_eq!((rows, of_all), (entries.len() as i64, of_letter));
    of_all
}

#[test]
fn the_rows_that_are_named() {
    assert_eq!(average(&[-3, -4]), -3);
    assert_eq!(average(&[3, 4]), 3);
}

#[test]
fn small_rows() {
    let table: [(&[i32], i64); 18] = [
        (&[7], 7),
        (&[-7], -7),
        (&[0], 0),
        (&[0, 0, 0], 0),
        (&[2, -2], 0),
        (&[5, -2, -3], 0),
        (&[1, 2], 1),
        (&[-1, -2], -1),
        // Halves, thirds and two thirds of one are cut to 0, on either side of it.
        (&[1, 0], 0),
        (&[0, -1], 0),
        (&[1, 0, 0], 0),
        (&[-1, 0, 0], 0),
        (&[1, 0, 1], 0),
        (&[-1, 0, -1], 0),
        // Mixed signs: 10 by 4, -10 by 4, 11 by 3, -11 by 3.
        (&[20, -7, -5, 2], 2),
        (&[-20, 7, 5, -2], -2),
        (&[100, -90, 1], 3),
        (&[-100, 90, -1], -3),
    ];
    for (entries, expected) in table {
        assert_eq!(average(entries), expected, "{entries:?}");
    }
}

/// Five rows with each sum from -11 to 11.
#[test]
fn around_multiples_of_the_count() {
    let expected = [
        -2, -2, -1, -1, -1, -1, -1, 0, 0, 0, 0, 0, 0, 0, 0, 0, 1, 1, 1, 1, 1, 2, 2,
    ];
    for (sum, expected) in (-11..=11).zip(expected) {
        assert_eq!(average(&[sum, 0, 0, 0, 0]), expected, "{sum}");
        assert_eq!(average(&[1, -1, sum - 40, 20, 20]), expected, "{sum}");
    }
}

/// Sums beyond 32 bits, of both signs.
#[test]
fn extreme_entries() {
    let table: [(&[i32], i64); 12] = [
        (&[LEAST], -2_147_483_648),
        (&[GREATEST], 2_147_483_647),
        (&[LEAST, LEAST], -2_147_483_648),
        (&[GREATEST, GREATEST], 2_147_483_647),
        // The sum is -1.
        (&[LEAST, GREATEST], 0),
        // A half is cut off, above the least and below the greatest.
        (&[LEAST, LEAST + 1], -2_147_483_647),
        (&[GREATEST, GREATEST - 1], 2_147_483_646),
        // A third is.
        (&[LEAST, LEAST, LEAST + 1], -2_147_483_647),
        (&[GREATEST, GREATEST - 1, GREATEST], 2_147_483_646),
        // 2,147,483,646 and -2,147,483,649 are multiples of 3.
        (&[LEAST, GREATEST, GREATEST], 715_827_882),
        (&[LEAST, LEAST, GREATEST], -715_827_883),
        // -2,147,483,650 by 4 is -536,870,912.5.
        (&[LEAST, LEAST, GREATEST, -1], -536_870_912),
    ];
    for (entries, expected) in table {
        assert_eq!(average(entries), expected, "{entries:?}");
    }
}

/// The longest matches, at the limits: each with its average twice.
#[test]
fn long_matches() {
    let expected = [
        -2_147_483_648,
        2_147_483_647,
        // The sums are one short of a multiple, in size.
        -2_147_483_647,
        2_147_483_646,
        // The sum is -2,048 of 4,096 rows.
        0,
    ];
    let drafts = limits::of_large_searches();
    let with_averages = drafts[drafts.len() - expected.len()..].iter();
    for (draft, expected) in with_averages.zip(expected) {
        let called = call(&draft.finish());
        assert_eq!(called.numbers, [1, 0, 4096, 1, expected, 1, expected]);
    }
    assert_eq!(average(&[GREATEST; 4096]), 2_147_483_647);
    let rising: Vec<i32> = (-1_000..3_096).collect();
    // The sum is 4,096 times 1,047 and a half.
    assert_eq!(average(&rising), 1_047);
}

/// Columns 0 and 1: A at rows 0 and 2, B at row 1, C at row 3.
#[test]
fn letters_and_columns() {
    let rows = vec![5, 50, -3, -30, 9, 91, 4, 41];
    let draft = Draft::new(2, b"A B A C? D?", rows)
        .measure(AVG, b'A', 0)
        .measure(AVG, b'A', 1)
        .measure(AVG, b'B', 1)
        .measure(AVG, b'C', 0)
        .measure(AVG, b'D', 1)
        .measure(AVG, 0, 0)
        .measure(AVG, 0, 1);
    let called = call(&draft.finish());
    // 14 by 2, 141 by 2, -30, 4, no row, 15 by 4, 152 by 4.
    let expected = [1, 0, 4, 1, 7, 1, 70, 1, -30, 1, 4, 0, 0, 1, 3, 1, 38];
    assert_eq!(called.numbers, expected);
    let printed = program(&stdin::of_input(&draft.finish()));
    assert_eq!(
        printed,
        b"matches 1 steps 8\n1 0 4 ABAC 7 70 -30 4 null 3 38\n"
    );
}

/// All seven functions over the same rows, in the order of their numbers.
#[test]
fn beside_the_other_functions() {
    let mut draft = Draft::new(1, b"A+", vec![-4, 6, -9]);
    for function in 1..=7 {
        draft = draft.measure(function, b'A', 0);
    }
    let called = call(&draft.finish());
    let expected = [1, 0, 3, 1, 3, 1, -7, 1, -9, 1, 6, 1, -4, 1, -9, 1, -2];
    assert_eq!(called.numbers, expected);
}

#[test]
fn null_and_zero() {
    // No row with the letter is null; a row of 0 is 1 and 0.
    let draft = Draft::new(1, b"A | B", vec![0])
        .measure(AVG, b'A', 0)
        .measure(AVG, b'B', 0);
    assert_eq!(call(&draft.finish()).numbers, [1, 0, 1, 1, 0, 0, 0]);
    let printed = program(&stdin::of_input(&draft.finish()));
    assert_eq!(printed, b"matches 1 steps 3\n1 0 1 A 0 null\n");
    // Empty matches have no rows at all.
    let empty = above(Draft::new(1, b"A*", vec![3, 4, 0]), b'A', 0)
        .measure(AVG, 0, 0)
        .measure(AVG, b'A', 0);
    let expected = [1, 0, 2, 1, 3, 1, 3, 2, 2, 0, 0, 0, 0, 0];
    assert_eq!(call(&empty.finish()).numbers, expected);
}

/// Each match has its own rows: all three, the last two, the last.
#[test]
fn to_next_row() {
    let draft = Draft::new(1, b"A+", vec![3, 4, -8])
        .measure(AVG, 0, 0)
        .to_next_row();
    let expected = [1, 0, 3, 1, 0, 2, 1, 2, 1, -2, 3, 2, 1, 1, -8];
    assert_eq!(call(&draft.finish()).numbers, expected);
}

/// W1 on rows below 0: A at rows 1 and 2, B at row 3.
fn w1() -> Draft {
    let prev = |operator| with_column((0, 0), operator, (0, -1), 0);
    Draft::new(1, b"A+ B", vec![-130, -122, -111, -120, -100])
        .define(b'A', &[prev(5)])
        .define(b'B', &[prev(3)])
        .measure(AVG, b'A', 0)
        .measure(AVG, b'B', 0)
        .measure(AVG, 0, 0)
}

#[test]
fn w1_with_averages() {
    let query = w1().query();
    assert_eq!(query[query.len() - 16..][..8], [4, 0, 5, 0, 7, 0x42, 0, 0]);
    let called = call(&w1().finish());
    // -233 by 2, -120, -353 by 3.
    assert_eq!(called.numbers, [1, 1, 3, 1, -116, 1, -120, 1, -117]);
    let printed = program(&stdin::of_input(&w1().finish()));
    assert_eq!(printed, b"matches 1 steps 12\n1 1 3 AAB -116 -120 -117\n");
}

/// END is the 8th entry: with 7 steps no match is written, with 8 it stands whole.
#[test]
fn stops_leave_whole_averages() {
    let input = w1().finish();
    let seven = call(&input.within(7));
    assert_eq!((seven.outcome.answer, seven.outcome.matches), (16, 0));
    assert_eq!(seven.numbers, [7; 9]);
    let eight = call(&input.within(8));
    assert_eq!((eight.outcome.answer, eight.outcome.matches), (16, 1));
    assert_eq!(eight.numbers, [1, 1, 3, 1, -116, 1, -120, 1, -117]);
    let mut short = w1();
    short.numbers = Room::OneShort;
    let stopped = call(&short.finish());
    assert_eq!((stopped.outcome.answer, stopped.outcome.matches), (13, 0));
    assert_eq!(stopped.numbers, [7; 8]);
}

/// Functions 1 to 7; a column below the shape's count, for COUNT 0; a letter or 0.
#[test]
fn every_record() {
    for function in 0..=255 {
        for letter in [0, 1, b'@', b'A', b'B', b'Z', b'[', b'a'] {
            for (column, reserved) in [(0, 0), (1, 0), (2, 0), (0, 1), (1, 7)] {
                let fields = (1..=7).contains(&function)
                    && (letter == 0 || letter.is_ascii_uppercase())
                    && (column == 0 || (column == 1 && function != 1))
                    && reserved == 0;
                let expected = match (fields, letter) {
                    (false, _) => 3,
                    (true, 0 | b'A') => 0,
                    (true, _) => 9,
                };
                let mut draft = Draft::new(2, b"A+", vec![1, 2]);
                let body = vec![function, letter, column, reserved];
                draft.records.push((MEASURE, body.clone()));
                assert_eq!(answer(&draft), expected, "{body:?}");
            }
        }
    }
    for body in [vec![], vec![7], vec![7, 0, 0], vec![7, 0, 0, 0, 0]] {
        let mut draft = Draft::new(1, b"A+", vec![1]);
        draft.records.push((MEASURE, body));
        assert_eq!(answer(&draft), 3);
    }
}

#[test]
fn functions_by_number() {
    let all = [
        Function::Count,
        Function::Sum,
        Function::Min,
        Function::Max,
        Function::First,
        Function::Last,
        Function::Avg,
    ];
    for (number, function) in (1..).zip(all) {
        assert_eq!(Function::numbered(number), Some(function));
    }
    for number in (8..=255).chain([0]) {
        assert_eq!(Function::numbered(number), None);
    }
}

/// A bad function comes before a bad text, and behind a bad kind; AVG itself is none.
#[test]
fn ranks() {
    let one = [with_number(0, 0, 1, 0)];
    let draft = |function| {
        let twice = Draft::new(1, b"A", vec![1])
            .define(b'Q', &one)
            .define(b'Q', &one);
        twice.measure(function, b'B', 0)
    };
    assert_eq!((answer(&draft(8)), answer(&draft(7))), (3, 8));
    let mut nine = draft(8);
    for _ in 0..8 {
        nine = nine.measure(AVG, 0, 0);
    }
    assert_eq!(answer(&nine), 2);
    assert_eq!(answer(&Draft::new(1, b"A |", vec![1]).measure(8, 0, 0)), 3);
    assert_eq!(
        answer(&Draft::new(1, b"A |", vec![1]).measure(7, b'B', 0)),
        14
    );
}

/// The average is as the sum and the count of the same rows say: as many times the
/// count as the sum holds, in size, and of the sum's sign.
fn check(average: &[i64], sum: &[i64], count: &[i64]) {
    let [is, average] = *average else {
        panic!("an average is two numbers");
    };
    assert_eq!((is, count[0]), (i64::from(count[1] > 0), 1));
    assert_eq!(is, sum[0]);
    if is == 0 {
        assert_eq!((average, sum[1]), (0, 0));
        return;
    }
    let (sum, count) = (sum[1], count[1]);
    assert!(average.abs() * count <= sum.abs());
    assert!((average.abs() + 1) * count > sum.abs());
    assert!(average == 0 || average.signum() == sum.signum());
}

/// Gives a draft an average, the sum and the count of the same rows, and checks them.
fn check_with(random: &mut Random, mut draft: Draft) -> usize {
    let letters: Vec<u8> = draft.letters().into_iter().chain([0]).collect();
    let letter = random.pick(&letters);
    let column = random.below(draft.columns().into()) as u8;
    draft.records.retain(|record| record.0 != MEASURE);
    let draft = draft
        .measure(AVG, letter, column)
        .measure(SUM, letter, column)
        .measure(COUNT, letter, 0);
    let called = call(&draft.with_lengths(draft.needs()));
    for written in called.numbers.chunks(9) {
        check(&written[3..5], &written[5..7], &written[7..9]);
    }
    called.outcome.matches as usize
}

#[test]
fn sums_and_counts_agree() {
    let mut random = Random::new(21);
    let mut matches = 0;
    for number in 0..8_000 {
        let size = if number % 10 == 0 { MIDDLE } else { SMALL };
        let draft = match number % 3 {
            0 => draft::accepted(&mut random, &size, Numbers::Low),
            1 => draft::accepted(&mut random, &size, Numbers::Extreme),
            _ => averages::draft(&mut random, &size),
        };
        matches += check_with(&mut random, draft);
    }
    for _ in 0..20 {
        let draft = averages::long(&mut random);
        matches += check_with(&mut random, draft);
    }
    assert!(matches > 10_000, "{matches}");
}

/// The parts of a query with an average.
#[test]
fn the_parts() {
    let measure = query::read(&w1().query())
        .expect("fields are right")
        .measures[1];
    assert_eq!(measure.function, Function::Avg);
    assert_eq!((measure.letter, measure.column), (Some(b'B'), 0));
}
