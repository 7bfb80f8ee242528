//! Tests of a letter at a row (document 02, R-6): records of kind 3 with every small
//! choice of comparisons that are true, false or unknown, with the first unmet one at
//! each of 8 places, and random queries with letters of all sorts at rows that are there,
//! just behind the last, or anywhere.

use super::conditions::{self, of_truth, FALSE, TRUE, UNKNOWN};
use super::draft::{with_column, with_number, Draft, Numbers, Size};
use super::mix;
use super::random::Random;

/// A query and rows, and the letter and row that are tested.
#[derive(Clone, Debug)]
pub struct Test {
    pub draft: Draft,
    pub letter: u8,
    pub row: u64,
}

fn comparison(truth: usize, number: usize) -> [u8; 12] {
    let entry = of_truth(truth, number);
    std::array::from_fn(|at| entry[1 + at])
}

/// A has these comparisons, on one row of 1; a letter of its own has a condition of
/// the first.
fn on_one_row(truths: &[usize], number: usize) -> Draft {
    let comparisons: Vec<[u8; 12]> = (number..)
        .zip(truths)
        .map(|(number, &truth)| comparison(truth, number))
        .collect();
    let first = conditions::compare(comparisons[0]);
    Draft::new(1, b"A | B", vec![1])
        .condition(b'B', &[first])
        .define(b'A', &comparisons)
}

/// Every choice of up to 5 truths; and of 8, all true up to one that is not, or to two.
pub fn every_choice() -> impl Iterator<Item = Test> {
    let short = (1..=5u32).flat_map(|count| {
        (0..3usize.pow(count)).map(move |number| {
            let truth = |at: u32| number / 3usize.pow(at) % 3;
            (0..count).map(truth).collect::<Vec<usize>>()
        })
    });
    let long = (0..=8).flat_map(|first| {
        (first..=8).flat_map(move |second| {
            [FALSE, UNKNOWN].map(|unmet| {
                let truth = |at| match at == first || at == second {
                    true => unmet,
                    false => TRUE,
                };
                (0..8).map(truth).collect::<Vec<usize>>()
            })
        })
    });
    let drafts = short
        .chain(long)
        .enumerate()
        .map(|(number, truths)| on_one_row(&truths, number));
    drafts.flat_map(|draft| {
        [(b'A', 0), (b'B', 0), (b'C', 0), (b'A', 1)].map(|(letter, row)| Test {
            draft: draft.clone(),
            letter,
            row,
        })
    })
}

/// Every byte as a letter, at every row of three and at many that are not there, of a
/// query whose letters have records of both kinds or none, in the pattern or not.
pub fn every_letter() -> impl Iterator<Item = Test> {
    let draft = Draft::new(2, b"A B C", vec![1, 5, 2, 5, 3, 5])
        .define(b'A', &[with_number(1, 0, 1, 5), with_number(0, -1, 1, 2)])
        .condition(b'B', &[conditions::compare(with_number(1, -2, 1, 5))])
        .define(b'N', &[with_number(0, 1, 5, 0), with_number(1, 64, 1, 5)])
        .define(b'Q', &[with_column((0, -1), 3, (0, 0), 0)])
        .define(b'Z', &[with_number(0, -64, 2, 9), with_number(0, 64, 2, 9)]);
    (0..=255).flat_map(move |letter| {
        let draft = draft.clone();
        ROWS.into_iter().map(move |row| Test {
            draft: draft.clone(),
            letter,
            row,
        })
    })
}

/// Rows of which some offsets lead back among the first, or would if their numbers
/// wrapped.
const ROWS: [u64; 19] = [
    0,
    1,
    2,
    3,
    4,
    5,
    64,
    65,
    66,
    67,
    4_096,
    u32::MAX as u64 - 64,
    u32::MAX as u64,
    1 << 32,
    (1 << 32) + 1,
    i64::MAX as u64,
    1 << 63,
    u64::MAX - 63,
    u64::MAX,
];

/// A query of any sort, refused ones among them, with a letter of any sort at any row.
pub fn random(random: &mut Random, size: &Size, number: usize) -> Test {
    let draft = match number % 8 {
        7 => {
            let answer = random.pick(&[1, 2, 3, 4, 5, 6, 7, 8, 9, 10, 14]);
            loop {
                let mut draft = mix::accepted(random, size, Numbers::Low);
                if super::damage::damage(random, &mut draft, answer) {
                    break draft;
                }
            }
        }
        6 => mix::accepted(random, size, Numbers::Extreme),
        _ => mix::accepted(random, size, Numbers::Low),
    };
    let defined: Vec<u8> = draft
        .defines()
        .into_iter()
        .filter_map(|at| draft.records[at].1.first().copied())
        .collect();
    let letters: Vec<u8> = draft.letters().into_iter().collect();
    let letter = match random.below(10) {
        0 => random.below(256) as u8,
        1 => random.between(b'A'.into(), b'Z'.into()) as u8,
        2 if !letters.is_empty() => random.pick(&letters),
        _ if !defined.is_empty() => random.pick(&defined),
        _ => b'A',
    };
    let n = draft.rows.len() / usize::from(draft.columns().max(1));
    let row = match random.below(10) {
        0 => n as u64 + random.below(70) as u64,
        1 => n as u64 + random.below(3) as u64,
        2 => random.pick(&ROWS),
        _ => random.below(n + 1) as u64,
    };
    Test { draft, letter, row }
}
