//! Searches whose averages tell (document 02, R-5): runs of rows whose letters column
//! 0 says, and whose entries in the other columns are made to a wanted sum: 0, a
//! multiple of their count or beside one, or as large as may be; letters that label no
//! row of a match; and every small choice of entries. The numbers are drawn so that
//! cutting, rounding down and rounding to the nearest differ often; patterns are few.

use super::draft::{self, number, with_number, Draft, Input, Numbers, Size};
use super::mix::every_row_of;
use super::random::Random;
use crate::pattern;
use crate::query::{AVG, COUNT, SUM};

/// Patterns that take runs of A, B and C whole, or parts of them, or no row.
const TEXTS: [&[u8]; 6] = [
    b"(A|B|C)+",
    b"(A|B|C)*",
    b"A+ (B|C)*",
    b"(A|B)+ C?",
    b"A* B* C*",
    b"(A | B C? | C)+ $ | B",
];

/// The first patterns of the list take whole runs.
const WHOLE: usize = 2;

/// An accepted draft with up to three averages, each of a column of its own.
pub fn draft(random: &mut Random, size: &Size) -> Draft {
    let text = match random.chance(60) {
        true => random.pick(&TEXTS[..WHOLE]),
        false => random.pick(&TEXTS),
    };
    let most = most_rows(text, size);
    let n = random.below(most + 1).max(random.below(most + 1));
    let averaged = letters(random, size.columns.min(4) - 1);
    let mut rows = Vec::new();
    let mut left = n;
    while left > 0 {
        let length = match random.chance(50) {
            true => left,
            false => 1 + random.below(left),
        };
        rows.extend(run(random, length, &averaged));
        left -= length;
        if left > 0 {
            rows.extend(parting_row(random, &averaged));
            left -= 1;
        }
    }
    let mut draft = on_rows(random, text, rows, &averaged);
    let (mode, letter) = draft::skip(random, text, b"ABC");
    draft = draft.with_skip(mode, letter);
    draft::widen_rooms(random, &mut draft);
    draft
}

/// One run of up to 4,096 rows, past last row.
pub fn long(random: &mut Random) -> Draft {
    let n = random.pick(&[4_096, 4_095, 2_048, 1_000, 512, 257]);
    let averaged = letters(random, 2);
    let rows = run(random, n, &averaged);
    on_rows(random, b"(A|B|C)*", rows, &averaged)
}

/// As many rows as the size has pairs for.
fn most_rows(text: &[u8], size: &Size) -> usize {
    let places = pattern::judge(text).map_or(1, |tree| tree.count_with_end());
    let most = (size.pairs / places as usize).saturating_sub(1);
    most.min(size.rows)
}

/// What is averaged of each column behind the first: the rows with a letter, or all.
fn letters(random: &mut Random, most: usize) -> Vec<u8> {
    let count = 1 + random.below(most);
    (0..count).map(|_| random.pick(b"\0\0ABC")).collect()
}

/// A draft on rows made for these averages, with some other measures among them.
fn on_rows(random: &mut Random, text: &[u8], rows: Vec<i32>, averaged: &[u8]) -> Draft {
    let columns = 1 + averaged.len() as u8;
    let mut measures: Vec<[u8; 3]> = Vec::new();
    for (column, &letter) in (1..).zip(averaged) {
        measures.push([AVG, letter, column]);
    }
    for _ in 0..random.below(4) {
        let function = random.pick(&[COUNT, SUM, AVG, AVG]);
        let column = match function {
            COUNT => 0,
            _ => random.below(columns.into()) as u8,
        };
        measures.push([function, random.pick(b"\0ABC"), column]);
    }
    random.shuffle(&mut measures);
    let draft = Draft::new(columns, text, rows);
    let draft = [1, 2, 3].into_iter().fold(draft, |draft, entry| {
        draft.define(b'@' + entry, &[with_number(0, 0, 1, entry.into())])
    });
    let measured =
        |draft: Draft, [function, letter, column]: [u8; 3]| draft.measure(function, letter, column);
    measures.into_iter().fold(draft, measured)
}

/// So many rows at each of which one letter holds: often the same, or any of the three.
fn run(random: &mut Random, length: usize, averaged: &[u8]) -> Vec<i32> {
    let held: &[u8] = random.pick(&[&b"ABC"[..], b"AB", b"AAB", b"A", b"C"]);
    let word: Vec<u8> = (0..length).map(|_| random.pick(held)).collect();
    let columns: Vec<Vec<i32>> = averaged
        .iter()
        .map(|&letter| column(random, &word, letter))
        .collect();
    let row = |at: usize| {
        let first = i32::from(word[at] - b'@');
        std::iter::once(first).chain(columns.iter().map(move |column| column[at]))
    };
    (0..length).flat_map(row).collect()
}

/// A row at which no letter holds.
fn parting_row(random: &mut Random, averaged: &[u8]) -> Vec<i32> {
    let others = averaged.iter().map(|_| number(random, Numbers::Extreme));
    std::iter::once(0).chain(others).collect()
}

/// Entries of which those with the letter, or all, have a wanted sum.
fn column(random: &mut Random, word: &[u8], letter: u8) -> Vec<i32> {
    let numbers = random.pick(&[Numbers::Low, Numbers::Extreme]);
    let measured = |at: &usize| letter == 0 || word[*at] == letter;
    let places: Vec<usize> = (0..word.len()).filter(measured).collect();
    let mut entries: Vec<i32> = word.iter().map(|_| number(random, numbers)).collect();
    let sum = wanted_sum(random, places.len());
    for (at, entry) in places.iter().zip(with_sum(random, places.len(), sum)) {
        entries[*at] = entry;
    }
    entries
}

/// 0, a multiple of the count, one beside it, about half the count beside it, or
/// nearly the next; of any size that so many entries can have.
fn wanted_sum(random: &mut Random, count: usize) -> i64 {
    let count = count as i64;
    let ends = [i32::MIN, i32::MIN + 1, i32::MAX - 1, i32::MAX];
    let quotient = match random.below(4) {
        0 => 0,
        1 => random.pick(&[-1, 1]),
        2 => random.between(-1_000, 1_000),
        _ => i64::from(random.pick(&ends)),
    };
    let half = count / 2;
    let beside = random.pick(&[0, 0, 1, half, half + 1, count - half, count - 1]);
    let sum = quotient * count + random.pick(&[beside, -beside]);
    sum.clamp(least(count), greatest(count))
}

fn least(count: i64) -> i64 {
    count * i64::from(i32::MIN)
}

fn greatest(count: i64) -> i64 {
    count * i64::from(i32::MAX)
}

/// So many entries with this sum, which so many entries can have: drawn at random, then
/// moved one after another until the sum is right.
pub fn with_sum(random: &mut Random, count: usize, sum: i64) -> Vec<i32> {
    let numbers = random.pick(&[Numbers::Low, Numbers::Extreme]);
    let mut entries: Vec<i64> = (0..count).map(|_| number(random, numbers).into()).collect();
    let mut short = sum - entries.iter().sum::<i64>();
    for entry in &mut entries {
        let moved = (*entry + short).clamp(least(1), greatest(1));
        short -= moved - *entry;
        *entry = moved;
    }
    random.shuffle(&mut entries);
    entries.into_iter().map(|entry| entry as i32).collect()
}

/// All rows of one column with entries from -3 to 3, up to a number of rows, past last
/// row and to next row: of all rows, of those below 2, and of the others. The pattern's
/// C labels no row.
pub fn every_small(most_rows: usize) -> impl Iterator<Item = Input> {
    let texts: [&[u8]; 2] = [b"A+", b"(A|B)+ | C"];
    texts.into_iter().flat_map(move |text| {
        every_row_of(7, most_rows).flat_map(move |rows| {
            let rows = rows.into_iter().map(|entry| entry - 3).collect();
            let free = Draft::new(1, text, rows).measure(AVG, 0, 0);
            let draft = match text {
                b"A+" => free,
                _ => free
                    .define(b'A', &[with_number(0, 0, 3, 2)])
                    .measure(AVG, b'A', 0)
                    .measure(SUM, b'A', 0)
                    .measure(AVG, b'B', 0)
                    .measure(COUNT, b'B', 0)
                    .measure(AVG, b'C', 0),
            };
            [draft.clone(), draft.to_next_row()].map(|draft| draft.finish())
        })
    })
}
