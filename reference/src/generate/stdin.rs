//! Standard inputs for the program: a length, a query and rows, whole or cut,
//! and those that it prints `too large` for. From document 01, "Report"; those
//! that end in a 15 are from document 02, R-2, the factor F from R-3, averages from R-5.

use super::draft::{Draft, Input, Numbers, Size, MIDDLE, SMALL};
use super::random::Random;
use super::{averages, limits, mix};
use crate::program::{LONGEST_QUERY, MOST_ROW_BYTES};

pub fn of_input(input: &Input) -> Vec<u8> {
    whole(&input.query, &input.rows)
}

pub fn whole(query: &[u8], rows: &[i32]) -> Vec<u8> {
    let mut stdin = (query.len() as u16).to_le_bytes().to_vec();
    stdin.extend(query);
    stdin.extend(rows.iter().flat_map(|number| number.to_le_bytes()));
    stdin
}

/// The answers that single damages are made for, in turn.
const DAMAGED: [u8; 12] = [1, 2, 3, 4, 5, 6, 7, 8, 9, 10, 14, 15];

fn damaged(random: &mut Random, size: &Size, turn: usize) -> Input {
    mix::damaged(random, size, DAMAGED[turn % DAMAGED.len()])
}

/// The input with this number in a stream of mostly short ones. Only two in a
/// thousand are long: one that stops, and one with a row byte too many.
pub fn input(random: &mut Random, number: usize) -> Vec<u8> {
    match number % 1000 {
        99 => return stopping(432),
        199 => return row_bytes(b"(", MOST_ROW_BYTES + 1),
        _ => {}
    }
    let turn = number / 8;
    match number % 8 {
        0..=1 => short(random, |random, size| mix::lively(random, size).finish()),
        2 => short(random, |random, size| mix::jumping(random, size).finish()),
        3 => short(random, |random, size| {
            mix::adversarial(random, size).finish()
        }),
        4 => short(random, |random, size| damaged(random, size, turn)),
        5 if turn % 2 == 1 => short(random, |random, size| {
            averages::draft(random, size).finish()
        }),
        5 => short(random, |random, size| {
            mix::accepted(random, size, Numbers::Extreme).finish()
        }),
        6 => shortened(random),
        _ => odd(random, turn),
    }
}

/// Few bytes, so that most of a stream is quickly run.
fn short(random: &mut Random, make: impl Fn(&mut Random, &Size) -> Input) -> Vec<u8> {
    for _ in 0..100 {
        let stdin = of_input(&make(random, &SMALL));
        if stdin.len() < 200 {
            return stdin;
        }
    }
    whole(&Draft::new(1, b"A", Vec::new()).query(), &[1])
}

/// Cut at any byte.
fn shortened(random: &mut Random) -> Vec<u8> {
    let mut stdin = short(random, |random, size| {
        mix::accepted(random, size, Numbers::Low).finish()
    });
    let left = match random.below(4) {
        0 => random.below(3),
        1 => random.below(stdin.len() + 1),
        _ => stdin.len().saturating_sub(random.below(9)),
    };
    stdin.truncate(left);
    stdin
}

/// Lengths that do not fit, bytes too many, and more pairs than are searched.
fn odd(random: &mut Random, turn: usize) -> Vec<u8> {
    let mut stdin = short(random, |random, size| {
        mix::accepted(random, size, Numbers::Low).finish()
    });
    match turn % 8 {
        0 => set_length(&mut stdin, random.pick(&[4097, 65_535])),
        1 => {
            stdin.truncate(2);
            set_length(&mut stdin, random.pick(&[0, 1, 4096, 4097, 65_535]));
        }
        2 => set_length(&mut stdin, 4096),
        3 => stdin.extend(vec![0; 1 + random.below(3)]),
        4 => {
            let length = u16::from_le_bytes([stdin[0], stdin[1]]);
            let wrong = random.pick(&[length - 1, length + 1, length + 4]);
            set_length(&mut stdin, wrong);
        }
        5 => stdin = many_pairs(random),
        6 => {
            stdin = short(random, mix::damaged_twice);
            stdin.extend(vec![9; random.below(4)]);
        }
        _ => {
            let deep = random.between(0, 9) as usize;
            let text = [&b"(".repeat(deep), &b"A+"[..], &b")".repeat(deep)].concat();
            stdin = of_input(&Draft::new(1, &text, vec![1; 3]).finish());
        }
    }
    stdin
}

fn set_length(stdin: &mut [u8], length: u16) {
    if let [low, high, ..] = stdin {
        [*low, *high] = length.to_le_bytes();
    }
}

/// Just below or above 16,000 pairs.
fn many_pairs(random: &mut Random) -> Vec<u8> {
    let (text, n): (&[u8], usize) = random.pick(&[
        (&b"(A{51}){5}"[..], 61),
        (&b"(A{51}){5}"[..], 62),
        (&b"(A{50}){4} A{49}"[..], 62),
        (&b"(A{50}){4} A{49}"[..], 63),
        (&b"(A{50}){4} A{49}"[..], 64),
        (&b"(A{16}){16}"[..], 64),
        // P is 4 and F 2; 8 and 8.
        (&b"(A*)*"[..], 1_999),
        (&b"(A*)*"[..], 2_000),
        (&b"(((A*)*)* B?)"[..], 570),
        (&b"(((A*)*)*)* B"[..], 284),
        (&b"(((A*)*)*)* B"[..], 285),
        (&b"(((A*)*)*)* B"[..], 286),
    ]);
    of_input(&Draft::new(1, text, vec![1; n]).finish())
}

/// One match of nineteen report numbers for each row; 431 of them fit.
fn stopping(n: usize) -> Vec<u8> {
    let mut draft = Draft::new(1, b"A", Vec::new());
    for function in [1, 2, 3, 4, 5, 6, 7, 2] {
        draft = draft.measure(function, b'A', 0);
    }
    whole(&draft.query(), &vec![5; n])
}

/// As many report numbers for each of n matches, of which the last is a 15; the
/// 432nd does not fit, and is a 13.
fn sticking(n: usize) -> Vec<u8> {
    let mut draft = limits::stuck_at_last_row(n);
    for function in [1, 2, 3, 4, 5, 6, 7, 2] {
        draft = draft.measure(function, b'C', 0);
    }
    of_input(&draft.finish())
}

/// A text and so many row bytes, all of them 0.
fn row_bytes(text: &[u8], count: usize) -> Vec<u8> {
    let mut stdin = whole(&Draft::new(1, text, Vec::new()).query(), &[]);
    stdin.extend(vec![0; count]);
    stdin
}

/// The input with this number in a stream of middle size: matches, patterns that
/// are hard on a careless walk, skips to labelled rows, each answer, two at once
/// with bytes too many, large numbers, averages, single bytes changed, and noise.
pub fn middle(random: &mut Random, number: usize) -> Vec<u8> {
    let turn = number / 8;
    match number % 8 {
        0 => of_input(&mix::lively(random, &MIDDLE).finish()),
        1 => of_input(&mix::adversarial(random, &MIDDLE).finish()),
        2 => of_input(&mix::jumping(random, &MIDDLE).finish()),
        3 => of_input(&damaged(random, &MIDDLE, turn)),
        4 => {
            let mut stdin = of_input(&mix::damaged_twice(random, &MIDDLE));
            stdin.extend(vec![9; random.below(5)]);
            stdin
        }
        5 if turn % 2 == 1 => of_input(&averages::draft(random, &MIDDLE).finish()),
        5 => of_input(&mix::accepted(random, &MIDDLE, Numbers::Extreme).finish()),
        6 => changed(random),
        _ => noise(random),
    }
}

/// One to three bytes of a whole input changed, mostly of its query.
fn changed(random: &mut Random) -> Vec<u8> {
    let mut stdin = of_input(&mix::lively(random, &MIDDLE).finish());
    let query = usize::from(u16::from_le_bytes([stdin[0], stdin[1]]));
    for _ in 0..1 + random.below(3) {
        let at = match random.chance(80) {
            true => 2 + random.below(query),
            false => random.below(stdin.len()),
        };
        stdin[at] = match random.below(3) {
            0 => random.below(256) as u8,
            1 => stdin[at].wrapping_add(1),
            _ => stdin[at] ^ 1 << random.below(8),
        };
    }
    stdin
}

/// Random bytes behind a length that may fit.
fn noise(random: &mut Random) -> Vec<u8> {
    let length = 2 + random.below(80);
    let mut stdin: Vec<u8> = (0..length).map(|_| random.below(256) as u8).collect();
    set_length(&mut stdin, random.below(80) as u16);
    stdin
}

/// Queries and rows at the limits that document 01 states, as they are and with
/// one byte behind the rows.
pub fn at_limits() -> Vec<Vec<u8>> {
    let whole = limits::all()
        .into_iter()
        .map(|draft| of_input(&draft.finish()));
    whole
        .flat_map(|stdin| [stdin.clone(), [&stdin[..], &[0]].concat()])
        .collect()
}

/// Few inputs, each of them long: at the limits of row bytes, pairs, report
/// numbers and labels.
pub fn long() -> Vec<Vec<u8>> {
    let mut inputs = Vec::new();
    let query = |text: &[u8]| Draft::new(1, text, Vec::new()).query();
    for numbers in [4096, 4097, MOST_ROW_BYTES / 4] {
        inputs.push(whole(&query(b"()"), &vec![0; numbers]));
        inputs.push(whole(&query(b"$"), &vec![0; numbers]));
    }
    for more in 0..=4 {
        inputs.push(row_bytes(b"(", MOST_ROW_BYTES + more));
        inputs.push(row_bytes(b"A", MOST_ROW_BYTES + more));
    }
    // 2,730 matches of three numbers fit.
    for n in [2730, 2731] {
        inputs.push(whole(&query(b"()"), &vec![0; n]));
    }
    for n in [431, 432] {
        inputs.push(stopping(n));
        inputs.push(sticking(n));
    }
    // n(n+1)/2 labels: 361 rows take 65,341 of them, 362 take 65,703.
    for n in [361, 362] {
        let draft = Draft::new(1, b"A*", Vec::new()).to_next_row();
        inputs.push(whole(&draft.query(), &vec![0; n]));
        let labelled = Draft::new(1, b"A B*", Vec::new()).to_first(b'B');
        inputs.push(whole(&labelled.query(), &vec![0; n]));
    }
    for (text, n) in [(&b"A"[..], 4096), (b"A* B", 3199), (b"A* B", 3200)] {
        inputs.push(whole(&query(text), &vec![0; n]));
    }
    // The longest query with the most row bytes, and more: who reads a byte too
    // little of it does not print `too large`.
    for more in [0, 1, 2, 30_000, 200_000] {
        let mut longest = whole(&unknown_kind(LONGEST_QUERY), &[]);
        longest.extend(vec![0; MOST_ROW_BYTES + more]);
        inputs.push(longest);
    }
    inputs.push(whole(&vec![0; LONGEST_QUERY], &[1]));
    let mut too_long = whole(&vec![0; LONGEST_QUERY + 1], &[1]);
    inputs.push(too_long.clone());
    too_long.truncate(100);
    inputs.push(too_long);
    inputs
}

/// A query of so many bytes whose last record, as long as is needed, is of an
/// unknown kind.
fn unknown_kind(length: usize) -> Vec<u8> {
    let mut query = Draft::new(1, b"A", Vec::new()).query();
    let body = length - query.len() - 4;
    query.extend((body as u16).to_le_bytes());
    query.extend(7u16.to_le_bytes());
    query.extend(vec![0; body]);
    query
}
