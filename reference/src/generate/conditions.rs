//! Records of kind 6 (document 02, R-7): random conditions in postfix, every short list
//! of entries over comparisons that are true, false and unknown, well formed or not,
//! long chains and nests at the limit of 16 entries, and lists that are damaged.
//! What a list comes to is not stored here: `query` and `letters` say.

use super::draft::{comparison, with_column, with_number, Draft, Numbers};
use super::random::Random;
use crate::query::{AND, COMPARE, COMPARISON_BYTES, CONDITION, MOST_ENTRIES, NOT, OR};

/// The bytes of one entry.
pub type Entry = Vec<u8>;

pub fn compare(comparison: [u8; 12]) -> Entry {
    [&[COMPARE][..], &comparison].concat()
}

pub fn operator(sort: u8) -> Entry {
    vec![sort]
}

/// The body of a record; the count is that of the entries, whatever they are.
pub fn body(letter: u8, entries: &[Entry]) -> Vec<u8> {
    [&[letter, entries.len() as u8][..], &entries.concat()].concat()
}

/// The entries of a body whose entries are whole.
pub fn entries_of(body: &[u8]) -> Vec<Entry> {
    let mut entries = Vec::new();
    let mut left = body.get(2..).unwrap_or(&[]);
    while let [sort, ..] = left {
        let length = match *sort {
            COMPARE => 1 + COMPARISON_BYTES,
            _ => 1,
        };
        let (entry, rest) = left.split_at(length.min(left.len()));
        entries.push(entry.to_vec());
        left = rest;
    }
    entries
}

/// A random condition of up to 16 entries that is well formed: comparisons, each with
/// some NOTs behind it, joined in an order of chance.
pub fn random_entries(random: &mut Random, columns: u8, numbers: Numbers) -> Vec<Entry> {
    let count = random.pick(&[1, 1, 1, 2, 2, 2, 3, 3, 4, 5, 8]);
    let mut nots = usize::from(MOST_ENTRIES) - (2 * count - 1);
    nots = nots.min(random.pick(&[0, 0, 1, 1, 1, 2, 2, 3, 6, 9, 12, 13, 15]));
    let mut entries = Vec::new();
    let (mut left, mut results) = (count, 0);
    while left > 0 || results > 1 || nots > 0 {
        let more = left > 0 && (results < 2 || random.chance(50));
        if nots > 0 && results > 0 && random.chance(40) {
            entries.push(operator(NOT));
            nots -= 1;
        } else if more {
            entries.push(compare(comparison(random, columns, numbers, 1)));
            (left, results) = (left - 1, results + 1);
        } else if results > 1 {
            entries.push(operator(random.pick(&[AND, OR])));
            results -= 1;
        }
    }
    entries
}

/// Comparisons that come to true, false and unknown at any row of one of 1 and 2 rows
/// of ones; of each sort several, so that every way to miss a row is among them.
pub const TRUE: usize = 0;
pub const FALSE: usize = 1;
pub const UNKNOWN: usize = 2;

pub fn of_truth(truth: usize, number: usize) -> Entry {
    let one = |operator, number| with_number(0, 0, operator, number);
    let sorts: [Vec<[u8; 12]>; 3] = [
        vec![one(1, 1), one(2, 0), with_column((0, 0), 6, (0, 0), 0)],
        vec![one(1, 0), one(2, 1), with_column((0, 0), 5, (0, 0), 0)],
        vec![
            with_number(0, -2, 2, 0),
            with_column((0, 0), 2, (0, 2), 5),
            with_number(0, 64, 1, 1),
            with_column((0, -64), 4, (0, -64), 0),
            with_column((0, 0), 6, (0, -2), -9),
        ],
    ];
    let sort = &sorts[truth];
    compare(sort[number % sort.len()])
}

/// Every list of up to so many entries over six: comparisons of the three truths, and
/// the three operators; most of them run short or leave more than one result.
pub fn every_list(longest: usize) -> impl Iterator<Item = Vec<Entry>> {
    (1..=longest).flat_map(|length| {
        (0..6usize.pow(length as u32)).map(move |number| {
            let entry = |at: usize| match number / 6usize.pow(at as u32) % 6 {
                truth @ 0..=2 => of_truth(truth, number + at),
                sort => operator(sort as u8 - 2),
            };
            (0..length).map(entry).collect()
        })
    })
}

/// A draft on which A holds by these entries, at each of one or two rows of ones, and B
/// where it does not.
pub fn with_entries(entries: &[Entry], n: usize) -> Draft {
    Draft::new(1, b"A | B", vec![1; n]).condition(b'A', entries)
}

/// Lists at the limit of 16 entries, one below and one beyond: NOTs behind one
/// comparison, comparisons with all operators behind them, and with each operator
/// behind its second side; in all truths.
pub fn long_lists() -> Vec<Vec<Entry>> {
    let mut lists = Vec::new();
    for length in 13..=18 {
        for truth in [TRUE, FALSE, UNKNOWN] {
            let mut nots = vec![of_truth(truth, length)];
            nots.resize(length, operator(NOT));
            lists.push(nots);
        }
    }
    for count in 7..=9 {
        for number in 0..243usize {
            let truth = |at: usize| of_truth(number / 3usize.pow(at as u32 % 5) % 3, number + at);
            let joined = |at: usize| operator(if (number + at) % 3 == 0 { OR } else { AND });
            let mut behind: Vec<Entry> = (0..count).map(truth).collect();
            behind.extend((1..count).map(joined));
            let mut beside = vec![truth(0)];
            beside.extend((1..count).flat_map(|at| [truth(at), joined(at)]));
            for mut list in [behind, beside] {
                lists.push(list.clone());
                list.push(operator(NOT));
                lists.push(list);
            }
        }
    }
    lists
}

/// Damages the body of a record of kind 6 so that it is answer 3.
pub fn damage(random: &mut Random, body: &mut Vec<u8>) {
    let mut entries = entries_of(body);
    let letter = body[0];
    let at = random.below(entries.len() + 1);
    match random.below(8) {
        // One result too many, or one too few for an operator.
        0 => entries.insert(at, of_truth(UNKNOWN, at)),
        1 => entries.insert(at, operator(random.pick(&[AND, OR]))),
        2 => entries.insert(0, operator(random.pick(&[AND, OR, NOT]))),
        3 => {
            let of_count = |entry: &Entry| entry[0] != NOT;
            let counted = (0..entries.len()).filter(|&at| of_count(&entries[at]));
            let counted: Vec<usize> = counted.collect();
            entries.remove(random.pick(&counted));
        }
        4 => entries.insert(at, operator(random.pick(&[4, 5, 13, 128, 255]))),
        5 => entries.resize(17 + random.below(4), operator(NOT)),
        6 => {
            let count = body[1];
            body[1] = random.pick(&[0, count - 1, count + 1, 17, 255]);
            return;
        }
        _ => {
            // The body ends inside its last comparison, or has a byte too many.
            let count = body[1];
            if random.chance(50) {
                while entries.pop_if(|entry| entry[0] != COMPARE).is_some() {}
                let last = entries.pop().unwrap_or_default();
                entries.push(last[..1 + random.below(12)].to_vec());
            } else {
                entries.push(vec![random.pick(&[0, 4, 255])]);
            }
            *body = self::body(letter, &entries);
            body[1] = count;
            return;
        }
    }
    *body = self::body(letter, &entries);
}

/// A list of entries with letter and count, cut behind each of its bytes or with a byte
/// behind the last, and with every count.
pub fn cut_or_counted(entries: &[Entry]) -> Vec<Vec<u8>> {
    let whole = body(b'A', entries);
    let mut bodies: Vec<Vec<u8>> = (0..=whole.len()).map(|at| whole[..at].to_vec()).collect();
    bodies.extend([0, 1, 3, 4].map(|more| [&whole[..], &[more]].concat()));
    for count in 0..=255 {
        let mut counted = whole.clone();
        counted[1] = count;
        bodies.push(counted);
    }
    bodies
}

/// A record of kind 6 for a letter.
pub fn random_record(
    random: &mut Random,
    letter: u8,
    columns: u8,
    numbers: Numbers,
) -> (u16, Vec<u8>) {
    let entries = random_entries(random, columns, numbers);
    (CONDITION, body(letter, &entries))
}
