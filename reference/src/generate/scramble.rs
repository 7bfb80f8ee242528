//! Damage without aim: bytes of a query flipped, set, lost, doubled or cut off,
//! records swapped, lost, doubled or given another length. What it comes to is
//! not known beforehand: often a refusal, at times another accepted query.

use super::random::Random;
use crate::query::{self, Record};

/// A query with one to three of these damages; mostly its records stay whole, so
/// that what is behind the answers 1 and 2 is reached too.
pub fn scrambled(random: &mut Random, query: &[u8]) -> Vec<u8> {
    let mut bytes = query.to_vec();
    for _ in 0..1 + random.below(3) {
        bytes = match random.below(10) {
            0 => with_wrong_byte(random, bytes),
            1 | 2 => with_wrong_record(random, bytes),
            _ => with_wrong_body(random, bytes),
        };
    }
    bytes
}

/// The query with each of its bytes in turn at each value.
pub fn every_byte(query: Vec<u8>) -> impl Iterator<Item = Vec<u8>> {
    (0..query.len()).flat_map(move |at| {
        let query = query.clone();
        (0..=255).map(move |value| {
            let mut bytes = query.clone();
            bytes[at] = value;
            bytes
        })
    })
}

/// Values at which some field or letter begins or ends.
const EDGES: [u8; 21] = [
    0, 1, 2, 3, 5, 6, 7, 8, 9, b' ', b'(', b')', b'*', b'?', b'A', b'B', b'Z', b'|', 64, 192, 255,
];

fn with_wrong_byte(random: &mut Random, mut bytes: Vec<u8>) -> Vec<u8> {
    if bytes.is_empty() {
        return vec![random.pick(&EDGES)];
    }
    let at = random.below(bytes.len());
    let behind = (at + 1) % bytes.len();
    match random.below(8) {
        0 | 1 => bytes[at] ^= 1 << random.below(8),
        2 | 3 => bytes[at] = random.pick(&EDGES),
        4 => bytes.truncate(at),
        5 => {
            bytes.remove(at);
        }
        6 => bytes.insert(at, bytes[at]),
        _ => bytes.swap(at, behind),
    }
    bytes
}

/// Bytes that are no whole records any more stay as they are.
fn with_wrong_record(random: &mut Random, bytes: Vec<u8>) -> Vec<u8> {
    let Some(mut records) = query::records(&bytes).filter(|records| !records.is_empty()) else {
        return bytes;
    };
    let at = random.below(records.len());
    let other = random.below(records.len());
    match random.below(5) {
        0 | 1 => records.swap(at, other),
        2 => {
            records.remove(at);
        }
        3 => records.insert(at, records[other]),
        _ => return with_wrong_header(random, &records, at),
    }
    written(&records)
}

/// A body with a wrong byte, behind a header that is right.
fn with_wrong_body(random: &mut Random, bytes: Vec<u8>) -> Vec<u8> {
    let Some(mut records) = query::records(&bytes).filter(|records| !records.is_empty()) else {
        return bytes;
    };
    let at = random.below(records.len());
    let body = with_wrong_byte(random, records[at].body.to_vec());
    records[at].body = &body;
    written(&records)
}

/// A record whose header states another length or kind by one.
fn with_wrong_header(random: &mut Random, records: &[Record], at: usize) -> Vec<u8> {
    let mut bytes = written(records);
    let before = written(&records[..at]).len();
    let byte = &mut bytes[before + random.pick(&[0, 0, 1, 2, 3])];
    *byte = match random.chance(50) {
        true => byte.wrapping_add(1),
        false => byte.wrapping_sub(1),
    };
    bytes
}

fn written(records: &[Record]) -> Vec<u8> {
    let mut bytes = Vec::new();
    for record in records {
        bytes.extend((record.body.len() as u16).to_le_bytes());
        bytes.extend(record.kind.to_le_bytes());
        bytes.extend(record.body);
    }
    bytes
}
