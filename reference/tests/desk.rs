//! Document 02, R-14, the release desk: verdicts worked out by hand, the ranks of what it
//! answers, the row it tells, and for every small log and many random ones that the
//! verdict told from the rows is that told from the search's matches.

mod common;

use common::FILL;
use reference::desk::{self, Verdict, ACCEPTED, COLUMNS, EVENT, OFFERED, REFUSED};
use reference::generate::logs::{self, Ending, ENDINGS};
use reference::generate::{Input, Random, Room};
use reference::search::{self, Outcome};
use std::collections::BTreeMap;

const O: i32 = OFFERED;
const R: i32 = REFUSED;
const C: i32 = ACCEPTED;

/// Rows from events and base numbers; times rise, patch numbers are the base's tenfold.
fn log(rows: &[(i32, i32)]) -> Vec<i32> {
    let row = |(time, &(event, base)): (i32, &(i32, i32))| [100 + time, event, base, 10 * base];
    (0..).zip(rows).flat_map(row).collect()
}

fn verdict(rows: &[(i32, i32)]) -> Verdict {
    desk::verdict(&log(rows))
}

const HELD: Verdict = Verdict::Held(None);

fn held(row: usize) -> Verdict {
    Verdict::Held(Some(row))
}

#[test]
fn the_query() {
    let (answer, places, n) = search::room(&desk::query(), &[]);
    assert_eq!((answer, places, n), (0, 6, 0));
}

#[test]
fn by_hand() {
    use Verdict::{Cleared, Unreadable};
    let table: [(&[(i32, i32)], Verdict); 26] = [
        (&[], HELD),
        (&[(O, 1)], HELD),
        (&[(R, 1)], held(0)),
        (&[(C, 1)], HELD),
        (&[(O, 1), (C, 1)], Cleared),
        (&[(O, 1), (C, 2)], HELD),
        (&[(O, 1), (R, 1), (C, 1)], Cleared),
        (&[(O, 1), (R, 1), (R, 1), (C, 1)], Cleared),
        (&[(O, 1), (R, 2), (C, 2)], held(1)),
        (&[(O, 1), (R, 1), (C, 2)], held(1)),
        (&[(O, 1), (R, 2), (C, 1)], held(1)),
        (&[(O, 1), (R, 1), (R, 2), (R, 1), (C, 1)], held(3)),
        // No offer, or none next to the refusals.
        (&[(R, 1), (C, 1)], held(0)),
        (&[(C, 1), (R, 1), (C, 1)], held(1)),
        (&[(C, 1), (C, 1)], HELD),
        // An earlier run, whole or not, makes no difference.
        (&[(O, 1), (C, 1), (O, 2), (C, 2)], Cleared),
        (&[(R, 5), (O, 2), (C, 2)], Cleared),
        (&[(O, 1), (O, 2), (C, 2)], Cleared),
        (&[(O, 1), (C, 1), (C, 1)], HELD),
        // The acceptance is not the last row.
        (&[(O, 1), (C, 1), (O, 1)], HELD),
        (&[(O, 1), (R, 1), (C, 1), (R, 1)], held(3)),
        (&[(O, 1), (R, 1), (C, 1), (O, 2)], held(1)),
        // Odd events.
        (&[(0, 1)], Unreadable),
        (&[(4, 1), (O, 1), (C, 1)], Unreadable),
        (&[(O, 1), (R, 1), (-1, 1)], Unreadable),
        (&[(O, 1), (257, 1), (C, 1)], Unreadable),
    ];
    for (rows, expected) in table {
        assert_eq!(verdict(rows), expected, "{rows:?}");
    }
}

/// Patch numbers count as base numbers do; times do not.
#[test]
fn each_column() {
    let rows = |patch, time| vec![9, O, 1, 1, time, R, 1, 1, 9, C, 1, patch];
    assert_eq!(desk::verdict(&rows(1, 9)), Verdict::Cleared);
    assert_eq!(desk::verdict(&rows(1, -9)), Verdict::Cleared);
    assert_eq!(desk::verdict(&rows(2, 9)), held(1));
    // The offer's numbers are compared with nothing before it.
    let before = [vec![1, C, 7, 7], rows(1, 9)].concat();
    assert_eq!(desk::verdict(&before), Verdict::Cleared);
}

/// What the desk returns in rooms against what the search needs.
fn returned(rows: &[i32], rooms: [Room; 4]) -> [u64; 4] {
    call(&logs::in_rooms(rows.to_vec(), rooms)).0
}

/// What it returns, and the four buffers.
type Called = ([u64; 4], Vec<u8>, Vec<u32>, Vec<i64>, Vec<u8>);

fn call(input: &Input) -> Called {
    let mut notes = vec![FILL; input.notes];
    let mut trail = vec![u32::from(FILL); input.trail];
    let mut numbers = vec![i64::from(FILL); input.numbers];
    let mut labels = vec![FILL; input.labels];
    let returned = desk::desk(
        &input.rows,
        (&mut notes, &mut trail, &mut numbers, &mut labels),
    );
    (returned, notes, trail, numbers, labels)
}

#[test]
fn ranks() {
    let exact = [Room::Exact; 4];
    let short = |at: usize| {
        let mut rooms = exact;
        rooms[at] = Room::OneShort;
        rooms
    };
    // No rows: one byte of notes and six numbers of trail are needed all the same.
    assert_eq!(logs::needs(&[]), [1, 6, 0, 0]);
    assert_eq!(returned(&[], exact), [0, 2, 0, 0]);
    assert_eq!(returned(&[], short(0)), [11, 0, 0, 0]);
    assert_eq!(returned(&[], short(1)), [12, 0, 0, 0]);
    // A match needs three numbers and a label for each row.
    let cleared = log(&[(O, 1), (R, 1), (C, 1)]);
    assert_eq!(logs::needs(&cleared), [3, 24, 3, 3]);
    assert_eq!(returned(&cleared, exact), [0, 1, 0, 0]);
    assert_eq!(returned(&cleared, short(2)), [13, 0, 0, 0]);
    assert_eq!(returned(&cleared, short(3)), [13, 0, 0, 0]);
    // Unreadable, but the search has a match that does not fit.
    let odd = [log(&[(9, 1)]), cleared.clone()].concat();
    assert_eq!(returned(&odd, exact), [0, 3, 0, 0]);
    assert_eq!(returned(&odd, short(2)), [13, 0, 0, 0]);
    assert_eq!(returned(&odd, short(1)), [12, 0, 0, 0]);
    // Held needs no report room.
    let held = log(&[(O, 1), (R, 1)]);
    assert_eq!(logs::needs(&held), [3, 18, 0, 0]);
    assert_eq!(returned(&held, exact), [0, 2, 1, 1]);
    // Rows that are not whole, or too many.
    assert_eq!(returned(&cleared[..11], exact), [10, 0, 0, 0]);
    let many = log(&[(4, 1); 4_097]);
    assert_eq!(returned(&many, exact), [10, 0, 0, 0]);
    assert_eq!(returned(&many[COLUMNS..], exact), [0, 3, 0, 0]);
}

/// By the search's own report: cleared exactly if it has a match.
fn by_search(input: &Input) -> ([u64; 4], Outcome) {
    let outcome = search::search(
        &desk::query(),
        &input.rows,
        &mut vec![0; input.notes],
        &mut vec![0; input.trail],
        &mut vec![0; input.numbers],
        &mut vec![0; input.labels],
    );
    let events: Vec<i32> = input
        .rows
        .chunks(COLUMNS)
        .map(|row| row[row.len().min(2) - 1])
        .collect();
    let odd = events.iter().any(|event| !(1..=3).contains(event));
    let last = events.iter().rposition(|&event| event == 2);
    let told = match (outcome.answer, odd, outcome.matches, last) {
        (0, true, ..) => [0, 3, 0, 0],
        (0, _, 1.., _) => [0, 1, 0, 0],
        (0, _, _, Some(row)) => [0, 2, 1, row as u64],
        (0, ..) => [0, 2, 0, 0],
        (answer, ..) => [answer.into(), 0, 0, 0],
    };
    assert!(outcome.matches <= 1);
    (told, outcome)
}

fn check(input: &Input) -> [u64; 4] {
    let (returned, _, trail, numbers, labels) = call(input);
    let (expected, outcome) = by_search(input);
    assert_eq!(returned, expected, "{:?}", input.rows);
    if outcome.answer == 0 && outcome.matches == 1 {
        let n = input.rows.len() / COLUMNS;
        assert_eq!(numbers[..2], [1, n as i64 - numbers[2]]);
        assert_eq!(labels[numbers[2] as usize - 1], b'C');
    }
    if outcome.answer == 0 {
        let pairs = 6 * (input.rows.len() / COLUMNS + 1);
        assert!(trail[..pairs].iter().all(|&number| number == 0));
    }
    returned
}

#[test]
fn every_small_log() {
    let mut told = BTreeMap::new();
    for input in logs::every_small() {
        let [answer, verdict, found, _] = check(&input);
        *told.entry([answer, verdict, found]).or_insert(0) += 1;
    }
    let wanted = [
        [0, 1, 0],
        [0, 2, 0],
        [0, 2, 1],
        [0, 3, 0],
        [11, 0, 0],
        [12, 0, 0],
    ];
    for key in wanted {
        assert!(told.get(&key).is_some_and(|&count| count > 200), "{told:?}");
    }
    // The four logs of two rows that clear, each in four report rooms that are short.
    assert_eq!(told.get(&[13, 0, 0]), Some(&16));
    assert_eq!(told.len(), 7);
}

#[test]
fn random_logs() {
    let mut random = Random::new(51);
    let mut told = BTreeMap::new();
    for number in 0..20_000 {
        let [answer, verdict, found, _] = check(&logs::random(&mut random, number));
        *told.entry([answer, verdict, found]).or_insert(0) += 1;
    }
    let wanted = [
        [0, 1, 0],
        [0, 2, 0],
        [0, 2, 1],
        [0, 3, 0],
        [10, 0, 0],
        [11, 0, 0],
        [12, 0, 0],
        [13, 0, 0],
    ];
    for key in wanted {
        assert!(told.get(&key).is_some_and(|&count| count > 150), "{told:?}");
    }
}

#[test]
fn at_limits() {
    let told: Vec<[u64; 4]> = logs::at_limits().iter().map(check).collect();
    assert_eq!(told[0], [0, 1, 0, 0]);
    assert_eq!(told[2], [10, 0, 0, 0]);
    assert_eq!(told[told.len() - 1], [0, 2, 1, 4_095]);
}

/// What a log is made to miss, it misses, mostly by that one thing.
#[test]
fn endings() {
    let mut random = Random::new(52);
    for ending in ENDINGS {
        let mut cleared = 0;
        for _ in 0..500 {
            let rows = logs::log(&mut random, ending, 6);
            let verdict = desk::verdict(&rows);
            cleared += usize::from(verdict == Verdict::Cleared);
            match ending {
                Ending::Cleared => assert_eq!(verdict, Verdict::Cleared),
                Ending::Odd => assert_eq!(verdict, Verdict::Unreadable),
                _ => assert_ne!(verdict, Verdict::Unreadable),
            }
            assert!(rows
                .chunks(COLUMNS)
                .all(|row| row[EVENT] != 0 || ending == Ending::Odd));
        }
        assert!(
            ending == Ending::Cleared || cleared < 150,
            "{ending:?} {cleared}"
        );
    }
}
