//! Listed searches in lots (document 02, R-11): every cutting of small tables in all skip
//! modes; each odd call at each place of a cutting; within every allowance; in report rooms
//! that end at and beside each match; the ranks of the answers; and the largest tables.

use super::allowances::steps_of;
use super::cuttings::{self, every_cutting, whole, with_largest, Call, Cut, TEXTS};
use super::draft::{with_number, Draft, Input, Room};
use super::limits;
use super::mix::every_row_of;
use crate::search::MOST_ROWS;

/// The given text on every truth table of A and B with up to so many rows.
fn tables(text: &'static [u8], most_rows: usize) -> impl Iterator<Item = Draft> {
    let even = |bits: &Vec<i32>| bits.len().is_multiple_of(2);
    let rows = every_row_of(2, 2 * most_rows).filter(even);
    rows.map(move |rows| {
        Draft::new(2, text, rows)
            .define(b'A', &[with_number(0, 0, 1, 1)])
            .define(b'B', &[with_number(1, 0, 1, 1)])
            .measure(1, 0, 0)
            .measure(5, 0, 1)
    })
}

/// The same in each skip mode with each letter in turn.
fn in_turning_modes(draft: &Draft, number: usize) -> Draft {
    let mut modes = draft.in_every_mode();
    modes.swap_remove(number % modes.len())
}

/// Every cutting of every table with up to so many rows, each in one skip mode.
pub fn every_small(most_rows: usize) -> impl Iterator<Item = Cut> {
    let drafts = TEXTS.into_iter().flat_map(move |text| {
        let numbered = tables(text, most_rows).enumerate();
        numbered.map(|(number, draft)| in_turning_modes(&draft, number))
    });
    drafts.flat_map(|draft| every_cutting(&draft))
}

/// Patterns with matches at once and late, empty ones, and flags.
const FEW: [&[u8]; 6] = [
    b"A* B",
    b"A | A B",
    b"(A B?)+",
    b"A*?",
    b"(A*)* B",
    b"(^ A)* ^ B",
];

/// Some tables of two rows and of three, each in one skip mode.
fn few_drafts(step: usize) -> impl Iterator<Item = Draft> {
    FEW.into_iter().flat_map(move |text| {
        let numbered = tables(text, 3).enumerate().skip(8).step_by(step);
        numbered.map(|(number, draft)| in_turning_modes(&draft, number))
    })
}

/// Each odd call at each place of every cutting, behind the end as well.
pub fn every_odd_call() -> impl Iterator<Item = Cut> {
    let cuts = few_drafts(13).flat_map(|draft| every_cutting(&draft));
    cuts.flat_map(|cut| {
        let places = 0..=cut.calls.len();
        places.flat_map(move |at| {
            let cut = cut.clone();
            odd_calls(&cut, at).into_iter().map(move |odd| {
                let mut cut = cut.clone();
                cut.calls.insert(at, odd);
                cut
            })
        })
    })
}

/// At this place: the same count again, fewer, more than named or than the slice holds, a
/// slice that is not whole, and the end. Each by both functions.
fn odd_calls(cut: &Cut, at: usize) -> Vec<Call> {
    let before = cut.calls[..at].iter().map(|call| call.present).max();
    let before = before.unwrap_or(0);
    let entries = cut.input.rows.len();
    let short = (2 * before as usize).saturating_sub(2);
    let odd = [
        Some((before, entries)),
        (before > 0).then(|| (before - 1, entries)),
        (before > 1).then_some((0, entries)),
        Some((cut.largest + 1, entries)),
        Some((u64::MAX, entries)),
        (before > 0).then_some((before, short)),
        (before > 1).then(|| (before - 1, short - 2)),
        (entries > 0).then(|| (before, entries - 1)),
    ];
    let both = |(present, entries)| {
        [false, true].map(|last| Call {
            present,
            entries,
            last,
        })
    };
    odd.into_iter().flatten().flat_map(both).collect()
}

/// Every cutting of some tables within every allowance up to one more than enough.
pub fn within_every_allowance() -> impl Iterator<Item = Cut> {
    let cuts = few_drafts(19).flat_map(|draft| every_cutting(&draft));
    cuts.flat_map(|cut| {
        (0..=steps_of(&cut.input) + 1).map(move |allowance| Cut {
            input: cut.input.within(allowance),
            ..cut.clone()
        })
    })
}

/// Every cutting of some tables in short report rooms, with calls after the stop.
pub fn in_every_room() -> impl Iterator<Item = Cut> {
    let cuts = few_drafts(11).flat_map(|draft| every_cutting(&draft));
    cuts.flat_map(|mut cut| {
        let (entries, n) = (cut.input.rows.len(), cut.largest as usize);
        cut.calls.push(whole(n, entries, false));
        cut.calls.push(whole(0, entries, true));
        let Input {
            numbers, labels, ..
        } = cut.input;
        let of_numbers = (0..=numbers + 1).step_by(3).map(move |it| (it, labels));
        let of_labels = (0..labels).map(move |it| (numbers, it));
        of_numbers
            .chain(of_labels)
            .map(move |(numbers, labels)| Cut {
                input: Input {
                    numbers,
                    labels,
                    ..cut.input.clone()
                },
                ..cut.clone()
            })
    })
}

/// Queries that look ahead and others, with answers before and behind 17: strangers and
/// letters defined twice, more rows than may be, rooms one short, fewer rows than before.
pub fn ranks() -> impl Iterator<Item = Cut> {
    let drafts = cuttings::looking_ahead().into_iter();
    let drafts = drafts.flat_map(|(draft, _)| {
        let define = [with_number(0, 1, 1, 1)];
        let stranger = draft.clone().measure(1, b'Y', 0);
        let twice = draft.clone().define(b'Q', &define).define(b'Q', &define);
        let cut_text = Draft::new(1, b"A (", vec![1; 3]);
        [draft, stranger, twice, cut_text]
    });
    drafts.flat_map(|draft| {
        [3, 4_096, 4_097, u64::MAX]
            .into_iter()
            .flat_map(move |largest| {
                let draft = draft.clone();
                (0..4).map(move |short| {
                    let mut input = with_largest(&draft, largest, [Room::Exact; 4]);
                    input.notes -= usize::from(short & 1 == 1).min(input.notes);
                    input.trail -= usize::from(short & 2 == 2).min(input.trail);
                    let counts = [(2, false), (4, false), (1, false), (4, true), (2, true)];
                    let call = |(present, last)| whole(present, 3, last);
                    Cut {
                        input,
                        largest,
                        calls: counts.map(call).to_vec(),
                    }
                })
            })
    })
}

/// Tables of up to 4,096 rows in a few lots, and slices that hold more rows than that.
pub fn at_limits() -> impl Iterator<Item = Cut> {
    let large = limits::of_large_searches().into_iter().step_by(3);
    let nested = limits::of_nested_repetitions().into_iter().take(2);
    let suited = |draft: &Draft| !draft.records[1].1.contains(&b'$');
    let short = |draft: &Draft| draft.needs()[3] < 1 << 20;
    let whole_tables = large.chain(nested).filter(suited).filter(short);
    let cut = whole_tables.map(|draft| {
        let n = draft.rows.len();
        let counts = [0, 1, 7, n / 2, n - 1, n, n];
        let mut calls: Vec<Call> = counts.map(|it| whole(it, n, false)).to_vec();
        calls.push(whole(n, n, true));
        Cut {
            input: with_largest(&draft, MOST_ROWS as u64, [Room::Exact; 4]),
            largest: MOST_ROWS as u64,
            calls,
        }
    });
    with_long_slices().chain(cut)
}

/// What lies behind the rows present may be any number of rows.
fn with_long_slices() -> impl Iterator<Item = Cut> {
    let cases = [(5, 5), (5, 6), (4_097, 3), (4_096, 4_097), (4_096, 4_096)];
    cases.into_iter().map(|(largest, present)| {
        let entries = 5_000;
        let draft =
            Draft::new(1, b"A+ B", vec![1; entries]).define(b'B', &[with_number(0, -1, 2, 1)]);
        let mut input = with_largest(&draft, largest, [Room::Exact; 4]);
        input.numbers = 100;
        input.labels = entries;
        Cut {
            input,
            largest,
            calls: vec![
                whole(3, entries, false),
                whole(present, entries, false),
                whole(present, entries, true),
            ],
        }
    })
}
