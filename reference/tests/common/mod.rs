//! What the tests share: running an input with buffers filled beforehand, and
//! short ways to write queries down.

#![allow(dead_code)]

use reference::generate::draft::{with_number, Draft, Input};
use reference::search::{self, Accepted, Outcome};
use reference::walk::{Attempt, Pair};
use std::collections::BTreeSet;

/// What every index of a buffer holds before a call.
pub const FILL: u8 = 7;

/// A call and what it left behind.
#[derive(Clone, Debug, PartialEq, Eq)]
pub struct Called {
    pub outcome: Outcome,
    pub notes: Vec<u8>,
    pub trail: Vec<u32>,
    pub numbers: Vec<i64>,
    pub labels: Vec<u8>,
    pub pairs_on_paths: u64,
    /// Those of an unfinished attempt.
    pub open: Vec<Pair>,
}

/// Within the input's allowance, if it has one.
pub fn call(input: &Input) -> Called {
    let mut notes = vec![FILL; input.notes];
    let mut trail = vec![u32::from(FILL); input.trail];
    let mut numbers = vec![i64::from(FILL); input.numbers];
    let mut labels = vec![FILL; input.labels];
    let mut pairs_on_paths = 0;
    let mut open = Vec::new();
    let outcome = search::search_watched(
        &input.query,
        &input.rows,
        input.allowance,
        (&mut notes, &mut trail, &mut numbers, &mut labels),
        &mut |attempt| match attempt {
            Attempt::Match(path) => pairs_on_paths += path.len() as u64,
            Attempt::Unfinished(left) => open = left.clone(),
            Attempt::NoMatch | Attempt::GaveUp => {}
        },
    );
    Called {
        outcome,
        notes,
        trail,
        numbers,
        labels,
        pairs_on_paths,
        open,
    }
}

/// The same by plain backtracking, which has no allowance: outcome, numbers, labels.
pub fn call_plain(input: &Input, patience: u64) -> Option<(Outcome, Vec<i64>, Vec<u8>)> {
    let mut numbers = vec![i64::from(FILL); input.numbers];
    let mut labels = vec![FILL; input.labels];
    let outcome = search::search_plain(
        &input.query,
        &input.rows,
        &vec![FILL; input.notes],
        &vec![u32::from(FILL); input.trail],
        &mut numbers,
        &mut labels,
        patience,
    )?;
    Some((outcome, numbers, labels))
}

/// All pairs that there are up to a position, with all flags that their places have.
pub fn every_pair(accepted: &Accepted, last: usize) -> Vec<Pair> {
    let flags = |place: usize, packed: usize| {
        let count = accepted.rounds[place].len();
        std::array::from_fn(|at| at < count && packed >> at & 1 == 1)
    };
    let at = |position: usize| {
        (0..accepted.places.len()).flat_map(move |place| {
            (0..1 << accepted.rounds[place].len()).map(move |packed| Pair {
                place,
                position,
                flags: flags(place, packed),
            })
        })
    };
    (0..=last).flat_map(at).collect()
}

/// The pairs noted as failed, by their bits up to a position; no other bit is set.
pub fn noted(notes: &[u8], accepted: &Accepted, last: usize) -> BTreeSet<Pair> {
    let (places, factor) = (accepted.places.len(), accepted.factor());
    let is_noted = |pair: &Pair| {
        let packed = (0..3).map(|at| usize::from(pair.flags[at]) << at);
        let bit = (pair.position * places + pair.place) * factor + packed.sum::<usize>();
        notes[bit / 8] >> (bit % 8) & 1 == 1
    };
    let all = every_pair(accepted, last).into_iter();
    let found: BTreeSet<Pair> = all.filter(is_noted).collect();
    let bytes = (places * (last + 1) * factor).div_ceil(8);
    let ones: u32 = notes[..bytes].iter().map(|byte| byte.count_ones()).sum();
    assert_eq!(ones as usize, found.len(), "a bit of no pair is set");
    found
}

/// The answer for a query that is otherwise right, with this text.
pub fn answer_of_text(text: &[u8]) -> u8 {
    let draft = Draft::new(1, text, vec![1, 2, 3]);
    search::room(&draft.query(), &draft.rows).0
}

pub fn places_of(text: &[u8]) -> usize {
    let draft = Draft::new(1, text, Vec::new());
    search::room(&draft.query(), &draft.rows).1
}

/// Free letters on n rows of one column, past last row.
pub fn free(text: &[u8], n: usize) -> Draft {
    Draft::new(1, text, vec![1; n])
}

/// `letter` holds where column 0 is above the number.
pub fn above(draft: Draft, letter: u8, number: i32) -> Draft {
    draft.define(letter, &[with_number(0, 0, 5, number)])
}

/// The matches as first row and labels.
pub fn matches(draft: &Draft) -> Vec<(i64, String)> {
    let called = call(&draft.finish());
    let per_match = search::accept(&draft.query(), &draft.rows)
        .expect("a test that asks for matches has an accepted query")
        .numbers_per_match();
    let mut labels = called.labels.as_slice();
    let mut found = Vec::new();
    for written in called.numbers.chunks(per_match) {
        let (own, later) = labels.split_at(written[2] as usize);
        labels = later;
        found.push((written[1], String::from_utf8_lossy(own).into_owned()));
    }
    assert_eq!(found.len() as u64, called.outcome.matches);
    found
}

pub fn steps(draft: &Draft) -> u64 {
    call(&draft.finish()).outcome.steps
}

pub fn found(first: i64, labels: &str) -> (i64, String) {
    (first, labels.to_string())
}
