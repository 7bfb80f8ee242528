//! Allowances of steps for an input (document 02, R-13): every one that makes a
//! difference, or for larger searches a few: the extremes, some at which something
//! happens right before or behind the last entry, and some at random; and numbers
//! so large that one who keeps too few bits of them stops. A refused search has no
//! steps, and gets some all the same.

use super::draft::Input;
use super::random::Random;
use crate::log::{Event, Log};
use crate::search;

/// What happens where an allowance ends.
#[derive(Clone, Copy, Debug, PartialEq, Eq, PartialOrd, Ord)]
pub enum Point {
    /// The next entry is an attempt's first: no pair is open.
    BeforeAttempt,
    /// The last entry is an attempt's first.
    InFirstEntry,
    /// The next entry is END.
    BeforeEnd,
    /// The last entry is END, and the match is written.
    AtEnd,
    /// The last entry is END, and the match does not fit.
    AtUnfit,
    /// The last entry fails at once.
    AtFailure,
    /// A pair that has failed is tried between the last entry and the next.
    BesideFailed,
    /// Attempts that enter nothing begin between the last entry and the next.
    BesideAttempt,
}

pub const POINTS: [Point; 8] = [
    Point::BeforeAttempt,
    Point::InFirstEntry,
    Point::BeforeEnd,
    Point::AtEnd,
    Point::AtUnfit,
    Point::AtFailure,
    Point::BesideFailed,
    Point::BesideAttempt,
];

/// All allowances with what happens there, in the order of the log.
pub fn points(log: &Log) -> Vec<(Point, u64)> {
    let mut found = Vec::new();
    let mut steps = 0;
    for two in log.events.windows(2) {
        steps += u64::from(two[0].is_entry());
        match two {
            [Event::Begins(_), Event::Enters(_)] => {
                found.push((Point::BeforeAttempt, steps));
                found.push((Point::InFirstEntry, steps + 1));
            }
            [Event::Begins(_), Event::Meets(_)] => {
                found.push((Point::BesideAttempt, steps));
                found.push((Point::BesideFailed, steps));
            }
            [_, Event::Meets(_)] => found.push((Point::BesideFailed, steps)),
            [Event::Enters(_), Event::Fails(_)] => found.push((Point::AtFailure, steps)),
            [Event::Enters(_), Event::Writes(_)] => {
                found.push((Point::BeforeEnd, steps - 1));
                found.push((Point::AtEnd, steps));
            }
            [Event::Enters(_), Event::Drops(_)] => {
                found.push((Point::BeforeEnd, steps - 1));
                found.push((Point::AtUnfit, steps));
            }
            _ => {}
        }
    }
    found
}

/// The log of an input's search without an allowance; None if it is refused or has
/// too many pairs.
pub fn log_of(input: &Input) -> Option<Log> {
    let accepted = search::accept(&input.query, &input.rows).ok()?;
    let pairs = accepted.ground().pairs();
    if input.notes < pairs.div_ceil(8) || input.trail < pairs {
        return None;
    }
    Log::new(&accepted, input.numbers, input.labels)
}

/// The steps of an input's search without an allowance, 0 if it is refused.
pub fn steps_of(input: &Input) -> u64 {
    let outcome = search::search(
        &input.query,
        &input.rows,
        &mut vec![0; input.notes],
        &mut vec![0; input.trail],
        &mut vec![0; input.numbers],
        &mut vec![0; input.labels],
    );
    outcome.steps
}

/// More than enough for the search; but not to one who keeps 32 of its bits, or takes
/// one of them for a sign.
fn wide(random: &mut Random, steps: u64) -> u64 {
    let low = random.below(steps as usize + 1) as u64;
    let high = random.pick(&[1 << 31, 1 << 32, 3 << 32, 1 << 63, u64::MAX << 32]);
    high + low
}

/// None, one short, exactly enough, one more, and the largest number.
pub fn extremes(steps: u64) -> [u64; 5] {
    [0, steps.saturating_sub(1), steps, steps + 1, u64::MAX]
}

/// All from none to one more than enough, the largest, and a wide one.
pub fn every(random: &mut Random, input: &Input) -> Vec<u64> {
    let steps = steps_of(input);
    let beyond = [u64::MAX, wide(random, steps)];
    (0..=steps + 1).chain(beyond).collect()
}

/// The extremes, two at random and a wide one.
pub fn some(random: &mut Random, input: &Input) -> Vec<u64> {
    let steps = steps_of(input);
    let mut chosen = extremes(steps).to_vec();
    for _ in 0..2 {
        chosen.push(random.below(steps as usize + 1) as u64);
    }
    chosen.push(wide(random, steps));
    in_order(chosen)
}

/// The same, and one of each sort of point that the search has.
pub fn telling(random: &mut Random, input: &Input) -> Vec<u64> {
    let mut chosen = some(random, input);
    let points = log_of(input).map_or(Vec::new(), |log| points(&log));
    for sort in POINTS {
        let of_sort = points.iter().filter(|(point, _)| *point == sort);
        let at: Vec<u64> = of_sort.map(|&(_, allowance)| allowance).collect();
        if !at.is_empty() {
            chosen.push(random.pick(&at));
        }
    }
    in_order(chosen)
}

fn in_order(mut allowances: Vec<u64>) -> Vec<u64> {
    allowances.sort_unstable();
    allowances.dedup();
    allowances
}
