//! The counted walk of a whole search written down, event by event. The walk is made
//! by calls of itself, as document 01, "Places and preferment", words it, and shares
//! no code with `walk` but the ground it walks on. What a search within an allowance
//! has done (document 02, R-13) is the part of the log before the first entry too
//! many; so the log is a second way to that, and tells where an allowance is worth
//! trying. Weakness: calls nest as deep as paths are long, hence `MOST_PAIRS`.

use crate::search::{self, Accepted, DONE, STOPPED, STUCK};
use crate::walk::{Ground, Pair};

/// Of searches with more pairs no log is kept.
pub const MOST_PAIRS: usize = 6_000;

#[derive(Clone, Debug, PartialEq, Eq)]
pub enum Event {
    /// An attempt begins at this row.
    Begins(usize),
    /// A pair that has failed already is tried, and not entered.
    Meets(Pair),
    Enters(Pair),
    Fails(Pair),
    /// An attempt succeeds with this path, whose match is written.
    Writes(Vec<Pair>),
    /// The same, but the match does not fit.
    Drops(Vec<Pair>),
}

/// The events in order, and the answer of the search without an allowance.
#[derive(Clone, Debug, PartialEq, Eq)]
pub struct Log {
    pub events: Vec<Event>,
    pub answer: u8,
}

impl Log {
    /// The log of a search with these report rooms; None if it has too many pairs.
    pub fn new(accepted: &Accepted, numbers: usize, labels: usize) -> Option<Log> {
        let ground = accepted.ground();
        if ground.pairs() > MOST_PAIRS {
            return None;
        }
        let mut writer = Writer {
            ground,
            failed: vec![false; ground.pairs()],
            events: Vec::new(),
        };
        let answer = writer.search(accepted, numbers, labels);
        Some(Log {
            events: writer.events,
            answer,
        })
    }

    pub fn steps(&self) -> u64 {
        self.events.iter().filter(|event| event.is_entry()).count() as u64
    }

    /// How many events come before the entry that would pass the allowance; None if
    /// none would.
    pub fn events_within(&self, allowance: u64) -> Option<usize> {
        let mut entries = (0..self.events.len()).filter(|&at| self.events[at].is_entry());
        entries.nth(usize::try_from(allowance).ok()?)
    }
}

impl Event {
    pub fn is_entry(&self) -> bool {
        matches!(self, Event::Enters(_))
    }
}

struct Writer<'a> {
    ground: Ground<'a>,
    failed: Vec<bool>,
    events: Vec<Event>,
}

impl Writer<'_> {
    /// Start by start; of the report only how much is written counts here.
    fn search(&mut self, accepted: &Accepted, mut numbers: usize, mut labels: usize) -> u8 {
        let mut start = 0;
        while start < accepted.n() {
            self.events.push(Event::Begins(start));
            let Some(mut path) = self.try_pair(Pair::new(0, start)) else {
                start += 1;
                continue;
            };
            path.reverse();
            let taken = search::labels_on(self.ground.places, &path);
            if accepted.numbers_per_match() > numbers || taken.len() > labels {
                self.events.push(Event::Drops(path));
                return STOPPED;
            }
            self.events.push(Event::Writes(path));
            numbers -= accepted.numbers_per_match();
            labels -= taken.len();
            match search::next_start(accepted.query.skip, start, &taken) {
                Some(next) => start = next,
                None => return STUCK,
            }
        }
        DONE
    }

    /// Tries a pair; the path from END back to it if it succeeds.
    fn try_pair(&mut self, pair: Pair) -> Option<Vec<Pair>> {
        if self.failed[self.ground.number(pair)] {
            self.events.push(Event::Meets(pair));
            return None;
        }
        self.events.push(Event::Enters(pair));
        if self.ground.is_end(pair) {
            return Some(vec![pair]);
        }
        let mut turn = 0;
        while let Some(next) = self.ground.tried(pair, turn) {
            if let Some(mut path) = self.try_pair(next) {
                path.push(pair);
                return Some(path);
            }
            turn += 1;
        }
        let number = self.ground.number(pair);
        self.failed[number] = true;
        self.events.push(Event::Fails(pair));
        None
    }
}
