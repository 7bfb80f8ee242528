//! Rows in lots (document 02, R-11): a counted walk that is kept between calls, waits
//! where it needs a row that is not yet present, and goes on from there. With an allowance
//! that counts over all calls. The walk is one loop over the same state as that of
//! `walk`, but stands outside of any call: start, path, failed pairs and steps.

use crate::letters::Held;
use crate::pattern::{Pattern, Primary};
use crate::places::{self, Place, Repetition};
use crate::query::Query;
use crate::search::{self, Buffers, Extent, Outcome, Report, DONE, MOST_ROWS};
use crate::search::{SPENT, STOPPED, STUCK};
use crate::walk::{Entered, Ground, Pair};

/// A `$`, or a letter that looks at later rows.
pub const AHEAD: u8 = 17;
/// Fewer rows than before, or a call after the end.
pub const BACKWARDS: u8 = 21;
/// The walk waits for a row.
pub const WAITS: u8 = 23;

/// The allowance that is none.
pub const WITHOUT: u64 = u64::MAX;

/// What is kept between calls. Naming the largest n and the allowance answers nothing.
#[derive(Clone, Debug)]
pub struct Feed {
    largest: u64,
    allowance: Option<u64>,
    /// The rows present at the last call that was not refused.
    before: u64,
    /// What that call came to.
    latest: Option<Outcome>,
    walk: Walk,
}

/// The numbers that the C face keeps of a feed, and where each of them stands.
pub const WORDS: usize = 10;
pub const LARGEST: usize = 0;
pub const ALLOWANCE: usize = 1;
pub const PRESENT: usize = 2;
pub const BEGUN: usize = 3;
pub const ANSWER: usize = 4;
pub const ROW: usize = 5;
pub const MATCHES: usize = 6;
pub const LABELS: usize = 7;
pub const STEPS: usize = 8;
pub const OPENED: usize = 9;

/// The walk as it stands: nothing is under way where the path is empty.
#[derive(Clone, Debug, Default)]
struct Walk {
    start: usize,
    path: Vec<Entered>,
    failed: Vec<bool>,
    steps: u64,
    written: Extent,
}

/// One call: the query, the slice of rows, how many of them are present, and whether it
/// is the last call, which declares the end.
#[derive(Clone, Copy, Debug)]
pub struct Lot<'a> {
    pub query: &'a [u8],
    pub rows: &'a [i32],
    pub present: u64,
    pub last: bool,
}

/// What the walk goes on with in a call that is not refused.
struct Present<'a> {
    query: Query,
    places: Vec<Place>,
    rounds: Vec<Vec<Repetition>>,
    factor: usize,
    held: Held,
    rows: &'a [i32],
    last: bool,
}

impl Feed {
    pub fn begin(largest: u64, allowance: u64) -> Feed {
        Feed {
            largest,
            allowance: (allowance != WITHOUT).then_some(allowance),
            before: 0,
            latest: None,
            walk: Walk::default(),
        }
    }

    /// The end comes first: 13, 15 and 16 stay the answer, and after 0 any call is 21. Then
    /// the refusals, which change nothing.
    pub fn call(&mut self, lot: Lot, (notes, trail, numbers, labels): Buffers) -> Outcome {
        match self.ended() {
            Some(ended) if ended.answer == DONE => return Outcome::refused(lot.query, BACKWARDS),
            Some(ended) => return ended,
            None => {}
        }
        let present = match self.accept(&lot, notes.len(), trail.len()) {
            Ok(present) => present,
            Err(answer) => return Outcome::refused(lot.query, answer),
        };
        self.before = lot.present;
        let pairs = self.pairs(present.places.len(), present.factor);
        self.walk.failed.resize(pairs, false);
        let mut report = Report::behind(numbers, labels, self.walk.written);
        let answer = self.walk.go_on(&present, self.allowance, &mut report);
        self.walk.written = report.written;
        search::write_notes(notes, &self.walk.failed);
        let outcome = report.outcome(answer, self.walk.steps);
        if answer != WAITS {
            trail[..self.walk.failed.len()].fill(0);
        }
        self.latest = Some(outcome);
        outcome
    }

    /// How the search ended, once it has.
    pub fn ended(&self) -> Option<Outcome> {
        self.latest.filter(|latest| latest.answer != WAITS)
    }

    /// The rows present at the last call that was not refused.
    pub fn present(&self) -> u64 {
        self.before
    }

    /// The feed as the C face keeps it, by the header's struct: the answer is that of the
    /// latest call that was not refused, and 23 before the first.
    pub fn words(&self) -> [u64; WORDS] {
        let mut words = [0; WORDS];
        words[LARGEST] = self.largest;
        words[ALLOWANCE] = self.allowance.unwrap_or(WITHOUT);
        words[PRESENT] = self.before;
        words[BEGUN] = self.latest.is_some().into();
        words[ANSWER] = self.latest.map_or(WAITS, |latest| latest.answer).into();
        words[ROW] = self.walk.start as u64;
        words[MATCHES] = self.walk.written.matches as u64;
        words[LABELS] = self.walk.written.labels as u64;
        words[STEPS] = self.walk.steps;
        words[OPENED] = self.walk.path.len() as u64;
        words
    }

    /// Takes another allowance for the one that was named first. Another largest n is
    /// another search, which begins anew.
    pub fn rename(&mut self, largest: u64, allowance: u64) {
        match largest == self.largest {
            true => self.allowance = (allowance != WITHOUT).then_some(allowance),
            false => *self = Feed::begin(largest, allowance),
        }
    }

    /// P(N+1)F, where the largest n is N.
    fn pairs(&self, places: usize, factor: usize) -> usize {
        places * (self.largest as usize + 1) * factor
    }

    /// The lowest of the refusals in their order: 1 to 9, 17, 10, 11, 12, 21.
    fn accept<'a>(&self, lot: &Lot<'a>, notes: usize, trail: usize) -> Result<Present<'a>, u8> {
        let (query, pattern) = search::accept_query(lot.query)?;
        if looks_ahead(&query, &pattern) {
            return Err(AHEAD);
        }
        let whole = lot.rows.len().is_multiple_of(query.columns);
        let slice = (lot.rows.len() / query.columns) as u64;
        let too_many = lot.present > self.largest || lot.present > slice;
        if !whole || self.largest > MOST_ROWS as u64 || too_many {
            return Err(10);
        }
        let (places, rounds) = places::lay(&pattern);
        let factor = pattern.factor();
        let pairs = self.pairs(places.len(), factor);
        if notes < pairs.div_ceil(8) {
            return Err(11);
        }
        if trail < pairs {
            return Err(12);
        }
        if lot.present < self.before {
            return Err(BACKWARDS);
        }
        let rows = &lot.rows[..lot.present as usize * query.columns];
        Ok(Present {
            held: Held::new(&query, rows),
            query,
            places,
            rounds,
            factor,
            rows,
            last: lot.last,
        })
    }

    /// The pairs still open: those entered in the unfinished attempt that have not failed.
    pub fn open(&self) -> Vec<Pair> {
        self.walk.path.iter().map(|entered| entered.pair).collect()
    }

    pub fn failed(&self) -> &[bool] {
        &self.walk.failed
    }
}

/// Answer 17. What is reached plays no part, nor do letters outside the pattern.
fn looks_ahead(query: &Query, pattern: &Pattern) -> bool {
    let letters = pattern.letters();
    let of_pattern = query
        .defines
        .iter()
        .filter(|it| letters.contains(&it.letter));
    let comparisons = of_pattern.flat_map(|define| define.comparisons());
    let mut offsets = comparisons.flat_map(|it| {
        let right = it.right.map(|right| right.offset);
        [Some(it.left.offset), right]
    });
    has_last_anchor(pattern) || offsets.any(|offset| offset.is_some_and(|offset| offset > 0))
}

fn has_last_anchor(pattern: &Pattern) -> bool {
    let mut factors = pattern.branches.iter().flat_map(|branch| &branch.factors);
    factors.any(|factor| match &factor.primary {
        Primary::Last => true,
        Primary::Group(inner) => has_last_anchor(inner),
        Primary::Letter(_) | Primary::First | Primary::Empty => false,
    })
}

impl Walk {
    /// Goes on until the search ends or a row is asked for that is not present. Whether an
    /// attempt waits is asked before anything else about it.
    fn go_on(&mut self, present: &Present, allowance: Option<u64>, report: &mut Report) -> u8 {
        let ground = Ground {
            places: &present.places,
            rounds: &present.rounds,
            factor: present.factor,
            held: &present.held,
        };
        let n = present.held.row_count();
        loop {
            let Some(top) = self.path.last_mut() else {
                if self.start == n {
                    return if present.last { DONE } else { WAITS };
                }
                match self.try_pair(&ground, Pair::new(0, self.start), allowance) {
                    Tried::Entered => {}
                    Tried::HasFailed => self.start += 1,
                    Tried::NotAllowed => return SPENT,
                }
                continue;
            };
            let pair = top.pair;
            if ground.is_end(pair) {
                match self.succeed(present, report) {
                    None => continue,
                    Some(answer) => return answer,
                }
            }
            let is_letter = matches!(present.places[pair.place], Place::Letter { .. });
            if is_letter && pair.position == n && !present.last {
                return WAITS;
            }
            match ground.tried(pair, top.turns) {
                Some(next) => {
                    top.turns += 1;
                    if self.try_pair(&ground, next, allowance) == Tried::NotAllowed {
                        return SPENT;
                    }
                }
                None => {
                    self.failed[ground.number(pair)] = true;
                    self.path.pop();
                    self.start += usize::from(self.path.is_empty());
                }
            }
        }
    }

    fn try_pair(&mut self, ground: &Ground, pair: Pair, allowance: Option<u64>) -> Tried {
        if self.failed[ground.number(pair)] {
            return Tried::HasFailed;
        }
        if allowance == Some(self.steps) {
            return Tried::NotAllowed;
        }
        self.steps += 1;
        self.path.push(Entered { pair, turns: 0 });
        Tried::Entered
    }

    /// Hands out the match whose END is reached; Some where that ends the search.
    fn succeed(&mut self, present: &Present, report: &mut Report) -> Option<u8> {
        let path: Vec<Pair> = self.path.drain(..).map(|entered| entered.pair).collect();
        let labels = search::labels_on(&present.places, &path);
        let results = search::results(&present.query, present.rows, self.start, &labels);
        if !report.append(self.start, &labels, &results) {
            return Some(STOPPED);
        }
        match search::next_start(present.query.skip, self.start, &labels) {
            Some(next) => self.start = next,
            None => return Some(STUCK),
        }
        None
    }
}

#[derive(Clone, Copy, Debug, PartialEq, Eq)]
enum Tried {
    Entered,
    HasFailed,
    NotAllowed,
}
