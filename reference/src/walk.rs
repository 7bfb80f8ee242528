//! The two walks over pairs of place and position: the counted walk, which
//! keeps failed pairs and counts its entries through one whole search, and plain
//! backtracking, which keeps none. From document 01, "Places and preferment"; the
//! allowance, which binds the counted walk alone, from document 02, R-13, and the flags
//! of a pair from R-3.
//! Neither calls itself, since a path may be a million pairs long; and the two
//! keep their books differently, so that one can witness for the other.

use crate::letters::Held;
use crate::pattern::DEEPEST_REPETITIONS;
use crate::places::{Place, Repetition, Way};

#[derive(Clone, Copy, Debug, PartialEq, Eq, PartialOrd, Ord)]
pub struct Pair {
    pub place: usize,
    pub position: usize,
    pub flags: Flags,
}

/// For each repetition whose copy behind the fork holds the place, the outermost first,
/// whether its present round has taken a row; behind those all are false.
pub type Flags = [bool; DEEPEST_REPETITIONS];

impl Pair {
    /// No round has taken a row, or there is none.
    pub fn new(place: usize, position: usize) -> Pair {
        Pair {
            place,
            position,
            flags: Flags::default(),
        }
    }
}

/// What an attempt comes to.
#[derive(Clone, Debug, PartialEq, Eq)]
pub enum Attempt {
    Match(Vec<Pair>),
    NoMatch,
    /// The counted walk stopped just before an entry that would pass its allowance;
    /// with the pairs still open, from the start on, each having led to the next.
    Unfinished(Vec<Pair>),
    /// Plain backtracking lost its patience.
    GaveUp,
}

/// The places, for each the repetitions that its flags are of, the factor F, and which
/// letter holds at which row.
#[derive(Clone, Copy)]
pub struct Ground<'a> {
    pub places: &'a [Place],
    pub rounds: &'a [Vec<Repetition>],
    pub factor: usize,
    pub held: &'a Held,
}

impl Ground<'_> {
    /// P(n+1)F.
    pub fn pairs(&self) -> usize {
        self.places.len() * (self.held.row_count() + 1) * self.factor
    }

    /// The number of a pair in the notes: its flags are packed from the lowest bit up.
    pub fn number(&self, pair: Pair) -> usize {
        let flags = pair.flags.iter().rev();
        let packed = flags.fold(0, |packed, &flag| 2 * packed + usize::from(flag));
        (pair.position * self.places.len() + pair.place) * self.factor + packed
    }

    pub fn is_end(&self, pair: Pair) -> bool {
        self.places[pair.place] == Place::End
    }

    /// The pair that this one tries at its turn `turn`, counted from 0. None
    /// where there is none: no way is left, or the place does not pass.
    pub fn tried(&self, pair: Pair, turn: usize) -> Option<Pair> {
        let position = pair.position;
        let n = self.held.row_count();
        let (passes, next) = match &self.places[pair.place] {
            Place::Letter { letter, next } => {
                let passes = position < n && self.held.holds(*letter, position);
                (passes, self.follow(self.with_row(pair), next))
            }
            Place::First { next } => (position == 0, self.follow(pair, next)),
            Place::Last { next } => (position == n, self.follow(pair, next)),
            Place::Fork { ways } => return Some(self.follow(pair, ways.get(turn)?)),
            Place::End => return None,
        };
        (passes && turn == 0).then_some(next)
    }

    /// One row on: all rounds that the place is in have taken it.
    fn with_row(&self, pair: Pair) -> Pair {
        let count = self.rounds[pair.place].len();
        Pair {
            position: pair.position + 1,
            flags: std::array::from_fn(|at| at < count),
            ..pair
        }
    }

    /// The pair that a way leads to. A round that goes on keeps its flag; one that is
    /// entered has taken no row.
    fn follow(&self, from: Pair, way: &Way) -> Pair {
        let mut way = way;
        let place = loop {
            match way {
                Way::To(place) => break *place,
                Way::Round { of, fork, .. } if self.has_taken(from, *of) => break *fork,
                Way::Round { behind, .. } => way = behind,
            }
        };
        let mut pair = Pair::new(place, from.position);
        for (flag, of) in pair.flags.iter_mut().zip(&self.rounds[place]) {
            *flag = self.has_taken(from, *of);
        }
        pair
    }

    /// Whether a pair is in a round of this repetition that has taken a row.
    fn has_taken(&self, pair: Pair, of: Repetition) -> bool {
        let rounds = self.rounds[pair.place].iter();
        rounds.zip(pair.flags).any(|(it, flag)| *it == of && flag)
    }
}

/// A pair entered and not yet decided, and the turns it has had.
#[derive(Clone, Debug, PartialEq, Eq)]
pub struct Entered {
    pub pair: Pair,
    pub turns: usize,
}

/// The counted walk: one for a whole search. Its steps never pass the allowance, if
/// it has one.
pub struct Counted<'a> {
    ground: Ground<'a>,
    failed: Vec<bool>,
    steps: u64,
    allowance: Option<u64>,
}

impl<'a> Counted<'a> {
    pub fn new(ground: Ground<'a>, allowance: Option<u64>) -> Counted<'a> {
        Counted {
            ground,
            failed: vec![false; ground.pairs()],
            steps: 0,
            allowance,
        }
    }

    pub fn steps(&self) -> u64 {
        self.steps
    }

    /// By the number of the pair.
    pub fn failed(&self) -> &[bool] {
        &self.failed
    }

    /// The pairs entered and undecided stand one upon another, each led to by
    /// the one below; when END is on top they are the path, and when the walk stops
    /// they are the open pairs.
    pub fn attempt(&mut self, start: usize) -> Attempt {
        let mut path = Vec::new();
        let first = Pair::new(0, start);
        let mut allowed = self.try_pair(first, &mut path);
        while let (true, Some(top)) = (allowed, path.last_mut()) {
            let pair = top.pair;
            if self.ground.is_end(pair) {
                return Attempt::Match(pairs_of(&path));
            }
            match self.ground.tried(pair, top.turns) {
                Some(next) => {
                    top.turns += 1;
                    allowed = self.try_pair(next, &mut path);
                }
                None => {
                    self.failed[self.ground.number(pair)] = true;
                    path.pop();
                }
            }
        }
        match allowed {
            true => Attempt::NoMatch,
            false => Attempt::Unfinished(pairs_of(&path)),
        }
    }

    /// A pair that has failed is not entered again, whatever is left of the
    /// allowance; any other is, for one step. False if that step would pass the
    /// allowance: then nothing is entered or counted.
    fn try_pair(&mut self, pair: Pair, path: &mut Vec<Entered>) -> bool {
        if self.failed[self.ground.number(pair)] {
            return true;
        }
        if self.allowance == Some(self.steps) {
            return false;
        }
        self.steps += 1;
        path.push(Entered { pair, turns: 0 });
        true
    }
}

fn pairs_of(path: &[Entered]) -> Vec<Pair> {
    path.iter().map(|entered| entered.pair).collect()
}

/// Plain backtracking: every pair tried is entered. It has no allowance; but it may
/// take exponentially many steps, so it gives up when it has taken as many as its
/// patience lasts for and would take another.
pub struct Plain<'a> {
    ground: Ground<'a>,
    patience: u64,
    steps: u64,
}

impl<'a> Plain<'a> {
    pub fn new(ground: Ground<'a>, patience: u64) -> Plain<'a> {
        Plain {
            ground,
            patience,
            steps: 0,
        }
    }

    pub fn steps(&self) -> u64 {
        self.steps
    }

    pub fn attempt(&mut self, start: usize) -> Attempt {
        self.attempt_from(Pair::new(0, start))
    }

    /// The pairs that wait to be tried, the next one on top, each with the
    /// number of pairs that lead to it.
    pub fn attempt_from(&mut self, first: Pair) -> Attempt {
        let mut waiting = vec![(first, 0)];
        let mut path: Vec<Pair> = Vec::new();
        while let Some((pair, depth)) = waiting.pop() {
            if self.steps == self.patience {
                return Attempt::GaveUp;
            }
            self.steps += 1;
            path.truncate(depth);
            path.push(pair);
            if self.ground.is_end(pair) {
                return Attempt::Match(path);
            }
            let turns = (0..).map_while(|turn| self.ground.tried(pair, turn));
            let mut tried: Vec<(Pair, usize)> = turns.map(|next| (next, depth + 1)).collect();
            tried.reverse();
            waiting.append(&mut tried);
        }
        Attempt::NoMatch
    }
}
