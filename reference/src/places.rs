//! The places: a pattern unrolled and numbered from left to right, each place
//! with the place it leads to, each fork with its ways in the order of
//! preferment. From document 01, "Places and preferment", and document 02, R-3: where a
//! round of a repetition ends whose body can take no row, the way depends on whether the
//! round has taken one. Only for patterns that are not refused: few enough places.

use crate::pattern::{Branch, Factor, Pattern, Primary};

#[derive(Clone, Debug, PartialEq, Eq)]
pub enum Place {
    Letter { letter: u8, next: Way },
    First { next: Way },
    Last { next: Way },
    Fork { ways: Vec<Way> },
    End,
}

/// Where one goes from a place.
#[derive(Clone, Debug, PartialEq, Eq)]
pub enum Way {
    To(usize),
    /// A round of a repetition ends. If it has taken a row, one goes to the repetition's
    /// fork; if it has taken none, the repetition ends with it, and one goes behind it.
    Round {
        of: Repetition,
        fork: usize,
        behind: Box<Way>,
    },
}

impl From<usize> for Way {
    fn from(place: usize) -> Way {
        Way::To(place)
    }
}

/// A repetition whose body can take no row; each that is laid has a number of its own.
pub type Repetition = usize;

/// All places of a pattern, END the last; their number is P.
pub fn unroll(pattern: &Pattern) -> Vec<Place> {
    lay(pattern).0
}

/// The places, and for each the repetitions whose copy behind the fork holds it, the
/// outermost first.
pub fn lay(pattern: &Pattern) -> (Vec<Place>, Vec<Vec<Repetition>>) {
    let mut layer = Layer::default();
    let end = whole(pattern.count());
    layer.pattern(pattern, &Way::To(end));
    layer.push(Place::End);
    (layer.places, layer.rounds)
}

fn whole(count: u128) -> usize {
    usize::try_from(count).expect("a pattern that is not refused has few places")
}

/// The place by which one enters something laid at `start`: its first place,
/// or, where it has no places at all, whatever lies behind it.
fn entry(start: usize, count: usize, behind: &Way) -> Way {
    match count {
        0 => behind.clone(),
        _ => Way::To(start),
    }
}

/// Lays places one after another. `behind` is where one goes who is through
/// with what is being laid; it need not be the next number, since a branch goes
/// behind its alternation and a repeated copy goes back to its fork.
#[derive(Default)]
struct Layer {
    places: Vec<Place>,
    rounds: Vec<Vec<Repetition>>,
    /// The repetitions in whose copy behind the fork the next place lies.
    inside: Vec<Repetition>,
    repetitions: usize,
}

impl Layer {
    fn next_number(&self) -> usize {
        self.places.len()
    }

    fn push(&mut self, place: Place) {
        self.places.push(place);
        self.rounds.push(self.inside.clone());
    }

    fn pattern(&mut self, pattern: &Pattern, behind: &Way) {
        if pattern.branches.len() >= 2 {
            let ways = self.branch_entries(pattern, behind);
            self.push(Place::Fork { ways });
        }
        for branch in &pattern.branches {
            self.branch(branch, behind);
        }
    }

    /// Where the branches begin that are laid right behind their fork.
    fn branch_entries(&self, pattern: &Pattern, behind: &Way) -> Vec<Way> {
        let mut start = self.next_number() + 1;
        let mut entries = Vec::new();
        for branch in &pattern.branches {
            let count = whole(branch.count());
            entries.push(entry(start, count, behind));
            start += count;
        }
        entries
    }

    fn branch(&mut self, branch: &Branch, behind: &Way) {
        let mut left = whole(branch.count());
        for factor in &branch.factors {
            let count = whole(factor.count());
            left -= count;
            let rest = self.next_number() + count;
            self.factor(factor, &entry(rest, left, behind));
        }
    }

    fn factor(&mut self, factor: &Factor, behind: &Way) {
        let quantifier = factor.quantifier;
        let body = whole(factor.primary.count());
        let mut left = whole(factor.count());
        for _ in 0..quantifier.low {
            left -= body;
            let rest = self.next_number() + body;
            self.primary(&factor.primary, &entry(rest, left, behind));
        }
        let Some(high) = quantifier.high else {
            self.unbounded(factor, behind);
            return;
        };
        for _ in quantifier.low..high {
            left -= 1 + body;
            let rest = self.next_number() + 1 + body;
            let behind_copy = entry(rest, left, behind);
            self.fork(factor, &behind_copy, behind);
            self.primary(&factor.primary, &behind_copy);
        }
    }

    /// A fork and a copy that leads back to it; of a body that can take no row only where
    /// the round has taken one.
    fn unbounded(&mut self, factor: &Factor, behind: &Way) {
        let fork = self.next_number();
        if !factor.repeats_nothing() {
            self.fork(factor, &Way::To(fork), behind);
            self.primary(&factor.primary, &Way::To(fork));
            return;
        }
        let of = self.repetitions;
        self.repetitions += 1;
        let round = Way::Round {
            of,
            fork,
            behind: Box::new(behind.clone()),
        };
        self.fork(factor, &round, behind);
        self.inside.push(of);
        self.primary(&factor.primary, &round);
        self.inside.pop();
    }

    /// A quantifier's fork: into the copy that follows it, or straight behind
    /// the whole factor. A reluctant one would rather leave.
    fn fork(&mut self, factor: &Factor, behind_copy: &Way, behind_factor: &Way) {
        let copy = self.next_number() + 1;
        let into = entry(copy, whole(factor.primary.count()), behind_copy);
        let ways = if factor.quantifier.reluctant {
            vec![behind_factor.clone(), into]
        } else {
            vec![into, behind_factor.clone()]
        };
        self.push(Place::Fork { ways });
    }

    fn primary(&mut self, primary: &Primary, behind: &Way) {
        let next = behind.clone();
        match primary {
            Primary::Letter(letter) => self.push(Place::Letter {
                letter: *letter,
                next,
            }),
            Primary::First => self.push(Place::First { next }),
            Primary::Last => self.push(Place::Last { next }),
            Primary::Empty => {}
            Primary::Group(inner) => self.pattern(inner, behind),
        }
    }
}
