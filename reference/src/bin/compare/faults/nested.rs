//! Faults of repetitions of bodies that can take no row (document 02, R-3): refused where
//! they should not be, or the other way round, another factor, flags lost or packed in
//! another order, and rounds that end in another way. A round that would go on without a
//! row is not tried: such a walk has no end.

use super::{change_bodies, TEXT};
use super::{ends, judges, reads, Fault, Search, Wrong};
use reference::pattern::{self, Factor, Pattern, Primary, MOST_PLACES};
use reference::places::{Place, Way};
use reference::query;
use reference::search::Accepted;

const fn lays(name: &'static str, about: &'static str, wrong: fn(&mut Accepted)) -> Fault {
    Fault {
        name,
        about,
        wrong: Wrong::Lays(wrong),
    }
}

/// Changes all ways of all places.
fn change_ways(accepted: &mut Accepted, change: fn(&mut Way)) {
    for place in &mut accepted.places {
        match place {
            Place::Letter { next, .. } | Place::First { next } | Place::Last { next } => {
                change(next);
            }
            Place::Fork { ways } => ways.iter_mut().for_each(change),
            Place::End => {}
        }
    }
}

/// How many unbounded repetitions are in one another, whatever their bodies.
fn unbounded(tree: &Pattern) -> usize {
    let of_factor = |factor: &Factor| {
        let inside = match &factor.primary {
            Primary::Group(inner) => unbounded(inner),
            _ => 0,
        };
        inside + usize::from(factor.quantifier.high.is_none())
    };
    let factors = tree.branches.iter().flat_map(|branch| &branch.factors);
    factors.map(of_factor).max().unwrap_or(0)
}

fn tree(query: &[u8]) -> Option<Pattern> {
    let query = query::read(query).ok()?;
    pattern::read(&query.text)
}

impl Search<'_> {
    /// The nesting of the pattern, where the search ended.
    fn nesting(&self) -> usize {
        let accepted = self.accepted.as_ref().filter(|_| self.ended());
        accepted.map_or(0, |accepted| accepted.pattern.nesting())
    }

    /// The bits of each place of the notes, to be changed: so many as F.
    fn change_flags(&mut self, change: fn(&mut [bool])) {
        let Some(accepted) = self.accepted.clone().filter(|_| self.ended()) else {
            return;
        };
        let factor = accepted.factor();
        let notes = self.lent.notes.items_mut();
        for first in (0..accepted.ground().pairs()).step_by(factor) {
            let bit = |at: usize| notes[at / 8] >> (at % 8) & 1 == 1;
            let mut bits: Vec<bool> = (first..first + factor).map(bit).collect();
            change(&mut bits);
            for (at, bit) in (first..).zip(bits) {
                notes[at / 8] = notes[at / 8] & !(1 << (at % 8)) | u8::from(bit) << (at % 8);
            }
        }
    }
}

pub static FAULTS: [Fault; 19] = [
    ends(
        "nested-refused",
        "a repetition of nothing is still a 6",
        |search| {
            if search.nesting() > 0 {
                search.refuse(6);
            }
        },
    ),
    ends(
        "nested-two",
        "more than two in one another are a 6",
        |search| {
            if search.nesting() > 2 {
                search.refuse(6);
            }
        },
    ),
    judges(
        "nested-four",
        "four in one another are no 6",
        |returned, lent| {
            let tree = tree(lent.query.items());
            if let (6, Some(tree)) = (returned[0], tree.filter(|tree| tree.nesting() == 4)) {
                let places = tree.count_with_end() as u64;
                *returned = [0, places, 1, 2 * 16 * places, 0, 16];
            }
        },
    ),
    judges(
        "nested-any",
        "more than three unbounded repetitions in one another are a 6",
        |returned, lent| {
            if returned[0] == 0 && tree(lent.query.items()).is_some_and(|it| unbounded(&it) > 3) {
                *returned = [6, 0, 0, 0, 0, 0];
            }
        },
    ),
    judges("nested-late", "7 comes before 6", |returned, lent| {
        let many = |tree: Pattern| tree.count_with_end() > MOST_PLACES;
        if returned[0] == 6 && tree(lent.query.items()).is_some_and(many) {
            returned[0] = 7;
        }
    }),
    judges(
        "nested-pairs",
        "room tells the pairs without the factor",
        |returned, _| {
            if returned[0] == 0 {
                returned[3] /= returned[5];
            }
        },
    ),
    judges(
        "nested-factor",
        "room tells the nesting for the factor",
        |returned, _| {
            if returned[0] == 0 {
                returned[5] = returned[5].ilog2().into();
            }
        },
    ),
    judges(
        "nested-factor-1",
        "room tells a factor of 1",
        |returned, _| {
            returned[5] = returned[5].min(1);
        },
    ),
    judges(
        "nested-flags",
        "the factor is by the most flags that a place has",
        |returned, lent| {
            let query = lent.query.items();
            if let Ok(accepted) = reference::search::accept(query, lent.rows.items()) {
                let most = accepted.rounds.iter().map(Vec::len).max().unwrap_or(0);
                returned[3] = returned[3] / returned[5] << most;
                returned[5] = 1 << most;
            }
        },
    ),
    ends(
        "nested-notes-8",
        "notes are always measured with a factor of 8",
        |search| {
            if let Some(accepted) = search.accepted.as_ref().filter(|_| search.ended()) {
                let bits = accepted.ground().pairs() / accepted.factor() * 8;
                if search.lent.notes.len() < bits.div_ceil(8) {
                    search.refuse(11);
                }
            }
        },
    ),
    ends(
        "nested-trail",
        "the trail is cleared without the factor",
        |search| {
            if let (1.., Some((_, pairs))) = (search.nesting(), search.sizes()) {
                let used = pairs >> search.nesting();
                let noise = &search.before.trail.items()[used..pairs];
                search.lent.trail.items_mut()[used..pairs].copy_from_slice(noise);
            }
        },
    ),
    ends(
        "nested-packed-high",
        "flags are packed from the highest bit down",
        |search| {
            search.change_flags(|bits| match bits.len() {
                4 => bits.swap(1, 2),
                8 => {
                    bits.swap(1, 4);
                    bits.swap(3, 6);
                }
                _ => {}
            });
        },
    ),
    ends(
        "nested-flag-lost",
        "a failed pair is noted without its flags",
        |search| {
            search.change_flags(|bits| {
                bits[0] = bits.contains(&true);
                bits[1..].fill(false);
            });
        },
    ),
    ends(
        "nested-flag-all",
        "a failed pair is noted for all flags",
        |search| {
            search.change_flags(|bits| {
                let any = bits.contains(&true);
                bits.fill(any);
            });
        },
    ),
    lays(
        "nested-once",
        "a repetition of nothing makes one round at most",
        |accepted| {
            change_ways(accepted, |way| {
                while let Way::Round { behind, .. } = way {
                    *way = (**behind).clone();
                }
            });
        },
    ),
    lays(
        "nested-innermost",
        "only the innermost round is told of a row",
        |accepted| {
            for rounds in &mut accepted.rounds {
                rounds.drain(..rounds.len().saturating_sub(1));
            }
        },
    ),
    lays(
        "nested-outermost",
        "only the outermost round is told of a row",
        |accepted| {
            for rounds in &mut accepted.rounds {
                rounds.truncate(1);
            }
        },
    ),
    lays(
        "nested-order",
        "the innermost flag is packed first",
        |accepted| {
            for rounds in &mut accepted.rounds {
                rounds.reverse();
            }
        },
    ),
    reads(
        "nested-option",
        "a reluctant body of a repetition is read as a greedy one",
        |query, _| {
            change_bodies(query, TEXT, |text| {
                if text.starts_with(b"(A??)*") {
                    text.splice(..6, *b"(A?)* ");
                }
            });
        },
    ),
];
