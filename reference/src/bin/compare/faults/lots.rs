//! Faults of searches in lots (document 02, R-11): one that takes other rows for present,
//! counts a waiting entry in another way, forgets what it had noted or how it ended, hands
//! matches out twice or late, judges the refusals in another order, lets a refused call
//! change something, overlooks a look ahead, or trusts a feed that no call wrote.

use super::{change_bodies, Fault, Wrong};
use crate::engine::{Asked, Six};
use crate::lent::Lent;
use reference::generate::conditions;
use reference::lots::{
    AHEAD, ALLOWANCE, ANSWER, BACKWARDS, BEGUN, LABELS, LARGEST, MATCHES, OPENED, PRESENT, ROW,
    STEPS, WAITS,
};
use reference::query::{self, COMPARE, COMPARISON_BYTES, CONDITION, DEFINE, TEXT};
use reference::search::{self, Accepted, DONE, MOST_ROWS, SPENT, STOPPED, STUCK};
use std::cell::Cell;

/// A call that was right so far.
pub struct Fed<'a> {
    pub before: &'a Lent,
    pub lent: &'a mut Lent,
    pub returned: &'a mut Six,
    pub asked: Asked,
    /// What the engine keeps beside the feed, 0 at first.
    pub kept: &'a Cell<u64>,
}

impl Fed<'_> {
    fn is(&self, answer: u8) -> bool {
        self.returned[0] == u64::from(answer)
    }

    /// A word of the feed before the call.
    fn was(&self, word: usize) -> u64 {
        self.before.feed()[word]
    }

    /// The answer that the search had ended with before the call.
    fn ended(&self) -> Option<u8> {
        let answer = self.was(ANSWER) as u8;
        (self.was(BEGUN) == 1 && answer != WAITS).then_some(answer)
    }

    /// The call was not refused, and the search had not ended before.
    fn walked(&self) -> bool {
        let answer = self.returned[0] as u8;
        self.ended().is_none() && (search::was_walked(answer) || answer == WAITS)
    }

    fn refused(&self) -> bool {
        self.ended().is_none() && !self.walked()
    }

    fn refuse(&mut self, answer: u8) {
        *self.lent = self.before.clone();
        *self.returned = [answer.into(), 0, 0, 0, 0, 0];
    }

    /// The query, where it has none of the answers 1 to 9.
    fn accepted(&self) -> Option<Accepted> {
        search::accept(self.before.query.items(), &[]).ok()
    }

    /// P(n+1)F of a query that is not refused.
    fn pairs(&self, n: u64) -> usize {
        self.accepted().map_or(0, |accepted| {
            accepted.places.len() * accepted.factor() * (n as usize + 1)
        })
    }

    fn per_match(&self) -> usize {
        self.accepted()
            .map_or(3, |accepted| accepted.numbers_per_match())
    }

    /// Rows that the slice holds.
    fn slice(&self) -> u64 {
        let columns = query::read(self.before.query.items()).map_or(1, |it| it.columns);
        (self.before.rows.len() / columns) as u64
    }

    fn too_many(&self) -> bool {
        self.asked.present > self.was(LARGEST) || self.asked.present > self.slice()
    }

    /// Changes a count both in what is returned and in the feed.
    fn count(&mut self, returned: usize, word: usize, change: impl Fn(u64) -> u64) {
        self.returned[returned] = change(self.returned[returned]);
        self.lent.feed_mut()[word] = change(self.lent.feed()[word]);
    }

    /// Puts what was noted before out of the notes, or back into them.
    fn forget_notes(&mut self) {
        let bytes = self.pairs(self.was(LARGEST)).div_ceil(8);
        let before = &self.before.notes.items()[..bytes];
        for (byte, was) in self.lent.notes.items_mut().iter_mut().zip(before) {
            *byte &= !was;
        }
    }

    /// Writes the last match of the calls before once more behind the report.
    fn hand_out_again(&mut self) {
        let (of_one, matches) = (self.per_match(), self.returned[1] as usize);
        let last = self.was(MATCHES) as usize;
        let (from, to) = ((last - 1) * of_one, matches * of_one);
        let one = self.lent.numbers.items()[from..from + of_one].to_vec();
        let (taken, labels) = (one[2] as usize, self.returned[2] as usize);
        let fits = to + of_one <= self.lent.numbers.len();
        if fits && labels + taken <= self.lent.labels.len() {
            let behind = self.was(LABELS) as usize;
            let numbers = &mut self.lent.numbers.items_mut()[to..to + of_one];
            numbers.copy_from_slice(&one);
            numbers[0] = matches as i64 + 1;
            let labelled = &mut self.lent.labels.items_mut()[..labels + taken];
            labelled.copy_within(behind - taken..behind, labels);
            self.count(1, MATCHES, |count| count + 1);
            self.count(2, LABELS, |count| count + taken as u64);
        }
    }

    /// Takes the last match of this call back.
    fn unwrite_last(&mut self) {
        let (of_one, matches) = (self.per_match(), self.returned[1] as usize);
        let (from, to) = ((matches - 1) * of_one, matches * of_one);
        let taken = self.lent.numbers.items()[from + 2] as u64;
        let noise = &self.before.numbers.items()[from..to];
        self.lent.numbers.items_mut()[from..to].copy_from_slice(noise);
        let labels = self.returned[2] as usize;
        let own = labels - taken as usize..labels;
        let noise = &self.before.labels.items()[own.clone()];
        self.lent.labels.items_mut()[own].copy_from_slice(noise);
        self.count(1, MATCHES, |count| count - 1);
        self.count(2, LABELS, |count| count - taken);
    }

    /// The numbers of this call's matches, to be changed.
    fn own_matches(&mut self) -> impl Iterator<Item = &mut [i64]> {
        let (of_one, before) = (self.per_match(), self.was(MATCHES) as usize);
        let written = self.returned[1] as usize * of_one;
        let numbers = &mut self.lent.numbers.items_mut()[..written];
        numbers.chunks_mut(of_one).skip(before)
    }
}

/// Changes the comparisons of all records of kind 3 and of kind 6.
fn change_offsets(query: &mut Vec<u8>, kinds: &[u16], change: fn(&mut [u8])) {
    if kinds.contains(&DEFINE) {
        change_bodies(query, DEFINE, |body| {
            let comparisons = body.get_mut(2..).unwrap_or(&mut []);
            comparisons
                .chunks_exact_mut(COMPARISON_BYTES)
                .for_each(change);
        });
    }
    if kinds.contains(&CONDITION) {
        change_bodies(query, CONDITION, |body| {
            let mut entries = conditions::entries_of(body);
            let whole = |entry: &&mut conditions::Entry| entry.len() > COMPARISON_BYTES;
            let compared = entries.iter_mut().filter(whole);
            for entry in compared.filter(|entry| entry[0] == COMPARE) {
                change(&mut entry[1..]);
            }
            if let (Some(&letter), false) = (body.first(), entries.is_empty()) {
                *body = conditions::body(letter, &entries);
            }
        });
    }
}

/// A query of which neither 1 to 9 nor a cut record comes in the way.
fn is_good(lent: &Lent) -> bool {
    search::accept(lent.query.items(), &[]).is_ok()
}

/// Replaces the query by a changed one of the same length.
fn reread(lent: &mut Lent, change: impl FnOnce(&mut Vec<u8>)) {
    if is_good(lent) {
        let mut query = lent.query.items().to_vec();
        change(&mut query);
        lent.query.items_mut().copy_from_slice(&query);
    }
}

const LEFT_OFFSET: usize = 1;
const RIGHT_KIND: usize = 3;
const RIGHT_OFFSET: usize = 5;

fn no_later(byte: &mut u8) {
    *byte = (*byte as i8).min(0) as u8;
}

const fn names(name: &'static str, about: &'static str, wrong: fn(&mut Lent)) -> Fault {
    Fault {
        name,
        about,
        wrong: Wrong::Names(wrong),
    }
}

const fn asks(name: &'static str, about: &'static str, wrong: fn(&mut Lent, &mut Asked)) -> Fault {
    Fault {
        name,
        about,
        wrong: Wrong::Asks(wrong),
    }
}

const fn feeds(name: &'static str, about: &'static str, wrong: fn(&mut Fed)) -> Fault {
    Fault {
        name,
        about,
        wrong: Wrong::Feeds(wrong),
    }
}

const fn trusts(name: &'static str, about: &'static str, wrong: fn(&mut Fed)) -> Fault {
    Fault {
        name,
        about,
        wrong: Wrong::Trusts(wrong),
    }
}

pub static FAULTS: [Fault; 38] = [
    names(
        "lots-begin-row",
        "naming leaves the start as it was lent",
        |lent| {
            let noise = lent.labels.len() as u64;
            lent.feed_mut()[ROW] = noise;
        },
    ),
    names(
        "lots-begin-bits",
        "naming keeps 32 bits of the allowance",
        |lent| lent.feed_mut()[ALLOWANCE] &= 0xFFFF_FFFF,
    ),
    asks("lots-fewer", "fewer rows are accepted", |lent, asked| {
        asked.present = asked.present.max(lent.feed()[PRESENT]);
    }),
    asks(
        "lots-row-early",
        "the row behind those present is read",
        |lent, asked| {
            let columns = query::read(lent.query.items()).map_or(1, |it| it.columns);
            let held = (lent.rows.len() / columns) as u64;
            if asked.present < held.min(lent.feed()[LARGEST]) && !asked.last {
                asked.present += 1;
            }
        },
    ),
    asks(
        "lots-last-row",
        "a last call brings no rows",
        |lent, asked| {
            if asked.last && lent.feed()[BEGUN] == 1 {
                asked.present = asked.present.min(lent.feed()[PRESENT]);
            }
        },
    ),
    asks(
        "lots-allowance-anew",
        "each call has the whole allowance",
        |lent, _| {
            let steps = lent.feed()[STEPS];
            let word = &mut lent.feed_mut()[ALLOWANCE];
            *word = word.saturating_add(steps);
        },
    ),
    asks(
        "lots-ahead-right",
        "no 17 for the offset of a right side",
        |lent, _| {
            reread(lent, |query| {
                change_offsets(query, &[DEFINE, CONDITION], |bytes| {
                    if bytes[RIGHT_KIND] == 1 {
                        no_later(&mut bytes[RIGHT_OFFSET]);
                    }
                });
            });
        },
    ),
    asks(
        "lots-ahead-left",
        "no 17 for the offset of a left side",
        |lent, _| {
            reread(lent, |query| {
                change_offsets(query, &[DEFINE, CONDITION], |bytes| {
                    no_later(&mut bytes[LEFT_OFFSET]);
                });
            });
        },
    ),
    asks(
        "lots-ahead-condition",
        "no 17 for entries of kind 6",
        |lent, _| {
            reread(lent, |query| {
                change_offsets(query, &[CONDITION], |bytes| {
                    no_later(&mut bytes[LEFT_OFFSET]);
                    no_later(&mut bytes[RIGHT_OFFSET]);
                });
            });
        },
    ),
    asks("lots-ahead-anchor", "no 17 for `$`", |lent, _| {
        reread(lent, |query| {
            change_bodies(query, TEXT, |text| {
                for byte in text.iter_mut().filter(|byte| **byte == b'$') {
                    *byte = b'^';
                }
            });
        });
    }),
    feeds(
        "lots-ahead-stranger",
        "17 for a letter outside the pattern",
        |fed| {
            let Some(accepted) = fed.accepted().filter(|_| !fed.is(AHEAD)) else {
                return;
            };
            let later = accepted.query.defines.iter().any(|define| {
                let offsets = define.comparisons().into_iter().flat_map(|it| {
                    let right = it.right.map_or(0, |right| right.offset);
                    [it.left.offset, right]
                });
                offsets.max() > Some(0)
            });
            if later && fed.ended().is_none() {
                fed.refuse(AHEAD);
            }
        },
    ),
    feeds("lots-ahead-late", "10 comes before 17", |fed| {
        if fed.is(AHEAD) && fed.too_many() {
            fed.refuse(10);
        }
    }),
    feeds(
        "lots-wait-twice",
        "an entry that waited is counted again",
        |fed| {
            if fed.walked() && fed.was(OPENED) > 0 {
                fed.count(3, STEPS, |steps| steps + 1);
            }
        },
    ),
    feeds(
        "lots-wait-uncounted",
        "an entry is counted when it has got its row",
        |fed| {
            if fed.is(WAITS) && fed.lent.feed()[OPENED] > 0 {
                fed.count(3, STEPS, |steps| steps - 1);
            }
        },
    ),
    feeds(
        "lots-notes-anew",
        "the second call clears the notes",
        |fed| {
            if fed.walked() && fed.was(BEGUN) == 1 {
                fed.forget_notes();
            }
        },
    ),
    feeds(
        "lots-notes-late",
        "a first call without rows leaves the notes as they were lent",
        |fed| {
            if fed.walked() && fed.asked.present == 0 {
                fed.lent.notes = fed.before.notes.clone();
            }
        },
    ),
    feeds(
        "lots-notes-present",
        "the first call clears the notes of the rows present alone",
        |fed| {
            if fed.walked() && fed.was(BEGUN) == 0 {
                let bytes = fed.pairs(fed.asked.present).div_ceil(8);
                let all = fed.pairs(fed.was(LARGEST)).div_ceil(8);
                let noise = &fed.before.notes.items()[bytes..all];
                fed.lent.notes.items_mut()[bytes..all].copy_from_slice(noise);
            }
        },
    ),
    feeds(
        "lots-trail-present",
        "by the end the trail is 0 for the rows present alone",
        |fed| {
            if fed.walked() && !fed.is(WAITS) {
                let (present, all) = (fed.pairs(fed.asked.present), fed.pairs(fed.was(LARGEST)));
                let left = &fed.before.trail.items()[present..all];
                fed.lent.trail.items_mut()[present..all].copy_from_slice(left);
            }
        },
    ),
    feeds(
        "lots-trail-beyond",
        "23 changes the trail behind the pairs",
        |fed| {
            if fed.is(WAITS) {
                let behind = fed.pairs(fed.was(LARGEST)) as isize;
                *fed.lent.trail.at_mut(behind) ^= 1;
            }
        },
    ),
    feeds(
        "lots-match-twice",
        "the last match of a call is handed out again by the next",
        |fed| {
            if fed.walked() && fed.was(MATCHES) > 0 {
                fed.hand_out_again();
            }
        },
    ),
    feeds(
        "lots-match-late",
        "a match is handed out when the row behind it is there",
        |fed| {
            let own = fed.returned[1] > fed.was(MATCHES);
            let of_one = fed.per_match();
            if fed.is(WAITS) && own {
                let from = (fed.returned[1] as usize - 1) * of_one;
                let last = &fed.lent.numbers.items()[from..];
                if (last[1] + last[2]) as u64 == fed.asked.present {
                    fed.unwrite_last();
                }
            }
        },
    ),
    feeds(
        "lots-numbered-anew",
        "matches are numbered from 1 in each call",
        |fed| {
            if fed.walked() {
                for (index, one) in fed.own_matches().enumerate() {
                    one[0] = index as i64 + 1;
                }
            }
        },
    ),
    feeds(
        "lots-own-counts",
        "a call returns the matches of its own",
        |fed| {
            if fed.walked() {
                fed.returned[1] -= fed.was(MATCHES);
            }
        },
    ),
    feeds(
        "lots-done-early",
        "0 as soon as the largest number of rows is present",
        |fed| {
            if fed.is(WAITS) && fed.asked.present == fed.was(LARGEST) {
                fed.returned[0] = DONE.into();
            }
        },
    ),
    feeds("lots-exchanged", "23 and 0 are exchanged", |fed| {
        if fed.is(WAITS) || fed.is(DONE) {
            fed.returned[0] = u64::from(WAITS) - fed.returned[0];
        }
    }),
    feeds(
        "lots-waits-late",
        "16 where the allowance is used up and the next row is not present",
        |fed| {
            if fed.is(WAITS) && fed.was(ALLOWANCE) == fed.returned[3] {
                fed.returned[0] = SPENT.into();
            }
        },
    ),
    feeds(
        "lots-stop-forgotten",
        "13 is told once, and 21 afterwards",
        |fed| {
            if fed.ended() == Some(STOPPED) {
                fed.refuse(BACKWARDS);
            }
        },
    ),
    feeds(
        "lots-stuck-forgotten",
        "a last call after 15 gives 0",
        |fed| {
            if fed.ended() == Some(STUCK) && fed.asked.last {
                fed.returned[0] = DONE.into();
            }
        },
    ),
    feeds(
        "lots-spent-zeros",
        "16 stays the answer, but with zeros",
        |fed| {
            if fed.ended() == Some(SPENT) {
                fed.refuse(SPENT);
            }
        },
    ),
    feeds(
        "lots-stop-judged",
        "after 13, 15 and 16 a count that is too large gives 10",
        |fed| {
            if fed.ended().is_some_and(|answer| answer != DONE) && fed.too_many() {
                fed.refuse(10);
            }
        },
    ),
    feeds(
        "lots-end-judged",
        "after the end a count that is too large gives 10",
        |fed| {
            if fed.ended() == Some(DONE) && fed.too_many() {
                fed.refuse(10);
            }
        },
    ),
    feeds(
        "lots-end-again",
        "a second last call gives 0 again",
        |fed| {
            if fed.ended() == Some(DONE) && fed.asked.last {
                let counts = [MATCHES, LABELS, STEPS].map(|word| fed.was(word));
                *fed.returned = [0, counts[0], counts[1], counts[2], 0, 0];
            }
        },
    ),
    feeds(
        "lots-refused-last",
        "a refused last call declares the end",
        |fed| {
            if fed.kept.get() == 1 {
                fed.refuse(BACKWARDS);
            }
            if fed.refused() && fed.asked.last {
                fed.kept.set(1);
            }
        },
    ),
    feeds(
        "lots-refused-count",
        "the count of a refused call is kept",
        |fed| {
            if fed.walked() && fed.asked.present < fed.kept.get() {
                fed.refuse(BACKWARDS);
            } else if fed.is(10) && fed.asked.present <= fed.was(LARGEST) {
                fed.kept.set(fed.kept.get().max(fed.asked.present));
            }
        },
    ),
    feeds(
        "lots-fewer-first",
        "21 for fewer rows comes before 10",
        |fed| {
            if fed.is(10) && fed.asked.present < fed.was(PRESENT) {
                fed.refuse(BACKWARDS);
            }
        },
    ),
    feeds("lots-again", "the same count again is 21", |fed| {
        let again = fed.was(BEGUN) == 1 && fed.asked.present == fed.was(PRESENT);
        if fed.walked() && again && !fed.asked.last {
            fed.refuse(BACKWARDS);
        }
    }),
    feeds(
        "lots-slice",
        "10 for a slice of more than 4,096 rows",
        |fed| {
            if fed.walked() && fed.slice() > MOST_ROWS as u64 {
                fed.refuse(10);
            }
        },
    ),
    trusts(
        "feed-trusted",
        "labels are written where any feed says",
        |fed| {
            let (at, length) = (fed.was(LABELS), fed.lent.labels.len() as u64);
            if (length..length + 16).contains(&at) && fed.was(BEGUN) == 1 {
                *fed.lent.labels.at_mut(at as isize) ^= 1;
            }
        },
    ),
];
