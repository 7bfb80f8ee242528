//! Deliberate faults, to prove that the comparison finds such ones: an engine
//! that does one thing wrong, by reading another query than it was lent, by going on
//! at another row after a match, by stopping elsewhere, or by changing what it returns
//! or leaves. Each has to be found and shrunk. Those of searches within an allowance
//! stand in `allowance`, those of averages in `average`, those of conditions in
//! `condition`, those of tests of a letter in `tested`, those of the release desk in
//! `desk`, those of repetitions of nothing in `nested`, those of the depot-by-month
//! table in `depots`, those of searches in lots in `lots`.

mod allowance;
mod average;
mod condition;
mod depots;
mod desk;
mod lots;
mod nested;
mod tested;

use crate::engine::{six, Asked, Engine, Six};
use crate::lent::{Guarded, Lent};
use reference::depots::Reports;
use reference::generate::Random;
use reference::letters::Held;
use reference::log::Event;
use reference::lots::{Feed, ALLOWANCE, LARGEST};
use reference::pattern;
use reference::query::{
    self, Function, Skip, COMPARISON_BYTES, DEFINE, FIRST, MEASURE, MIN, MOST_TEXT, PAST_LAST_ROW,
    SHAPE, SKIP, TEXT, TO_FIRST, TO_LAST, TO_NEXT_ROW,
};
use reference::readings;
use reference::search::{self, next_start, Accepted, Rule, DONE, STOPPED, STUCK};
use std::cell::Cell;

pub struct Fault {
    pub name: &'static str,
    pub about: &'static str,
    wrong: Wrong,
}

impl Fault {
    /// Whether the stream of this name has to show it: those of its own call or its own
    /// sort of query, or all but those of searches in lots.
    pub fn is_shown_by(&self, stream: &str) -> bool {
        let fronts: &[&str] = match self.wrong {
            Wrong::Tests(_) => &["tested", "tests"],
            Wrong::Decides(_) => &["desk", "logs"],
            Wrong::Begins(_) | Wrong::Takes(_) => &["depots"],
            Wrong::Means(_) => &["condition"],
            Wrong::Lays(_) => &["nested"],
            Wrong::Names(_) | Wrong::Asks(_) | Wrong::Feeds(_) => &["lots"],
            Wrong::Trusts(_) => &["any-feed"],
            _ => return !stream.starts_with("lots") && stream != "any-feed",
        };
        fronts.iter().any(|front| stream.starts_with(front))
    }
}

enum Wrong {
    /// Reads another query or other rows.
    Reads(fn(&mut Vec<u8>, &mut Vec<i32>)),
    /// Goes on at another row after a match, in the modes 2 and 3. What the engine
    /// did is put away then, and the reference searches by this rule.
    GoesOn(Rule),
    /// Searches within another allowance than it was given, though it never tells more
    /// steps than that.
    Allows(fn(&Lent) -> Option<u64>),
    /// Stops with 16, once the allowance is used up, before an event of this sort too.
    Stops(fn(&Event) -> bool),
    /// Judges conditions in another way, and the reference searches by that.
    Means(condition::Holds),
    /// Lays the places in another way, and the reference searches on those.
    Lays(fn(&mut Accepted)),
    /// Ends a search in another way.
    Ends(fn(&mut Search)),
    /// Judges room in another way.
    Judges(fn(&mut Six, &Lent)),
    /// Tests a letter in another way.
    Tests(fn(&mut Six, &tested::Test)),
    /// Judges the rows of a log in another way.
    Decides(fn(&mut desk::Desk)),
    /// Begins a table in another way.
    Begins(fn(&mut depots::Taken)),
    /// Takes a partition into a table in another way.
    Takes(fn(&mut depots::Taken)),
    /// Names a search in lots in another way.
    Names(fn(&mut Lent)),
    /// Reads something else than it is called with, or another allowance, in a call of a
    /// search in lots.
    Asks(fn(&mut Lent, &mut Asked)),
    /// Answers a call of a search in lots in another way.
    Feeds(fn(&mut lots::Fed)),
    /// The same, with a feed that no call wrote.
    Trusts(fn(&mut lots::Fed)),
    /// Tells of a pattern's text in another way, by any call, where 1 to 3 do not apply.
    Tells(fn(&mut Six, &[u8])),
}

/// A search that was right so far.
struct Search<'a> {
    before: &'a Lent,
    lent: &'a mut Lent,
    returned: &'a mut Six,
    /// Where the query and the rows have none of the answers 1 to 10.
    accepted: Option<Accepted>,
}

/// An engine with one fault.
pub struct Faulty<'a> {
    engine: &'a dyn Engine,
    fault: &'a Fault,
    /// What a fault of searches in lots keeps from call to call.
    kept: Cell<u64>,
}

impl<'a> Faulty<'a> {
    pub fn new(engine: &'a dyn Engine, fault: &'a Fault) -> Faulty<'a> {
        Faulty {
            engine,
            fault,
            kept: Cell::new(0),
        }
    }
}

impl Engine for Faulty<'_> {
    fn search(&self, lent: &mut Lent) -> Six {
        let before = lent.clone();
        let mut returned = self.called(lent, |lent| self.allowed(lent));
        let mut search = Search {
            accepted: search::accept(before.query.items(), before.rows.items()).ok(),
            before: &before,
            lent,
            returned: &mut returned,
        };
        match self.fault.wrong {
            Wrong::Ends(wrong) => wrong(&mut search),
            Wrong::GoesOn(rule) => search.go_on_by(rule),
            Wrong::Stops(wrong) => search.stop_before(wrong),
            Wrong::Means(wrong) => search.mean(wrong),
            Wrong::Lays(wrong) => search.lay(wrong),
            _ => {}
        }
        self.told(&mut returned, &before);
        returned
    }

    fn room(&self, lent: &mut Lent) -> Six {
        let mut returned = self.called(lent, |lent| self.engine.room(lent));
        if let Wrong::Judges(wrong) = self.fault.wrong {
            wrong(&mut returned, lent);
        }
        self.told(&mut returned, lent);
        returned
    }

    fn test(&self, lent: &mut Lent, letter: u8, row: u64) -> Six {
        let mut returned = self.called(lent, |lent| self.engine.test(lent, letter, row));
        if let Wrong::Tests(wrong) = self.fault.wrong {
            wrong(&mut returned, &tested::Test::new(lent, letter, row));
        }
        returned
    }

    fn desk(&self, lent: &mut Lent) -> Six {
        let before = lent.clone();
        let mut returned = self.called(lent, |lent| self.engine.desk(lent));
        if let Wrong::Decides(wrong) = self.fault.wrong {
            wrong(&mut desk::Desk {
                before: &before,
                lent,
                returned: &mut returned,
            });
        }
        returned
    }

    fn begin(&self, lent: &mut Lent) -> Six {
        let before = lent.clone();
        let mut returned = self.engine.begin(lent);
        if let Wrong::Begins(wrong) = self.fault.wrong {
            wrong(&mut depots::Taken {
                before: &before,
                lent,
                returned: &mut returned,
            });
        }
        returned
    }

    fn partition(&self, lent: &mut Lent, reports: &mut Reports) -> Six {
        let Wrong::Takes(wrong) = self.fault.wrong else {
            return self.engine.partition(lent, reports);
        };
        let before = lent.clone();
        let mut returned = self.engine.partition(lent, reports);
        wrong(&mut depots::Taken {
            before: &before,
            lent,
            returned: &mut returned,
        });
        returned
    }

    fn name(&self, lent: &mut Lent) {
        self.kept.set(0);
        self.engine.name(lent);
        if let Wrong::Names(wrong) = self.fault.wrong {
            wrong(lent);
        }
    }

    fn lot(&self, lent: &mut Lent, feed: &mut Feed, asked: Asked) -> Six {
        match self.fault.wrong {
            Wrong::Asks(wrong) => self.asked(lent, feed, asked, wrong),
            Wrong::Feeds(wrong) | Wrong::Trusts(wrong) => {
                let before = lent.clone();
                let mut returned = self.engine.lot(lent, feed, asked);
                wrong(&mut lots::Fed {
                    before: &before,
                    lent,
                    returned: &mut returned,
                    asked,
                    kept: &self.kept,
                });
                returned
            }
            _ => self.engine.lot(lent, feed, asked),
        }
    }
}

impl Faulty<'_> {
    /// A call of a search in lots with what the engine reads instead; the query and what was
    /// named first stay as they are.
    fn asked(
        &self,
        lent: &mut Lent,
        feed: &mut Feed,
        mut asked: Asked,
        wrong: fn(&mut Lent, &mut Asked),
    ) -> Six {
        let before = lent.clone();
        wrong(lent, &mut asked);
        let returned = self.engine.lot(lent, feed, asked);
        lent.query = before.query.clone();
        for word in [LARGEST, ALLOWANCE] {
            lent.feed_mut()[word] = before.feed()[word];
        }
        returned
    }
}

impl Faulty<'_> {
    /// A call with what the engine reads in the place of query and rows.
    fn called(&self, lent: &mut Lent, call: impl Fn(&mut Lent) -> Six) -> Six {
        let Wrong::Reads(wrong) = self.fault.wrong else {
            return call(lent);
        };
        let (mut query, mut rows) = (lent.query.items().to_vec(), lent.rows.items().to_vec());
        wrong(&mut query, &mut rows);
        let random = &mut Random::new(0);
        let query = Guarded::holding(random, &query);
        let query = std::mem::replace(&mut lent.query, query);
        let rows = std::mem::replace(&mut lent.rows, Guarded::holding(random, &rows));
        let returned = call(lent);
        lent.query = query;
        lent.rows = rows;
        returned
    }
}

impl Faulty<'_> {
    /// A search within what the engine takes for its allowance.
    fn allowed(&self, lent: &mut Lent) -> Six {
        let Wrong::Allows(wrong) = self.fault.wrong else {
            return self.engine.search(lent);
        };
        let given = lent.allowance;
        lent.allowance = wrong(lent);
        let mut returned = self.engine.search(lent);
        lent.allowance = given;
        returned[3] = returned[3].min(given.unwrap_or(u64::MAX));
        returned
    }
}

impl Faulty<'_> {
    fn told(&self, returned: &mut Six, lent: &Lent) {
        let Wrong::Tells(wrong) = self.fault.wrong else {
            return;
        };
        if let Ok(query) = query::read(lent.query.items()) {
            wrong(returned, &query.text);
        }
    }
}

impl Search<'_> {
    fn is(&self, answer: u8) -> bool {
        self.returned[0] == u64::from(answer)
    }

    /// Not refused.
    fn ended(&self) -> bool {
        search::was_walked(self.returned[0] as u8)
    }

    /// The letter that the modes 2 and 3 go on at, where the search ended.
    fn skips_to(&self) -> Option<u8> {
        let accepted = self.accepted.as_ref().filter(|_| self.ended())?;
        accepted.query.skip.letter()
    }

    fn go_on_by(&mut self, rule: Rule) {
        if self.skips_to().is_none() {
            return;
        }
        *self.lent = self.before.clone();
        let allowance = self.lent.allowance;
        let (query, rows, buffers) = self.lent.parts();
        let outcome = search::search_by_rule(query, rows, allowance, buffers, rule, &mut |_| {});
        *self.returned = six(outcome);
    }

    /// Searches again with another meaning of conditions.
    fn mean(&mut self, wrong: condition::Holds) {
        let Some(mut accepted) = self.accepted.clone().filter(|_| self.ended()) else {
            return;
        };
        *self.lent = self.before.clone();
        let allowance = self.lent.allowance;
        let (_, rows, buffers) = self.lent.parts();
        let (columns, defines) = (accepted.query.columns, &accepted.query.defines);
        accepted.held = Held::by(accepted.n(), |letter, row| {
            let at = condition::At { rows, columns, row };
            let mut own = defines.iter().filter(|define| define.letter == letter);
            own.all(|define| condition::holds(define, &at, wrong))
        });
        let outcome =
            search::search_accepted(&accepted, rows, allowance, buffers, next_start, &mut |_| {});
        *self.returned = six(outcome);
    }

    /// Searches again on other places.
    fn lay(&mut self, wrong: fn(&mut Accepted)) {
        let Some(mut accepted) = self.accepted.clone().filter(|_| self.ended()) else {
            return;
        };
        *self.lent = self.before.clone();
        let allowance = self.lent.allowance;
        wrong(&mut accepted);
        let (_, rows, buffers) = self.lent.parts();
        let outcome =
            search::search_accepted(&accepted, rows, allowance, buffers, next_start, &mut |_| {});
        *self.returned = six(outcome);
    }

    /// Whether the match that did not fit would have ended the search all the same.
    fn would_be_stuck(&self) -> bool {
        let Some(accepted) = self.accepted.as_ref().filter(|_| self.is(STOPPED)) else {
            return false;
        };
        let n = accepted.n();
        let mut numbers = vec![0; n * accepted.numbers_per_match()];
        let mut labels = vec![0; n * (n + 1) / 2];
        let outcome = search::search(
            self.before.query.items(),
            self.before.rows.items(),
            &mut vec![0; self.before.notes.len()],
            &mut vec![0; self.before.trail.len()],
            &mut numbers,
            &mut labels,
        );
        outcome.answer == STUCK && outcome.matches == self.returned[1] + 1
    }

    /// Takes the last match out of the report again: its numbers and its labels.
    fn unwrite_last(&mut self) {
        let taken = self.matches().last().map_or(0, |last| last[2] as usize);
        let (written, labelled) = (self.written(), self.returned[2] as usize);
        self.returned[1] -= 1;
        self.returned[2] -= taken as u64;
        let (left, labels_left) = (self.written(), labelled - taken);
        let noise = &self.before.numbers.items()[left..written];
        self.lent.numbers.items_mut()[left..written].copy_from_slice(noise);
        let noise = &self.before.labels.items()[labels_left..labelled];
        self.lent.labels.items_mut()[labels_left..labelled].copy_from_slice(noise);
    }

    fn refuse(&mut self, answer: u64) {
        *self.lent = self.before.clone();
        *self.returned = [answer, 0, 0, 0, 0, 0];
    }

    /// PF and P(n+1)F, where the search ended.
    fn sizes(&self) -> Option<(usize, usize)> {
        let accepted = self.accepted.as_ref().filter(|_| self.ended())?;
        let places = accepted.places.len() * accepted.factor();
        Some((places, places * (accepted.n() + 1)))
    }

    /// How many numbers are written.
    fn written(&self) -> usize {
        let per_match = self
            .accepted
            .as_ref()
            .map_or(0, Accepted::numbers_per_match);
        self.returned[1] as usize * per_match
    }

    /// The numbers of each match, to be changed.
    fn matches(&mut self) -> impl Iterator<Item = &mut [i64]> {
        let per_match = self
            .accepted
            .as_ref()
            .map_or(1, Accepted::numbers_per_match);
        let written = self.written();
        self.lent.numbers.items_mut()[..written].chunks_mut(per_match)
    }
}

const fn reads(
    name: &'static str,
    about: &'static str,
    wrong: fn(&mut Vec<u8>, &mut Vec<i32>),
) -> Fault {
    Fault {
        name,
        about,
        wrong: Wrong::Reads(wrong),
    }
}

const fn ends(name: &'static str, about: &'static str, wrong: fn(&mut Search)) -> Fault {
    Fault {
        name,
        about,
        wrong: Wrong::Ends(wrong),
    }
}

const fn goes_on(name: &'static str, about: &'static str, wrong: Rule) -> Fault {
    Fault {
        name,
        about,
        wrong: Wrong::GoesOn(wrong),
    }
}

const fn judges(name: &'static str, about: &'static str, wrong: fn(&mut Six, &Lent)) -> Fault {
    Fault {
        name,
        about,
        wrong: Wrong::Judges(wrong),
    }
}

const fn tells(name: &'static str, about: &'static str, wrong: fn(&mut Six, &[u8])) -> Fault {
    Fault {
        name,
        about,
        wrong: Wrong::Tells(wrong),
    }
}

pub fn all() -> impl Iterator<Item = &'static Fault> {
    let of_all = FAULTS.iter().chain(&allowance::FAULTS);
    let of_all = of_all.chain(&average::FAULTS).chain(&condition::FAULTS);
    let of_all = of_all.chain(&tested::FAULTS).chain(&desk::FAULTS);
    let of_all = of_all.chain(&nested::FAULTS).chain(&depots::FAULTS);
    of_all.chain(&lots::FAULTS)
}

static FAULTS: [Fault; 90] = [
    ends("label", "the last label is another letter", |search| {
        if let Some(last) = (search.returned[2] as usize).checked_sub(1) {
            search.lent.labels.items_mut()[last] ^= 1;
        }
    }),
    ends(
        "labels-reversed",
        "labels are written backwards",
        |search| {
            let count = search.returned[2] as usize;
            search.lent.labels.items_mut()[..count].reverse();
        },
    ),
    ends("steps", "one step more", |search| {
        search.returned[3] += u64::from(search.ended());
    }),
    ends(
        "steps-stopped",
        "a stopped search leaves its last step out",
        |search| search.returned[3] -= u64::from(search.is(STOPPED)),
    ),
    ends(
        "unfit-counted",
        "a match that does not fit is counted",
        |search| search.returned[1] += u64::from(search.is(STOPPED)),
    ),
    ends("spare-bit", "a spare bit of the notes is set", |search| {
        if let Some((_, pairs)) = search.sizes().filter(|(_, pairs)| pairs % 8 != 0) {
            search.lent.notes.items_mut()[pairs / 8] |= 0x80;
        }
    }),
    ends(
        "note-lost",
        "the first failed pair is not noted",
        |search| {
            if let Some((_, pairs)) = search.sizes() {
                let notes = &mut search.lent.notes.items_mut()[..pairs.div_ceil(8)];
                if let Some(byte) = notes.iter_mut().find(|byte| **byte != 0) {
                    *byte &= *byte - 1;
                }
            }
        },
    ),
    ends(
        "note-success",
        "a match's first pair is noted as failed",
        |search| {
            if let (Some((places, _)), 1..) = (search.sizes(), search.returned[1]) {
                let pair = search.lent.numbers.items()[1] as usize * places;
                search.lent.notes.items_mut()[pair / 8] |= 1 << (pair % 8);
            }
        },
    ),
    ends(
        "trail-left",
        "the trail's last number is not cleared",
        |search| {
            if let Some((_, pairs)) = search.sizes() {
                search.lent.trail.items_mut()[pairs - 1] = search.before.trail.items()[pairs - 1];
            }
        },
    ),
    ends(
        "trail-beyond",
        "the trail is cleared one too far",
        |search| {
            if let Some((_, pairs)) = search.sizes() {
                *search.lent.trail.at_mut(pairs as isize) = 0;
            }
        },
    ),
    ends(
        "notes-beyond",
        "the notes are cleared one too far",
        |search| {
            if let Some((_, pairs)) = search.sizes() {
                *search.lent.notes.at_mut(pairs.div_ceil(8) as isize) = 0;
            }
        },
    ),
    ends(
        "notes-front",
        "the byte in front of the notes changes",
        |search| {
            *search.lent.notes.at_mut(-1) ^= 0x10;
        },
    ),
    ends(
        "numbers-behind",
        "the number behind the numbers changes",
        |search| {
            *search
                .lent
                .numbers
                .at_mut(search.lent.numbers.len() as isize) = 0;
        },
    ),
    ends(
        "labels-ended",
        "a byte 0 is put behind the labels",
        |search| {
            if search.ended() {
                *search.lent.labels.at_mut(search.returned[2] as isize) = 0;
            }
        },
    ),
    ends(
        "half-match",
        "a match that does not fit leaves its number",
        |search| {
            let written = search.written();
            if search.is(STOPPED) && written < search.lent.numbers.len() {
                search.lent.numbers.items_mut()[written] = search.returned[1] as i64 + 1;
            }
        },
    ),
    ends(
        "half-labels",
        "a match that does not fit leaves a label",
        |search| {
            let written = search.returned[2] as usize;
            if search.is(STOPPED) && written < search.lent.labels.len() {
                search.lent.labels.items_mut()[written] = b'A';
            }
        },
    ),
    ends(
        "late-stop",
        "a full room stops though no match is left",
        |search| {
            let full = search.written() == search.lent.numbers.len() && search.returned[1] > 0;
            if search.is(DONE) && full {
                search.returned[0] = STOPPED.into();
            }
        },
    ),
    ends(
        "refusal-clears",
        "a refused search clears a note",
        |search| {
            if let (false, Some(byte)) = (search.ended(), search.lent.notes.items_mut().first_mut())
            {
                *byte = 0;
            }
        },
    ),
    ends(
        "short-trail-clears",
        "answer 12 clears the notes",
        |search| {
            if search.is(12) {
                search.lent.notes.items_mut().fill(0);
            }
        },
    ),
    ends(
        "refusal-counts",
        "a refused search returns a step",
        |search| {
            search.returned[3] += u64::from(!search.ended());
        },
    ),
    ends("query-changed", "a byte of the query changes", |search| {
        if search.lent.query.len() > 0 {
            *search.lent.query.at_mut(0) ^= 1;
        }
    }),
    ends("null", "null is written as 1 and 0", |search| {
        for measure in search.matches().flat_map(|one| one[3..].chunks_mut(2)) {
            measure[0] = 1;
        }
    }),
    ends("sum-wraps", "a sum keeps 32 bits only", |search| {
        let Some(accepted) = search.accepted.clone() else {
            return;
        };
        for one in search.matches() {
            let measures = accepted.query.measures.iter().zip(one[3..].chunks_mut(2));
            for (_, written) in measures.filter(|(measure, _)| measure.function == Function::Sum) {
                written[1] = i64::from(written[1] as i32);
            }
        }
    }),
    ends(
        "empty-row",
        "an empty match's first row is one further",
        |search| {
            for one in search.matches().filter(|one| one[2] == 0) {
                one[1] += 1;
            }
        },
    ),
    ends("last-match", "the last match is dropped", |search| {
        let written = search.written();
        if search.is(DONE) && written > 0 {
            search.returned[1] -= 1;
            let left = search.written();
            let noise = &search.before.numbers.items()[left..written];
            search.lent.numbers.items_mut()[left..written].copy_from_slice(noise);
        }
    }),
    ends(
        "longest",
        "a match takes the longest reading's rows",
        |search| {
            let Some(accepted) = search.accepted.clone() else {
                return;
            };
            for one in search.matches() {
                let start = one[1] as usize;
                let ends = readings::ends_from(&accepted.pattern, &accepted.held, start);
                one[2] = ends.last().map_or(one[2], |&end| (end - start) as i64);
            }
        },
    ),
    ends("offset-64", "an offset of 64 is refused", |search| {
        let Some(accepted) = &search.accepted else {
            return;
        };
        let comparisons = accepted
            .query
            .defines
            .iter()
            .flat_map(|it| it.comparisons());
        let mut offsets = comparisons.flat_map(|comparison| {
            let right = comparison.right.map_or(0, |right| right.offset);
            [comparison.left.offset, right]
        });
        if offsets.any(|offset| offset.abs() == 64) {
            search.refuse(3);
        }
    }),
    ends("rows-4096", "4,096 rows are refused", |search| {
        if search.accepted.as_ref().is_some_and(|it| it.n() == 4096) {
            search.refuse(10);
        }
    }),
    ends("places-256", "256 places are refused", |search| {
        if search
            .accepted
            .as_ref()
            .is_some_and(|it| it.places.len() == 256)
        {
            search.refuse(7);
        }
    }),
    ends(
        "notes-exact",
        "notes of exactly the needed length are refused",
        |search| {
            if let Some((_, pairs)) = search.sizes() {
                if search.lent.notes.len() == pairs.div_ceil(8) {
                    search.refuse(11);
                }
            }
        },
    ),
    ends(
        "trail-exact",
        "a trail of exactly the needed length is refused",
        |search| {
            if let Some((_, pairs)) = search.sizes() {
                if search.lent.trail.len() == pairs {
                    search.refuse(12);
                }
            }
        },
    ),
    ends(
        "trail-first",
        "a short trail comes before short notes",
        |search| {
            if let (true, Some(accepted)) = (search.is(11), &search.accepted) {
                if search.lent.trail.len() < accepted.ground().pairs() {
                    search.returned[0] = 12;
                }
            }
        },
    ),
    reads("greedy", "reluctant marks are overlooked", |query, _| {
        change_bodies(query, TEXT, |text| {
            for at in 1..text.len() {
                if text[at] == b'?' && b"*+?}".contains(&text[at - 1]) {
                    text[at] = b' ';
                }
            }
        });
    }),
    reads(
        "branches",
        "branches are tried from the last to the first",
        |query, _| {
            change_bodies(query, TEXT, |text| {
                if !text.contains(&b'(') {
                    let branches: Vec<&[u8]> = text.rsplit(|&byte| byte == b'|').collect();
                    *text = branches.join(&b'|');
                }
            });
        },
    ),
    reads("anchor", "`^` is read as nothing", |query, _| {
        change_bodies(query, TEXT, |text| {
            if text.starts_with(b"^ ") {
                text.splice(..1, *b"()");
            }
        });
    }),
    reads(
        "skip",
        "to next row is read as past last row",
        |query, _| {
            change_bodies(query, SKIP, |body| {
                if body == &[1, 0] {
                    body[0] = 0;
                }
            });
        },
    ),
    reads("minimum", "MIN is read as FIRST", |query, _| {
        change_bodies(query, MEASURE, |body| {
            if body.first() == Some(&MIN) {
                body[0] = FIRST;
            }
        });
    }),
    reads(
        "unequal",
        "unequal holds wherever PREV or NEXT is asked",
        |query, _| {
            change_comparisons(query, |bytes| {
                if bytes[2] == 2 && (-64..=64).contains(&(bytes[1] as i8)) && bytes[1] != 0 {
                    bytes[1..].copy_from_slice(&[0, 6, 0, 0, 0, 0, 0, 0, 0, 0, 128]);
                }
            });
        },
    ),
    reads("at-least", "at least is read as greater", |query, _| {
        change_comparisons(query, |bytes| {
            if bytes[2] == 6 {
                bytes[2] = 5;
            }
        });
    }),
    reads("next", "NEXT is read as PREV", |query, _| {
        change_comparisons(query, |bytes| {
            if bytes[1] as i8 > 0 {
                bytes[1] = bytes[1].wrapping_neg();
            }
        });
    }),
    reads(
        "right-offset",
        "the right side is read at the current row",
        |query, _| {
            change_comparisons(query, |bytes| {
                if bytes[3] == 1 && (-64..=64).contains(&(bytes[5] as i8)) {
                    bytes[5] = 0;
                }
            });
        },
    ),
    reads(
        "least-number",
        "a comparison's least number is read one higher",
        |query, _| {
            change_comparisons(query, |bytes| {
                if bytes[8..] == i32::MIN.to_le_bytes() {
                    bytes[8] = 1;
                }
            });
        },
    ),
    reads(
        "number-bytes",
        "the middle bytes of a comparison's number are swapped",
        |query, _| change_comparisons(query, |bytes| bytes.swap(9, 10)),
    ),
    reads(
        "greatest-entry",
        "the greatest entry is read one lower",
        |_, rows| {
            for entry in rows.iter_mut() {
                *entry = (*entry).min(i32::MAX - 1);
            }
        },
    ),
    reads(
        "stray-byte",
        "a byte behind the last record is overlooked",
        |query, _| {
            if query::records(query).is_none() {
                let whole = &query[..query.len() - 1];
                if query::records(whole).is_some() {
                    query.pop();
                }
            }
        },
    ),
    reads("reserved", "a reserved byte is overlooked", |query, _| {
        change_bodies(query, SHAPE, |body| {
            if let [_, reserved] = &mut body[..] {
                *reserved = 0;
            }
        });
    }),
    reads("tab", "a tab is read as a space", |query, _| {
        change_bodies(query, TEXT, |text| {
            for byte in text.iter_mut().filter(|byte| **byte == b'\t') {
                *byte = b' ';
            }
        });
    }),
    reads(
        "rest-of-rows",
        "entries behind the last whole row are overlooked",
        |query, rows| {
            if let Ok(query) = query::read(query) {
                rows.truncate(rows.len() / query.columns * query.columns);
            }
        },
    ),
    judges(
        "room-places",
        "room tells one place too many",
        |returned, _| {
            returned[1] += u64::from(returned[0] == 0);
        },
    ),
    judges(
        "room-pairs",
        "room leaves out the position behind the rows",
        |returned, _| {
            returned[3] = returned[1] * returned[2] * returned[5];
        },
    ),
    judges(
        "room-wraps",
        "room counts P in 64 bits that wrap",
        |returned, lent| {
            wrap_places(returned, lent, 1 << 64);
        },
    ),
    judges(
        "room-wraps-32",
        "room counts P in 32 bits that wrap",
        |returned, lent| {
            wrap_places(returned, lent, 1 << 32);
        },
    ),
    tells(
        "offset-far",
        "the offset of 5 and 14 is one too far",
        |returned, _| returned[4] += u64::from(tells_where(returned)),
    ),
    tells(
        "offset-near",
        "the offset of 5 and 14 is one too near",
        |returned, _| returned[4] = returned[4].saturating_sub(1),
    ),
    tells(
        "offset-token",
        "a 5 inside braces tells where they begin",
        |returned, text| {
            if let (WRONG, Some(brace)) = (returned[0], open_brace(returned, text)) {
                returned[4] = brace as u64;
            }
        },
    ),
    tells(
        "offset-spaces",
        "the offset of 14 leaves out the spaces at the end",
        |returned, text| {
            if returned[0] == UNFINISHED {
                let last = text.iter().rposition(|&byte| byte != b' ');
                returned[4] = last.map_or(0, |last| last as u64 + 1);
            }
        },
    ),
    tells("wrong-as-14", "5 is told as 14", |returned, text| {
        if returned[0] == WRONG {
            *returned = unfinished(text);
        }
    }),
    tells(
        "last-byte-as-14",
        "5 at the text's last byte is told as 14",
        |returned, text| {
            if returned[0] == WRONG && returned[4] + 1 == text.len() as u64 {
                *returned = unfinished(text);
            }
        },
    ),
    tells("unfinished-as-5", "14 is told as 5", |returned, _| {
        if returned[0] == UNFINISHED {
            returned[0] = WRONG;
        }
    }),
    tells(
        "open-bound-as-5",
        "an upper bound that is too small yet is told as 5",
        |returned, text| {
            if let (UNFINISHED, Some(brace)) = (returned[0], open_brace(returned, text)) {
                let whole = [&text[brace..], b"}"].concat();
                let last = text[text.len() - 1];
                let small = last.is_ascii_digit() && text[brace..].contains(&b',');
                if small && pattern::read(&[b"A", &whole[..]].concat()).is_none() {
                    *returned = [WRONG, 0, 0, 0, text.len() as u64 - 1, 0];
                }
            }
        },
    ),
    tells(
        "late-bound",
        "an upper bound below the lower is told behind it",
        |returned, text| {
            let at = returned[4] as usize;
            if let (WRONG, Some(brace)) = (returned[0], open_brace(returned, text)) {
                let upper = text[brace..at].contains(&b',') && text[at].is_ascii_digit();
                if upper && at + 1 == text.len() {
                    *returned = unfinished(text);
                } else if upper {
                    returned[4] += 1;
                }
            }
        },
    ),
    tells(
        "full-as-5",
        "14 is told as 5 where 256 bytes have no room for the rest",
        |returned, text| {
            if returned[0] == UNFINISHED && text.len() == MOST_TEXT {
                returned[0] = WRONG;
            }
        },
    ),
    tells("wrong-first", "5 comes before 4", |returned, text| {
        if returned[0] == DEEP && !pattern::begins(text) {
            *returned = [WRONG, 0, 0, 0, pattern::offset(text), 0];
        }
    }),
    tells("unfinished-first", "14 comes before 4", |returned, text| {
        if returned[0] == DEEP && pattern::begins(text) && pattern::read(text).is_none() {
            *returned = unfinished(text);
        }
    }),
    tells(
        "offset-deep",
        "4 tells where the ninth parenthesis stands",
        |returned, text| {
            if returned[0] == DEEP {
                let deep = |&at: &usize| pattern::parentheses_pass_eight(&text[..=at]);
                returned[4] = (0..text.len()).find(deep).unwrap_or(0) as u64;
            }
        },
    ),
    tells(
        "offset-other",
        "every other answer has the text's length as offset",
        |returned, text| {
            if !tells_where(returned) {
                returned[4] = text.len() as u64;
            }
        },
    ),
    ends("search-offset", "a search tells no offset", |search| {
        search.returned[4] = 0
    }),
    judges("room-offset", "room tells no offset", |returned, _| {
        returned[4] = 0;
    }),
    reads(
        "first-and-last",
        "skips to the first and to the last row with the letter are exchanged",
        |query, _| {
            change_skip(query, |[mode, letter]| match mode {
                TO_FIRST => [TO_LAST, letter],
                TO_LAST => [TO_FIRST, letter],
                _ => [mode, letter],
            });
        },
    ),
    goes_on(
        "behind-labelled",
        "goes on at the row behind the labelled one",
        |skip, start, labels| {
            let next = next_start(skip, start, labels)?;
            Some(next + usize::from(!labels.is_empty()))
        },
    ),
    goes_on(
        "before-labelled",
        "goes on at the row before the labelled one, if that is behind the first",
        |skip, start, labels| {
            let next = next_start(skip, start, labels)?;
            Some((next - usize::from(!labels.is_empty())).max(start + 1))
        },
    ),
    goes_on(
        "letter-overlooked",
        "goes on at the match's second row whatever its letter",
        |skip, start, labels| next_start(skip, start, labels).map(|_| start + 1),
    ),
    goes_on(
        "first-row-one-on",
        "goes one row on where the labelled row is the match's first",
        |skip, start, labels| {
            let letter = skip.letter()?;
            let next = next_start(skip, start, labels);
            next.or(labels.contains(&letter).then_some(start + 1))
        },
    ),
    goes_on(
        "no-row-one-on",
        "goes one row on where the letter labels no row",
        |skip, start, labels| {
            let letter = skip.letter()?;
            let next = next_start(skip, start, labels);
            next.or((!labels.contains(&letter)).then_some(start + 1))
        },
    ),
    goes_on(
        "no-row-past",
        "goes on behind the match where the letter labels no row",
        |skip, start, labels| {
            let letter = skip.letter()?;
            let next = next_start(skip, start, labels);
            next.or((!labels.contains(&letter)).then_some(start + labels.len()))
        },
    ),
    goes_on(
        "empty-stuck",
        "15 after an empty match",
        |skip, start, labels| match labels {
            [] => None,
            _ => next_start(skip, start, labels),
        },
    ),
    goes_on(
        "first-row-labelled",
        "15 wherever the match's first row has the letter, also where its last is meant",
        |skip, start, labels| {
            let labelled = labels.first().copied() == skip.letter();
            next_start(skip, start, labels).filter(|_| !labelled)
        },
    ),
    goes_on(
        "first-row-left-out",
        "the match's first row is left out when rows with the letter are looked for",
        |skip, start, labels| match (skip, labels) {
            (_, []) => Some(start + 1),
            (Skip::ToFirst(letter), [_, later @ ..]) => {
                let at = later.iter().position(|&label| label == letter)?;
                Some(start + 1 + at)
            }
            _ => next_start(skip, start, labels),
        },
    ),
    ends(
        "stuck-unwritten",
        "15 comes without its match written",
        |search| {
            if search.is(STUCK) && search.returned[1] > 0 {
                search.unwrite_last();
            }
        },
    ),
    ends("stuck-first", "15 comes before 13", |search| {
        if search.would_be_stuck() {
            search.returned[0] = STUCK.into();
        }
    }),
    ends(
        "stuck-in-last-row",
        "no 15 where the match's first row is the last one",
        |search| {
            let n = search.accepted.as_ref().map_or(0, |it| it.n() as i64);
            if search.is(STUCK) && search.matches().last().is_some_and(|it| it[1] + 1 == n) {
                search.returned[0] = DONE.into();
            }
        },
    ),
    ends("stuck-as-done", "15 is told as 0", |search| {
        if search.is(STUCK) {
            search.returned[0] = DONE.into();
        }
    }),
    ends("stuck-as-stopped", "15 is told as 13", |search| {
        if search.is(STUCK) {
            search.returned[0] = STOPPED.into();
        }
    }),
    ends(
        "stuck-refuses",
        "15 returns zeros and changes nothing",
        |search| {
            if search.is(STUCK) {
                search.refuse(STUCK.into());
            }
        },
    ),
    ends(
        "stuck-notes",
        "15 leaves the notes as they were lent",
        |search| {
            if search.is(STUCK) {
                search.lent.notes = search.before.notes.clone();
            }
        },
    ),
    ends(
        "stuck-trail",
        "15 leaves the trail as it was lent",
        |search| {
            if search.is(STUCK) {
                search.lent.trail = search.before.trail.clone();
            }
        },
    ),
    reads(
        "skip-stranger",
        "no 9 for a skip to a letter outside the pattern",
        |query, _| {
            let letters = query::read(query)
                .ok()
                .and_then(|it| pattern::read(&it.text));
            let Some(letters) = letters.map(|tree| tree.letters()) else {
                return;
            };
            change_skip(query, |[mode, letter]| match mode {
                TO_FIRST | TO_LAST if !letters.contains(&letter) => [TO_NEXT_ROW, 0],
                _ => [mode, letter],
            });
        },
    ),
    reads(
        "skip-reserved",
        "a letter is overlooked in the modes 0 and 1",
        |query, _| {
            change_skip(query, |[mode, letter]| match mode {
                PAST_LAST_ROW | TO_NEXT_ROW if letter.is_ascii_uppercase() => [mode, 0],
                _ => [mode, letter],
            });
        },
    ),
    reads(
        "skip-no-letter",
        "small letters are read as letters in the modes 2 and 3",
        |query, _| {
            change_skip(query, |[mode, letter]| match mode {
                TO_FIRST | TO_LAST => [mode, letter.to_ascii_uppercase()],
                _ => [mode, letter],
            });
        },
    ),
    reads(
        "skip-mode",
        "a mode above 3 is read as to next row",
        |query, _| {
            change_skip(query, |[mode, letter]| match mode {
                0..=TO_LAST => [mode, letter],
                _ => [TO_NEXT_ROW, 0],
            });
        },
    ),
];

const DEEP: u64 = 4;
const WRONG: u64 = 5;
const UNFINISHED: u64 = 14;

fn tells_where(returned: &Six) -> bool {
    matches!(returned[0], WRONG | UNFINISHED)
}

/// As 14 is returned for a text.
fn unfinished(text: &[u8]) -> Six {
    [UNFINISHED, 0, 0, 0, text.len() as u64, 0]
}

/// Where the braces begin that are open at the offset.
fn open_brace(returned: &Six, text: &[u8]) -> Option<usize> {
    let before = &text[..returned[4] as usize];
    let brace = before.iter().rposition(|&byte| byte == b'{')?;
    (!before[brace..].contains(&b'}')).then_some(brace)
}

fn change_bodies(query: &mut Vec<u8>, kind: u16, change: impl Fn(&mut Vec<u8>)) {
    let Some(records) = query::records(query) else {
        return;
    };
    let mut changed = Vec::new();
    for record in records {
        let mut body = record.body.to_vec();
        if record.kind == kind {
            change(&mut body);
        }
        changed.extend((body.len() as u16).to_le_bytes());
        changed.extend(record.kind.to_le_bytes());
        changed.extend(body);
    }
    *query = changed;
}

/// Changes mode and letter of a skip record that has both.
fn change_skip(query: &mut Vec<u8>, change: impl Fn([u8; 2]) -> [u8; 2]) {
    change_bodies(query, SKIP, |body| {
        if let [mode, letter] = &mut body[..] {
            [*mode, *letter] = change([*mode, *letter]);
        }
    });
}

fn change_comparisons(query: &mut Vec<u8>, change: impl Fn(&mut [u8])) {
    change_bodies(query, DEFINE, |body| {
        if body.len() > 2 {
            body[2..]
                .chunks_exact_mut(COMPARISON_BYTES)
                .for_each(&change);
        }
    });
}

/// A judgement of 7 for a P that is small once it has wrapped.
fn wrap_places(returned: &mut Six, lent: &Lent, modulus: u128) {
    if returned[0] != 7 {
        return;
    }
    let tree = query::read(lent.query.items())
        .ok()
        .and_then(|query| pattern::read(&query.text));
    let wrapped = tree.map_or(0, |tree| tree.count_with_end() % modulus);
    if (1..=256).contains(&wrapped) {
        *returned = [0, wrapped as u64, 1, 2 * wrapped as u64, 0, 1];
    }
}
