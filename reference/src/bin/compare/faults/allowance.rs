//! Faults of searches within an allowance (document 02, R-13): one that reads another
//! number, stops too early or too late, tells the wrong answer, or leaves other buffers
//! than it should. Those that need the log of a search leave large ones as they are.

use super::{ends, Fault, Search, Wrong};
use crate::lent::Lent;
use reference::log::{Event, Log};
use reference::search::{self, DONE, SPENT, STOPPED, STUCK};
use reference::walk::{Attempt, Pair};

const fn allows(name: &'static str, about: &'static str, wrong: fn(&Lent) -> Option<u64>) -> Fault {
    Fault {
        name,
        about,
        wrong: Wrong::Allows(wrong),
    }
}

const fn stops(name: &'static str, about: &'static str, wrong: fn(&Event) -> bool) -> Fault {
    Fault {
        name,
        about,
        wrong: Wrong::Stops(wrong),
    }
}

impl Search<'_> {
    /// Stops where the last allowed entry is made, before the next entry or an event of
    /// this sort, whichever comes first.
    pub fn stop_before(&mut self, stops: fn(&Event) -> bool) {
        let (Some(allowance), Some(log)) = (self.before.allowance, log_of(self.before)) else {
            return;
        };
        if !self.ended() || log.steps() < allowance {
            return;
        }
        let behind = match allowance.checked_sub(1) {
            Some(last) => log.events_within(last).map_or(0, |at| at + 1),
            None => 0,
        };
        let mut later = log.events[behind..].iter();
        let Some(cut) = later.position(|event| event.is_entry() || stops(event)) else {
            return;
        };
        self.undo(&log.events[behind + cut..]);
        self.returned[0] = SPENT.into();
    }

    /// Takes back what was noted and written between the last allowed entry and the next.
    fn undo(&mut self, events: &[Event]) {
        for event in events.iter().take_while(|event| !event.is_entry()) {
            match event {
                Event::Fails(pair) => self.note(*pair, false),
                Event::Writes(_) => self.unwrite_last(),
                _ => {}
            }
        }
    }

    fn note(&mut self, pair: Pair, failed: bool) {
        let Some(accepted) = &self.accepted else {
            return;
        };
        let bit = accepted.ground().number(pair);
        let byte = &mut self.lent.notes.items_mut()[bit / 8];
        *byte = *byte & !(1 << (bit % 8)) | u8::from(failed) << (bit % 8);
    }

    /// The search stopped, or ended with its very last step.
    fn used_up(&self) -> bool {
        self.ended() && self.before.allowance == Some(self.returned[3])
    }

    /// The open pairs of a search that was stopped by its allowance.
    fn open(&self) -> Vec<Pair> {
        let mut again = self.before.clone();
        let allowance = again.allowance;
        let (query, rows, buffers) = again.parts();
        let mut open = Vec::new();
        search::search_watched(query, rows, allowance, buffers, &mut |attempt| {
            if let Attempt::Unfinished(left) = attempt {
                open = left.clone();
            }
        });
        open
    }
}

/// The log of the search without an allowance; None where it is refused, or large.
fn log_of(lent: &Lent) -> Option<Log> {
    let accepted = search::accept(lent.query.items(), lent.rows.items()).ok()?;
    Log::new(&accepted, lent.numbers.len(), lent.labels.len())
}

/// 2P(n+1), which is enough for mode 0 alone.
fn bound_of_mode_0(lent: &Lent) -> Option<u64> {
    let accepted = search::accept(lent.query.items(), lent.rows.items()).ok()?;
    Some(2 * accepted.ground().pairs() as u64)
}

/// Where a search stops whose every attempt has the whole allowance.
fn anew_for_each_attempt(lent: &Lent) -> Option<u64> {
    let given = lent.allowance?;
    let Some(log) = log_of(lent) else {
        return Some(given);
    };
    let (mut steps, mut of_attempt) = (0, 0);
    for event in &log.events {
        match event {
            Event::Begins(_) => of_attempt = 0,
            Event::Enters(_) if of_attempt == given => return Some(steps),
            Event::Enters(_) => (steps, of_attempt) = (steps + 1, of_attempt + 1),
            _ => {}
        }
    }
    None
}

/// Where a search stops that enters END whatever is left.
fn with_end_for_nothing(lent: &Lent) -> Option<u64> {
    let given = lent.allowance?;
    let next = log_of(lent).and_then(|log| {
        let at = log.events_within(given)?;
        log.events.get(at + 1).cloned()
    });
    let is_end = matches!(next, Some(Event::Writes(_) | Event::Drops(_)));
    Some(given + u64::from(is_end))
}

pub static FAULTS: [Fault; 34] = [
    allows("ignored", "the allowance is overlooked", |_| None),
    allows("late", "stops one entry late", |lent| {
        Some(lent.allowance?.saturating_add(1))
    }),
    allows("early", "stops one entry early", |lent| {
        Some(lent.allowance?.saturating_sub(1))
    }),
    allows("none-as-all", "an allowance of 0 is read as none", |lent| {
        lent.allowance.filter(|&allowance| allowance > 0)
    }),
    allows("low-32", "32 bits of the allowance are kept", |lent| {
        Some(lent.allowance? & 0xFFFF_FFFF)
    }),
    allows(
        "signed-32",
        "32 bits are kept, and what is negative then is 0",
        |lent| Some((lent.allowance? as i32).max(0) as u64),
    ),
    allows(
        "signed-64",
        "the allowance is read as a signed number, and what is negative is 0",
        |lent| Some((lent.allowance? as i64).max(0) as u64),
    ),
    allows(
        "each-attempt",
        "each attempt has the whole allowance",
        anew_for_each_attempt,
    ),
    allows(
        "end-for-nothing",
        "END is entered though the allowance is used up",
        with_end_for_nothing,
    ),
    allows(
        "bound-is-enough",
        "2P(n+1) is taken for enough in every mode",
        |lent| {
            let bound = bound_of_mode_0(lent).unwrap_or(u64::MAX);
            lent.allowance.filter(|&allowance| allowance < bound)
        },
    ),
    allows(
        "bound-for-all",
        "a search without an allowance has one of 2P(n+1)",
        |lent| lent.allowance.or_else(|| bound_of_mode_0(lent)),
    ),
    stops(
        "stops-at-once",
        "stops right behind the last allowed entry, with nothing noted or written",
        |_| true,
    ),
    stops(
        "stops-before-writing",
        "a match whose END is the last allowed entry is not written",
        |event| matches!(event, Event::Writes(_)),
    ),
    stops(
        "stops-before-noting",
        "failures behind the last allowed entry are not noted",
        |event| matches!(event, Event::Fails(_)),
    ),
    stops(
        "stops-at-failed",
        "stops before a pair that has failed and is not entered",
        |event| matches!(event, Event::Meets(_)),
    ),
    stops(
        "stops-at-attempt",
        "stops before an attempt, also if it enters nothing",
        |event| matches!(event, Event::Begins(_)),
    ),
    ends("spent-first", "16 where 13 came first", |search| {
        if search.is(STOPPED) && search.used_up() {
            search.returned[0] = SPENT.into();
        }
    }),
    ends("spent-not-stuck", "16 where 15 came first", |search| {
        if search.is(STUCK) && search.used_up() {
            search.returned[0] = SPENT.into();
        }
    }),
    ends(
        "spent-not-done",
        "16 where the search is done with its last step",
        |search| {
            if search.is(DONE) && search.used_up() && search.returned[3] > 0 {
                search.returned[0] = SPENT.into();
            }
        },
    ),
    ends(
        "spent-without-rows",
        "an allowance of 0 is a 16 without rows too",
        |search| {
            if search.is(DONE) && search.before.allowance == Some(0) {
                search.returned[0] = SPENT.into();
            }
        },
    ),
    ends(
        "spent-not-refused",
        "an allowance of 0 comes before a refusal",
        |search| {
            if !search.ended() && search.before.allowance == Some(0) {
                search.refuse(SPENT.into());
            }
        },
    ),
    ends("spent-as-done", "16 is told as 0", |search| {
        if search.is(SPENT) {
            search.returned[0] = DONE.into();
        }
    }),
    ends("spent-as-stopped", "16 is told as 13", |search| {
        if search.is(SPENT) {
            search.returned[0] = STOPPED.into();
        }
    }),
    ends(
        "spent-in-full-room",
        "16 is told as 13 where no further match would fit",
        |search| {
            let full = search.written() == search.lent.numbers.len() && search.returned[1] > 0;
            if search.is(SPENT) && full {
                search.returned[0] = STOPPED.into();
            }
        },
    ),
    ends(
        "spent-refuses",
        "16 returns zeros and changes nothing",
        |search| {
            if search.is(SPENT) {
                search.refuse(SPENT.into());
            }
        },
    ),
    ends(
        "spent-steps",
        "16 counts the entry that it is stopped before",
        |search| search.returned[3] += u64::from(search.is(SPENT)),
    ),
    ends(
        "spent-open-noted",
        "16 notes the open pairs as failed",
        |search| {
            if search.is(SPENT) {
                for pair in search.open() {
                    search.note(pair, true);
                }
            }
        },
    ),
    ends(
        "spent-notes",
        "16 leaves the notes as they were lent",
        |search| {
            if search.is(SPENT) {
                search.lent.notes = search.before.notes.clone();
            }
        },
    ),
    ends(
        "spent-notes-cleared",
        "16 leaves the notes without a bit",
        |search| {
            if let (true, Some((_, pairs))) = (search.is(SPENT), search.sizes()) {
                search.lent.notes.items_mut()[..pairs.div_ceil(8)].fill(0);
            }
        },
    ),
    ends(
        "spent-trail",
        "16 leaves the open pairs in the trail",
        |search| {
            let Some(accepted) = search.accepted.clone().filter(|_| search.is(SPENT)) else {
                return;
            };
            let numbers = search
                .open()
                .into_iter()
                .map(|pair| accepted.ground().number(pair));
            for (entry, number) in search.lent.trail.items_mut().iter_mut().zip(numbers) {
                *entry = number as u32;
            }
        },
    ),
    ends(
        "spent-half-match",
        "16 leaves the number of the match it was looking for",
        |search| {
            let written = search.written();
            if search.is(SPENT) && written < search.lent.numbers.len() {
                search.lent.numbers.items_mut()[written] = search.returned[1] as i64 + 1;
            }
        },
    ),
    ends(
        "spent-half-labels",
        "16 leaves the labels of the open pairs",
        |search| {
            let Some(accepted) = search.accepted.clone().filter(|_| search.is(SPENT)) else {
                return;
            };
            let labels = search::labels_on(&accepted.places, &search.open());
            let free = &mut search.lent.labels.items_mut()[search.returned[2] as usize..];
            for (entry, label) in free.iter_mut().zip(labels) {
                *entry = label;
            }
        },
    ),
    ends(
        "spent-counted",
        "16 counts the match it was looking for",
        |search| {
            let looking = search.is(SPENT) && !search.open().is_empty();
            search.returned[1] += u64::from(looking);
        },
    ),
    ends("spent-drops", "16 takes the last match back", |search| {
        if search.is(SPENT) && search.returned[1] > 0 {
            search.unwrite_last();
        }
    }),
];
