//! Faults of the release desk (document 02, R-14): one that overlooks a part of the rule,
//! reads events or numbers in another way, tells another row, or lets a verdict pass
//! where the search was refused or stopped; and one whose search is not the desk's.

use super::{Fault, Wrong};
use crate::engine::Six;
use crate::lent::Lent;
use reference::desk::{self, Verdict, ACCEPTED, BASE, COLUMNS, EVENT, OFFERED, PATCH, REFUSED};
use reference::generate::draft::{with_column, with_number, Draft};
use reference::search;

/// A verdict that was right so far.
pub struct Desk<'a> {
    pub before: &'a Lent,
    pub lent: &'a mut Lent,
    pub returned: &'a mut Six,
}

/// What a wrong desk looks for: a pattern of O, R and C, and which of base and patch
/// numbers it compares where.
struct Wanted {
    text: &'static [u8],
    refusal: &'static [usize],
    acceptance: &'static [usize],
}

const RIGHT: Wanted = Wanted {
    text: b"O R* C $",
    refusal: &[BASE, PATCH],
    acceptance: &[BASE, PATCH],
};

impl Wanted {
    fn query(&self, mode: u8) -> Vec<u8> {
        let define = |event, columns: &[usize]| {
            let mut comparisons = vec![with_number(EVENT as u8, 0, 1, event)];
            for &column in columns {
                let column = column as u8;
                comparisons.push(with_column((column, 0), 1, (column, -1), 0));
            }
            comparisons
        };
        Draft::new(COLUMNS as u8, self.text, Vec::new())
            .define(b'O', &define(OFFERED, &[]))
            .define(b'R', &define(REFUSED, self.refusal))
            .define(b'C', &define(ACCEPTED, self.acceptance))
            .with_skip(mode, 0)
            .query()
    }
}

impl Desk<'_> {
    fn rows(&self) -> Vec<&[i32]> {
        self.before.rows.items().chunks_exact(COLUMNS).collect()
    }

    fn answered(&self) -> bool {
        self.returned[0] == 0
    }

    fn readable(&self) -> bool {
        let known = |row: &&[i32]| [OFFERED, REFUSED, ACCEPTED].contains(&row[EVENT]);
        self.answered() && self.rows().iter().all(known)
    }

    fn tell(&mut self, verdict: Verdict) {
        let [answer, verdict, found, row] = desk::numbered(verdict);
        *self.returned = [answer, verdict, found, row, 0, 0];
    }

    fn held(&self) -> Verdict {
        Verdict::Held(self.rows().iter().rposition(|row| row[EVENT] == REFUSED))
    }

    /// Clears exactly if this has a match.
    fn look_for(&mut self, wanted: &Wanted) {
        if !self.readable() {
            return;
        }
        let n = self.rows().len();
        let (notes, trail) = search::working_room(20, n, 1);
        let outcome = search::search(
            &wanted.query(1),
            self.before.rows.items(),
            &mut vec![0; notes],
            &mut vec![0; trail],
            &mut vec![0; 3 * n],
            &mut vec![0; n * (n + 1) / 2],
        );
        match outcome.matches {
            0 => self.tell(self.held()),
            _ => self.tell(Verdict::Cleared),
        }
    }

    /// Reads other rows.
    fn read(&mut self, change: fn(&mut [i32])) {
        if !self.answered() {
            return;
        }
        let mut rows = self.before.rows.items().to_vec();
        rows.chunks_mut(COLUMNS).for_each(change);
        self.tell(desk::verdict(&rows));
    }
}

const fn decides(name: &'static str, about: &'static str, wrong: fn(&mut Desk)) -> Fault {
    Fault {
        name,
        about,
        wrong: Wrong::Decides(wrong),
    }
}

pub static FAULTS: [Fault; 30] = [
    decides(
        "desk-anywhere",
        "the acceptance need not be the last row",
        |desk| {
            desk.look_for(&Wanted {
                text: b"O R* C",
                ..RIGHT
            })
        },
    ),
    decides(
        "desk-from-first",
        "the offer has to be the first row",
        |desk| {
            desk.look_for(&Wanted {
                text: b"^ O R* C $",
                ..RIGHT
            })
        },
    ),
    decides("desk-no-offer", "no offer is asked for", |desk| {
        desk.look_for(&Wanted {
            text: b"R* C $",
            ..RIGHT
        })
    }),
    decides("desk-refused", "a refusal is asked for", |desk| {
        desk.look_for(&Wanted {
            text: b"O R+ C $",
            ..RIGHT
        })
    }),
    decides(
        "desk-one-refusal",
        "one refusal is allowed at most",
        |desk| {
            desk.look_for(&Wanted {
                text: b"O R? C $",
                ..RIGHT
            })
        },
    ),
    decides(
        "desk-acceptance-first",
        "an acceptance does for the offer",
        |desk| {
            desk.look_for(&Wanted {
                text: b"(O | C) R* C $",
                ..RIGHT
            })
        },
    ),
    decides("desk-no-acceptance", "no acceptance is asked for", |desk| {
        desk.look_for(&Wanted {
            text: b"O R* C? $",
            ..RIGHT
        })
    }),
    decides("desk-base", "the base numbers are not compared", |desk| {
        desk.look_for(&Wanted {
            refusal: &[PATCH],
            acceptance: &[PATCH],
            ..RIGHT
        })
    }),
    decides("desk-patch", "the patch numbers are not compared", |desk| {
        desk.look_for(&Wanted {
            refusal: &[BASE],
            acceptance: &[BASE],
            ..RIGHT
        })
    }),
    decides(
        "desk-refusals-free",
        "a refusal's numbers are not compared",
        |desk| {
            desk.look_for(&Wanted {
                refusal: &[],
                ..RIGHT
            })
        },
    ),
    decides(
        "desk-refusals-base",
        "a refusal's patch number is not compared",
        |desk| {
            desk.look_for(&Wanted {
                refusal: &[BASE],
                ..RIGHT
            })
        },
    ),
    decides(
        "desk-acceptance-free",
        "the acceptance's numbers are not compared",
        |desk| {
            desk.look_for(&Wanted {
                acceptance: &[],
                ..RIGHT
            })
        },
    ),
    decides(
        "desk-acceptance-patch",
        "the acceptance's base number is not compared",
        |desk| {
            desk.look_for(&Wanted {
                acceptance: &[PATCH],
                ..RIGHT
            })
        },
    ),
    decides("desk-time", "the times are compared too", |desk| {
        desk.look_for(&Wanted {
            acceptance: &[0, BASE, PATCH],
            ..RIGHT
        })
    }),
    decides("desk-low-bytes", "8 bits of an event are kept", |desk| {
        desk.read(|row| row[EVENT] &= 0xFF)
    }),
    decides("desk-zero", "event 0 is no odd event", |desk| {
        desk.read(|row| row[EVENT] = if row[EVENT] == 0 { OFFERED } else { row[EVENT] })
    }),
    decides("desk-four", "event 4 is no odd event", |desk| {
        desk.read(|row| {
            row[EVENT] = if row[EVENT] == 4 {
                ACCEPTED
            } else {
                row[EVENT]
            }
        })
    }),
    decides(
        "desk-base-8",
        "8 bits of the base numbers are compared",
        |desk| desk.read(|row| row[BASE] &= 0xFF),
    ),
    decides("desk-odd-held", "an odd event is held", |desk| {
        if desk.answered() && !desk.readable() {
            desk.tell(desk.held());
        }
    }),
    decides(
        "desk-odd-cleared",
        "a match clears whatever the other events",
        |desk| {
            let matches = desk.answered() && desk.lent.numbers.items().first() == Some(&1);
            if matches && desk.before.numbers.items().first() != Some(&1) {
                desk.tell(Verdict::Cleared);
            }
        },
    ),
    decides("desk-odd-row", "an unreadable log tells a row", |desk| {
        if desk.answered() && !desk.readable() {
            if let Verdict::Held(Some(row)) = desk.held() {
                desk.returned[2] = 1;
                desk.returned[3] = row as u64;
            }
        }
    }),
    decides("desk-cleared-row", "a cleared log tells a row", |desk| {
        if let (1, Verdict::Held(Some(row))) = (desk.returned[1], desk.held()) {
            desk.returned[2] = 1;
            desk.returned[3] = row as u64;
        }
    }),
    decides(
        "desk-first-refusal",
        "the row of the first event 2 is told",
        |desk| {
            if desk.returned[2] == 1 {
                let row = desk.rows().iter().position(|row| row[EVENT] == REFUSED);
                desk.returned[3] = row.unwrap_or(0) as u64;
            }
        },
    ),
    decides("desk-row-from-1", "rows are counted from 1", |desk| {
        desk.returned[3] += desk.returned[2];
    }),
    decides(
        "desk-last-letter",
        "the row of the last R is told",
        |desk| {
            if desk.returned[2] == 1 {
                let same = |two: &[&[i32]]| two[0][BASE..] == two[1][BASE..];
                let rows = desk.rows();
                let is_r = |at: &usize| rows[*at][EVENT] == REFUSED && same(&rows[at - 1..=*at]);
                match (1..rows.len()).rev().find(is_r) {
                    Some(row) => desk.tell(Verdict::Held(Some(row))),
                    None => desk.tell(Verdict::Held(None)),
                }
            }
        },
    ),
    decides("desk-none-found", "a row 0 is told for none", |desk| {
        if desk.returned[1] == 2 {
            desk.returned[2] = 1;
        }
    }),
    decides("desk-stop-passes", "13 comes with its verdict", |desk| {
        if desk.returned[0] == 13 {
            desk.returned[1] = 1;
        }
    }),
    decides("desk-odd-first", "unreadable comes before a stop", |desk| {
        if desk.returned[0] == 13 {
            *desk.returned = [0; 6];
            match desk.readable() {
                true => desk.returned[0] = 13,
                false => desk.tell(Verdict::Unreadable),
            }
        }
    }),
    decides(
        "desk-no-rows-first",
        "no rows is held whatever the rooms",
        |desk| {
            if desk.before.rows.len() == 0 {
                desk.tell(Verdict::Held(None));
            }
        },
    ),
    decides(
        "desk-mode-0",
        "the search goes on past the last row",
        |desk| {
            if desk.answered() {
                *desk.lent = desk.before.clone();
                let query = RIGHT.query(0);
                let (_, rows, buffers) = desk.lent.parts();
                search::search_within(&query, rows, None, buffers);
            }
        },
    ),
];
