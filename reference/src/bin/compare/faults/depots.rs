//! Faults of the depot-by-month table (document 02, R-4): one that counts what it should
//! not, or elsewhere; lists or numbers partitions in another way; leaves something else
//! on a 20; judges a named column in another rank; or begins a table in another way.

use super::{Fault, Wrong};
use crate::engine::Six;
use crate::lent::{Guarded, Lent};
use reference::depots::{
    place, DEPOT, ENTRY, LISTED, MONTH, MOST_PARTITIONS, OUTSIDE, PARTITIONS, WORDS,
};
use reference::{query, search};

/// A call that was right so far.
pub struct Taken<'a> {
    pub before: &'a Lent,
    pub lent: &'a mut Lent,
    pub returned: &'a mut Six,
}

/// A match in a report.
struct One<'a> {
    number: i64,
    first: usize,
    rows: usize,
    entries: &'a [i32],
    columns: usize,
    named: [usize; 2],
}

impl One<'_> {
    /// Depot and month in a row.
    fn entries(&self, row: usize) -> (i32, i32) {
        let entry = |column| self.entries[row * self.columns + column];
        (entry(self.named[0]), entry(self.named[1]))
    }

    fn at(&self, row: usize) -> usize {
        let (depot, month) = self.entries(row);
        place(depot, month)
    }

    fn cell(&self) -> usize {
        self.at(self.first)
    }
}

fn state(lent: &Lent) -> &[u64] {
    lent.table.as_ref().map_or(&[], |table| table.state.items())
}

impl Taken<'_> {
    fn is(&self, answer: u64) -> bool {
        self.returned[0] == answer
    }

    /// The state before the call.
    fn was(&self) -> &[u64] {
        state(self.before)
    }

    fn state(&mut self) -> &mut [u64] {
        let table = self.lent.table.as_mut();
        table.map_or(&mut [], |table| table.state.items_mut())
    }

    fn list(&mut self) -> &mut [u32] {
        let table = self.lent.table.as_mut();
        table.map_or(&mut [], |table| table.list.items_mut())
    }

    fn is_further(&self) -> bool {
        self.was()[PARTITIONS] == MOST_PARTITIONS
    }

    /// Numbers of the list that were unused.
    fn left(&mut self) -> usize {
        let used = self.was()[LISTED] as usize;
        self.list().len() - used
    }

    /// The largest of the two named columns.
    fn widest(&self) -> u64 {
        self.was()[DEPOT].max(self.was()[MONTH])
    }

    /// The word behind the state becomes another.
    fn behind(&mut self) {
        if let Some(table) = &mut self.lent.table {
            let length = table.state.len() as isize;
            let behind: &mut u64 = Guarded::at_mut(&mut table.state, length);
            *behind = !*behind;
        }
    }

    /// Adds to the cells that a rule gives for each match in the report buffers.
    fn count(&mut self, cells: impl Fn(&One) -> Vec<usize>) {
        let Ok(read) = query::read(self.before.query.items()) else {
            return;
        };
        if self.widest() >= read.columns as u64 {
            return;
        }
        let matches = match self.is(20) {
            true => self.searched()[1],
            false => self.returned[1],
        };
        let named = [DEPOT, MONTH].map(|word| self.was()[word] as usize);
        let numbers = self.lent.numbers.items().to_vec();
        let written = numbers.chunks(3 + 2 * read.measures.len());
        for one in written.take(matches as usize) {
            let one = One {
                number: one[0],
                first: one[1] as usize,
                rows: one[2] as usize,
                entries: self.before.rows.items(),
                columns: read.columns,
                named,
            };
            for cell in cells(&one) {
                self.state()[cell] += 1;
            }
        }
    }

    /// Counts a done partition by another rule.
    fn recount(&mut self, cells: impl Fn(&One) -> Vec<usize>) {
        if self.is(0) {
            let was = self.was()[..=OUTSIDE].to_vec();
            self.state()[..=OUTSIDE].copy_from_slice(&was);
            self.count(cells);
        }
    }

    /// What the search by itself returns.
    fn searched(&self) -> Six {
        let mut lent = self.before.clone();
        let (query, rows, (notes, trail, numbers, labels)) = lent.parts();
        super::six(search::search(query, rows, notes, trail, numbers, labels))
    }

    /// Searches into the lent buffers.
    fn search(&mut self) {
        let (query, rows, (notes, trail, numbers, labels)) = self.lent.parts();
        search::search(query, rows, notes, trail, numbers, labels);
    }

    /// 20 and zeros, with state and list as they were.
    fn refuse(&mut self) {
        *self.returned = [20, 0, 0, 0, 0, 0];
        self.lent.table = self.before.table.clone();
    }

    /// The entry that was appended.
    fn entry(&mut self) -> Option<[u32; ENTRY]> {
        let used = self.state()[LISTED] as usize;
        let appended = used as u64 > self.was()[LISTED];
        appended.then(|| [self.list()[used - 2], self.list()[used - 1]])
    }

    /// Writes the appended entry in another way.
    fn relist_by(&mut self, change: impl Fn([u32; ENTRY]) -> [u32; ENTRY]) {
        if let Some(entry) = self.entry() {
            let used = self.state()[LISTED] as usize;
            self.list()[used - ENTRY..used].copy_from_slice(&change(entry));
        }
    }

    fn relist(&mut self, change: fn([u32; ENTRY]) -> [u32; ENTRY]) {
        self.relist_by(change);
    }

    fn append(&mut self, entry: [u32; ENTRY]) {
        let used = self.state()[LISTED] as usize;
        if self.left() >= ENTRY {
            self.list()[used..used + ENTRY].copy_from_slice(&entry);
            self.state()[LISTED] += ENTRY as u64;
        }
    }

    /// Takes the appended entry back.
    fn unlist(&mut self) {
        if self.entry().is_some() {
            self.state()[LISTED] -= ENTRY as u64;
            let list = self.before.table.as_ref().map(|table| table.list.clone());
            if let (Some(table), Some(list)) = (&mut self.lent.table, list) {
                table.list = list;
            }
        }
    }
}

const fn takes(name: &'static str, about: &'static str, wrong: fn(&mut Taken)) -> Fault {
    Fault {
        name,
        about,
        wrong: Wrong::Takes(wrong),
    }
}

const fn begins(name: &'static str, about: &'static str, wrong: fn(&mut Taken)) -> Fault {
    Fault {
        name,
        about,
        wrong: Wrong::Begins(wrong),
    }
}

pub static FAULTS: [Fault; 59] = [
    takes(
        "table-stopped",
        "matches of a stopped partition are counted",
        |taken| {
            if [13, 15].contains(&taken.returned[0]) {
                taken.count(|one| vec![one.cell()]);
            }
        },
    ),
    takes(
        "table-stuck",
        "matches of a partition that ends in 15 are counted",
        |taken| {
            if taken.is(15) {
                taken.count(|one| vec![one.cell()]);
            }
        },
    ),
    takes(
        "table-last-row",
        "a match counts by its last row",
        |taken| taken.recount(|one| vec![one.at(one.first + one.rows.max(1) - 1)]),
    ),
    takes(
        "table-second-row",
        "a match counts by the row behind its first",
        |taken| taken.recount(|one| vec![one.at(one.first + usize::from(one.rows > 1))]),
    ),
    takes("table-outside", "what is outside is dropped", |taken| {
        taken.recount(|one| {
            vec![one.cell()]
                .into_iter()
                .filter(|&cell| cell != OUTSIDE)
                .collect()
        })
    }),
    takes(
        "table-outside-twice",
        "a match with both outside counts twice",
        |taken| {
            taken.recount(|one| {
                let (depot, month) = one.entries(one.first);
                let both = place(depot, 1) == OUTSIDE && place(0, month) == OUTSIDE;
                vec![one.cell(); 1 + usize::from(both)]
            })
        },
    ),
    takes("table-empty", "an empty match is not counted", |taken| {
        taken.recount(|one| vec![one.cell(); one.rows.min(1)])
    }),
    takes(
        "table-empty-outside",
        "an empty match counts outside",
        |taken| taken.recount(|one| vec![if one.rows == 0 { OUTSIDE } else { one.cell() }]),
    ),
    takes(
        "table-rows",
        "a match counts once for each of its rows",
        |taken| taken.recount(|one| vec![one.cell(); one.rows.max(1)]),
    ),
    takes(
        "table-first-match",
        "the first match of a report counts alone",
        |taken| taken.recount(|one| vec![one.cell(); usize::from(one.number == 1)]),
    ),
    takes("table-month-0", "months count from 0", |taken| {
        taken.recount(|one| {
            let (depot, month) = one.entries(one.first);
            vec![place(depot, month.wrapping_add(1))]
        })
    }),
    takes(
        "table-month-13",
        "month 13 is the next depot's first",
        |taken| {
            taken.recount(|one| {
                let (depot, month) = one.entries(one.first);
                vec![if month == 13 {
                    place(depot, 12) + usize::from(place(depot, 12) < OUTSIDE)
                } else {
                    one.cell()
                }]
            })
        },
    ),
    takes("table-depot-bits", "6 bits of a depot are kept", |taken| {
        taken.recount(|one| {
            let (depot, month) = one.entries(one.first);
            vec![place(depot & 63, month)]
        })
    }),
    takes("table-month-bits", "8 bits of a month are kept", |taken| {
        taken.recount(|one| {
            let (depot, month) = one.entries(one.first);
            vec![place(depot, month & 255)]
        })
    }),
    takes("table-depot-sign", "a depot's sign is dropped", |taken| {
        taken.recount(|one| {
            let (depot, month) = one.entries(one.first);
            vec![place(depot.wrapping_abs(), month)]
        })
    }),
    takes("table-swapped", "depot and month are swapped", |taken| {
        taken.recount(|one| {
            let (depot, month) = one.entries(one.first);
            vec![place(month, depot)]
        })
    }),
    takes("table-by-month", "cells lie month by month", |taken| {
        taken.recount(|one| {
            let (depot, month) = one.entries(one.first);
            vec![match one.cell() {
                OUTSIDE => OUTSIDE,
                _ => ((month - 1) * 64 + depot) as usize,
            }]
        })
    }),
    takes("table-cell-bits", "a cell keeps 24 bits", |taken| {
        for word in &mut taken.state()[..OUTSIDE] {
            *word &= 0xFF_FFFF;
        }
    }),
    takes(
        "table-outside-bits",
        "the cell outside keeps 24 bits",
        |taken| {
            taken.state()[OUTSIDE] &= 0xFF_FFFF;
        },
    ),
    takes("list-done", "a done partition is listed too", |taken| {
        if taken.is(0) {
            let number = taken.state()[PARTITIONS];
            taken.append([number as u32, 0]);
        }
    }),
    takes(
        "list-answer-first",
        "an entry is its answer and its number",
        |taken| taken.relist(|[number, answer]| [answer, number]),
    ),
    takes(
        "list-from-0",
        "the list numbers partitions from 0",
        |taken| taken.relist(|[number, answer]| [number - 1, answer]),
    ),
    takes(
        "list-16-bits",
        "a number in the list keeps 15 bits",
        |taken| taken.relist(|[number, answer]| [number & 0x7FFF, answer]),
    ),
    takes("list-14", "14 is listed as 5", |taken| {
        taken.relist(|[number, answer]| [number, if answer == 14 { 5 } else { answer }])
    }),
    takes(
        "list-own-numbers",
        "the list numbers its own entries",
        |taken| {
            let used = taken.state()[LISTED] as u32;
            taken.relist_by(move |[_, answer]| [used / 2, answer])
        },
    ),
    takes(
        "list-first",
        "every entry is written to the front",
        |taken| {
            if let Some([number, answer]) = taken.entry() {
                taken.list()[0] = number;
                taken.list()[1] = answer;
            }
        },
    ),
    takes(
        "list-cleared",
        "what is unused of the list is cleared",
        |taken| {
            let used = taken.state()[LISTED] as usize;
            taken.list()[used..].fill(0);
        },
    ),
    takes(
        "list-odd",
        "half an entry is written at the end of an odd list",
        |taken| {
            if taken.is(20) && taken.left() == 1 {
                let number = taken.state()[PARTITIONS] as u32 + 1;
                if let Some(last) = taken.list().last_mut() {
                    *last = number;
                }
            }
        },
    ),
    takes(
        "list-refused",
        "only refused partitions are listed",
        |taken| {
            if [13, 15].contains(&taken.returned[0]) {
                taken.unlist();
            }
        },
    ),
    takes(
        "list-stopped",
        "only stopped partitions are listed",
        |taken| {
            if !taken.is(13) && !taken.is(15) {
                taken.unlist();
            }
        },
    ),
    takes(
        "number-of-20",
        "a 20 for want of room takes a number",
        |taken| {
            if taken.is(20) && !taken.is_further() {
                taken.state()[PARTITIONS] += 1;
            }
        },
    ),
    takes(
        "number-further",
        "a further partition takes a number",
        |taken| {
            if taken.is_further() {
                taken.state()[PARTITIONS] += 1;
            }
        },
    ),
    takes(
        "number-refused",
        "a refused partition takes no number",
        |taken| {
            if !taken.is(0) && !taken.is(20) {
                taken.state()[PARTITIONS] -= 1;
            }
        },
    ),
    takes("number-done", "a done partition takes no number", |taken| {
        if taken.is(0) {
            taken.state()[PARTITIONS] -= 1;
        }
    }),
    takes("number-65534", "65,534 partitions get a number", |taken| {
        if taken.was()[PARTITIONS] == MOST_PARTITIONS - 1 {
            taken.refuse();
        }
    }),
    takes(
        "further-searched",
        "a further partition is searched",
        |taken| {
            if taken.is_further() {
                taken.search();
            }
        },
    ),
    takes(
        "further-answer",
        "a further partition gets its own answer",
        |taken| {
            if taken.is_further() {
                let answer = taken.searched()[0];
                taken.returned[0] = answer;
            }
        },
    ),
    takes(
        "full-unsearched",
        "a 20 for want of room leaves the buffers as they were",
        |taken| {
            if taken.is(20) {
                let table = taken.lent.table.take();
                *taken.lent = taken.before.clone();
                taken.lent.table = table;
            }
        },
    ),
    takes(
        "full-counts",
        "a 20 for want of room returns what its search counted",
        |taken| {
            if taken.is(20) && !taken.is_further() {
                let own = taken.searched();
                taken.returned[1..].copy_from_slice(&own[1..]);
            }
        },
    ),
    takes(
        "full-done",
        "a done partition needs room in the list too",
        |taken| {
            if taken.is(0) && taken.left() < 2 {
                taken.refuse();
            }
        },
    ),
    takes("full-counted", "a 20 behind a stop is counted", |taken| {
        if taken.is(20) && !taken.is_further() {
            taken.count(|one| vec![one.cell()]);
        }
    }),
    takes(
        "column-late",
        "a named column outside is judged behind the text",
        |taken| {
            if taken.is(3) {
                let own = taken.searched()[0];
                if [4, 5, 6, 7, 14].contains(&own) {
                    taken.returned[0] = own;
                }
            }
        },
    ),
    takes(
        "column-early",
        "a named column outside the largest shape is judged first",
        |taken| {
            if taken.widest() >= 8 && [1, 2].contains(&taken.returned[0]) {
                taken.returned[0] = 3;
            }
        },
    ),
    takes(
        "column-searched",
        "a named column outside is told behind the search",
        |taken| {
            if taken.is(3) {
                taken.search();
            }
        },
    ),
    takes(
        "column-none",
        "without rows a named column may be outside",
        |taken| {
            if taken.is(3) && taken.before.rows.len() == 0 {
                taken.returned[0] = taken.searched()[0];
            }
        },
    ),
    takes(
        "column-offset",
        "a named column outside leaves the offset of the text",
        |taken| {
            if taken.is(3) {
                taken.returned[4] = taken.searched()[4];
            }
        },
    ),
    takes("column-one", "both names may not be one column", |taken| {
        if taken.is(0) && taken.was()[DEPOT] == taken.was()[MONTH] {
            taken.returned[0] = 3;
        }
    }),
    takes(
        "table-offset",
        "the offset of a text is not told",
        |taken| {
            taken.returned[4] = 0;
        },
    ),
    takes(
        "table-word-behind",
        "the word behind the state is written",
        |taken| {
            taken.behind();
        },
    ),
    takes(
        "table-columns",
        "the named columns are forgotten",
        |taken| {
            taken.state()[DEPOT..]
                .iter_mut()
                .take(2)
                .for_each(|it| *it = 0);
        },
    ),
    begins("begin-cells", "the cells are not set to 0", |taken| {
        let was = taken.was().to_vec();
        if taken.is(0) {
            taken.state()[..OUTSIDE].copy_from_slice(&was[..OUTSIDE]);
        }
    }),
    begins(
        "begin-listed",
        "what is used of the list is not set to 0",
        |taken| {
            let was = taken.was().to_vec();
            if taken.is(0) {
                taken.state()[LISTED] = was[LISTED];
            }
        },
    ),
    begins(
        "begin-swapped",
        "the two columns are kept in the other order",
        |taken| {
            if taken.is(0) {
                taken.state().swap(DEPOT, MONTH);
            }
        },
    ),
    begins("begin-bits", "8 bits of a column are kept", |taken| {
        if taken.is(0) {
            taken.state()[DEPOT] &= 0xFF;
        }
    }),
    begins(
        "begin-all",
        "all words of a longer state are set to 0",
        |taken| {
            if taken.is(0) {
                taken.state()[WORDS..].fill(0);
            }
        },
    ),
    begins(
        "begin-short",
        "a state that is too short is set to 0",
        |taken| {
            if taken.is(20) {
                taken.state().fill(0);
            }
        },
    ),
    begins(
        "begin-short-done",
        "a state that is too short is no refusal",
        |taken| {
            taken.returned[0] = 0;
        },
    ),
    begins("begin-long", "a state that is longer is refused", |taken| {
        if taken.state().len() > WORDS {
            taken.returned[0] = 20;
        }
    }),
    begins("begin-list", "the list is cleared", |taken| {
        taken.list().fill(0);
    }),
];
