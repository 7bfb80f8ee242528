//! Faults of tests of a letter (document 02, R-6): one that judges too much or too
//! little, counts where there is no record of kind 3, reads another letter or row, or
//! refuses where it should not, or the other way round.

use super::{Fault, Wrong};
use crate::engine::Six;
use crate::lent::Lent;
use reference::letters::{self, compare, Truth};
use reference::query::{Comparison, Meaning, Query, Reference};
use reference::search;

/// A test that was right so far.
pub struct Test {
    /// Where the query and the rows have none of the answers 1 to 10.
    query: Option<Query>,
    rows: Vec<i32>,
    letter: u8,
    row: u64,
}

impl Test {
    pub fn new(lent: &Lent, letter: u8, row: u64) -> Test {
        let accepted = search::accept(lent.query.items(), lent.rows.items());
        Test {
            query: accepted.ok().map(|accepted| accepted.query),
            rows: lent.rows.items().to_vec(),
            letter,
            row,
        }
    }

    fn n(&self) -> u64 {
        let columns = self.query.as_ref().map_or(1, |query| query.columns);
        (self.rows.len() / columns) as u64
    }

    /// The truths of the letter's comparisons of kind 3, or of kind 6.
    fn truths(&self, all: fn(&Meaning) -> Option<Vec<Comparison>>) -> Vec<Truth> {
        let Some(query) = &self.query else {
            return Vec::new();
        };
        let mut own = query.defines.iter().filter(|it| it.letter == self.letter);
        let comparisons = own.next().and_then(|define| all(&define.meaning));
        let truth = |it: Comparison| compare(&it, &self.rows, query.columns, self.row);
        comparisons
            .unwrap_or_default()
            .into_iter()
            .map(truth)
            .collect()
    }

    fn of_kind_3(&self) -> Vec<Truth> {
        self.truths(|meaning| match meaning {
            Meaning::All(comparisons) => Some(comparisons.clone()),
            Meaning::One(_) => None,
        })
    }

    fn of_kind_6(&self) -> Vec<Truth> {
        self.truths(|meaning| match meaning {
            Meaning::All(_) => None,
            Meaning::One(condition) => Some(condition.comparisons()),
        })
    }

    /// Those of kind 3 at so many rows before the first.
    fn truths_before_first(&self, before: i64) -> Vec<Truth> {
        let wrapped = |reference: Reference| Reference {
            offset: reference.offset - before,
            ..reference
        };
        let at_first_row = Test {
            query: self.query.clone().map(|mut query| {
                for define in &mut query.defines {
                    if let Meaning::All(comparisons) = &mut define.meaning {
                        for it in comparisons {
                            it.left = wrapped(it.left);
                            it.right = it.right.map(wrapped);
                        }
                    }
                }
                query
            }),
            rows: self.rows.clone(),
            letter: self.letter,
            row: 0,
        };
        at_first_row.of_kind_3()
    }

    /// What the test of another letter or row tells.
    fn of(&self, letter: u8, row: u64) -> Option<[u64; 2]> {
        let tested = letters::test(self.query.as_ref()?, &self.rows, letter, row);
        Some([tested.holds.into(), tested.judged as u64])
    }

    fn tell(&self, returned: &mut Six, letter: u8, row: u64) {
        if let Some([holds, judged]) = self.of(letter, row) {
            returned[1] = holds;
            returned[2] = judged;
        }
    }
}

const fn tests(name: &'static str, about: &'static str, wrong: fn(&mut Six, &Test)) -> Fault {
    Fault {
        name,
        about,
        wrong: Wrong::Tests(wrong),
    }
}

fn unmet(truth: &Truth) -> bool {
    *truth != Truth::True
}

pub static FAULTS: [Fault; 22] = [
    tests(
        "judged-all",
        "all comparisons are judged",
        |returned, test| {
            returned[2] = test.of_kind_3().len() as u64;
        },
    ),
    tests(
        "judged-less",
        "the first unmet comparison is not counted",
        |returned, test| returned[2] -= u64::from(test.of_kind_3().iter().any(unmet)),
    ),
    tests(
        "judged-past-unknown",
        "only a false comparison ends the judging",
        |returned, test| {
            let truths = test.of_kind_3();
            let stop = truths.iter().position(|truth| *truth == Truth::False);
            returned[2] = stop.map_or(truths.len(), |at| at + 1) as u64;
        },
    ),
    tests(
        "judged-past-false",
        "only an unknown comparison ends the judging",
        |returned, test| {
            let truths = test.of_kind_3();
            let stop = truths.iter().position(|truth| *truth == Truth::Unknown);
            returned[2] = stop.map_or(truths.len(), |at| at + 1) as u64;
        },
    ),
    tests(
        "judged-known",
        "an unknown comparison is not counted",
        |returned, test| {
            let judged = test.of_kind_3().into_iter().take(returned[2] as usize);
            returned[2] = judged.filter(|truth| *truth != Truth::Unknown).count() as u64;
        },
    ),
    tests(
        "judged-met",
        "only met comparisons are counted",
        |returned, test| {
            let truths = test.of_kind_3();
            returned[2] = truths.iter().filter(|truth| !unmet(truth)).count() as u64;
        },
    ),
    tests(
        "judged-from-last",
        "comparisons are judged from the last",
        |returned, test| {
            let mut truths = test.of_kind_3();
            truths.reverse();
            let stop = truths.iter().position(unmet);
            returned[2] = stop.map_or(truths.len(), |at| at + 1) as u64;
        },
    ),
    tests(
        "judged-condition",
        "comparisons of a condition are counted",
        |returned, test| returned[2] += test.of_kind_6().len() as u64,
    ),
    tests(
        "judged-none",
        "without a record one is counted",
        |returned, test| {
            if returned[0] == 0 && test.of_kind_3().is_empty() {
                returned[2] = 1;
            }
        },
    ),
    tests("judged-seven", "at most 7 are counted", |returned, _| {
        returned[2] = returned[2].min(7);
    }),
    tests(
        "holds-judged",
        "a letter holds where its last comparison is judged",
        |returned, test| {
            let count = test.of_kind_3().len() as u64;
            if count > 0 {
                returned[1] = u64::from(returned[2] == count);
            }
        },
    ),
    tests(
        "holds-as-condition",
        "a letter with a condition always holds",
        |returned, test| {
            if !test.of_kind_6().is_empty() {
                returned[1] = 1;
            }
        },
    ),
    tests(
        "stranger-free",
        "a letter outside the pattern has no record",
        |returned, test| {
            let tree = test
                .query
                .as_ref()
                .and_then(|query| reference::pattern::read(&query.text));
            if tree.is_some_and(|tree| !tree.letters().contains(&test.letter)) {
                returned[1] = 1;
                returned[2] = 0;
            }
        },
    ),
    tests(
        "no-letter-false",
        "a byte that is no letter does not hold",
        |returned, test| {
            if !test.letter.is_ascii_uppercase() {
                returned[1] = 0;
            }
        },
    ),
    tests(
        "no-letter-refused",
        "a byte that is no letter is a 3",
        |returned, test| {
            if returned[0] == 0 && !test.letter.is_ascii_uppercase() {
                *returned = [3, 0, 0, 0, 0, 0];
            }
        },
    ),
    tests(
        "small-letter",
        "small letters are read as letters",
        |returned, test| {
            test.tell(returned, test.letter.to_ascii_uppercase(), test.row);
        },
    ),
    tests(
        "row-behind-false",
        "no letter holds behind the rows",
        |returned, test| {
            if test.row >= test.n() {
                returned[1] = 0;
            }
        },
    ),
    tests(
        "row-behind-refused",
        "a row behind the rows is a 10",
        |returned, test| {
            if returned[0] == 0 && test.row >= test.n() {
                *returned = [10, 0, 0, 0, 0, 0];
            }
        },
    ),
    tests(
        "row-behind-unjudged",
        "behind the rows nothing is judged",
        |returned, test| {
            if test.row >= test.n() {
                returned[2] = 0;
            }
        },
    ),
    tests("row-32", "32 bits of the row are kept", |returned, test| {
        test.tell(returned, test.letter, test.row & 0xFFFF_FFFF);
    }),
    tests(
        "row-wraps",
        "the row a comparison reads is counted in 64 bits that wrap",
        |returned, test| {
            let before_first = test.row.wrapping_neg();
            if (1..=64).contains(&before_first) {
                let truths = test.truths_before_first(before_first as i64);
                if let Some(stop) = truths.iter().position(unmet) {
                    returned[2] = stop as u64 + 1;
                } else if !truths.is_empty() {
                    returned[1] = 1;
                    returned[2] = truths.len() as u64;
                }
            }
        },
    ),
    tests("refused-holds", "a refused test holds", |returned, _| {
        if returned[0] != 0 {
            returned[1] = 1;
        }
    }),
];
