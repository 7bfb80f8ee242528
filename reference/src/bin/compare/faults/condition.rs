//! Faults of records of kind 6 (document 02, R-7): another table of truths, a row that is
//! not there taken for something else, operators or operands confused, lists accepted or
//! refused that should not be, and kinds 3 and 6 ordered or counted in another way.

use super::{change_bodies, ends, reads, Fault, Wrong};
use reference::generate::conditions::{body, entries_of, operator, Entry};
use reference::letters::{self, and, compare, judge, not, or, Truth};
use reference::query::{
    self, stands_as, Comparison, Condition, Define, Meaning, Record, Reference, AND, COMPARE,
    CONDITION, DEFINE, MOST_DEFINES, NOT, OR,
};

/// Whether a letter holds at a row by a condition, in another way.
pub type Holds = fn(&Condition, &At) -> bool;

/// The row at which a condition is judged.
pub struct At<'a> {
    pub rows: &'a [i32],
    pub columns: usize,
    pub row: usize,
}

impl At<'_> {
    fn compare(&self, comparison: &Comparison) -> Truth {
        compare(comparison, self.rows, self.columns, self.row as u64)
    }

    /// What a condition comes to by other tables.
    fn by(&self, condition: &Condition, tables: &Tables) -> Truth {
        let part = |part: &Condition| self.by(part, tables);
        match condition {
            Condition::Compare(comparison) => self.compare(comparison),
            Condition::And(two) => (tables.and)(part(&two[0]), part(&two[1])),
            Condition::Or(two) => (tables.or)(part(&two[0]), part(&two[1])),
            Condition::Not(one) => (tables.not)(part(one)),
        }
    }

    /// What it comes to where unknown comparisons are taken for something else.
    fn with_unknown(&self, condition: &Condition, taken: Truth) -> Truth {
        judge(condition, &|comparison| match self.compare(comparison) {
            Truth::Unknown => taken,
            known => known,
        })
    }
}

struct Tables {
    and: fn(Truth, Truth) -> Truth,
    or: fn(Truth, Truth) -> Truth,
    not: fn(Truth) -> Truth,
}

const SQL: Tables = Tables { and, or, not };

/// Whether a letter holds by its record, with this fault in the records of kind 6.
pub fn holds(define: &Define, at: &At, wrong: Holds) -> bool {
    match &define.meaning {
        Meaning::All(comparisons) => comparisons.iter().all(|it| at.compare(it) == Truth::True),
        Meaning::One(condition) => wrong(condition, at),
    }
}

const fn means(name: &'static str, about: &'static str, wrong: Holds) -> Fault {
    Fault {
        name,
        about,
        wrong: Wrong::Means(wrong),
    }
}

/// Changes the entries of all records of kind 6.
fn change_entries(query: &mut Vec<u8>, change: impl Fn(Vec<Entry>) -> Vec<Entry>) {
    change_bodies(query, CONDITION, |bytes| {
        if let [letter, count, ..] = bytes[..] {
            let entries = entries_of(bytes);
            if entries.len() == usize::from(count) {
                *bytes = body(letter, &change(entries));
            }
        }
    });
}

/// Each of one sort becomes another.
fn replace(query: &mut Vec<u8>, sort: u8, other: u8) {
    change_entries(query, |mut entries| {
        for entry in entries.iter_mut().filter(|entry| entry[..] == [sort]) {
            *entry = operator(other);
        }
        entries
    });
}

/// The results that entries leave, each as the entries that make it; an operator takes
/// its sides where `take` says. None if one finds too few.
fn results(
    entries: &[Entry],
    take: fn(&mut Vec<Vec<Entry>>) -> Vec<Entry>,
) -> Option<Vec<Vec<Entry>>> {
    let mut results: Vec<Vec<Entry>> = Vec::new();
    for entry in entries {
        let sides = match entry[0] {
            COMPARE => 0,
            NOT => 1,
            _ => 2,
        };
        if results.len() < sides {
            return None;
        }
        let mut result: Vec<Vec<Entry>> = (0..sides).map(|_| take(&mut results)).collect();
        result.reverse();
        result.push(vec![entry.clone()]);
        results.push(result.concat());
    }
    Some(results)
}

fn last(results: &mut Vec<Vec<Entry>>) -> Vec<Entry> {
    results.pop().unwrap_or_default()
}

fn first(results: &mut Vec<Vec<Entry>>) -> Vec<Entry> {
    results.remove(0)
}

/// Takes records out for which this is true of the records before and of the record.
fn drop_records(query: &mut Vec<u8>, dropped: impl Fn(&[Record], &Record) -> bool) {
    let Some(records) = query::records(query) else {
        return;
    };
    let mut changed = Vec::new();
    for (at, record) in records.iter().enumerate() {
        if !dropped(&records[..at], record) {
            changed.extend((record.body.len() as u16).to_le_bytes());
            changed.extend(record.kind.to_le_bytes());
            changed.extend(record.body);
        }
    }
    *query = changed;
}

fn count(records: &[Record], kind: u16) -> usize {
    records.iter().filter(|record| record.kind == kind).count()
}

/// Records of kind 6 with this many entries, where the query is not refused for it.
fn has_list_of(query: &[u8], wanted: impl Fn(usize) -> bool) -> bool {
    let of_kind_6 = |record: &&Record| record.kind == CONDITION;
    query::read(query).is_ok()
        && query::records(query).is_some_and(|records| {
            let mut conditions = records.iter().filter(of_kind_6);
            conditions.any(|record| wanted(entries_of(record.body).len()))
        })
}

/// A missing row is read as if it held nothing but zeros.
fn zero_for_missing(reference: Reference, at: &At) -> i64 {
    let n = (at.rows.len() / at.columns) as i64;
    let row = at.row as i64 + reference.offset;
    match (0..n).contains(&row) {
        true => at.rows[row as usize * at.columns + reference.column].into(),
        false => 0,
    }
}

pub static FAULTS: [Fault; 29] = [
    means(
        "unknown-false",
        "a comparison with a missing neighbour is false",
        |condition, at| at.with_unknown(condition, Truth::False) == Truth::True,
    ),
    means(
        "unknown-true",
        "a comparison with a missing neighbour is true",
        |condition, at| at.with_unknown(condition, Truth::True) == Truth::True,
    ),
    means(
        "unknown-holds",
        "a letter holds on unknown too",
        |condition, at| judge(condition, &|it| at.compare(it)) != Truth::False,
    ),
    means(
        "missing-as-zero",
        "a missing neighbour is read as 0",
        |condition, at| {
            let compared = |comparison: &Comparison| {
                let left = zero_for_missing(comparison.left, at);
                let added = comparison
                    .right
                    .map_or(0, |right| zero_for_missing(right, at));
                let sides = [left as i32, (comparison.number + added) as i32];
                let read = Comparison {
                    left: Reference {
                        column: 0,
                        offset: 0,
                    },
                    right: Some(Reference {
                        column: 1,
                        offset: 0,
                    }),
                    number: 0,
                    ..*comparison
                };
                compare(&read, &sides, 2, 0)
            };
            judge(condition, &compared) == Truth::True
        },
    ),
    means(
        "missing-left-alone",
        "a comparison with its right row missing is false",
        |condition, at| {
            let compared = |comparison: &Comparison| {
                let left_alone = Comparison {
                    right: None,
                    ..*comparison
                };
                match (at.compare(&left_alone), at.compare(comparison)) {
                    (Truth::True | Truth::False, Truth::Unknown) => Truth::False,
                    (_, truth) => truth,
                }
            };
            judge(condition, &compared) == Truth::True
        },
    ),
    means("not-unknown", "NOT unknown is true", |condition, at| {
        let tables = Tables {
            not: |one| match one {
                Truth::True => Truth::False,
                _ => Truth::True,
            },
            ..SQL
        };
        at.by(condition, &tables) == Truth::True
    }),
    means(
        "not-unknown-false",
        "NOT unknown is false",
        |condition, at| {
            let tables = Tables {
                not: |one| match one {
                    Truth::False => Truth::True,
                    _ => Truth::False,
                },
                ..SQL
            };
            at.by(condition, &tables) == Truth::True
        },
    ),
    means(
        "true-and-unknown",
        "true AND unknown is false",
        |condition, at| {
            let tables = Tables {
                and: |left, right| match (left, right) {
                    (Truth::True, Truth::True) => Truth::True,
                    _ => Truth::False,
                },
                ..SQL
            };
            at.by(condition, &tables) == Truth::True
        },
    ),
    means(
        "unknown-and-false",
        "unknown AND false is unknown",
        |condition, at| {
            let tables = Tables {
                and: |left, right| match (left, right) {
                    (Truth::Unknown, _) => Truth::Unknown,
                    _ => and(left, right),
                },
                ..SQL
            };
            at.by(condition, &tables) == Truth::True
        },
    ),
    means(
        "false-and-unknown",
        "false AND unknown is unknown",
        |condition, at| {
            let tables = Tables {
                and: |left, right| match (left, right) {
                    (_, Truth::Unknown) => Truth::Unknown,
                    _ => and(left, right),
                },
                ..SQL
            };
            at.by(condition, &tables) == Truth::True
        },
    ),
    means(
        "false-or-unknown",
        "false OR unknown is false",
        |condition, at| {
            let tables = Tables {
                or: |left, right| match (left, right) {
                    (Truth::True, _) | (_, Truth::True) => Truth::True,
                    _ => Truth::False,
                },
                ..SQL
            };
            at.by(condition, &tables) == Truth::True
        },
    ),
    means(
        "unknown-or-true",
        "unknown OR true is unknown",
        |condition, at| {
            let tables = Tables {
                or: |left, right| match (left, right) {
                    (Truth::Unknown, _) => Truth::Unknown,
                    _ => or(left, right),
                },
                ..SQL
            };
            at.by(condition, &tables) == Truth::True
        },
    ),
    means(
        "true-or-unknown",
        "true OR unknown is unknown",
        |condition, at| {
            let tables = Tables {
                or: |left, right| match (left, right) {
                    (_, Truth::Unknown) => Truth::Unknown,
                    _ => or(left, right),
                },
                ..SQL
            };
            at.by(condition, &tables) == Truth::True
        },
    ),
    means(
        "right-side-alone",
        "AND takes its right side alone where that is known",
        |condition, at| {
            let tables = Tables {
                and: |left, right| match right {
                    Truth::Unknown => left,
                    known => known,
                },
                ..SQL
            };
            at.by(condition, &tables) == Truth::True
        },
    ),
    reads("and-as-or", "AND is read as OR", |query, _| {
        replace(query, AND, OR)
    }),
    reads("or-as-and", "OR is read as AND", |query, _| {
        replace(query, OR, AND)
    }),
    reads("not-lost", "NOT is overlooked", |query, _| {
        change_entries(query, |mut entries| {
            let right = results(&entries, last).is_some_and(|it| it.len() == 1);
            entries.retain(|entry| !right || entry[..] != [NOT]);
            entries
        });
    }),
    reads(
        "from-the-front",
        "an operator takes the first results that are there",
        |query, _| {
            change_entries(query, |entries| match results(&entries, first) {
                Some(left) if left.len() == 1 => left.concat(),
                _ => entries,
            });
        },
    ),
    reads(
        "short-as-true",
        "an operator that finds too few results is overlooked",
        |query, _| {
            change_entries(query, |entries| {
                let mut kept: Vec<Entry> = Vec::new();
                for entry in entries {
                    kept.push(entry);
                    if results(&kept, last).is_none() {
                        kept.pop();
                    }
                }
                kept
            });
        },
    ),
    reads(
        "last-result",
        "of several results the last is taken",
        |query, _| {
            change_entries(query, |entries| match results(&entries, last) {
                Some(mut left) => left.pop().unwrap_or_default(),
                None => entries,
            });
        },
    ),
    reads(
        "all-results",
        "several results are joined by AND",
        |query, _| {
            change_entries(query, |mut entries| {
                let left = results(&entries, last).map_or(0, |left| left.len());
                let joined = left
                    .saturating_sub(1)
                    .min(16usize.saturating_sub(entries.len()));
                entries.extend(vec![operator(AND); joined]);
                entries
            });
        },
    ),
    reads("entries-17", "17 entries are accepted", |query, _| {
        change_entries(query, |mut entries| {
            if entries.len() == 17 && entries[15..] == [operator(NOT), operator(NOT)] {
                entries.truncate(15);
            }
            entries
        });
    }),
    ends("entries-16", "16 entries are refused", |search| {
        if search.ended() && has_list_of(search.before.query.items(), |count| count == 16) {
            search.refuse(3);
        }
    }),
    reads(
        "entry-4",
        "an entry of sort 4 is read as NOT",
        |query, _| replace(query, 4, NOT),
    ),
    reads("conditions-refused", "kind 6 is unknown", |query, _| {
        if let Some(records) = query::records(query) {
            if records.iter().any(|record| record.kind == CONDITION) {
                query.clear();
            }
        }
    }),
    ends(
        "conditions-last",
        "kind 6 has to stand behind kind 3",
        |search| {
            let records = query::records(search.before.query.items()).unwrap_or_default();
            let falls = |two: &[Record]| two[0].kind == CONDITION && two[1].kind == DEFINE;
            if search.ended() && records.windows(2).any(falls) {
                search.refuse(2);
            }
        },
    ),
    reads(
        "counted-apart",
        "26 records of kind 3 and 26 of kind 6 are accepted",
        |query, _| {
            drop_records(query, |before, record| {
                let both = count(before, DEFINE) + count(before, CONDITION);
                stands_as(record.kind) == DEFINE
                    && both >= MOST_DEFINES
                    && count(before, record.kind) < MOST_DEFINES
            });
        },
    ),
    reads(
        "twice-apart",
        "no 8 for two records of different kinds",
        |query, _| {
            let right = query::read(query).is_ok();
            drop_records(query, |before, record| {
                let other = |it: &Record| it.kind != record.kind && stands_as(it.kind) == DEFINE;
                stands_as(record.kind) == DEFINE
                    && right
                    && before
                        .iter()
                        .any(|it| other(it) && it.body.first() == record.body.first())
            });
        },
    ),
    means(
        "condition-free",
        "a letter with a condition always holds where one comparison is unknown",
        |condition, at| {
            let unknown = |it: &Comparison| at.compare(it) == Truth::Unknown;
            let comparisons = condition.comparisons();
            comparisons.iter().any(unknown)
                || letters::judge(condition, &|it| at.compare(it)) == Truth::True
        },
    ),
];
