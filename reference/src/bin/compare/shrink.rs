//! Making a case on which the two differ smaller, as long as they still differ
//! on it in some way: fewer rows and columns, fewer records and comparisons, a
//! shorter pattern, smaller numbers, smaller buffers, a smaller allowance or none, a
//! smaller row to test, fewer partitions before the last, a shorter list, fewer lots and
//! smaller ones.
//! Greedy, so the result is small and not the smallest.

use crate::case::{Call, Case};
use crate::engine::Engine;
use crate::in_lots::Lots;
use reference::depots::{ENTRY, WORDS as STATE};
use reference::desk;
use reference::generate::cuttings::Call as Lot;
use reference::generate::partitions::Sequence;
use reference::generate::{allowances, conditions};
use reference::lots::WORDS;
use reference::query::{COMPARISON_BYTES, CONDITION, DEFINE, MEASURE, SKIP, TEXT};
use reference::search::DONE;
use std::time::{Duration, Instant};

/// The most cases that are tried for one shrinking, and how long that may take.
const TRIES: usize = 20_000;
pub const TIME: Duration = Duration::from_secs(3);

pub fn shrink(product: &dyn Engine, case: &Case) -> Case {
    shrink_within(product, case, TIME)
}

/// The same with less time, or more.
pub fn shrink_within(product: &dyn Engine, case: &Case, time: Duration) -> Case {
    let mut shrinking = Shrinking {
        product,
        case: case.clone(),
        tries: 0,
        end: Instant::now() + time,
    };
    while shrinking.round() {}
    shrinking.case
}

struct Shrinking<'a> {
    product: &'a dyn Engine,
    case: Case,
    tries: usize,
    end: Instant,
}

impl Shrinking<'_> {
    /// Tries every sort of change; false if none was of use.
    fn round(&mut self) -> bool {
        let partitions = self.fewer_partitions();
        let lots = self.fewer_lots();
        let rows = self.fewer_rows();
        let columns = self.fewer_columns();
        let records = self.fewer_records();
        let bodies = self.shorter_bodies();
        let numbers = self.smaller_numbers();
        let buffers = self.smaller_buffers();
        let allowance = self.smaller_allowance();
        let tested = self.smaller_row();
        partitions
            || lots
            || rows
            || columns
            || records
            || bodies
            || numbers
            || buffers
            || allowance
            || tested
    }

    /// Takes a changed case over if the two still differ on it; with its allowance, or
    /// with one that ends as long before the search does as it did.
    fn take(&mut self, change: impl FnOnce(&mut Case)) -> bool {
        let mut changed = self.case.clone();
        change(&mut changed);
        let spent = self.tries == TRIES || Instant::now() > self.end;
        if changed == self.case || spent {
            return false;
        }
        self.tries += 1;
        let differs = |case: &Case| !case.agrees(self.product);
        let later = || self.before_end(&changed).filter(differs);
        let Some(taken) = Some(changed.clone()).filter(differs).or_else(later) else {
            return false;
        };
        self.case = taken;
        true
    }

    /// A changed case with an allowance as far from its last step as the case's own is
    /// from its; None where that makes no difference, or the search ends by itself.
    fn before_end(&self, changed: &Case) -> Option<Case> {
        let own = self.case.input.allowance?;
        let left = allowances::steps_of(&self.case.input).checked_sub(own)?;
        let allowance = allowances::steps_of(&changed.input).checked_sub(left)?;
        let input = changed.input.within(allowance);
        (changed.input.allowance == Some(own) && allowance != own).then_some(Case {
            input,
            ..changed.clone()
        })
    }

    /// Ends a sequence earlier, takes partitions and reports out, and shortens the list.
    fn fewer_partitions(&mut self) -> bool {
        let Call::Partition(sequence) = &self.case.call else {
            return false;
        };
        let mut any = false;
        for (at, input) in sequence.partitions.clone().into_iter().enumerate() {
            any = self.take(|case| {
                case.change_sequence(|it| it.partitions.truncate(at));
                case.input = input;
            });
            if any {
                break;
            }
        }
        any |= self.remove_runs(
            |case| case.sequence().map_or(0, |it| it.partitions.len()),
            |case, at, length| {
                case.change_sequence(|it| drop(it.partitions.drain(at..at + length)));
            },
        );
        any |= self.remove_runs(
            |case| case.sequence().map_or(0, |it| it.before.len()),
            |case, at, length| {
                case.change_sequence(|it| drop(it.before.drain(at..at + length)));
            },
        );
        let used = |it: &Sequence| {
            let used = it.before.iter().filter(|report| report.answer != DONE);
            ENTRY * used.map(|report| report.times as usize).sum::<usize>()
        };
        for most in 0..4 {
            any |= self.take(|case| {
                case.change_sequence(|it| it.list = it.list.min(used(it) + most));
            });
        }
        any | self.take(|case| case.change_sequence(|it| it.state = it.state.min(STATE)))
    }

    /// Takes calls out of a search in lots, and rows with what counts them, and makes the
    /// counts smaller.
    fn fewer_lots(&mut self) -> bool {
        if self.case.lots().is_none() {
            return false;
        }
        let calls = self.remove_runs(
            |case| case.lots().map_or(0, |it| it.calls.len()),
            |case, at, length| {
                case.change_lots(|it| drop(it.calls.drain(at..at + length)));
            },
        );
        let columns = self.case.columns();
        let rows = self.remove_runs(
            |case| case.input.rows.len() / columns,
            |case, at, length| {
                case.input.rows.drain(at * columns..(at + length) * columns);
                case.change_lots(|it| without_rows(it, at, length, columns));
            },
        );
        let counts = self.smaller_counts();
        calls || rows || counts
    }

    /// Smaller counts of rows in the calls, and no end; a smaller largest n; words of 0.
    fn smaller_counts(&mut self) -> bool {
        let mut any = false;
        for at in 0..self.case.lots().map_or(0, |it| it.calls.len()) {
            let entries = self.case.input.rows.len();
            any |= self.take(|case| case.change_call(at, |it| it.last = false));
            any |=
                self.take(|case| case.change_call(at, |it| it.entries = it.entries.min(entries)));
            any |= self.take(|case| case.change_call(at, |it| it.present = 0));
            while self.take(|case| case.change_call(at, |it| it.present /= 2)) {
                any = true;
            }
            while self.take(|case| {
                case.change_call(at, |it| it.present = it.present.saturating_sub(1));
            }) {
                any = true;
            }
        }
        while self.take(|case| case.change_lots(|it| it.largest /= 2))
            || self.take(|case| case.change_lots(|it| it.largest = it.largest.saturating_sub(1)))
        {
            any = true;
        }
        for word in 0..WORDS {
            any |= self.take(|case| {
                case.change_lots(|it| {
                    if let Some((words, _)) = &mut it.words {
                        words[word] = 0;
                    }
                });
            });
        }
        any
    }

    /// Takes out runs of items: long ones first, each half as long as the one
    /// before and side by side, then short ones wherever they stand. `remove`
    /// takes out `length` items from `at` on.
    fn remove_runs(
        &mut self,
        count: impl Fn(&Case) -> usize,
        remove: impl Fn(&mut Case, usize, usize),
    ) -> bool {
        const SHORT: usize = 8;
        let mut any = false;
        let mut length = count(&self.case);
        while length > 0 {
            let step = if length > SHORT { length } else { 1 };
            let mut at = 0;
            while at + length <= count(&self.case) {
                match self.take(|case| remove(case, at, length)) {
                    true => any = true,
                    false => at += step,
                }
            }
            length = if length > SHORT {
                length / 2
            } else {
                length - 1
            };
        }
        any
    }

    fn fewer_rows(&mut self) -> bool {
        let columns = self.case.columns();
        let whole = self.remove_runs(
            |case| case.input.rows.len() / columns,
            |case, at, length| {
                case.input.rows.drain(at * columns..(at + length) * columns);
            },
        );
        let entries = self.remove_runs(
            |case| case.input.rows.len(),
            |case, at, length| {
                case.input.rows.drain(at..at + length);
            },
        );
        whole || entries
    }

    /// Takes the last column out of the shape and of every row.
    fn fewer_columns(&mut self) -> bool {
        let mut any = false;
        loop {
            let columns = Parts::of(&self.case.input.query).columns();
            let change = |case: &mut Case| {
                let left = |row: &[i32]| row[..row.len().min(columns - 1)].to_vec();
                case.input.rows = case.input.rows.chunks(columns).flat_map(left).collect();
                case.change_parts(|parts| parts.records[0].1[0] -= 1);
            };
            if columns == 1 || !self.take(change) {
                return any;
            }
            any = true;
        }
    }

    fn fewer_records(&mut self) -> bool {
        let records = self.remove_runs(
            |case| Parts::of(&case.input.query).records.len(),
            |case, at, length| {
                case.change_parts(|parts| {
                    parts.records.drain(at..at + length);
                });
            },
        );
        let tail = self.remove_runs(
            |case| Parts::of(&case.input.query).tail.len(),
            |case, at, length| {
                case.change_parts(|parts| {
                    parts.tail.drain(at..at + length);
                });
            },
        );
        records || tail
    }

    fn shorter_bodies(&mut self) -> bool {
        let mut any = false;
        for record in 0..Parts::of(&self.case.input.query).records.len() {
            any |= match Parts::of(&self.case.input.query).records[record].0 {
                DEFINE => self.fewer_comparisons(record),
                CONDITION => self.fewer_entries(record),
                TEXT => self.fewer_parentheses(record),
                _ => false,
            };
            any |= match Parts::of(&self.case.input.query).records[record].0 {
                DEFINE | CONDITION => false,
                _ => self.remove_runs(
                    |case| Parts::of(&case.input.query).records[record].1.len(),
                    |case, at, length| {
                        case.change_parts(|parts| {
                            parts.records[record].1.drain(at..at + length);
                        });
                    },
                ),
            };
        }
        any
    }

    /// Takes out an opening parenthesis and the one that closes it.
    fn fewer_parentheses(&mut self, record: usize) -> bool {
        let mut any = false;
        let mut open = 0;
        while let Some((first, last)) =
            parentheses(&Parts::of(&self.case.input.query).records[record].1, open)
        {
            let change = |case: &mut Case| {
                case.change_parts(|parts| {
                    parts.records[record].1.remove(last);
                    parts.records[record].1.remove(first);
                });
            };
            match self.take(change) {
                true => any = true,
                false => open += 1,
            }
        }
        any
    }

    fn fewer_comparisons(&mut self, record: usize) -> bool {
        let whole = |body: &[u8]| body.len().saturating_sub(2) / COMPARISON_BYTES;
        self.remove_runs(
            |case| whole(&Parts::of(&case.input.query).records[record].1),
            |case, at, length| {
                case.change_parts(|parts| {
                    let body = &mut parts.records[record].1;
                    let from = 2 + at * COMPARISON_BYTES;
                    body.drain(from..from + length * COMPARISON_BYTES);
                    body[1] = body[1].saturating_sub(length as u8);
                });
            },
        )
    }

    /// Takes out one entry of a condition, or any two.
    fn fewer_entries(&mut self, record: usize) -> bool {
        let entries =
            |case: &Case| conditions::entries_of(&Parts::of(&case.input.query).records[record].1);
        let mut any = false;
        let mut pairs = every_pair(entries(&self.case).len());
        while let Some((first, second)) = pairs.pop() {
            let mut left = entries(&self.case);
            left.remove(second);
            if first < second {
                left.remove(first);
            }
            let change = |case: &mut Case| {
                case.change_parts(|parts| {
                    let body = &mut parts.records[record].1;
                    let letter = body.first().copied().unwrap_or(0);
                    *body = conditions::body(letter, &left);
                });
            };
            if self.take(change) {
                any = true;
                pairs = every_pair(entries(&self.case).len());
            }
        }
        any
    }

    /// Entries of rows and bytes of bodies become 0 or 1, letters A.
    fn smaller_numbers(&mut self) -> bool {
        let mut any = false;
        for index in 0..self.case.input.rows.len() {
            let entry = self.case.input.rows[index];
            for smaller in [0, 1].into_iter().take_while(|&it| it != entry) {
                if self.take(|case| case.input.rows[index] = smaller) {
                    any = true;
                    break;
                }
            }
        }
        for record in 0..Parts::of(&self.case.input.query).records.len() {
            any |= self.smaller_bytes(record);
        }
        any
    }

    fn smaller_bytes(&mut self, record: usize) -> bool {
        let mut any = false;
        let (kind, body) = Parts::of(&self.case.input.query)
            .records
            .swap_remove(record);
        for (index, byte) in body.into_iter().enumerate() {
            let smaller: &[u8] = match (kind, index) {
                (TEXT, _) => b"A",
                (DEFINE | CONDITION, 0) | (SKIP | MEASURE, 1) => b"\0A",
                _ => &[0, 1],
            };
            for &smaller in smaller.iter().take_while(|&&it| it != byte) {
                let change = |case: &mut Case| {
                    case.change_parts(|parts| parts.records[record].1[index] = smaller);
                };
                if self.take(change) {
                    any = true;
                    break;
                }
            }
        }
        any
    }

    fn smaller_buffers(&mut self) -> bool {
        let mut any = false;
        for buffer in 0..4 {
            let mut less = *self.case.length_mut(buffer);
            while less > 0 {
                let change = |case: &mut Case| {
                    let length = case.length_mut(buffer);
                    *length = length.saturating_sub(less);
                };
                match self.take(change) {
                    true => any = true,
                    false => less /= 2,
                }
            }
        }
        any
    }

    /// The row of a test, and A as its letter.
    fn smaller_row(&mut self) -> bool {
        let mut any = false;
        while let Call::Test { letter, row } = self.case.call {
            let smaller = [
                (b'A', row),
                (letter, 0),
                (letter, row / 2),
                (letter, row.saturating_sub(1)),
            ];
            let taken = smaller
                .into_iter()
                .any(|(letter, row)| self.take(|case| case.call = Call::Test { letter, row }));
            if !taken {
                break;
            }
            any = true;
        }
        any
    }

    /// None at all, or one that is smaller by as much as may be.
    fn smaller_allowance(&mut self) -> bool {
        let mut any = self.take(|case| case.input.allowance = None);
        while let Some(allowance) = self.case.input.allowance {
            let smaller = [0, allowance / 2, allowance.saturating_sub(1)];
            let taken = smaller
                .into_iter()
                .any(|smaller| self.take(|case| case.input.allowance = Some(smaller)));
            if !taken {
                break;
            }
            any = true;
        }
        any
    }
}

impl Case {
    /// Entries of a row.
    fn columns(&self) -> usize {
        match &self.call {
            Call::Desk => desk::COLUMNS,
            _ => Parts::of(&self.input.query).columns(),
        }
    }

    fn sequence(&self) -> Option<&Sequence> {
        match &self.call {
            Call::Partition(sequence) => Some(sequence),
            _ => None,
        }
    }

    fn lots(&self) -> Option<&Lots> {
        match &self.call {
            Call::Lots(lots) => Some(lots),
            _ => None,
        }
    }

    fn change_lots(&mut self, change: impl FnOnce(&mut Lots)) {
        if let Call::Lots(lots) = &mut self.call {
            change(lots);
        }
    }

    fn change_call(&mut self, at: usize, change: impl FnOnce(&mut Lot)) {
        self.change_lots(|lots| {
            if let Some(call) = lots.calls.get_mut(at) {
                change(call);
            }
        });
    }

    fn change_sequence(&mut self, change: impl FnOnce(&mut Sequence)) {
        if let Call::Partition(sequence) = &mut self.call {
            change(sequence);
        }
    }

    fn length_mut(&mut self, buffer: usize) -> &mut usize {
        match buffer {
            0 => &mut self.input.notes,
            1 => &mut self.input.trail,
            2 => &mut self.input.numbers,
            _ => &mut self.input.labels,
        }
    }

    fn change_parts(&mut self, change: impl FnOnce(&mut Parts)) {
        let mut parts = Parts::of(&self.input.query);
        change(&mut parts);
        self.input.query = parts.bytes();
    }
}

/// The calls and the largest n without these rows.
fn without_rows(lots: &mut Lots, at: usize, length: usize, columns: usize) {
    let (at, length) = (at as u64, length as u64);
    let left = |count: u64| count - length.min(count.saturating_sub(at));
    for call in &mut lots.calls {
        call.present = left(call.present);
        let rows = left((call.entries / columns) as u64) as usize;
        call.entries = rows * columns + call.entries % columns;
    }
    lots.largest = left(lots.largest);
}

/// All pairs of numbers below the count, the second not below the first.
fn every_pair(count: usize) -> Vec<(usize, usize)> {
    (0..count)
        .flat_map(|second| (0..=second).map(move |first| (first, second)))
        .collect()
}

/// Where the opening parenthesis of this number stands, and the one closing it.
fn parentheses(text: &[u8], number: usize) -> Option<(usize, usize)> {
    let mut opening = text.iter().enumerate().filter(|(_, byte)| **byte == b'(');
    let (first, _) = opening.nth(number)?;
    let mut depth = 0;
    let closes = |byte: &u8| {
        depth += i64::from(*byte == b'(') - i64::from(*byte == b')');
        depth == 0
    };
    let length = text[first..].iter().position(closes)?;
    Some((first, first + length))
}

/// A query taken apart as far as it is made of whole records: kinds and bodies,
/// and the bytes behind them.
struct Parts {
    records: Vec<(u16, Vec<u8>)>,
    tail: Vec<u8>,
}

impl Parts {
    fn of(query: &[u8]) -> Parts {
        let mut records = Vec::new();
        let mut left = query;
        while let [l0, l1, k0, k1, behind @ ..] = left {
            let length = usize::from(u16::from_le_bytes([*l0, *l1]));
            let Some((body, rest)) = behind.split_at_checked(length) else {
                break;
            };
            records.push((u16::from_le_bytes([*k0, *k1]), body.to_vec()));
            left = rest;
        }
        Parts {
            records,
            tail: left.to_vec(),
        }
    }

    fn bytes(&self) -> Vec<u8> {
        let mut bytes = Vec::new();
        for (kind, body) in &self.records {
            bytes.extend((body.len() as u16).to_le_bytes());
            bytes.extend(kind.to_le_bytes());
            bytes.extend(body);
        }
        bytes.extend(&self.tail);
        bytes
    }

    /// Entries of a row, where the first record tells; otherwise 1.
    fn columns(&self) -> usize {
        let first = self.records.first().and_then(|record| record.1.first());
        first.map_or(1, |&columns| usize::from(columns.max(1)))
    }
}
