//! The report: the two lent buffers, how much of them is written, and the
//! measures of a match from its labels.

use super::letters::Rows;
use super::query::{self, Measure};

pub struct Report<'a> {
    numbers: &'a mut [i64],
    labels: &'a mut [u8],
    measures: &'a [Measure],
    pub matches: usize,
    numbers_written: usize,
    pub labels_written: usize,
}

impl<'a> Report<'a> {
    pub fn new(
        numbers: &'a mut [i64],
        labels: &'a mut [u8],
        measures: &'a [Measure],
    ) -> Report<'a> {
        Report {
            numbers,
            labels,
            measures,
            matches: 0,
            numbers_written: 0,
            labels_written: 0,
        }
    }

    /// Appends a match by the letters' places that took its rows; false, and
    /// nothing is changed, if it does not fit whole. Not inlined, so that the
    /// walk keeps its registers.
    #[inline(never)]
    pub fn append<const N: usize>(
        &mut self,
        rows: &Rows,
        letters: &[u8; N],
        start: usize,
        taken: &[u32],
    ) -> bool {
        let own = 3 + 2 * self.measures.len();
        let Some(numbers) = self.numbers[self.numbers_written..].get_mut(..own) else {
            return false;
        };
        let Some(labels) = self.labels[self.labels_written..].get_mut(..taken.len()) else {
            return false;
        };
        for (label, &place) in labels.iter_mut().zip(taken) {
            *label = letters[place as usize % N];
        }
        self.matches += 1;
        numbers[0] = self.matches as i64;
        numbers[1] = start as i64;
        numbers[2] = taken.len() as i64;
        let entries = &rows.entries[start * rows.columns..];
        for (measure, out) in self.measures.iter().zip(numbers[3..].chunks_exact_mut(2)) {
            let result = result(*measure, entries, rows.columns, labels);
            out[0] = i64::from(result.is_some());
            out[1] = result.unwrap_or(0);
        }
        self.numbers_written += own;
        self.labels_written += labels.len();
        true
    }
}

/// The result of a measure over the rows of a match, whose labels are given and
/// whose entries are the first; null is None.
fn result(measure: Measure, entries: &[i32], columns: usize, labels: &[u8]) -> Option<i64> {
    let all = measure.letter == 0;
    let counts = |label: &u8| all || *label == measure.letter;
    let entry = |row: usize| i64::from(entries[row * columns + usize::from(measure.column)]);
    let counted = || {
        let rows = labels.iter().enumerate();
        rows.filter(|(_, label)| counts(label))
            .map(|(row, _)| entry(row))
    };
    match measure.function {
        query::COUNT => Some(labels.iter().filter(|label| counts(label)).count() as i64),
        query::SUM => counted().reduce(|sum, entry| sum + entry),
        query::MIN => counted().min(),
        query::MAX => counted().max(),
        query::FIRST => labels.iter().position(counts).map(entry),
        query::LAST => labels.iter().rposition(counts).map(entry),
        // AVG: cut toward zero, and null where the count is 0.
        _ => {
            let sum: i64 = counted().sum();
            sum.checked_div(counted().count() as i64)
        }
    }
}
