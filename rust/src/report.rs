//! Reports: the matches that a search wrote, read from the numbers and labels as document 01 lays them out. A report is
//! checked once when it is made, so that going through it needs no errors.

use std::iter::FusedIterator;
use std::ops::Range;
use std::slice::ChunksExact;

use crate::error::{Error, DONE, NO_SKIP_ROW, OUT_OF_STEPS, STOPPED, WAITING};
use crate::lent::Outcome;
use crate::query::Skip;

/// Numbers of a match in front of its measures: match number, first row, rows taken.
const HEAD: usize = 3;
/// Numbers of a measure: 1 and the result, or 0 and 0 for null.
const MEASURE: usize = 2;

/// How many numbers a match takes in the report.
pub(crate) fn numbers_per_match(measures: usize) -> usize {
    measures.saturating_mul(MEASURE).saturating_add(HEAD)
}

/// How far a search may go: the room for its report, and the steps that it may take. By default
/// there is room for every match, and no limit to the steps.
///
/// ```
/// use mireladle::{Ending, Limits, Query, Rows};
///
/// let each_row = Query::builder(1).pattern("A").build()?;
/// let rows = Rows::new(&[7, 8, 9], 1);
///
/// let report = each_row.search_within(rows, Limits::default().matches(2))?;
/// assert_eq!((report.len(), report.ending()), (2, Ending::Stopped));
///
/// // A match takes two steps here: the letter, and the pattern's end.
/// let report = each_row.search_within(rows, Limits::default().steps(5))?;
/// assert_eq!((report.len(), report.ending()), (2, Ending::OutOfSteps));
///
/// // What a search comes to first is its ending.
/// let report = each_row.search_within(rows, Limits::default().matches(1).steps(5))?;
/// assert_eq!((report.len(), report.ending()), (1, Ending::Stopped));
/// # Ok::<(), mireladle::Error>(())
/// ```
#[derive(Clone, Copy, Debug, Default, PartialEq, Eq, Hash)]
#[must_use]
pub struct Limits {
    matches: Option<usize>,
    labels: Option<usize>,
    steps: Option<u64>,
}

/// The name of [`Limits`] when the room for a report was all that could be limited.
#[deprecated(note = "its name is `Limits`, since it can limit the steps too")]
pub type ReportRoom = Limits;

impl Limits {
    /// Room for so many matches at most.
    pub const fn matches(mut self, most: usize) -> Self {
        self.matches = Some(most);
        self
    }

    /// Room for so many labels at most, over all matches.
    pub const fn labels(mut self, most: usize) -> Self {
        self.labels = Some(most);
        self
    }

    /// So many steps at most, so that a search ends after a time in proportion to them, with
    /// [`Ending::OutOfSteps`] where it is not done by then. A query of P
    /// [places](crate::Query::places) and the [factor](crate::Query::factor) F that skips past the
    /// last row takes at most 2PF(n+1) steps for n rows, so that more than that is no limit.
    pub const fn steps(mut self, most: u64) -> Self {
        self.steps = Some(most);
        self
    }

    /// The steps that the search may take; none where they are not limited.
    pub(crate) fn allowance(self) -> Option<u64> {
        self.steps
    }

    /// The numbers to lend for n rows: each start has at most one match.
    pub(crate) fn numbers(self, n: usize, measures: usize) -> usize {
        let matches = self.matches.unwrap_or(n).min(n);
        matches.saturating_mul(numbers_per_match(measures))
    }

    /// The label bytes to lend for n rows: one for each row, or, where matches may overlap, one for each row behind
    /// each start.
    pub(crate) fn label_bytes(self, n: usize, skip: Skip) -> usize {
        let all = match skip {
            Skip::PastLastRow => n,
            Skip::ToNextRow | Skip::ToFirst(_) | Skip::ToLast(_) => {
                n.saturating_mul(n.saturating_add(1)).div_ceil(2)
            }
        };
        self.labels.unwrap_or(all).min(all)
    }
}

/// How a search ended.
#[derive(Clone, Copy, Debug, PartialEq, Eq, Hash)]
#[non_exhaustive]
pub enum Ending {
    /// It went through all rows: the report holds every match.
    Done,
    /// 13: the next match did not fit into the report's room. The report holds all matches before it.
    Stopped,
    /// 15: there is no row to go on at behind the report's last match. Only [`Skip::ToFirst`] and
    /// [`Skip::ToLast`] give this: their letter labels no row of that match, or the row to skip to
    /// is its first. The report holds that match and all before it; no later one was looked for.
    NoSkipRow,
    /// 16: the next step would have been one more than [`Limits::steps`] allows. The report holds
    /// all matches that were found by then, and the same search with more steps begins with them.
    OutOfSteps,
    /// 23: it has not ended, but waits for a row that is not yet there. Only a
    /// [`Feed`](crate::Feed) gives this.
    Waiting,
}

impl Ending {
    /// The ending that an answer says; none where it is a refusal.
    pub(crate) fn of(answer: u64) -> Option<Ending> {
        match answer {
            DONE => Some(Ending::Done),
            STOPPED => Some(Ending::Stopped),
            NO_SKIP_ROW => Some(Ending::NoSkipRow),
            OUT_OF_STEPS => Some(Ending::OutOfSteps),
            WAITING => Some(Ending::Waiting),
            _ => None,
        }
    }
}

/// The matches of one search, in order.
#[derive(Clone, Debug, PartialEq, Eq, Hash)]
pub struct Report {
    ending: Ending,
    steps: u64,
    matches: usize,
    measures: usize,
    /// Exactly the numbers of all matches.
    numbers: Vec<i64>,
    /// Exactly the labels of all matches, as letters.
    labels: String,
}

impl Report {
    /// Reads the report that a search left in the buffers it was lent, [`lent::search`](crate::lent::search) above all.
    ///
    /// # Errors
    ///
    /// The refusal that the outcome is; [`Error::OtherLibrary`] where numbers and labels are not those of so many
    /// matches with so many measures.
    pub fn new(
        outcome: &Outcome,
        mut numbers: Vec<i64>,
        mut labels: Vec<u8>,
        measures: usize,
    ) -> Result<Report, Error> {
        let ending = Ending::of(outcome.answer)
            .ok_or_else(|| Error::from_answer(outcome.answer, outcome.offset))?;
        let strange = Error::OtherLibrary {
            answer: outcome.answer,
        };
        let matches = usize::try_from(outcome.matches).map_err(|_| strange)?;
        numbers.truncate(matches.saturating_mul(numbers_per_match(measures)));
        numbers.shrink_to_fit();
        labels.truncate(usize::try_from(outcome.labels).map_err(|_| strange)?);
        labels.shrink_to_fit();
        let labels = String::from_utf8(labels).map_err(|_| strange)?;
        let report = Report {
            ending,
            steps: outcome.steps,
            matches,
            measures,
            numbers,
            labels,
        };
        match report.is_whole() {
            true => Ok(report),
            false => Err(strange),
        }
    }

    /// Whether numbers and labels are those of so many matches: what going through them relies on.
    fn is_whole(&self) -> bool {
        let chunks = self.numbers.chunks_exact(numbers_per_match(self.measures));
        let in_chunks = chunks.remainder().is_empty() && chunks.len() == self.matches;
        let taken: Option<Vec<usize>> = chunks.map(rows_taken).collect();
        let all_taken = taken.map(|taken| taken.into_iter().fold(0, usize::saturating_add));
        in_chunks && all_taken == Some(self.labels.len()) && self.labels.is_ascii()
    }

    /// The matches in order.
    pub fn matches(&self) -> Matches<'_> {
        Matches {
            numbers: self.numbers.chunks_exact(numbers_per_match(self.measures)),
            labels: &self.labels,
        }
    }

    /// How many matches there are.
    pub fn len(&self) -> usize {
        self.matches
    }

    /// Whether there is no match.
    pub fn is_empty(&self) -> bool {
        self.matches == 0
    }

    /// How the search ended.
    pub fn ending(&self) -> Ending {
        self.ending
    }

    /// The steps of the search: how many pairs of a place in the pattern and a position in the rows it entered (with
    /// flags where its [factor](crate::Query::factor) is above 1). Of a stopped search the steps for the match that did not fit are counted too. Of one that ran out
    /// of steps they are those that it was allowed.
    pub fn steps(&self) -> u64 {
        self.steps
    }
}

impl<'a> IntoIterator for &'a Report {
    type Item = Match<'a>;
    type IntoIter = Matches<'a>;

    fn into_iter(self) -> Matches<'a> {
        self.matches()
    }
}

/// Rows taken by the match with these numbers, if they can be those of a match.
fn rows_taken(numbers: &[i64]) -> Option<usize> {
    match numbers {
        [_, first, taken, ..] if *first >= 0 => usize::try_from(*taken).ok(),
        _ => None,
    }
}

/// Goes through the matches of a report. Made by [`Report::matches`].
#[derive(Clone, Debug)]
pub struct Matches<'a> {
    numbers: ChunksExact<'a, i64>,
    /// Labels of the matches that are still to come.
    labels: &'a str,
}

impl<'a> Iterator for Matches<'a> {
    type Item = Match<'a>;

    fn next(&mut self) -> Option<Match<'a>> {
        let [number, first_row, taken, measures @ ..] = self.numbers.next()? else {
            return None;
        };
        let taken = usize::try_from(*taken).ok()?;
        let labels = self.labels.get(..taken)?;
        self.labels = self.labels.get(taken..)?;
        Some(Match {
            number: usize::try_from(*number).ok()?,
            first_row: usize::try_from(*first_row).ok()?,
            labels,
            measures,
        })
    }

    fn size_hint(&self) -> (usize, Option<usize>) {
        self.numbers.size_hint()
    }
}

impl ExactSizeIterator for Matches<'_> {}
impl FusedIterator for Matches<'_> {}

/// One match.
#[derive(Clone, Copy, Debug, PartialEq, Eq, Hash)]
pub struct Match<'a> {
    number: usize,
    first_row: usize,
    labels: &'a str,
    measures: &'a [i64],
}

impl<'a> Match<'a> {
    /// The match's number in the report, from 1.
    pub fn number(&self) -> usize {
        self.number
    }

    /// Its first row, from 0; the row where it was tried if it takes no row.
    pub fn first_row(&self) -> usize {
        self.first_row
    }

    /// Its rows, from 0; an empty range if it takes none.
    pub fn rows(&self) -> Range<usize> {
        self.first_row..self.first_row.saturating_add(self.labels.len())
    }

    /// How many rows it takes.
    pub fn len(&self) -> usize {
        self.labels.len()
    }

    /// Whether it takes no row.
    pub fn is_empty(&self) -> bool {
        self.labels.is_empty()
    }

    /// The labels of its rows in order, one letter `A` to `Z` for each.
    pub fn labels(&self) -> &'a str {
        self.labels
    }

    /// Its rows with their labels.
    pub fn labelled_rows(&self) -> impl Iterator<Item = (usize, char)> + 'a {
        self.rows().zip(self.labels.chars())
    }

    /// The results of the query's measures in order; `None` is SQL's null.
    pub fn measures(&self) -> impl ExactSizeIterator<Item = Option<i64>> + 'a {
        self.measures.chunks_exact(MEASURE).map(|two| match two {
            [1, result] => Some(*result),
            _ => None,
        })
    }
}

#[cfg(test)]
mod tests {
    use super::*;

    fn outcome(answer: u64, matches: u64, labels: u64) -> Outcome {
        Outcome {
            answer,
            matches,
            labels,
            steps: 9,
            offset: 0,
        }
    }

    #[test]
    fn a_report_is_read_match_by_match() {
        let numbers = vec![1, 1, 3, 1, 2, 0, 0, 2, 4, 0, 1, 0, 1, -5, 77, 77];
        let report = Report::new(&outcome(0, 2, 3), numbers, b"AAB??".to_vec(), 2).unwrap();
        assert_eq!(
            (report.len(), report.steps(), report.ending()),
            (2, 9, Ending::Done)
        );
        let mut matches = report.matches();
        assert_eq!(matches.len(), 2);
        let first = matches.next().unwrap();
        assert_eq!(
            (
                first.number(),
                first.first_row(),
                first.rows(),
                first.labels()
            ),
            (1, 1, 1..4, "AAB")
        );
        assert_eq!(
            first.labelled_rows().collect::<Vec<_>>(),
            [(1, 'A'), (2, 'A'), (3, 'B')]
        );
        assert_eq!(first.measures().collect::<Vec<_>>(), [Some(2), None]);
        let second = matches.next().unwrap();
        assert!(second.is_empty());
        assert_eq!(
            (second.number(), second.rows(), second.labels()),
            (2, 4..4, "")
        );
        assert_eq!(second.measures().collect::<Vec<_>>(), [Some(0), Some(-5)]);
        assert_eq!(matches.next(), None);
    }

    #[test]
    fn each_match_has_the_labels_behind_those_before_it() {
        let numbers = vec![1, 0, 2, 2, 2, 0, 3, 3, 1, 4, 4, 3];
        let report = Report::new(&outcome(0, 4, 6), numbers, b"ABCDEF".to_vec(), 0).unwrap();
        let labels: Vec<&str> = report.matches().map(|found| found.labels()).collect();
        assert_eq!(labels, ["AB", "", "C", "DEF"]);
    }

    #[test]
    fn a_stopped_report_keeps_its_matches() {
        let report = Report::new(&outcome(13, 1, 1), vec![1, 0, 1, 0], b"A".to_vec(), 0).unwrap();
        assert_eq!((report.ending(), report.len()), (Ending::Stopped, 1));
        let numbers = vec![1, 0, 1, 2, 1, 2, 0];
        let report = Report::new(&outcome(15, 2, 3), numbers, b"ABA".to_vec(), 0).unwrap();
        assert_eq!((report.ending(), report.len()), (Ending::NoSkipRow, 2));
        assert_eq!(report.matches().last().map(|it| it.labels()), Some("BA"));
        let report = Report::new(&outcome(16, 1, 2), vec![1, 4, 2], b"AB".to_vec(), 0).unwrap();
        assert_eq!((report.ending(), report.len()), (Ending::OutOfSteps, 1));
        assert_eq!(report.matches().next().map(|it| it.rows()), Some(4..6));
        let none = Report::new(&outcome(16, 0, 0), vec![], vec![], 3).unwrap();
        assert_eq!((none.ending(), none.is_empty()), (Ending::OutOfSteps, true));
        let waits = Report::new(&outcome(23, 1, 1), vec![1, 0, 1, 0], b"A".to_vec(), 0).unwrap();
        assert_eq!((waits.ending(), waits.len()), (Ending::Waiting, 1));
        let refused = Report::new(&outcome(17, 0, 0), vec![], vec![], 0);
        assert_eq!(refused, Err(Error::LooksAhead { by: None }));
        let unknown = Report::new(&outcome(18, 0, 0), vec![], vec![], 0);
        assert_eq!(unknown, Err(Error::OtherLibrary { answer: 18 }));
    }

    #[test]
    fn a_report_that_does_not_fit_together_is_an_error() {
        let strange = Err(Error::OtherLibrary { answer: 0 });
        assert_eq!(
            Report::new(&outcome(0, 2, 1), vec![1, 0, 1], b"A".to_vec(), 0),
            strange
        );
        assert_eq!(
            Report::new(&outcome(0, 1, 2), vec![1, 0, 1], b"AA".to_vec(), 0),
            strange
        );
        assert_eq!(
            Report::new(&outcome(0, 1, 1), vec![1, 0, 1], vec![], 0),
            strange
        );
        assert_eq!(
            Report::new(&outcome(0, 1, 1), vec![1, 0, -1], b"A".to_vec(), 0),
            strange
        );
        assert_eq!(
            Report::new(&outcome(0, 1, 1), vec![1, -1, 1], b"A".to_vec(), 0),
            strange
        );
        assert_eq!(
            Report::new(&outcome(0, 1, 2), vec![1, 0, 2], "\u{E9}".into(), 0),
            strange
        );
        assert_eq!(
            Report::new(&outcome(0, u64::MAX, 0), vec![], vec![], 8),
            strange
        );
        assert_eq!(
            Report::new(&outcome(7, 0, 0), vec![], vec![], 0),
            Err(Error::TooManyPlaces)
        );
    }

    #[test]
    fn room_is_never_lent_beyond_need() {
        let all = Limits::default();
        assert_eq!(
            (
                all.numbers(4096, 8),
                all.label_bytes(4096, Skip::PastLastRow)
            ),
            (77_824, 4096)
        );
        for skip in [Skip::ToNextRow, Skip::ToFirst('A'), Skip::ToLast('A')] {
            assert_eq!(all.label_bytes(4096, skip), 8_390_656);
        }
        let huge = Limits::default().matches(usize::MAX).labels(usize::MAX);
        assert_eq!(
            (huge.numbers(5, 0), huge.label_bytes(5, Skip::ToNextRow)),
            (15, 15)
        );
        let none = Limits::default().matches(0).labels(0);
        assert_eq!(
            (none.numbers(5, 0), none.label_bytes(5, Skip::ToNextRow)),
            (0, 0)
        );
    }

    /// A limit of one thing is none of another, and the older name is the same type.
    #[test]
    fn limits_are_apart() {
        let steps = Limits::default().steps(0);
        assert_eq!(
            (steps.numbers(5, 0), steps.label_bytes(5, Skip::ToNextRow)),
            (15, 15)
        );
        assert_eq!(steps.allowance(), Some(0));
        assert_eq!(Limits::default().steps(7).steps(9).allowance(), Some(9));
        #[allow(deprecated)]
        let room = ReportRoom::default().matches(0).labels(0);
        assert_eq!(room.allowance(), None);
        assert_eq!(room, Limits::default().labels(0).matches(0));
    }
}
