//! Rows that come in lots: a search that goes on with each of them, and hands out each match as soon
//! as it is found. What it finds is the library's; this owns the rows, the buffers and what is kept
//! between calls, and hands on what each call appends. Promise: the matches of all lots, one behind
//! the other, and the steps at the end are those of one search of all rows, however they are cut.
//! Its weakness: the buffers are lent for the largest number of rows from the beginning on, and each
//! lot has the library prepare the query again, so that many small lots take longer than few large
//! ones. Tested in tests/feed.rs.

use crate::error::LOOKS_AHEAD;
use crate::lent::{self, FeedState, Outcome};
use crate::query::length;
use crate::report::numbers_per_match;
use crate::{Error, Limits, Query, Report, Rows};

/// The most rows that a search takes.
const MOST_ROWS: usize = 4096;

/// A search whose rows come in lots.
///
/// Prices that rise once or more and then fall. The match is handed out with the row that falls,
/// and not only at the end:
///
/// ```
/// use mireladle::{col, Ending, Feed, Limits, Query, Rows};
///
/// let query = Query::builder(1)
///     .pattern("A+ B")
///     .define('A', [col(0).gt(col(0).prev(1))])
///     .define('B', [col(0).lt(col(0).prev(1))])
///     .build()?;
/// let mut feed = Feed::new(&query, 1000, Limits::default())?;
///
/// let report = feed.push(Rows::new(&[100, 110, 120], 1))?;
/// assert_eq!((report.len(), report.ending()), (0, Ending::Waiting));
///
/// let report = feed.push(Rows::new(&[115, 130], 1))?;
/// let found: Vec<_> = report.matches().map(|found| (found.rows(), found.labels())).collect();
/// assert_eq!(found, [(1..4, "AAB")]);
///
/// // Row 4 rises again, but no row follows that falls.
/// let report = feed.finish()?;
/// assert_eq!((report.len(), report.ending()), (0, Ending::Done));
/// # Ok::<(), mireladle::Error>(())
/// ```
///
/// Each lot gives a [`Report`] of the matches that are new. They are numbered on from lot to lot,
/// and their rows count from the first row of the first lot. The report's steps are those of all
/// lots so far.
///
/// A query that looks ahead cannot be fed: one whose pattern has a `$`, or one of whose letters
/// reads a [`next`](crate::Column::next) row. A match of it could be undone by a later row.
#[derive(Clone, Debug)]
pub struct Feed {
    query: Query,
    largest: usize,
    state: FeedState,
    /// The rows so far.
    entries: Vec<i32>,
    notes: Vec<u8>,
    trail: Vec<u32>,
    numbers: Vec<i64>,
    labels: Vec<u8>,
    /// How many matches and labels have been handed out.
    handed: (u64, u64),
}

impl Feed {
    /// A feed for up to so many rows, within limits. The steps that they allow count over all lots,
    /// and so does the room for the report.
    ///
    /// The buffers are made for so many rows at once: a little more than 4 bytes for each pair, of
    /// which there are P times F for each row (see [`Query::places`] and [`Query::factor`]), and the
    /// room for the report, of which the labels are n(n+1)/2 bytes where matches may overlap. For
    /// 4,096 rows and `A+ B` that is some 190 KB.
    ///
    /// # Errors
    ///
    /// [`Error::LooksAhead`] for a query that looks ahead, with what does; and
    /// [`Error::TooManyRows`] for more than 4,096 rows.
    pub fn new(query: &Query, largest: usize, limits: Limits) -> Result<Feed, Error> {
        let n = largest.min(MOST_ROWS);
        let pairs = query.pairs(n)?;
        let named = u64::try_from(largest).unwrap_or(u64::MAX);
        let mut feed = Feed {
            largest,
            state: lent::begin(named, limits.allowance().unwrap_or(u64::MAX)),
            entries: Vec::new(),
            notes: vec![0; pairs.div_ceil(8)],
            trail: vec![0; pairs],
            numbers: vec![0; limits.numbers(n, query.measures())],
            labels: vec![0; limits.label_bytes(n, query.skip())],
            handed: (0, 0),
            query: query.clone(),
        };
        // Without a row nothing but the query and the largest number can be refused.
        let outcome = feed.call(lent::more, 0);
        feed.handed_on(outcome)?;
        Ok(feed)
    }

    /// Searches on with these rows behind those of the lots before, and gives the matches that are
    /// new. A lot may be empty. The [ending](Report::ending) is
    /// [`Waiting`](crate::Ending::Waiting) while further rows may change something. A search that
    /// has stopped stays so, whatever comes: its ending is the same, and there is no further match.
    ///
    /// # Errors
    ///
    /// [`Error::TooManyRows`], [`Error::WrongRows`] for entries that are not whole rows,
    /// [`Error::ColumnCount`], and [`Error::OutOfOrder`] after [`finish`](Feed::finish). None of them
    /// changes anything: the feed can go on with other rows.
    pub fn push(&mut self, rows: Rows<'_>) -> Result<Report, Error> {
        self.query.check_columns(rows)?;
        self.entries.extend_from_slice(rows.entries());
        let count = self.present().saturating_add(rows.len());
        let outcome = self.call(lent::more, count);
        // A call that is refused, or that comes behind a stop, takes none of its rows.
        let taken = self.present().saturating_mul(self.columns());
        self.entries.truncate(taken);
        self.handed_on(outcome).map_err(|error| match error {
            Error::WrongRows if count > self.largest => Error::TooManyRows {
                rows: count,
                most: self.largest,
            },
            other => other,
        })
    }

    /// Declares that no further row comes, and gives the matches that are new by that: those whose
    /// search waited for a row.
    ///
    /// # Errors
    ///
    /// [`Error::OutOfOrder`] where the end was declared before.
    pub fn finish(&mut self) -> Result<Report, Error> {
        let outcome = self.call(lent::last, self.present());
        self.handed_on(outcome)
    }

    /// How many rows are present.
    pub fn present(&self) -> usize {
        usize::try_from(self.state.present).unwrap_or(usize::MAX)
    }

    /// The most rows that there may be, as it was named.
    pub fn largest(&self) -> usize {
        self.largest
    }

    /// The rows that are present.
    pub fn rows(&self) -> Rows<'_> {
        Rows::new(&self.entries, self.query.columns())
    }

    /// The query.
    pub fn query(&self) -> &Query {
        &self.query
    }

    fn columns(&self) -> usize {
        usize::from(self.query.columns())
    }

    /// A call of the library with so many rows present.
    fn call(&mut self, call: Call, present: usize) -> Outcome {
        call(
            &mut self.state,
            self.query.as_bytes(),
            &self.entries,
            u64::try_from(present).unwrap_or(u64::MAX),
            &mut self.notes,
            &mut self.trail,
            &mut self.numbers,
            &mut self.labels,
        )
    }

    /// The report of what a call appended.
    fn handed_on(&mut self, outcome: Outcome) -> Result<Report, Error> {
        let (matches, labels) = self.handed;
        let width = numbers_per_match(self.query.measures());
        let at = |count: u64| length(count).map(|count| count.saturating_mul(width));
        let numbers = self.numbers.get(at(matches)?..at(outcome.matches)?);
        let letters = self.labels.get(length(labels)?..length(outcome.labels)?);
        let new = Outcome {
            matches: outcome.matches.saturating_sub(matches),
            labels: outcome.labels.saturating_sub(labels),
            ..outcome
        };
        // A refusal counts nothing, so that there is no such part.
        let (numbers, letters) = (numbers.unwrap_or(&[]), letters.unwrap_or(&[]));
        let (numbers, letters) = (numbers.to_vec(), letters.to_vec());
        let report = Report::new(&new, numbers, letters, self.query.measures());
        let report = report.map_err(|error| self.told(error))?;
        self.handed = (outcome.matches, outcome.labels);
        Ok(report)
    }

    /// A refusal with what this crate knows of it.
    fn told(&self, error: Error) -> Error {
        match error.number() {
            Some(LOOKS_AHEAD) => Error::LooksAhead {
                by: self.query.looks_ahead(),
            },
            Some(10) if self.largest > MOST_ROWS => Error::TooManyRows {
                rows: self.largest,
                most: MOST_ROWS,
            },
            _ => error,
        }
    }
}

/// One of the two calls that bring rows.
type Call =
    fn(&mut FeedState, &[u8], &[i32], u64, &mut [u8], &mut [u32], &mut [i64], &mut [u8]) -> Outcome;
