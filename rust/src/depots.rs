//! The depot-by-month table: one query over many partitions, its matches counted by two columns of
//! each match's first row. The counts are the library's, and what is proved of them is there; this
//! owns the state, the list and the buffers, and reads them. Its weakness: the list is lent for all
//! 65,535 partitions, half a megabyte. Tested in tests/depots.rs.

use crate::lent::{self, DEPOTS_LENGTH, DEPOTS_LISTED, DEPOTS_OUTSIDE, DEPOTS_PARTITIONS};
use crate::{Ending, Error, Limits, Query, Rows};

/// The depots of the table, numbered from 0.
pub const MOST_DEPOTS: u8 = 64;
/// The months of the table, numbered from 1.
pub const MONTHS: u8 = 12;

/// The most rows that a search takes.
const MOST_ROWS: usize = 4096;
/// Numbers of the list for each partition.
const ENTRY: usize = 2;

/// What the search of a numbered partition came to. Its matches are counted in the table only where
/// it is done.
#[derive(Clone, Copy, Debug, PartialEq, Eq, Hash)]
pub struct Taken {
    /// How the search ended: one that is not [`Ending::Done`] stands in the list.
    pub ending: Ending,
    /// Its matches; those that were found by then, where it stopped.
    pub matches: u64,
    /// Their labels.
    pub labels: u64,
    /// Its steps.
    pub steps: u64,
}

/// A partition that was refused or stopped, and so adds nothing to the table.
#[derive(Clone, Copy, Debug, PartialEq, Eq, Hash)]
pub struct Listed {
    /// Its number, from 1.
    pub partition: u32,
    /// Its answer: 13, 15 or 16 where it stopped, otherwise that of its refusal.
    pub answer: u32,
}

/// A table of 64 depots by 12 months, in which the matches of many partitions are counted. It keeps
/// its buffers from one partition to the next.
///
/// ```
/// use mireladle::{col, Depots, Query, Rows};
///
/// // depot, month, event: two refusals in a row.
/// let query = Query::builder(3)
///     .pattern("R R")
///     .define('R', [col(2).eq(2)])
///     .build()?;
/// let mut depots = Depots::new(0, 1);
/// depots.partition(&query, Rows::new(&[5, 1, 1, 5, 1, 2, 5, 2, 2], 3))?;
/// // The match begins in January; no depot has the number 64.
/// depots.partition(&query, Rows::new(&[64, 1, 2, 64, 1, 2], 3))?;
/// assert_eq!(depots.cell(5, 1), Some(1));
/// assert_eq!((depots.outside(), depots.partitions()), (1, 2));
/// assert_eq!(depots.listed().count(), 0);
/// # Ok::<(), mireladle::Error>(())
/// ```
#[derive(Clone, Debug)]
pub struct Depots {
    state: Vec<u64>,
    list: Vec<u32>,
    notes: Vec<u8>,
    trail: Vec<u32>,
    numbers: Vec<i64>,
    labels: Vec<u8>,
}

impl Depots {
    /// An empty table, by the columns, from 0, in which a row has its depot and its month. They may
    /// be one column. A column that the query's rows do not have is a refusal of each partition.
    pub fn new(depot: u8, month: u8) -> Depots {
        let mut state = vec![0; DEPOTS_LENGTH];
        // A state of its length is always begun.
        lent::depots_begin(&mut state, u64::from(depot), u64::from(month));
        Depots {
            state,
            list: vec![0; lent::MOST_PARTITIONS.saturating_mul(ENTRY)],
            notes: Vec::new(),
            trail: Vec::new(),
            numbers: Vec::new(),
            labels: Vec::new(),
        }
    }

    /// Searches one more partition, and counts each match by the depot and the month in its first
    /// row; of a match that takes no row, in its start row. There is room for every match.
    ///
    /// # Errors
    ///
    /// The refusals of a numbered partition, which stands in the [list](Depots::listed):
    /// [`Error::WrongRows`], and [`Error::WrongField`] where the query's rows do not have one of the
    /// two columns. And two where the partition takes no number and nothing is changed:
    /// [`Error::ColumnCount`], and [`Error::NoNumber`] behind 65,535 partitions.
    pub fn partition(&mut self, query: &Query, rows: Rows<'_>) -> Result<Taken, Error> {
        if rows.columns() != query.columns() {
            return Err(Error::ColumnCount {
                query: query.columns(),
                rows: rows.columns(),
            });
        }
        self.lend(query, rows.len().min(MOST_ROWS))?;
        let outcome = lent::depots_partition(
            &mut self.state,
            &mut self.list,
            query.as_bytes(),
            rows.entries(),
            &mut self.notes,
            &mut self.trail,
            &mut self.numbers,
            &mut self.labels,
        );
        let ending = Ending::of(outcome.answer)
            .ok_or_else(|| Error::from_answer(outcome.answer, outcome.offset))?;
        Ok(Taken {
            ending,
            matches: outcome.matches,
            labels: outcome.labels,
            steps: outcome.steps,
        })
    }

    /// Sees to it that the buffers are long enough for n rows.
    fn lend(&mut self, query: &Query, n: usize) -> Result<(), Error> {
        let pairs = query.pairs(n)?;
        let limits = Limits::default();
        at_least(&mut self.notes, pairs.div_ceil(8));
        at_least(&mut self.trail, pairs);
        at_least(&mut self.numbers, limits.numbers(n, query.measures()));
        at_least(&mut self.labels, limits.label_bytes(n, query.skip()));
        Ok(())
    }

    /// The matches of a depot, 0 to 63, in a month, 1 to 12; none where there is no such cell.
    pub fn cell(&self, depot: u8, month: u8) -> Option<u64> {
        let month = usize::from(month.checked_sub(1)?);
        self.months(depot)?.get(month).copied()
    }

    /// The matches of a depot, 0 to 63, in the twelve months.
    pub fn months(&self, depot: u8) -> Option<&[u64]> {
        let months = usize::from(MONTHS);
        let cells = self.state.get(..DEPOTS_OUTSIDE)?;
        cells.chunks_exact(months).nth(usize::from(depot))
    }

    /// The matches whose depot is not 0 to 63 or whose month is not 1 to 12.
    pub fn outside(&self) -> u64 {
        self.word(DEPOTS_OUTSIDE)
    }

    /// All matches that are counted: those of the cells, and those outside.
    pub fn matches(&self) -> u64 {
        let counts = self.state.iter().take(DEPOTS_OUTSIDE.saturating_add(1));
        counts.fold(0, |sum, count| sum.saturating_add(*count))
    }

    /// How many partitions have a number.
    pub fn partitions(&self) -> u64 {
        self.word(DEPOTS_PARTITIONS)
    }

    /// The partitions that were refused or stopped, in order.
    pub fn listed(&self) -> impl ExactSizeIterator<Item = Listed> + '_ {
        let used = usize::try_from(self.word(DEPOTS_LISTED)).unwrap_or(usize::MAX);
        let used = self.list.get(..used).unwrap_or(&[]);
        used.chunks_exact(ENTRY).map(|entry| Listed {
            partition: entry.first().copied().unwrap_or(0),
            answer: entry.get(1).copied().unwrap_or(0),
        })
    }

    fn word(&self, at: usize) -> u64 {
        self.state.get(at).copied().unwrap_or(0)
    }
}

/// Lengthens a buffer. What it holds has no effect on a search.
fn at_least<T: Clone + Default>(buffer: &mut Vec<T>, length: usize) {
    if buffer.len() < length {
        buffer.resize(length, T::default());
    }
}
