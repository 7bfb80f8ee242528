//! The release desk: whether a bus may leave, by its log. The verdict is the library's, and what is
//! proved of it is there; this lends the buffers and reads the verdict. A bus is cleared by
//! [`Verdict::Cleared`] alone: every error, and whatever a library of another version returns, is
//! something else. Tested here and in tests/desk.rs.

use crate::error::DONE;
use crate::lent::{self, Judged};
use crate::{Error, Rows};

/// The columns of a log: time, event, base number, patch number.
pub const LOG_COLUMNS: u8 = 4;
/// The most rows that a log has; one with more is refused.
pub const LOG_ROWS: usize = 4096;

/// The places of the desk's pattern.
const PLACES: usize = 6;
/// The report numbers of its one match.
const NUMBERS: usize = 3;

/// What the desk says of a log that it can judge.
#[derive(Clone, Copy, Debug, PartialEq, Eq, Hash)]
pub enum Verdict {
    /// The log ends in an offer, refusals or none, and an acceptance, which is its last row;
    /// refusals and acceptance each have the base number and the patch number of the row before.
    Cleared,
    /// The log does not end so. No rows is held.
    Held {
        /// The row of the last event 2, from 0, whatever its numbers; none where there is none.
        last_refusal: Option<usize>,
    },
    /// Some row has an event other than 1 offered, 2 refused and 3 accepted.
    Unreadable,
}

impl Verdict {
    /// Whether the bus may leave.
    pub fn is_cleared(self) -> bool {
        self == Verdict::Cleared
    }
}

/// A desk that judges one log after the other, and keeps its buffers in between.
///
/// ```
/// use mireladle::{Desk, Rows, Verdict};
///
/// let mut desk = Desk::new();
/// // time, event (1 offered, 2 refused, 3 accepted), base number, patch number
/// let log = [540, 1, 7, 31, 545, 2, 7, 31, 560, 3, 7, 31];
/// assert_eq!(desk.judge(Rows::new(&log, 4))?, Verdict::Cleared);
/// // Before the acceptance it is held, with the row of the refusal.
/// let held = Verdict::Held { last_refusal: Some(1) };
/// assert_eq!(desk.judge(Rows::new(&log[..8], 4))?, held);
/// # Ok::<(), mireladle::Error>(())
/// ```
#[derive(Clone, Debug, Default)]
pub struct Desk {
    notes: Vec<u8>,
    trail: Vec<u32>,
    labels: Vec<u8>,
}

impl Desk {
    /// A desk without buffers yet.
    pub fn new() -> Desk {
        Desk::default()
    }

    /// The verdict on a log, its rows in order of time.
    ///
    /// # Errors
    ///
    /// [`Error::WrongRows`] where there are more than 4,096 rows or the last one is not whole, and
    /// [`Error::ColumnCount`] where they do not have 4 columns. Both come before every verdict, and
    /// so would every other refusal or stop, of which none can come: there is room for all.
    pub fn judge(&mut self, rows: Rows<'_>) -> Result<Verdict, Error> {
        if rows.columns() != LOG_COLUMNS {
            return Err(Error::ColumnCount {
                query: LOG_COLUMNS,
                rows: rows.columns(),
            });
        }
        // More rows are refused, however much is lent.
        let n = rows.len().min(LOG_ROWS);
        let pairs = n.saturating_add(1).saturating_mul(PLACES);
        self.notes.resize(pairs.div_ceil(8), 0);
        self.trail.resize(pairs, 0);
        self.labels.resize(n, 0);
        let judged = lent::desk(
            rows.entries(),
            &mut self.notes,
            &mut self.trail,
            &mut [0; NUMBERS],
            &mut self.labels,
        );
        read(judged, n)
    }
}

/// The verdict that a library's numbers are, on a log of n rows.
fn read(judged: Judged, n: usize) -> Result<Verdict, Error> {
    let Judged {
        answer,
        verdict,
        found,
        row,
    } = judged;
    if answer != DONE {
        return Err(Error::from_answer(answer, 0));
    }
    let row = usize::try_from(row).ok().filter(|row| *row < n);
    match (verdict, found, row) {
        (1, 0, _) => Ok(Verdict::Cleared),
        (2, 0, _) => Ok(Verdict::Held { last_refusal: None }),
        (2, 1, Some(row)) => Ok(Verdict::Held {
            last_refusal: Some(row),
        }),
        (3, 0, _) => Ok(Verdict::Unreadable),
        _ => Err(Error::OtherLibrary { answer }),
    }
}

#[cfg(test)]
mod tests {
    use super::*;

    fn judged(answer: u64, verdict: u64, found: u64, row: u64) -> Result<Verdict, Error> {
        let judged = Judged {
            answer,
            verdict,
            found,
            row,
        };
        read(judged, 5)
    }

    #[test]
    fn a_refusal_or_stop_comes_before_every_verdict() {
        for answer in 1..20 {
            for verdict in 0..5 {
                let error = judged(answer, verdict, 0, 0).unwrap_err();
                assert_eq!(error, Error::from_answer(answer, 0));
            }
        }
    }

    #[test]
    fn what_another_library_says_clears_nothing() {
        let other = Err(Error::OtherLibrary { answer: 0 });
        for (verdict, found, row) in [(0, 0, 0), (4, 0, 0), (1, 1, 0), (2, 1, 5), (2, 2, 0)] {
            assert_eq!(judged(0, verdict, found, row), other);
        }
        let held = Verdict::Held {
            last_refusal: Some(4),
        };
        assert_eq!(judged(0, 2, 1, 4), Ok(held));
    }
}
