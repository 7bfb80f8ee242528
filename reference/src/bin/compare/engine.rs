//! What those that are compared have in common, and the reference as one of them.
//! They take what they are lent and return six numbers, of which those at the end that a
//! call does not have are 0: a search its answer, matches, labels, steps and offset; a
//! judgement of room its answer, P, n, P(n+1)F, offset and F; a test of a letter its
//! answer, whether it holds, comparisons judged and offset; the release desk its answer,
//! verdict, whether a row is told and that row; a partition taken into a table what its
//! search does; the beginning of a table its answer; a call of a search in lots what a
//! search does. A search is made within the allowance it is lent, if any.

use crate::lent::Lent;
use reference::depots::{self, Reports};
use reference::desk;
use reference::lots::{Feed, Lot, WITHOUT};
use reference::search::{self, Outcome, DONE};

pub type Six = [u64; 6];

pub trait Engine {
    fn search(&self, lent: &mut Lent) -> Six;
    fn room(&self, lent: &mut Lent) -> Six;
    fn test(&self, lent: &mut Lent, letter: u8, row: u64) -> Six;
    fn desk(&self, lent: &mut Lent) -> Six;
    /// Begins the table that is lent.
    fn begin(&self, lent: &mut Lent) -> Six;
    /// Takes a partition into the table that is lent; beside it the engine has the
    /// reports so far, if it keeps them.
    fn partition(&self, lent: &mut Lent, reports: &mut Reports) -> Six;
    /// Names the largest n and the allowance of a search in lots, in the feed that is lent.
    fn name(&self, lent: &mut Lent);
    /// A call of the search in lots; beside the feed that is lent the engine has the walk
    /// so far, if it keeps one.
    fn lot(&self, lent: &mut Lent, feed: &mut Feed, asked: Asked) -> Six;
}

/// What a call of a search in lots says: how many rows are present, and whether that is
/// the end.
#[derive(Clone, Copy, Debug, PartialEq, Eq)]
pub struct Asked {
    pub present: u64,
    pub last: bool,
}

pub struct Reference;

impl Engine for Reference {
    fn search(&self, lent: &mut Lent) -> Six {
        let allowance = lent.allowance;
        let (query, rows, buffers) = lent.parts();
        six(search::search_within(query, rows, allowance, buffers))
    }

    fn room(&self, lent: &mut Lent) -> Six {
        let (answer, places, n) = search::room(lent.query.items(), lent.rows.items());
        let factor = match answer {
            DONE => search::factor(lent.query.items()),
            _ => 0,
        };
        let (_, pairs) = search::working_room(places, n, factor);
        let offset = search::offset(lent.query.items(), answer);
        let (places, n) = (places as u64, n as u64);
        [
            answer.into(),
            places,
            n,
            pairs as u64,
            offset,
            factor as u64,
        ]
    }

    fn test(&self, lent: &mut Lent, letter: u8, row: u64) -> Six {
        let tested = search::test(lent.query.items(), lent.rows.items(), letter, row);
        padded(tested)
    }

    fn desk(&self, lent: &mut Lent) -> Six {
        let (_, rows, buffers) = lent.parts();
        padded(desk::desk(rows, buffers))
    }

    fn begin(&self, lent: &mut Lent) -> Six {
        let answer = lent.table.as_mut().map_or(0, |table| {
            let (depot, month) = (table.depot, table.month);
            depots::begin(table.state.items_mut(), depot, month)
        });
        padded([answer.into(), 0, 0, 0])
    }

    fn partition(&self, lent: &mut Lent, reports: &mut Reports) -> Six {
        let list = lent.table.as_ref().map_or(0, |table| table.list.len());
        let (query, rows, buffers) = lent.parts();
        let outcome = reports.take(list, query, rows, buffers);
        if let Some(table) = &mut lent.table {
            reports.write(table.state.items_mut(), table.list.items_mut());
        }
        six(outcome)
    }

    fn name(&self, lent: &mut Lent) {
        let largest = lent.feed.as_ref().map_or(0, |feed| feed.largest);
        let words = Feed::begin(largest, lent.allowance.unwrap_or(WITHOUT)).words();
        lent.feed_mut().copy_from_slice(&words);
    }

    /// What was named is taken from the words, the rest from the walk. The words change
    /// where a call is not refused.
    fn lot(&self, lent: &mut Lent, feed: &mut Feed, asked: Asked) -> Six {
        if let [largest, allowance, ..] = *lent.feed() {
            feed.rename(largest, allowance);
        }
        let before = feed.words();
        let (query, rows, buffers) = lent.parts();
        let lot = Lot {
            query,
            rows,
            present: asked.present,
            last: asked.last,
        };
        let outcome = feed.call(lot, buffers);
        if feed.words() != before {
            lent.feed_mut().copy_from_slice(&feed.words());
        }
        six(outcome)
    }
}

/// Fewer numbers, and zeros.
pub fn padded<const N: usize>(numbers: [u64; N]) -> Six {
    std::array::from_fn(|at| numbers.get(at).copied().unwrap_or(0))
}

/// The numbers of a search's outcome.
pub fn six(outcome: Outcome) -> Six {
    padded([
        outcome.answer.into(),
        outcome.matches,
        outcome.labels,
        outcome.steps,
        outcome.offset,
    ])
}
