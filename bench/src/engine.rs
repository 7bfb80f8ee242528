//! An engine for the rules of document 01 and of, not verified, in safe
//! Rust and as fast as we could make it: the yardstick for the product's speed. It has
//! the product's face and effects: the same answer, counts and steps, and the same
//! content of all four lent buffers. A query is prepared, which makes the tables of
//! `engine/tables.rs`, and run over rows; `search` does both. The walk is that of
//! document 01, with notes and a trail in the lent buffers; see `engine/walk.rs`. Where
//! a pattern has repetitions whose rounds may take no row, as `(A*)*`, each place has a
//! record for each value of its flags, and the same walk runs over those.

#![forbid(unsafe_code)]

mod letters;
mod pattern;
mod query;
mod report;
mod tables;
#[cfg(test)]
mod tests;
mod walk;

use letters::Rows;
use mireladle::lent::{Outcome, Room};
use pattern::Pattern;
use query::{Measure, Query};
use report::Report;
use tables::{Number, Tables};
use walk::Ending;

const DONE: u64 = 0;
const STOPPED: u64 = 13;
const NO_SKIP_ROW: u64 = 15;

/// The whole search.
pub fn search(
    query: &[u8],
    rows: &[i32],
    notes: &mut [u8],
    trail: &mut [u32],
    numbers: &mut [i64],
    labels: &mut [u8],
) -> Outcome {
    // An Err is the lowest of the answers 1 to 12 that applies.
    let mut accepted = || {
        let query = query::read(query)?;
        let mut pattern = Pattern::new();
        judge(&query, &mut pattern)?;
        let places = pattern.count * pattern.factor;
        let Lent { rows, notes, trail } = Lent::new(&query, places, rows, notes, trail)?;
        let mut report = Report::new(numbers, labels, query.measures());
        let (ending, steps) = walk::search(&query, &pattern, rows, notes, trail, &mut report);
        Ok(ended(ending, steps, &report))
    };
    accepted().unwrap_or_else(refused)
}

/// A query that is prepared once, for any number of runs.
pub struct Prepared<'a> {
    query: Query<'a>,
    tables: Filled,
}

/// Tables of the size that the pattern needs.
enum Filled {
    Small(Box<Tables<u8, 16>>),
    Middle(Box<Tables<u8, 64>>),
    Large(Box<Tables<u8, 256>>),
    Flagged(Box<Tables<u16, 2048>>),
}

/// Prepares a query, or gives the lowest of the answers 1 to 9 that applies.
pub fn prepare(query: &[u8]) -> Result<Prepared<'_>, u64> {
    let query = query::read(query)?;
    let mut pattern = Pattern::new();
    judge(&query, &mut pattern)?;
    let tables = match pattern.count {
        _ if pattern.factor > 1 => Filled::Flagged(filled(&query, &pattern)),
        0..=16 => Filled::Small(filled(&query, &pattern)),
        17..=64 => Filled::Middle(filled(&query, &pattern)),
        _ => Filled::Large(filled(&query, &pattern)),
    };
    Ok(Prepared { query, tables })
}

fn filled<I: Number, const N: usize>(query: &Query, pattern: &Pattern) -> Box<Tables<I, N>> {
    let mut tables = Box::new(Tables::new());
    tables.fill(query, pattern);
    tables
}

impl Prepared<'_> {
    /// The search of the prepared query.
    pub fn run(
        &self,
        rows: &[i32],
        notes: &mut [u8],
        trail: &mut [u32],
        numbers: &mut [i64],
        labels: &mut [u8],
    ) -> Outcome {
        let query = &self.query;
        let places = match &self.tables {
            Filled::Small(tables) => tables.count,
            Filled::Middle(tables) => tables.count,
            Filled::Large(tables) => tables.count,
            Filled::Flagged(tables) => tables.count,
        };
        let mut accepted = || {
            let Lent { rows, notes, trail } = Lent::new(query, places, rows, notes, trail)?;
            let mut report = Report::new(numbers, labels, query.measures());
            let (ending, steps) = match &self.tables {
                Filled::Small(tables) => walk::run(query, tables, rows, notes, trail, &mut report),
                Filled::Middle(tables) => walk::run(query, tables, rows, notes, trail, &mut report),
                Filled::Large(tables) => walk::run(query, tables, rows, notes, trail, &mut report),
                Filled::Flagged(tables) => {
                    walk::run(query, tables, rows, notes, trail, &mut report)
                }
            };
            Ok(ended(ending, steps, &report))
        };
        accepted().unwrap_or_else(refused)
    }
}

fn ended(ending: Ending, steps: u64, report: &Report) -> Outcome {
    Outcome {
        answer: match ending {
            Ending::Done => DONE,
            Ending::Full => STOPPED,
            Ending::NoSkipRow => NO_SKIP_ROW,
        },
        matches: report.matches as u64,
        labels: report.labels_written as u64,
        steps,
        offset: 0,
    }
}

fn refused(answer: u64) -> Outcome {
    Outcome {
        answer,
        matches: 0,
        labels: 0,
        steps: 0,
        offset: 0,
    }
}

/// P, F, n and P * F * (n+1), or the lowest of the answers 1 to 10 that applies.
pub fn room(query: &[u8], rows: &[i32]) -> Room {
    let (answer, [places, factor, n]) = match sizes(query, rows) {
        Ok(sizes) => (0, sizes.map(|size| size as u64)),
        Err(answer) => (answer, [0; 3]),
    };
    Room {
        answer,
        places,
        rows: n,
        pairs: places * factor * (n + 1),
        offset: 0,
        factor,
    }
}

fn sizes(query: &[u8], rows: &[i32]) -> Result<[usize; 3], u64> {
    let query = query::read(query)?;
    let mut pattern = Pattern::new();
    judge(&query, &mut pattern)?;
    let rows = Rows::new(rows, query.columns)?;
    Ok([pattern.count, pattern.factor, rows.n])
}

/// Reads the pattern of a query that has none of the answers 1 to 3, or gives the
/// lowest of the answers 4 to 9 that applies.
fn judge(query: &Query, pattern: &mut Pattern) -> Result<(), u64> {
    pattern::read(query.text, pattern)?;
    if query.defined_twice {
        return Err(8);
    }
    let known = |letter: u8| match letter {
        0 => true,
        letter => pattern.letters >> (letter - b'A') & 1 == 1,
    };
    let measured = |measure: &Measure| known(measure.letter);
    if !query.measures().iter().all(measured) || !known(query.skip.letter()) {
        return Err(9);
    }
    Ok(())
}

/// The rows of a search, with notes and trail cut to the length that it needs.
struct Lent<'a> {
    rows: Rows<'a>,
    notes: &'a mut [u8],
    trail: &'a mut [u32],
}

impl<'a> Lent<'a> {
    /// For a query of so many places with flags, P * F; or the lowest of the answers 10 to 12 that
    /// applies.
    fn new(
        query: &Query,
        places: usize,
        rows: &'a [i32],
        notes: &'a mut [u8],
        trail: &'a mut [u32],
    ) -> Result<Lent<'a>, u64> {
        let rows = Rows::new(rows, query.columns)?;
        let pairs = places * (rows.n + 1);
        let notes = notes.get_mut(..pairs.div_ceil(8)).ok_or(11_u64)?;
        let trail = trail.get_mut(..pairs).ok_or(12_u64)?;
        Ok(Lent { rows, notes, trail })
    }
}
