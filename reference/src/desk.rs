//! The release desk (document 02, R-14): the search of a bus's log with the desk's own
//! query, and the verdict. What the search answers comes first; the verdict is then told
//! from the rows by the request's words alone, without the search and its matches.

use crate::generate::draft::{with_column, with_number, Draft};
use crate::search::{self, Buffers, DONE};

/// Time, event, base number and patch number.
pub const COLUMNS: usize = 4;
pub const EVENT: usize = 1;
pub const BASE: usize = 2;
pub const PATCH: usize = 3;

pub const OFFERED: i32 = 1;
pub const REFUSED: i32 = 2;
pub const ACCEPTED: i32 = 3;

#[derive(Clone, Copy, Debug, PartialEq, Eq)]
pub enum Verdict {
    Cleared,
    /// With the row of the last event 2, if there is one.
    Held(Option<usize>),
    Unreadable,
}

/// The desk's query: `O R* C $`, to next row.
pub fn query() -> Vec<u8> {
    let event = |event| with_number(EVENT as u8, 0, 1, event);
    let as_before = [BASE, PATCH].map(|it| with_column((it as u8, 0), 1, (it as u8, -1), 0));
    let with_numbers = |number| [event(number), as_before[0], as_before[1]];
    Draft::new(COLUMNS as u8, b"O R* C $", Vec::new())
        .define(b'O', &[event(OFFERED)])
        .define(b'R', &with_numbers(REFUSED))
        .define(b'C', &with_numbers(ACCEPTED))
        .to_next_row()
        .query()
}

/// What the desk returns: answer, verdict, whether a row is told, and that row.
pub fn desk(rows: &[i32], (notes, trail, numbers, labels): Buffers) -> [u64; 4] {
    let outcome = search::search(&query(), rows, notes, trail, numbers, labels);
    if outcome.answer != DONE {
        return [outcome.answer.into(), 0, 0, 0];
    }
    numbered(verdict(rows))
}

/// 1 cleared, 2 held, 3 unreadable.
pub fn numbered(verdict: Verdict) -> [u64; 4] {
    match verdict {
        Verdict::Cleared => [0, 1, 0, 0],
        Verdict::Held(None) => [0, 2, 0, 0],
        Verdict::Held(Some(row)) => [0, 2, 1, row as u64],
        Verdict::Unreadable => [0, 3, 0, 0],
    }
}

/// The verdict on rows that are whole.
pub fn verdict(rows: &[i32]) -> Verdict {
    let rows: Vec<&[i32]> = rows.chunks(COLUMNS).collect();
    let known = |row: &&[i32]| [OFFERED, REFUSED, ACCEPTED].contains(&row[EVENT]);
    if !rows.iter().all(known) {
        return Verdict::Unreadable;
    }
    if is_cleared(&rows) {
        return Verdict::Cleared;
    }
    Verdict::Held(rows.iter().rposition(|row| row[EVENT] == REFUSED))
}

/// The last row is an acceptance; before it stand refusals, or none; before those an
/// offer; and each row behind the offer has the base and patch numbers of the row
/// before it.
fn is_cleared(rows: &[&[i32]]) -> bool {
    let Some((last, before)) = rows.split_last() else {
        return false;
    };
    let Some(offer) = before.iter().rposition(|row| row[EVENT] != REFUSED) else {
        return false;
    };
    let same = |two: &[&[i32]]| two[0][BASE] == two[1][BASE] && two[0][PATCH] == two[1][PATCH];
    last[EVENT] == ACCEPTED && rows[offer][EVENT] == OFFERED && rows[offer..].windows(2).all(same)
}
