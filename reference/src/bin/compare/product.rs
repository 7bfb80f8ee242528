//! The product through the C face of its static library, as include/mireladle.h
//! declares it. Pointers and lengths are those of buffers that live through the call,
//! and no two of them overlap: that is all the header asks for.

use crate::engine::{padded, Asked, Engine, Six};
use crate::lent::Lent;
use reference::depots::Reports;
use reference::lots::{Feed, WITHOUT};

/// The five numbers of a search, one behind the other.
#[repr(C)]
struct Result([u64; 5]);

/// The six of a judgement of room.
#[repr(C)]
struct Room(Six);

/// The four numbers of a test, or of a verdict.
#[repr(C)]
struct Four([u64; 4]);

extern "C" {
    fn mireladle_search(
        query: *const u8,
        query_len: usize,
        rows: *const i32,
        rows_len: usize,
        notes: *mut u8,
        notes_len: usize,
        trail: *mut u32,
        trail_len: usize,
        numbers: *mut i64,
        numbers_len: usize,
        labels: *mut u8,
        labels_len: usize,
    ) -> Result;

    fn mireladle_search_within(
        query: *const u8,
        query_len: usize,
        rows: *const i32,
        rows_len: usize,
        allowance: u64,
        notes: *mut u8,
        notes_len: usize,
        trail: *mut u32,
        trail_len: usize,
        numbers: *mut i64,
        numbers_len: usize,
        labels: *mut u8,
        labels_len: usize,
    ) -> Result;

    fn mireladle_room(
        query: *const u8,
        query_len: usize,
        rows: *const i32,
        rows_len: usize,
    ) -> Room;

    fn mireladle_test(
        query: *const u8,
        query_len: usize,
        rows: *const i32,
        rows_len: usize,
        letter: u8,
        row: usize,
    ) -> Four;

    fn mireladle_desk(
        rows: *const i32,
        rows_len: usize,
        notes: *mut u8,
        notes_len: usize,
        trail: *mut u32,
        trail_len: usize,
        numbers: *mut i64,
        numbers_len: usize,
        labels: *mut u8,
        labels_len: usize,
    ) -> Four;

    fn mireladle_depots_begin(state: *mut u64, state_len: usize, depot: u64, month: u64) -> u64;

    fn mireladle_depots_partition(
        state: *mut u64,
        state_len: usize,
        list: *mut u32,
        list_len: usize,
        query: *const u8,
        query_len: usize,
        rows: *const i32,
        rows_len: usize,
        notes: *mut u8,
        notes_len: usize,
        trail: *mut u32,
        trail_len: usize,
        numbers: *mut i64,
        numbers_len: usize,
        labels: *mut u8,
        labels_len: usize,
    ) -> Result;

    fn mireladle_begin(feed: *mut u64, largest: u64, allowance: u64);

    fn mireladle_more(
        feed: *mut u64,
        query: *const u8,
        query_len: usize,
        rows: *const i32,
        rows_len: usize,
        present: u64,
        notes: *mut u8,
        notes_len: usize,
        trail: *mut u32,
        trail_len: usize,
        numbers: *mut i64,
        numbers_len: usize,
        labels: *mut u8,
        labels_len: usize,
    ) -> Result;

    fn mireladle_last(
        feed: *mut u64,
        query: *const u8,
        query_len: usize,
        rows: *const i32,
        rows_len: usize,
        present: u64,
        notes: *mut u8,
        notes_len: usize,
        trail: *mut u32,
        trail_len: usize,
        numbers: *mut i64,
        numbers_len: usize,
        labels: *mut u8,
        labels_len: usize,
    ) -> Result;
}

pub struct Product;

impl Engine for Product {
    fn search(&self, lent: &mut Lent) -> Six {
        match lent.allowance {
            Some(allowance) => within(lent, allowance),
            None => search(lent),
        }
    }

    fn room(&self, lent: &mut Lent) -> Six {
        let result = unsafe {
            mireladle_room(
                lent.query.pointer(),
                lent.query.len(),
                lent.rows.pointer(),
                lent.rows.len(),
            )
        };
        result.0
    }

    fn test(&self, lent: &mut Lent, letter: u8, row: u64) -> Six {
        let tested = unsafe {
            mireladle_test(
                lent.query.pointer(),
                lent.query.len(),
                lent.rows.pointer(),
                lent.rows.len(),
                letter,
                row as usize,
            )
        };
        padded(tested.0)
    }

    fn desk(&self, lent: &mut Lent) -> Six {
        let verdict = unsafe {
            mireladle_desk(
                lent.rows.pointer(),
                lent.rows.len(),
                lent.notes.pointer(),
                lent.notes.len(),
                lent.trail.pointer(),
                lent.trail.len(),
                lent.numbers.pointer(),
                lent.numbers.len(),
                lent.labels.pointer(),
                lent.labels.len(),
            )
        };
        padded(verdict.0)
    }

    fn begin(&self, lent: &mut Lent) -> Six {
        let answer = lent.table.as_mut().map_or(0, |table| unsafe {
            mireladle_depots_begin(
                table.state.pointer(),
                table.state.len(),
                table.depot,
                table.month,
            )
        });
        padded([answer, 0, 0, 0])
    }

    fn partition(&self, lent: &mut Lent, _: &mut Reports) -> Six {
        let Some(table) = &mut lent.table else {
            return [0; 6];
        };
        let result = unsafe {
            mireladle_depots_partition(
                table.state.pointer(),
                table.state.len(),
                table.list.pointer(),
                table.list.len(),
                lent.query.pointer(),
                lent.query.len(),
                lent.rows.pointer(),
                lent.rows.len(),
                lent.notes.pointer(),
                lent.notes.len(),
                lent.trail.pointer(),
                lent.trail.len(),
                lent.numbers.pointer(),
                lent.numbers.len(),
                lent.labels.pointer(),
                lent.labels.len(),
            )
        };
        padded(result.0)
    }

    fn name(&self, lent: &mut Lent) {
        if let Some(feed) = &mut lent.feed {
            let allowance = lent.allowance.unwrap_or(WITHOUT);
            unsafe { mireladle_begin(feed.words.pointer(), feed.largest, allowance) }
        }
    }

    fn lot(&self, lent: &mut Lent, _: &mut Feed, asked: Asked) -> Six {
        let Some(feed) = &mut lent.feed else {
            return [0; 6];
        };
        let call = match asked.last {
            true => mireladle_last,
            false => mireladle_more,
        };
        let result = unsafe {
            call(
                feed.words.pointer(),
                lent.query.pointer(),
                lent.query.len(),
                lent.rows.pointer(),
                lent.rows.len(),
                asked.present,
                lent.notes.pointer(),
                lent.notes.len(),
                lent.trail.pointer(),
                lent.trail.len(),
                lent.numbers.pointer(),
                lent.numbers.len(),
                lent.labels.pointer(),
                lent.labels.len(),
            )
        };
        padded(result.0)
    }
}

fn search(lent: &mut Lent) -> Six {
    let result = unsafe {
        mireladle_search(
            lent.query.pointer(),
            lent.query.len(),
            lent.rows.pointer(),
            lent.rows.len(),
            lent.notes.pointer(),
            lent.notes.len(),
            lent.trail.pointer(),
            lent.trail.len(),
            lent.numbers.pointer(),
            lent.numbers.len(),
            lent.labels.pointer(),
            lent.labels.len(),
        )
    };
    padded(result.0)
}

fn within(lent: &mut Lent, allowance: u64) -> Six {
    let result = unsafe {
        mireladle_search_within(
            lent.query.pointer(),
            lent.query.len(),
            lent.rows.pointer(),
            lent.rows.len(),
            allowance,
            lent.notes.pointer(),
            lent.notes.len(),
            lent.trail.pointer(),
            lent.trail.len(),
            lent.numbers.pointer(),
            lent.numbers.len(),
            lent.labels.pointer(),
            lent.labels.len(),
        )
    };
    padded(result.0)
}
