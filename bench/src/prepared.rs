//! Both engines with a query that is prepared once. The product's two halves of a
//! search come from the library of crates/bench_c, since the product's own has no
//! face for them. All `unsafe` code for it stands here.

use crate::engine;
use crate::rooms::{Engine, Rooms};
use mireladle::lent::Outcome;

/// The words that are enough for every query.
const MOST_WORDS: usize = 16076;

/// The product and the yardstick. The query is prepared here, and is accepted.
pub fn engines(query: &[u8]) -> [Engine<'_>; 2] {
    let product = Prepared::new(query);
    let yardstick = engine::prepare(query)
        .unwrap_or_else(|answer| panic!("the yardstick prepares with answer {answer}"));
    [
        Box::new(move |rows, rooms| product.run(rows, rooms)),
        Box::new(move |rows, rooms| {
            yardstick.run(
                rows,
                &mut rooms.notes,
                &mut rooms.trail,
                &mut rooms.numbers,
                &mut rooms.labels,
            )
        }),
    ]
}

/// A query as the product prepares it. Only `new` makes one and nothing changes
/// it, so that the table and the numbers are always those of one query.
struct Prepared {
    table: Vec<u16>,
    numbers: Numbers,
}

/// The numbers beside the table, as crates/bench_c has them.
#[repr(C)]
#[derive(Clone, Copy)]
struct Numbers {
    answer: usize,
    offset: usize,
    places: usize,
    columns: usize,
    count: usize,
    skip: usize,
    target: usize,
}

impl Prepared {
    fn new(query: &[u8]) -> Prepared {
        let mut table = vec![0; MOST_WORDS];
        // Both pointers come from slices with their lengths, the written one from an exclusive one.
        let numbers = unsafe {
            mireladle_bench_prepare(query.as_ptr(), query.len(), table.as_mut_ptr(), table.len())
        };
        let answer = numbers.answer;
        assert_eq!(answer, 0, "the product prepares with answer {answer}");
        Prepared { table, numbers }
    }

    fn run(&self, rows: &[i32], rooms: &mut Rooms) -> Outcome {
        // The pointers come from slices with their lengths, the written ones from exclusive ones,
        // so nothing overlaps them; the table and the numbers are those of one query.
        unsafe {
            mireladle_bench_run(
                self.table.as_ptr(),
                self.table.len(),
                self.numbers,
                rows.as_ptr(),
                rows.len(),
                rooms.notes.as_mut_ptr(),
                rooms.notes.len(),
                rooms.trail.as_mut_ptr(),
                rooms.trail.len(),
                rooms.numbers.as_mut_ptr(),
                rooms.numbers.len(),
                rooms.labels.as_mut_ptr(),
                rooms.labels.len(),
            )
        }
    }
}

extern "C" {
    fn mireladle_bench_prepare(
        query: *const u8,
        query_len: usize,
        table: *mut u16,
        table_len: usize,
    ) -> Numbers;

    fn mireladle_bench_run(
        table: *const u16,
        table_len: usize,
        numbers: Numbers,
        rows: *const i32,
        rows_len: usize,
        notes: *mut u8,
        notes_len: usize,
        trail: *mut u32,
        trail_len: usize,
        numbers_out: *mut i64,
        numbers_out_len: usize,
        labels: *mut u8,
        labels_len: usize,
    ) -> Outcome;
}
