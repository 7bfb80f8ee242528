//! The four lent buffers, large enough for every partition of a workload, and
//! the comparison of what the two engines leave in them.

use crate::engine;
#[cfg(bench_c)]
use crate::prepared;
use crate::workloads::Workload;
use mireladle::lent::{self, Outcome};
use mireladle::Skip;

/// An engine's whole search.
type Search = fn(
    query: &[u8],
    rows: &[i32],
    notes: &mut [u8],
    trail: &mut [u32],
    numbers: &mut [i64],
    labels: &mut [u8],
) -> Outcome;

/// An engine with the query of a workload: it searches rows in lent rooms.
pub type Engine<'a> = Box<dyn Fn(&[i32], &mut Rooms) -> Outcome + 'a>;

/// The product and the yardstick. A query that is to be prepared is prepared here.
pub fn engines(workload: &Workload) -> [Engine<'_>; 2] {
    let query = workload.query.as_bytes();
    #[cfg(bench_c)]
    if workload.prepared {
        return prepared::engines(query);
    }
    [
        Box::new(|rows, rooms| rooms.search(lent::search, query, rows)),
        Box::new(|rows, rooms| rooms.search(engine::search, query, rows)),
    ]
}

/// What each buffer has beyond what a search needs, to see that it is left.
const BEYOND: usize = 9;

#[derive(Clone, PartialEq, Eq)]
pub struct Rooms {
    pub notes: Vec<u8>,
    pub trail: Vec<u32>,
    pub numbers: Vec<i64>,
    pub labels: Vec<u8>,
}

impl Rooms {
    /// Rooms in which no search of the workload stops. They hold no zeros, so
    /// that a search which leaves out its clearing is seen.
    pub fn new(workload: &Workload) -> Rooms {
        let query = &workload.query;
        let (mut pairs, mut n) = (0, 0);
        for rows in &workload.partitions {
            let room = engine::room(query.as_bytes(), rows);
            assert_eq!(room.answer, 0, "{}", workload.name);
            pairs = pairs.max(room.pairs as usize);
            n = n.max(room.rows as usize);
        }
        let labels = match query.skip() {
            Skip::PastLastRow => n,
            _ => n * (n + 1) / 2,
        };
        Rooms {
            notes: vec![0x5a; pairs.div_ceil(8) + BEYOND],
            trail: vec![0x5a5a_5a5a; pairs + BEYOND],
            numbers: vec![-0x5a5a_5a5a; n * (3 + 2 * query.measures()) + BEYOND],
            labels: vec![0x5a; labels + BEYOND],
        }
    }

    fn search(&mut self, search: Search, query: &[u8], rows: &[i32]) -> Outcome {
        search(
            query,
            rows,
            &mut self.notes,
            &mut self.trail,
            &mut self.numbers,
            &mut self.labels,
        )
    }

    /// Which buffers differ, by name and first index.
    fn differences(&self, other: &Rooms) -> Vec<String> {
        fn first<T: PartialEq>(name: &str, one: &[T], other: &[T]) -> Option<String> {
            let at = one
                .iter()
                .zip(other)
                .position(|(one, other)| one != other)?;
            Some(format!("{name} from index {at}"))
        }
        [
            first("notes", &self.notes, &other.notes),
            first("trail", &self.trail, &other.trail),
            first("numbers", &self.numbers, &other.numbers),
            first("labels", &self.labels, &other.labels),
        ]
        .into_iter()
        .flatten()
        .collect()
    }
}

/// The sums over all partitions of a workload.
#[derive(Clone, Copy, Default)]
pub struct Sums {
    pub matches: u64,
    pub steps: u64,
}

/// Searches all partitions with both engines and compares results and all
/// buffers after each. An Err says what differs, or that a search did not end as
/// done.
pub fn compare(workload: &Workload) -> Result<Sums, String> {
    let mut rooms = Rooms::new(workload);
    let mut product_rooms = rooms.clone();
    let mut sums = Sums::default();
    let [product, yardstick] = engines(workload);
    for (index, rows) in workload.partitions.iter().enumerate() {
        let context = |what: String| format!("{}, partition {index}: {what}", workload.name);
        let outcome = yardstick(rows, &mut rooms);
        let product = product(rows, &mut product_rooms);
        if outcome.answer != 0 {
            return Err(context(format!("the yardstick answers {}", outcome.answer)));
        }
        if product != outcome {
            let what = format!("product {product:?}, yardstick {outcome:?}");
            return Err(context(what));
        }
        if rooms != product_rooms {
            let differences = rooms.differences(&product_rooms).join(", ");
            return Err(context(format!("buffers differ: {differences}")));
        }
        sums.matches += outcome.matches;
        sums.steps += outcome.steps;
    }
    Ok(sums)
}
