//! The depot-by-month table over as many partitions as it takes: the product's calls against the
//! yardstick's search with a count by hand. Table, list and every result are compared first. Not
//! there where the library that is linked is an older one, without the table.

use crate::engine;
use crate::output::Measured;
use crate::rooms::{Rooms, Sums};
use crate::rounds::{self, Plan, Run};
use crate::workloads::{self, Workload};
use mireladle::lent::{self, Outcome, DEPOTS_LENGTH, DEPOTS_OUTSIDE, DEPOTS_PARTITIONS};
use std::hint::black_box;

/// The table's state and list, and the buffers of the searches.
struct Lent {
    state: Vec<u64>,
    list: Vec<u32>,
    rooms: Rooms,
}

impl Lent {
    fn new(workload: &Workload) -> Lent {
        Lent {
            state: vec![0; DEPOTS_LENGTH],
            list: vec![0; 2 * workload.partitions.len()],
            rooms: Rooms::new(workload),
        }
    }

    fn product(&mut self, query: &[u8], rows: &[i32]) -> Outcome {
        let Lent { state, list, rooms } = self;
        let (notes, trail) = (&mut rooms.notes, &mut rooms.trail);
        let (numbers, labels) = (&mut rooms.numbers, &mut rooms.labels);
        lent::depots_partition(state, list, query, rows, notes, trail, numbers, labels)
    }

    fn yardstick(&mut self, query: &[u8], rows: &[i32]) -> Outcome {
        let Lent { state, rooms, .. } = self;
        let (notes, trail) = (&mut rooms.notes, &mut rooms.trail);
        let (numbers, labels) = (&mut rooms.numbers, &mut rooms.labels);
        let outcome = engine::search(query, rows, notes, trail, numbers, labels);
        for found in rooms.numbers.chunks_exact(3).take(outcome.matches as usize) {
            let first = 3 * found[1] as usize;
            let cell = match rows[first..] {
                [depot @ 0..=63, month @ 1..=12, ..] => (12 * depot + month - 1) as usize,
                _ => DEPOTS_OUTSIDE,
            };
            state[cell] += 1;
        }
        state[DEPOTS_PARTITIONS] += 1;
        outcome
    }
}

/// One of the two ways to count a partition.
type Count = fn(&mut Lent, &[u8], &[i32]) -> Outcome;

/// An Err says what differs.
pub fn compare(workload: &Workload) -> Result<Sums, String> {
    let query = workload.query.as_bytes();
    let [mut product, mut yardstick] = [Lent::new(workload), Lent::new(workload)];
    begin(&mut product);
    begin(&mut yardstick);
    let mut sums = Sums::default();
    for (index, rows) in workload.partitions.iter().enumerate() {
        let outcome = yardstick.yardstick(query, rows);
        let told = product.product(query, rows);
        if told != outcome || outcome.answer != 0 {
            let name = &workload.name;
            let what = format!("product {told:?}, yardstick {outcome:?}");
            return Err(format!("{name}, partition {index}: {what}"));
        }
        sums.matches += outcome.matches;
        sums.steps += outcome.steps;
    }
    let same = product.state == yardstick.state && product.list == yardstick.list;
    let counted: u64 = product.state[..=DEPOTS_OUTSIDE].iter().sum();
    match same && product.rooms == yardstick.rooms && counted == sums.matches {
        true => Ok(sums),
        false => Err(format!("{}: tables or buffers differ", workload.name)),
    }
}

fn begin(lent: &mut Lent) {
    assert_eq!(lent::depots_begin(&mut lent.state, 0, 1), 0);
}

pub fn measure(workload: Workload, plan: Plan) -> Result<Measured, String> {
    let sums = compare(&workload)?;
    let query = workload.query.as_bytes();
    let run = |count: Count, lent: &mut Lent| {
        begin(lent);
        for rows in &workload.partitions {
            black_box(count(lent, query, black_box(rows)));
        }
    };
    let engines: [Run<Lent>; 2] = [&|lent| run(Lent::product, lent), &|lent| {
        run(Lent::yardstick, lent)
    }];
    let [product, yardstick] = rounds::measure(&mut Lent::new(&workload), engines, plan);
    Ok(Measured {
        rows: workload.rows(),
        name: workload.name.clone(),
        about: workload.about.clone(),
        sums,
        yardstick,
        product,
    })
}

/// The only workload: as many partitions as get a number.
pub fn all() -> Vec<Workload> {
    vec![workloads::depots()]
}
