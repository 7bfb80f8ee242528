//! Rows in lots against one search of all of them, both by the product, in one process. What the
//! lots leave in the end is compared with that search first, and that search with the yardstick's.
//! Not there where the library that is linked is an older one, which takes no lots.

use crate::output;
use crate::rooms::{self, Rooms, Sums};
use crate::rounds::{self, Plan, Run, Times};
use crate::table::{Side, Table};
use crate::workloads::{self, Workload};
use mireladle::lent::{self, Outcome};
use std::hint::black_box;

/// Rows of a lot.
const LOTS: [usize; 3] = [1, 16, 256];

pub fn all() -> Vec<Workload> {
    workloads::in_lots()
}

/// All rows of a workload in lots of so many, and then the end.
fn fed(workload: &Workload, lot: usize, rooms: &mut Rooms) -> Outcome {
    let (query, rows) = (workload.query.as_bytes(), &workload.partitions[0][..]);
    let (notes, trail) = (&mut rooms.notes[..], &mut rooms.trail[..]);
    let (numbers, labels) = (&mut rooms.numbers[..], &mut rooms.labels[..]);
    let n = workload.rows();
    let mut feed = lent::begin(n as u64, u64::MAX);
    let mut present = 0;
    while present < n {
        present = (present + lot).min(n);
        let present = present as u64;
        let outcome = lent::more(
            &mut feed, query, rows, present, notes, trail, numbers, labels,
        );
        black_box(outcome);
    }
    let n = n as u64;
    lent::last(&mut feed, query, rows, n, notes, trail, numbers, labels)
}

/// An Err says what differs.
pub fn compare(workload: &Workload) -> Result<Sums, String> {
    let sums = rooms::compare(workload)?;
    let [product, _] = rooms::engines(workload);
    let fresh = Rooms::new(workload);
    let mut one = fresh.clone();
    let outcome = product(&workload.partitions[0], &mut one);
    for lot in LOTS {
        let mut rooms = fresh.clone();
        let told = fed(workload, lot, &mut rooms);
        if told != outcome || rooms != one {
            let name = &workload.name;
            let what = format!("{told:?}, one search {outcome:?}, or their buffers");
            return Err(format!("{name}, lots of {lot}: {what}"));
        }
    }
    Ok(sums)
}

/// The times of one search, and of the lots.
fn time(workload: &Workload, plan: Plan) -> [Times; 4] {
    let [product, _] = &rooms::engines(workload);
    let in_lots = |lot: usize| {
        move |rooms: &mut Rooms| {
            black_box(fed(black_box(workload), lot, rooms));
        }
    };
    let one = |rooms: &mut Rooms| {
        black_box(product(black_box(&workload.partitions[0]), rooms));
    };
    let lots = LOTS.map(in_lots);
    let engines: [Run<Rooms>; 4] = [&one, &lots[0], &lots[1], &lots[2]];
    rounds::measure(&mut Rooms::new(workload), engines, plan)
}

/// Measures and prints, for each workload, a line for one search and for each size of lots.
pub fn measure(plan: Plan, markdown: bool) -> Result<(), String> {
    let right = |head: &str| (head.to_string(), Side::Right);
    let mut heads = vec![("workload".to_string(), Side::Left)];
    heads.extend(
        [
            "lots of",
            "calls",
            "microseconds",
            "median",
            "of one search",
        ]
        .map(right),
    );
    let mut table = Table::new(&heads);
    let workloads = all();
    for workload in &workloads {
        compare(workload)?;
        let n = workload.rows();
        let times = time(workload, plan);
        let whole = times[0].minimum;
        for (lot, times) in [n].into_iter().chain(LOTS).zip(times) {
            let calls = if lot == n { 1 } else { n.div_ceil(lot) + 1 };
            table.push(vec![
                workload.name.clone(),
                lot.to_string(),
                calls.to_string(),
                format!("{:.1}", times.minimum / 1e3),
                format!("{:.1}", times.median / 1e3),
                format!("{:.2}", times.minimum / whole),
            ]);
        }
    }
    let notes = workloads.iter().map(|one| (&one.name[..], &one.about[..]));
    let title = "4,096 rows in lots against one search";
    output::print_section(title, &table, notes, markdown);
    Ok(())
}
