//! One long search with allowances of steps: how long a caller waits, by what it
//! allows. Only the product is measured, since the yardstick has no allowance; a
//! search without one is compared with the yardstick's, and what a search with one
//! leaves is compared with that. Nothing is measured where the library that is linked
//! is an older one, without allowances.

use crate::output;
use crate::rooms::{self, Rooms};
use crate::rounds::{self, Plan, Run, Times};
use crate::table::{Side, Table};
use crate::workloads::{self, Workload};
use mireladle::lent::{self, Outcome};
use std::hint::black_box;

/// The product's search with an allowance.
type Within = fn(
    query: &[u8],
    rows: &[i32],
    allowance: u64,
    notes: &mut [u8],
    trail: &mut [u32],
    numbers: &mut [i64],
    labels: &mut [u8],
) -> Outcome;

#[cfg(search_within)]
const WITHIN: Option<Within> = Some(lent::search_within);
#[cfg(not(search_within))]
const WITHIN: Option<Within> = None;

const OUT_OF_STEPS: u64 = 16;

/// A line of the table.
#[derive(Clone, Copy)]
pub struct Allowance {
    pub name: &'static str,
    /// None is a search without an allowance, by the function that has none.
    steps: Option<u64>,
}

/// All lines; none where the library has no allowances.
pub fn all() -> Vec<Allowance> {
    if WITHIN.is_none() {
        return Vec::new();
    }
    [
        ("allowance=0", Some(0)),
        ("allowance=1e5", Some(100_000)),
        ("allowance=1e6", Some(1_000_000)),
        ("allowance=1e7", Some(10_000_000)),
        ("allowance=1e8", Some(100_000_000)),
        ("allowance=none", None),
    ]
    .map(|(name, steps)| Allowance { name, steps })
    .into()
}

/// The search, with the outcome and the buffers that it has without an allowance.
pub struct Search {
    workload: Workload,
    fresh: Rooms,
    whole: (Outcome, Rooms),
}

impl Search {
    /// An Err says that the product's search differs from the yardstick's.
    pub fn new() -> Result<Search, String> {
        let workload = workloads::longest();
        let fresh = Rooms::new(&workload);
        let [mut rooms, mut yardstick_rooms] = [fresh.clone(), fresh.clone()];
        let outcome = run(&workload, None, &mut rooms);
        let [_, yardstick] = rooms::engines(&workload);
        let expected = yardstick(&workload.partitions[0], &mut yardstick_rooms);
        drop(yardstick);
        if outcome != expected || rooms != yardstick_rooms {
            let name = &workload.name;
            let what = format!("product {outcome:?}, yardstick {expected:?}, or their buffers");
            return Err(format!("{name}: {what}"));
        }
        Ok(Search {
            workload,
            fresh,
            whole: (outcome, rooms),
        })
    }

    /// Whether a search with this allowance leaves what it has to; an Err says what
    /// not. That without one is the whole, which has been compared.
    pub fn compare(&self, allowance: Allowance) -> Result<Outcome, String> {
        let (whole, left) = &self.whole;
        let Some(steps) = allowance.steps else {
            return Ok(*whole);
        };
        let mut rooms = self.fresh.clone();
        let outcome = run(&self.workload, Some(steps), &mut rooms);
        let right = match steps < whole.steps {
            true => {
                let ended = (outcome.answer, outcome.steps) == (OUT_OF_STEPS, steps);
                ended && self.is_front(&outcome, &rooms)
            }
            false => outcome == *whole && rooms == *left,
        };
        match right {
            true => Ok(outcome),
            false => Err(format!(
                "{}: {outcome:?}, or its buffers, beside {whole:?}",
                allowance.name
            )),
        }
    }

    /// Whether the report is the front of the whole one with nothing behind it, the
    /// trail is cleared, and nothing is noted that is not noted at the end.
    fn is_front(&self, outcome: &Outcome, rooms: &Rooms) -> bool {
        let (whole, left) = &self.whole;
        let numbers = outcome.matches as usize * (3 + 2 * self.workload.query.measures());
        let labels = outcome.labels as usize;
        let mut noted = rooms.notes.iter().zip(&left.notes);
        outcome.matches <= whole.matches
            && rooms.numbers[..numbers] == left.numbers[..numbers]
            && rooms.numbers[numbers..] == self.fresh.numbers[numbers..]
            && rooms.labels[..labels] == left.labels[..labels]
            && rooms.labels[labels..] == self.fresh.labels[labels..]
            && rooms.trail == left.trail
            && noted.all(|(front, whole)| front & !whole == 0)
    }

    fn time(&self, allowance: Allowance, plan: Plan) -> Times {
        let engine: Run<Rooms> = &|rooms| {
            black_box(run(black_box(&self.workload), allowance.steps, rooms));
        };
        rounds::measure_long(&mut self.fresh.clone(), engine, plan)
    }
}

fn run(workload: &Workload, allowance: Option<u64>, rooms: &mut Rooms) -> Outcome {
    let (query, rows) = (workload.query.as_bytes(), &workload.partitions[0]);
    let (notes, trail) = (&mut rooms.notes, &mut rooms.trail);
    let (numbers, labels) = (&mut rooms.numbers, &mut rooms.labels);
    match (allowance, WITHIN) {
        (Some(steps), Some(within)) => within(query, rows, steps, notes, trail, numbers, labels),
        _ => lent::search(query, rows, notes, trail, numbers, labels),
    }
}

/// Measures and prints a line for each allowance.
pub fn measure(allowances: &[Allowance], plan: Plan, markdown: bool) -> Result<(), String> {
    let search = Search::new()?;
    // The longest runs take seconds.
    let plan = Plan {
        fewest_rounds: plan.fewest_rounds / 8,
        ..plan
    };
    let right = |head: &str| (head.to_string(), Side::Right);
    let mut heads = vec![("workload".to_string(), Side::Left)];
    heads.extend(["steps", "matches", "ms", "median", "ms per million steps"].map(right));
    let mut table = Table::new(&heads);
    for allowance in allowances {
        let Outcome { steps, matches, .. } = search.compare(*allowance)?;
        let Times { minimum, median } = search.time(*allowance, plan);
        table.push(vec![
            allowance.name.to_string(),
            steps.to_string(),
            matches.to_string(),
            format!("{:.2}", minimum / 1e6),
            format!("{:.2}", median / 1e6),
            match steps {
                0 => String::new(),
                _ => format!("{:.2}", minimum / steps as f64),
            },
        ]);
    }
    let note = ("all", &search.workload.about[..]);
    let title = "A long search by its allowance of steps";
    output::print_section(title, &table, [note].into_iter(), markdown);
    Ok(())
}
