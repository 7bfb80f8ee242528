//! The benchmark: the product against an unverified engine of the same walk, the
//! yardstick, in one process. Both first search every workload, and results and
//! all lent buffers are compared; a difference ends the bench with an error.
//! Where the library of crates/bench_c is linked, one workload is run by both with
//! a query that is prepared once. Where the product's library has allowances of
//! steps, a long search is run by the product with several; where it has the depot-by-month table,
//! as many partitions as it takes are counted by both; where it takes rows in lots, lots of several
//! sizes are run against one search of all rows.
//! Options: --quick (some ten seconds in all), --only NAME (workloads that have
//! NAME in their name), --markdown (tables for docs/PERFORMANCE.md), --check
//! (compares and measures nothing; the last line is `N passed, M failed`).

// What only the workload `prepared` needs is not used where its library is not there.
#![cfg_attr(not(bench_c), allow(dead_code))]

mod allowances;
mod clock;
#[cfg(depots)]
mod depots;
mod engine;
#[cfg(lots)]
mod lots;
mod output;
#[cfg(bench_c)]
mod prepared;
mod random;
mod readings;
mod rooms;
mod rounds;
mod table;
mod workloads;

use allowances::Allowance;
use mireladle::lent;
use output::{Columns, Measured};
use readings::{Judge, Reading};
use rooms::{Engine, Rooms, Sums};
use rounds::{Plan, Run, Times};
use std::hint::black_box;
use std::process::exit;
use workloads::Workload;

const WHOLE: Plan = Plan {
    nanoseconds: 1_000_000_000,
    fewest_rounds: 25,
};
const QUICK: Plan = Plan {
    nanoseconds: 60_000_000,
    fewest_rounds: 5,
};

struct Options {
    plan: Plan,
    only: Option<String>,
    markdown: bool,
    check: bool,
}

impl Options {
    fn wants(&self, name: &str) -> bool {
        self.only.as_ref().is_none_or(|only| name.contains(only))
    }
}

/// A table of searches.
struct Section {
    title: &'static str,
    workloads: fn() -> Vec<Workload>,
    columns: Columns,
}

const SECTIONS: [Section; 4] = [
    Section {
        title: "Searches",
        workloads: workloads::searches,
        columns: Columns::Searches,
    },
    Section {
        title: "Rows doubled",
        workloads: workloads::growth_in_rows,
        columns: Columns::Growth,
    },
    Section {
        title: "Places doubled",
        workloads: workloads::growth_in_places,
        columns: Columns::Growth,
    },
    Section {
        title: "Reading and unrolling a query: searches over no rows",
        workloads: readings::unrolled,
        columns: Columns::Calls,
    },
];
const READING: &str = "Reading a query: calls of room";

fn main() {
    let options = options().unwrap_or_else(|message| {
        eprintln!("{message}\noptions: --quick --only NAME --markdown --check");
        exit(2);
    });
    let done = match options.check {
        true => check(&options),
        false => measure_all(&options),
    };
    if let Err(message) = done {
        eprintln!("THE BENCH FAILS. {message}");
        exit(1);
    }
}

fn options() -> Result<Options, String> {
    let mut options = Options {
        plan: WHOLE,
        only: None,
        markdown: false,
        check: false,
    };
    let mut arguments = std::env::args().skip(1);
    while let Some(argument) = arguments.next() {
        match argument.as_str() {
            "--quick" => options.plan = QUICK,
            "--markdown" => options.markdown = true,
            "--check" => options.check = true,
            "--only" => options.only = Some(arguments.next().ok_or("--only needs a name")?),
            _ => return Err(format!("unknown option {argument}")),
        }
    }
    Ok(options)
}

/// Compares everything that is asked for.
fn check(options: &Options) -> Result<(), String> {
    let (mut passed, mut failed) = (0, 0);
    let mut count = |compared: Result<(), String>| match compared {
        Ok(()) => passed += 1,
        Err(difference) => {
            println!("{difference}");
            failed += 1;
        }
    };
    for section in &SECTIONS {
        for workload in wanted((section.workloads)(), options) {
            count(rooms::compare(&workload).map(|_| ()));
        }
    }
    for reading in wanted_readings(options) {
        count(readings::compare(&reading));
    }
    #[cfg(depots)]
    if options.wants("depots") {
        for workload in depots::all() {
            count(depots::compare(&workload).map(|_| ()));
        }
    }
    #[cfg(lots)]
    if options.wants("lots") {
        for workload in lots::all() {
            count(lots::compare(&workload).map(|_| ()));
        }
    }
    let allowances = wanted_allowances(options);
    if !allowances.is_empty() {
        match allowances::Search::new() {
            Ok(search) => {
                for allowance in allowances {
                    count(search.compare(allowance).map(|_| ()));
                }
            }
            Err(difference) => count(Err(difference)),
        }
    }
    println!("{passed} passed, {failed} failed");
    match (passed, failed) {
        (0, 0) => Err("no workload has this in its name".to_string()),
        (_, 0) => Ok(()),
        _ => Err("the engines differ".to_string()),
    }
}

fn measure_all(options: &Options) -> Result<(), String> {
    let mut any = false;
    let mut print = |title: &str, columns: Columns, measured: Vec<Measured>| {
        if !measured.is_empty() {
            any = true;
            output::print(title, columns, &measured, options.markdown);
        }
    };
    for section in &SECTIONS {
        let workloads = wanted((section.workloads)(), options);
        let measured: Result<Vec<Measured>, String> = workloads
            .map(|workload| measure_search(workload, options.plan))
            .collect();
        print(section.title, section.columns, measured?);
    }
    let measured: Result<Vec<Measured>, String> = wanted_readings(options)
        .map(|reading| measure_reading(reading, options.plan))
        .collect();
    print(READING, Columns::Calls, measured?);
    #[cfg(depots)]
    if options.wants("depots") {
        let measured: Result<Vec<Measured>, String> = depots::all()
            .into_iter()
            .map(|workload| depots::measure(workload, options.plan))
            .collect();
        print("The depot-by-month table", Columns::Searches, measured?);
    }
    #[cfg(lots)]
    if options.wants("lots") {
        any = true;
        lots::measure(options.plan, options.markdown)?;
    }
    let allowances = wanted_allowances(options);
    if !allowances.is_empty() {
        any = true;
        allowances::measure(&allowances, options.plan, options.markdown)?;
    }
    if !any {
        return Err("no workload has this in its name".to_string());
    }
    println!("Times are the least over all rounds, or their median; ratios are of the least.");
    Ok(())
}

fn wanted(workloads: Vec<Workload>, options: &Options) -> impl Iterator<Item = Workload> + '_ {
    workloads
        .into_iter()
        .filter(|workload| options.wants(&workload.name))
}

fn wanted_readings(options: &Options) -> impl Iterator<Item = Reading> + '_ {
    let readings = readings::all().into_iter();
    readings.filter(|reading| options.wants(reading.name))
}

fn wanted_allowances(options: &Options) -> Vec<Allowance> {
    let mut allowances = allowances::all();
    allowances.retain(|allowance| options.wants(allowance.name));
    allowances
}

fn measure_search(workload: Workload, plan: Plan) -> Result<Measured, String> {
    let sums = rooms::compare(&workload)?;
    let [product, yardstick] = time_search(&workload, plan);
    Ok(Measured {
        rows: workload.rows(),
        name: workload.name,
        about: workload.about,
        sums,
        yardstick,
        product,
    })
}

fn time_search(workload: &Workload, plan: Plan) -> [Times; 2] {
    let run = |engine: &Engine, rooms: &mut Rooms| {
        for rows in &workload.partitions {
            black_box(engine(black_box(rows), rooms));
        }
    };
    let [product, yardstick] = &rooms::engines(workload);
    let engines: [Run<Rooms>; 2] = [&|rooms| run(product, rooms), &|rooms| run(yardstick, rooms)];
    rounds::measure(&mut Rooms::new(workload), engines, plan)
}

fn measure_reading(reading: Reading, plan: Plan) -> Result<Measured, String> {
    readings::compare(&reading)?;
    let query = &reading.query.to_bytes();
    let run = |judge: Judge| {
        move |_: &mut ()| {
            black_box(judge(black_box(query), &[]));
        }
    };
    let engines: [Run<()>; 2] = [&run(lent::room), &run(engine::room)];
    let [product, yardstick] = rounds::measure(&mut (), engines, plan);
    Ok(Measured {
        rows: 0,
        name: reading.name.to_string(),
        about: reading.about.to_string(),
        sums: Sums::default(),
        yardstick,
        product,
    })
}
