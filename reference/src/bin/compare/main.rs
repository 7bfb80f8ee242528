//! Compares the product, through the C face of its static library, with the
//! reference: answer, counts, steps, and every item of all buffers with the guard
//! zones around them. What differs is shrunk and printed. Then deliberate faults
//! are put on the product, each of which has to be found.
//!
//!   compare                    every stream at its usual length, then all faults
//!   compare SEED COUNT NAME..  so many cases of the random streams of these names, or of all
//!   compare --only NAME..      the streams of these names at their usual length
//!   compare --fault NAME..     the faults of these names, or all, with their shrunk cases
//!   compare --program PATH [SEED COUNT]
//!                              the program there, on so many standard inputs
//!   compare --texts N          every text of up to N bytes over 15 signs, N at most 9
//!   compare --list             the names of streams and faults
//! In front of these, --show prints every case before it is run, and --itself puts the
//! reference in the place of the product, so that no library is needed.
//!
//! The last line is `N passed, M failed`: comparisons, and faults found. Where a
//! call does not end, that is said and the run is ended; where one ends the whole
//! process, --show tells the case.

mod case;
mod conditions;
mod depots;
mod derived;
mod desk;
mod engine;
mod every;
mod faults;
mod in_lots;
#[cfg_attr(any(test, not(mireladle)), allow(dead_code))]
mod lent;
mod lots;
mod nested;
#[cfg(all(mireladle, not(test)))]
mod product;
mod program;
mod readable;
mod shrink;
mod streams;
mod tested;
#[cfg(test)]
mod tests;
mod within;

use case::{Case, CALLS};
use engine::{Engine, Reference};
use faults::{Fault, Faulty};
use std::path::Path;
use std::process::ExitCode;
use std::sync::atomic::Ordering;
use std::sync::Mutex;
use std::time::{Duration, Instant};
use streams::{Cases, Stream, STREAMS};

/// The seed of the gate.
const SEED: u64 = 1;
/// Of so many differences in a stream the shrunk case is printed.
const PRINTED: usize = 3;
/// How many cases of each stream a fault may pass unseen.
const UNSEEN: usize = 3_000;
/// How long a fault's case is shrunk in the gate, where only that it is found is of
/// interest.
const SHRINKING: Duration = Duration::from_millis(20);
/// How many standard inputs the program gets in the gate.
const STDINS: usize = 4_000;

/// How long a call may take; the longest of the gate takes a part of a second.
const LONGEST: Duration = Duration::from_secs(60);
/// The stream and the number in it of the case that is run.
static AT: Mutex<(&str, usize)> = Mutex::new(("", 0));

struct Counts {
    passed: usize,
    failed: usize,
}

fn main() -> ExitCode {
    let words: Vec<String> = std::env::args().skip(1).collect();
    let mut words: Vec<&str> = words.iter().map(String::as_str).collect();
    let mut option = |name| {
        let given = words.first() == Some(&name);
        words.drain(..usize::from(given));
        given
    };
    let (show, itself) = (option("--show"), option("--itself"));
    let product = match itself {
        true => Some(Box::new(Reference) as Box<dyn Engine>),
        false => product(),
    };
    let Some(product) = product else {
        println!("no library was there at the build: run `tools/build mireladle_c`");
        println!("0 passed, 1 failed");
        return ExitCode::FAILURE;
    };
    std::thread::spawn(watch);
    let mut run = Run {
        product: &*product,
        show,
        counts: Counts {
            passed: 0,
            failed: 0,
        },
    };
    if !run.words(&words) {
        eprintln!("compare [--show] [--itself] [SEED COUNT NAME.. | --only NAME.. | --fault NAME.. | --program PATH [SEED COUNT] | --texts N | --list]");
        return ExitCode::from(2);
    }
    let Counts { passed, failed } = run.counts;
    println!("{passed} passed, {failed} failed");
    match failed {
        0 => ExitCode::SUCCESS,
        _ => ExitCode::FAILURE,
    }
}

/// Ends the run where a call does not come to its end.
fn watch() {
    let mut before = 0;
    loop {
        std::thread::sleep(LONGEST);
        let calls = CALLS.load(Ordering::Relaxed);
        if calls > 0 && calls == before {
            let (name, number) = AT.lock().map_or(("", 0), |at| *at);
            println!("NO END in stream {name}, number {number}: --show prints the case");
            println!("0 passed, 1 failed");
            std::process::exit(1);
        }
        before = calls;
    }
}

#[cfg(all(mireladle, not(test)))]
fn product() -> Option<Box<dyn Engine>> {
    Some(Box::new(product::Product))
}

#[cfg(any(test, not(mireladle)))]
fn product() -> Option<Box<dyn Engine>> {
    None
}

struct Run<'a> {
    product: &'a dyn Engine,
    show: bool,
    counts: Counts,
}

impl Run<'_> {
    /// Does what the command line asks for; false if it asks for nothing known.
    fn words(&mut self, words: &[&str]) -> bool {
        match words {
            [] => {
                self.streams(&[], |stream| Some((SEED, stream.count)));
                self.faults(&[], false);
                true
            }
            ["--list"] => {
                list();
                true
            }
            ["--only", names @ ..] => {
                self.streams(names, |stream| Some((SEED, stream.count))) && !names.is_empty()
            }
            ["--fault", names @ ..] => self.faults(names, true),
            ["--program", path] => {
                self.program(Path::new(path), SEED, STDINS);
                true
            }
            ["--program", path, seed, count] => match (seed.parse(), count.parse()) {
                (Ok(seed), Ok(count)) => {
                    self.program(Path::new(path), seed, count);
                    true
                }
                _ => false,
            },
            ["--texts", longest] => match longest.parse() {
                Ok(longest @ 0..=every::LONGEST) => {
                    self.texts(longest, SEED);
                    true
                }
                _ => false,
            },
            [seed, count, names @ ..] => match (seed.parse(), count.parse()) {
                (Ok(seed), Ok(count)) => self.streams(names, |stream: &Stream| {
                    stream.count.map(|_| (seed, Some(count)))
                }),
                _ => false,
            },
            _ => false,
        }
    }

    /// Runs the streams of these names, or all, as long as `plan` says: seed and
    /// count, or none for a stream that is left out. False if a name is unknown.
    fn streams(
        &mut self,
        names: &[&str],
        plan: impl Fn(&Stream) -> Option<(u64, Option<usize>)>,
    ) -> bool {
        let known = |name: &&str| STREAMS.iter().any(|stream| stream.name == *name);
        for stream in &STREAMS {
            let wanted = names.is_empty() || names.contains(&stream.name);
            if let (true, Some((seed, count))) = (wanted, plan(stream)) {
                let cases = (stream.cases)(seed);
                self.stream(stream.name, cases, count.unwrap_or(usize::MAX));
            }
        }
        names.iter().all(known)
    }

    fn stream(&mut self, name: &'static str, cases: Cases, count: usize) {
        let start = Instant::now();
        let (mut passed, mut failed) = (0, 0);
        for (number, case) in cases.take(count).enumerate() {
            self.begin(name, number, || case.clone());
            if case.agrees(self.product) {
                passed += 1;
                continue;
            }
            failed += 1;
            self.differs(name, number, failed, &case);
        }
        let seconds = start.elapsed().as_secs_f64();
        println!("{name}: {passed} alike, {failed} different, {seconds:.1} s");
        self.counts.passed += passed;
    }

    /// Says which case is run next.
    fn begin(&self, name: &'static str, number: usize, case: impl FnOnce() -> Case) {
        if let Ok(mut at) = AT.lock() {
            *at = (name, number);
        }
        if self.show {
            println!("{name}, number {number}\n{}", readable::describe(&case()));
        }
    }

    /// Counts a difference, so many of its stream by now, and prints the first of them.
    fn differs(&mut self, name: &str, number: usize, so_many: usize, case: &Case) {
        self.counts.failed += 1;
        if so_many <= PRINTED {
            let small = shrink::shrink(self.product, case);
            let text = readable::difference(self.product, &small);
            println!("DIFFERENCE in stream {name}, number {number}, shrunk to\n{text}");
        }
    }

    fn program(&mut self, path: &Path, seed: u64, count: usize) {
        for (number, input) in program::inputs(seed, count).enumerate() {
            if program::agrees(path, &input) {
                self.counts.passed += 1;
                continue;
            }
            self.counts.failed += 1;
            if self.counts.failed <= PRINTED {
                let small = program::shrink(path, &input);
                let text = program::difference(path, &small);
                println!("DIFFERENCE of the program, number {number}, shrunk to\n{text}");
            }
        }
    }

    /// Puts the faults of these names, or all, on the product; each that is found
    /// is passed. False if a name is unknown.
    fn faults(&mut self, names: &[&str], print: bool) -> bool {
        let known = |name: &&str| faults::all().any(|fault| fault.name == *name);
        for fault in faults::all() {
            if names.is_empty() || names.contains(&fault.name) {
                self.fault(fault, print);
            }
        }
        names.iter().all(known)
    }

    fn fault(&mut self, fault: &Fault, print: bool) {
        let faulty = Faulty::new(self.product, fault);
        let Some(Found { stream, seen, case }) = find(&faulty, fault) else {
            println!("fault {} ({}): NOT FOUND", fault.name, fault.about);
            self.counts.failed += 1;
            return;
        };
        let time = if print { shrink::TIME } else { SHRINKING };
        let small = shrink::shrink_within(&faulty, &case, time);
        let sizes = |case: &Case| (case.input.query.len(), case.input.rows.len());
        let ((query, rows), (small_query, small_rows)) = (sizes(&case), sizes(&small));
        println!(
            "fault {} ({}): found by {stream} after {seen} cases; shrunk from {query} query bytes and {rows} entries to {small_query} and {small_rows}",
            fault.name, fault.about
        );
        if print {
            println!("{}", readable::difference(&faulty, &small));
        }
        self.counts.passed += 1;
    }
}

/// The first case that shows a fault.
struct Found {
    stream: &'static str,
    seen: usize,
    case: Case,
}

/// Takes a case of each stream in turn that has to show the fault.
fn find(faulty: &Faulty, fault: &Fault) -> Option<Found> {
    let mut streams: Vec<(&'static str, Cases)> = STREAMS
        .iter()
        .filter(|stream| fault.is_shown_by(stream.name))
        .map(|stream| (stream.name, (stream.cases)(SEED)))
        .collect();
    let mut seen = 0;
    for _ in 0..UNSEEN {
        for (stream, cases) in &mut streams {
            let Some(case) = cases.next() else {
                continue;
            };
            seen += 1;
            if !case.agrees(faulty) {
                let stream = *stream;
                return Some(Found { stream, seen, case });
            }
        }
    }
    None
}

fn list() {
    for stream in &STREAMS {
        println!("stream {}: {}", stream.name, stream.about);
    }
    for fault in faults::all() {
        println!("fault {}: {}", fault.name, fault.about);
    }
}
