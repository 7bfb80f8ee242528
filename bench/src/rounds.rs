//! Measuring: rounds in which the engines take turns in one process, so that
//! what disturbs the machine disturbs them alike. A round is as many runs of
//! the workload as last long against the clock. What is lent to the runs is the
//! same for both engines and is not cleared between runs: the searches do that.

use crate::clock;

/// Nanoseconds of one run of a workload, over all rounds.
#[derive(Clone, Copy)]
pub struct Times {
    pub minimum: f64,
    pub median: f64,
}

/// How long to measure.
#[derive(Clone, Copy)]
pub struct Plan {
    /// Of each engine on each workload.
    pub nanoseconds: u64,
    pub fewest_rounds: usize,
}

const ROUND: u64 = 500_000;
const MOST_ROUNDS: u64 = 1_000;

/// One run of a workload by an engine, with what is lent to it.
pub type Run<'a, L> = &'a dyn Fn(&mut L);

/// The times of each engine.
pub fn measure<L, const ENGINES: usize>(
    lent: &mut L,
    engines: [Run<L>; ENGINES],
    plan: Plan,
) -> [Times; ENGINES] {
    // The first run of each engine warms caches and tells how long a run is.
    let first = engines.map(|engine| time(lent, engine, 1));
    let longest = first.into_iter().fold(1, u64::max);
    let runs = (ROUND / longest).max(1);
    let rounds = (plan.nanoseconds / (longest * runs)).min(MOST_ROUNDS) as usize;
    let rounds = rounds.max(plan.fewest_rounds);
    let mut samples = [const { Vec::new() }; ENGINES];
    for _ in 0..rounds {
        for (engine, samples) in engines.iter().zip(&mut samples) {
            let nanoseconds = time(lent, engine, runs);
            samples.push(nanoseconds as f64 / runs as f64);
        }
    }
    samples.map(times)
}

/// The times of one engine whose runs may take seconds: each run is a round, also
/// the first.
pub fn measure_long<L>(lent: &mut L, engine: Run<L>, plan: Plan) -> Times {
    let (mut samples, mut sum) = (Vec::new(), 0);
    while samples.len() < plan.fewest_rounds.max(1)
        || sum < plan.nanoseconds && samples.len() < MOST_ROUNDS as usize
    {
        let nanoseconds = time(lent, engine, 1);
        samples.push(nanoseconds as f64);
        sum += nanoseconds;
    }
    times(samples)
}

fn time<L>(lent: &mut L, engine: Run<L>, runs: u64) -> u64 {
    let start = clock::now();
    for _ in 0..runs {
        engine(lent);
    }
    clock::now() - start
}

fn times(mut samples: Vec<f64>) -> Times {
    samples.sort_by(f64::total_cmp);
    Times {
        minimum: samples[0],
        median: samples[samples.len() / 2],
    }
}
