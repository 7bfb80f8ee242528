//! Cases of the depot-by-month table (document 02, R-4): sequences of partitions, of which
//! the last one is the case's own input.

use crate::case::{Call, Case};
use crate::streams::Cases;
use reference::generate::partitions::{self, Sequence};
use reference::generate::Random;

fn cases(seed: u64, sequences: impl Iterator<Item = Sequence> + 'static) -> Cases {
    let mut random = Random::new(seed ^ 0x7461_626C_6500);
    let case = move |mut sequence: Sequence| {
        let input = sequence.partitions.pop()?;
        Some(Case {
            call: Call::Partition(Box::new(sequence)),
            input,
            noise: random.draw(),
        })
    };
    Box::new(sequences.filter_map(case))
}

pub fn every_cell(seed: u64) -> Cases {
    cases(seed, partitions::every_cell())
}

/// The longest one comes last, so that a fault is mostly found before it.
pub fn every_sequence(seed: u64) -> Cases {
    let last = [partitions::up_to_the_last as fn() -> Sequence].into_iter();
    let short = partitions::about_the_last().chain(partitions::every_sequence());
    cases(seed, short.chain(last.map(|make| make())))
}

pub fn random(seed: u64) -> Cases {
    let mut random = Random::new(seed);
    let made = (0..).map(move |number| partitions::random(&mut random, number));
    cases(seed, made)
}
