//! Cases of tests of a letter at a row (document 02, R-6): every small choice of
//! truths, every byte as a letter at rows that are there and not, and random ones.

use crate::case::{Call, Case};
use crate::streams::Cases;
use reference::generate::draft::{MIDDLE, SMALL};
use reference::generate::tested::{every_choice, every_letter, random as random_test, Test};
use reference::generate::Random;

fn tests(seed: u64, tests: impl Iterator<Item = Test> + 'static) -> Cases {
    let mut random = Random::new(seed ^ 0x7465_7374);
    Box::new(tests.map(move |test| Case {
        call: Call::Test {
            letter: test.letter,
            row: test.row,
        },
        input: test.draft.with_lengths([0; 4]),
        noise: random.draw(),
    }))
}

pub fn every_truth(seed: u64) -> Cases {
    tests(seed, every_choice())
}

pub fn every_byte(seed: u64) -> Cases {
    tests(seed, every_letter())
}

pub fn random(seed: u64) -> Cases {
    let mut random = Random::new(seed);
    let made = (0..).map(move |number| match number % 10 {
        9 => random_test(&mut random, &MIDDLE, number / 10),
        _ => random_test(&mut random, &SMALL, number),
    });
    tests(seed, made)
}
