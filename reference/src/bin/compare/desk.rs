//! Cases of the release desk (document 02, R-14): every small log, logs at the limits, and
//! random ones that clear or miss by one thing, in rooms that are enough or not.

use crate::case::Call;
use crate::streams::{calls, Cases};
use reference::generate::{logs, Random};

pub fn every_log(seed: u64) -> Cases {
    let limits = logs::at_limits().into_iter();
    calls(Call::Desk, seed, limits.chain(logs::every_small()))
}

pub fn random(seed: u64) -> Cases {
    let mut random = Random::new(seed);
    let made = (0..).map(move |number| logs::random(&mut random, number));
    calls(Call::Desk, seed, made)
}
