//! Cases of searches in lots (document 02, R-11): every cutting of small tables, with every
//! odd call at each place; within every allowance and in every report room; ranks of the
//! answers; random cuttings of queries of all sorts; and calls with any feed whatsoever.

use crate::case::{Call, Case};
use crate::in_lots::Lots;
use crate::streams::Cases;
use reference::generate::cuttings::{self, Cut, SHORT};
use reference::generate::draft::{LARGE, MIDDLE};
use reference::generate::{feeds, listed_cuttings, Random};

fn cases(seed: u64, cuts: impl Iterator<Item = Cut> + 'static) -> Cases {
    let mut random = Random::new(seed ^ 0x006C_6F74_7300);
    Box::new(cuts.map(move |cut| Case {
        call: Call::Lots(Box::new(Lots {
            largest: cut.largest,
            calls: cut.calls,
            words: None,
        })),
        input: cut.input,
        noise: random.draw(),
    }))
}

fn made(seed: u64, make: fn(&mut Random, usize) -> Cut) -> Cases {
    let mut random = Random::new(seed);
    cases(seed, (0..).map(move |number| make(&mut random, number)))
}

pub fn random(seed: u64) -> Cases {
    made(seed, |random, number| {
        cuttings::random(random, &SHORT, number)
    })
}

pub fn middle(seed: u64) -> Cases {
    made(seed, |random, number| match number % 20 {
        19 => cuttings::random(random, &LARGE, number),
        _ => cuttings::random(random, &MIDDLE, number),
    })
}

/// Attempts that stay open over many rows.
pub fn open(seed: u64) -> Cases {
    made(seed, |random, number| match number % 10 {
        9 => cuttings::open(random, 200),
        _ => cuttings::open(random, 60),
    })
}

pub fn every_small(seed: u64) -> Cases {
    cases(seed, listed_cuttings::every_small(3))
}

pub fn every_odd_call(seed: u64) -> Cases {
    cases(seed, listed_cuttings::every_odd_call())
}

pub fn within_every_allowance(seed: u64) -> Cases {
    cases(seed, listed_cuttings::within_every_allowance())
}

pub fn in_every_room(seed: u64) -> Cases {
    cases(seed, listed_cuttings::in_every_room())
}

pub fn ranks(seed: u64) -> Cases {
    cases(seed, listed_cuttings::ranks())
}

pub fn at_limits(seed: u64) -> Cases {
    cases(seed, listed_cuttings::at_limits())
}

/// Any feed whatsoever.
pub fn any_feed(seed: u64) -> Cases {
    let mut random = Random::new(seed ^ 0x6665_6564);
    Box::new((0..).map(move |number| {
        let (cut, words, behind) = feeds::any(&mut random, number);
        Case {
            call: Call::Lots(Box::new(Lots {
                largest: cut.largest,
                calls: cut.calls,
                words: Some((words, behind)),
            })),
            input: cut.input,
            noise: random.draw(),
        }
    }))
}
