//! Cases of searches within an allowance (document 02, R-13): small searches within
//! every allowance up to one more than enough; larger ones within the extremes, within
//! some at which something happens right before or behind the last entry, and within
//! some at random. Where 13 or 15 may come first, the report rooms are short and the
//! skips go to labelled rows.

use crate::streams::{searches, Cases};
use reference::generate::draft::{self, Input, Numbers, LARGE, MIDDLE, SMALL};
use reference::generate::{allowances, limits, mix, Random};

/// The allowances that an input is searched within.
pub type Choice = fn(&mut Random, &Input) -> Vec<u64>;

/// Searches each input within the allowances of the choice.
fn within(seed: u64, inputs: impl Iterator<Item = Input> + 'static, choice: Choice) -> Cases {
    let mut random = Random::new(seed ^ 0x7769_7468_696E);
    let within = inputs.flat_map(move |input| {
        let chosen = choice(&mut random, &input).into_iter();
        chosen.map(move |allowance| input.within(allowance))
    });
    searches(seed, within)
}

/// The same for inputs that are made one by one from a number and a generator.
pub fn made(seed: u64, make: fn(&mut Random, usize) -> Input, choice: Choice) -> Cases {
    let mut random = Random::new(seed);
    let inputs = (0..).map(move |number| make(&mut random, number));
    within(seed, inputs, choice)
}

pub fn every_small_input(seed: u64) -> Cases {
    let signs = mix::every_small_input(b"AB|()*?$", 4, 2);
    let bounds = mix::every_small_input(b"A{}2,?", 5, 2);
    within(seed, signs.chain(bounds), allowances::every)
}

/// Patterns whose walks fail at once, far back, and in pairs that are tried again; with
/// empty matches and with anchors.
const TABLED: [&[u8]; 8] = [
    b"A* B",
    b"A+? B+?",
    b"(A|A)+ B",
    b"A | A B",
    b"(A?){3} B",
    b"(^ A | B)+ $",
    b"(() | A){,2} B",
    b"A B??",
];

pub fn every_table(seed: u64) -> Cases {
    within(seed, mix::every_table(&TABLED, 3), allowances::every)
}

/// Patterns of whose matches some have a row to go on at, and some have not.
const WORDS: [&[u8]; 4] = [b"(A|B|C)+", b"A B*", b"A+ B C?", b"() | A B"];

pub fn every_word(seed: u64) -> Cases {
    within(seed, mix::every_word(&WORDS, 3), allowances::every)
}

/// The largest searches take long: every fourth of them is taken, within two.
pub fn at_limits(seed: u64) -> Cases {
    let small = limits::small().into_iter().map(|draft| draft.finish());
    let large = limits::of_large_searches().into_iter().step_by(4);
    let large = large.map(|draft| draft.finish());
    let few: Choice = |random, input| {
        let steps = allowances::steps_of(input);
        let inside = random.below(steps as usize) as u64;
        vec![inside, steps - 1]
    };
    Box::new(within(seed, small, allowances::some).chain(within(seed, large, few)))
}

pub fn mixed(seed: u64) -> Cases {
    let make = |random: &mut Random, number| mix::input(random, &SMALL, number);
    made(seed, make, allowances::every)
}

pub fn in_rooms(seed: u64) -> Cases {
    let mut random = Random::new(seed);
    let drafts = (0..).map(move |_| draft::accepted(&mut random, &SMALL, Numbers::Low));
    let inputs = drafts.flat_map(|draft| draft.with_critical_rooms());
    within(seed, inputs, allowances::telling)
}

pub fn jumping(seed: u64) -> Cases {
    let make = |random: &mut Random, number| match number % 4 {
        0 => mix::jumping(random, &MIDDLE).finish(),
        _ => mix::jumping(random, &SMALL).finish(),
    };
    made(seed, make, allowances::telling)
}

pub fn middle(seed: u64) -> Cases {
    let make = |random: &mut Random, number| match number % 4 {
        0 => mix::adversarial(random, &MIDDLE).finish(),
        _ => mix::input(random, &MIDDLE, number / 4),
    };
    made(seed, make, allowances::telling)
}

pub fn large(seed: u64) -> Cases {
    let make = |random: &mut Random, number| mix::input(random, &LARGE, number);
    made(seed, make, allowances::some)
}
