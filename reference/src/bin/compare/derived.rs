//! Cases of one report derived from the other (document 02, R-9): queries in mode 0 with
//! room for all that mode 1 can write, so that neither search stops.

use crate::case::Call;
use crate::streams::{calls, Cases, TABLED};
use reference::generate::draft::{Draft, Input, Numbers, LARGE, MIDDLE, SMALL};
use reference::generate::{averages, mix, Random};
use reference::query::{self, PAST_LAST_ROW};
use reference::search;

/// In mode 0, with room for both.
fn with_room(draft: &Draft) -> Input {
    widened(draft.clone().with_skip(PAST_LAST_ROW, 0).finish())
}

fn widened(mut input: Input) -> Input {
    if let Ok(accepted) = search::accept(&input.query, &input.rows) {
        let n = accepted.n();
        input.numbers = n * accepted.numbers_per_match() + 1;
        input.labels = n * (n + 1) / 2 + 1;
    }
    input
}

pub fn random(seed: u64) -> Cases {
    let mut random = Random::new(seed);
    let drafts = (0..).map(move |number| {
        let size = match number % 200 {
            199 => LARGE,
            at if at % 10 == 9 => MIDDLE,
            _ => SMALL,
        };
        match number % 7 {
            0 => mix::adversarial(&mut random, &size),
            1 => mix::accepted(&mut random, &size, Numbers::Extreme),
            2 => averages::draft(&mut random, &size),
            _ => mix::lively(&mut random, &size),
        }
    });
    calls(Call::Derive, seed, drafts.map(|draft| with_room(&draft)))
}

pub fn every_table(seed: u64) -> Cases {
    let in_mode_0 = |input: &Input| {
        let skip = query::read(&input.query).map(|query| query.skip);
        skip == Ok(query::Skip::PastLastRow)
    };
    let inputs = mix::every_table(&TABLED, 4).filter(in_mode_0);
    calls(Call::Derive, seed, inputs.map(widened))
}
