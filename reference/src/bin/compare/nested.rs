//! Cases of repetitions of bodies that can take no row (document 02, R-3): listed patterns
//! on every table, every small pattern that has one, and random nests of them, at times
//! with more than three in one another; as they are and within allowances.

use crate::streams::{made, rooms, searches, Cases};
use crate::within;
use reference::generate::draft::{self, Draft, Numbers, Size, MIDDLE, SMALL};
use reference::generate::{allowances, mix, texts, Random};
use reference::pattern;

pub fn every_table(seed: u64) -> Cases {
    searches(seed, mix::every_table(&texts::NESTED, 3))
}

/// Of texts of 6 and 7 bytes only those with one letter.
pub fn every_small(seed: u64) -> Cases {
    let repeats = |input: &draft::Input| {
        let query = reference::query::read(&input.query);
        let tree = query.ok().and_then(|query| pattern::read(&query.text));
        tree.is_some_and(|tree| tree.nesting() > 0)
    };
    let short = mix::every_small_input(b"AB|()*?^$+", 5, 2);
    let long = mix::every_small_input(b"A()*?|", 7, 1);
    let inputs = short.chain(long).filter(repeats);
    let deep = (0..=6).flat_map(|deep| {
        let quantifiers: [&[u8]; 4] = [b"*", b"+", b"*?", b"{2,}"];
        let bodies: [&[u8]; 4] = [b"A", b"A?", b"()", b"^"];
        quantifiers.into_iter().flat_map(move |quantifier| {
            bodies.into_iter().map(move |body| {
                let close = [b")", quantifier].concat().repeat(deep);
                [&b"(".repeat(deep)[..], body, &close].concat()
            })
        })
    });
    let judged = rooms(seed, deep.map(|text| Draft::new(1, &text, vec![1])));
    Box::new(judged.chain(searches(seed, inputs)))
}

/// A nest of up to four repetitions, alone or before, behind or beside something.
fn draft(random: &mut Random, size: &Size) -> Draft {
    let deep = random.pick(&[1, 1, 2, 2, 3, 3, 4]);
    let body = match random.chance(30) {
        true => random.pick(&texts::NESTED).to_vec(),
        false => texts::nested(random, deep),
    };
    let text = match random.below(5) {
        0 => [&body[..], b" B"].concat(),
        1 => [&body[..], b" $"].concat(),
        2 => [b"A (", &body[..], b") | B"].concat(),
        _ => body,
    };
    let places =
        pattern::judge(&text).map_or(1, |tree| tree.count_with_end() as usize * tree.factor());
    let most = (size.pairs / places)
        .saturating_sub(1)
        .min(size.rows)
        .max(2);
    let n = random.below(most + 1).max(random.below(most + 1));
    let mut draft = draft::with_text(random, size, Numbers::Low, &text, n);
    draft::widen_rooms(random, &mut draft);
    draft
}

pub fn random(seed: u64) -> Cases {
    made(seed, |random, number| match number % 4 {
        3 => draft(random, &MIDDLE).finish(),
        _ => draft(random, &SMALL).finish(),
    })
}

pub fn within_allowances(seed: u64) -> Cases {
    let make = |random: &mut Random, number: usize| match number % 10 {
        9 => draft(random, &MIDDLE).finish(),
        _ => draft(random, &SMALL).finish(),
    };
    within::made(seed, make, allowances::telling)
}
