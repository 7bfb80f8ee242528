//! Document 02, R-9, one report from the other: a case worked out by hand, and for many
//! queries that the report of mode 0 is the one derived from mode 1.

mod common;

use common::*;
use reference::derive::{self, Written};
use reference::generate::draft::{with_number, Draft, Input, Numbers, Room, MIDDLE, SMALL};
use reference::generate::{conditions, mix, texts, Random};
use reference::search;

/// In mode 0, with room for all that mode 1 can write.
fn past_last_row(draft: &Draft) -> Input {
    let mut input = draft.clone().with_skip(0, 0).finish();
    if let Ok(accepted) = search::accept(&input.query, &input.rows) {
        let n = accepted.n();
        input.numbers = n * accepted.numbers_per_match();
        input.labels = n * (n + 1) / 2;
    }
    input
}

/// What was written, and the numbers of a match.
fn report(input: &Input) -> (Written, usize) {
    let called = call(input);
    assert_eq!(called.outcome.answer, 0);
    let accepted = search::accept(&input.query, &input.rows).expect("accepted");
    let per_match = accepted.numbers_per_match();
    let outcome = called.outcome;
    let written = Written {
        numbers: called.numbers[..outcome.matches as usize * per_match].to_vec(),
        labels: called.labels[..outcome.labels as usize].to_vec(),
        matches: outcome.matches,
    };
    (written, per_match)
}

/// How many matches each of the two has.
fn check(draft: &Draft) -> [u64; 2] {
    let input = past_last_row(draft);
    let (one, per_match) = report(&input);
    let (other, _) = report(&Input {
        query: derive::to_next_row(&input.query),
        ..input.clone()
    });
    assert_eq!(derive::past_last_row(&other, per_match), one, "{draft:?}");
    [one.matches, other.matches]
}

/// `A B? | ()` on 1, 1, 0, 1, 1, where A and B hold at 1: to next row AB, A, nothing, AB
/// and A; past last row AB, nothing and AB.
#[test]
fn by_hand() {
    let one = with_number(0, 0, 1, 1);
    let draft = Draft::new(1, b"A B? | ()", vec![1, 1, 0, 1, 1])
        .define(b'A', &[one])
        .define(b'B', &[one])
        .measure(1, b'B', 0);
    let next = Written {
        numbers: vec![
            1, 0, 2, 1, 1, 2, 1, 1, 1, 0, 3, 2, 0, 1, 0, 4, 3, 2, 1, 1, 5, 4, 1, 1, 0,
        ],
        labels: b"ABAABA".to_vec(),
        matches: 5,
    };
    let past = Written {
        numbers: vec![1, 0, 2, 1, 1, 2, 2, 0, 1, 0, 3, 3, 2, 1, 1],
        labels: b"ABAB".to_vec(),
        matches: 3,
    };
    assert_eq!(derive::past_last_row(&next, 5), past);
    assert_eq!(check(&draft), [3, 5]);
}

#[test]
fn random_queries() {
    let mut random = Random::new(61);
    let (mut fewer, mut many) = (0, 0);
    for number in 0..6_000 {
        let size = if number % 10 == 9 { MIDDLE } else { SMALL };
        let draft = match number % 4 {
            0 => mix::adversarial(&mut random, &size),
            1 => mix::accepted(&mut random, &size, Numbers::Extreme),
            _ => mix::lively(&mut random, &size),
        };
        let [one, other] = check(&draft);
        fewer += usize::from(one < other);
        many += usize::from(one > 1 && one < other);
    }
    assert!(fewer > 1_000 && many > 500, "{fewer} {many}");
}

#[test]
fn every_small_table() {
    for text in texts::ADVERSARIAL {
        for bits in 0..64 {
            let rows: Vec<i32> = (0..6).map(|at| bits >> at & 1).collect();
            let holds = [conditions::compare(with_number(1, 0, 1, 1))];
            let draft = Draft::new(2, text, rows)
                .define(b'A', &[with_number(0, 0, 1, 1)])
                .condition(b'B', &holds);
            check(&draft);
        }
    }
}

/// Rooms that end a run too early are not spoken of.
#[test]
fn rooms_are_enough() {
    let mut draft = Draft::new(1, b"A*", vec![1; 5]);
    draft.labels = Room::Nothing;
    assert_eq!(call(&draft.finish()).outcome.answer, 13);
    assert_eq!(check(&draft), [1, 5]);
}
