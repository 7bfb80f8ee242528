//! Cases with records of kind 6 (document 02, R-7): every short list of entries over
//! comparisons of the three truths, long ones at the limit, records cut, counted wrong or
//! with a byte at each value, and random queries all of whose letters have conditions.

use crate::streams::{made, rooms, searches, Cases};
use reference::generate::conditions::{
    compare, cut_or_counted, every_list, long_lists, of_truth, operator, random_record,
    with_entries, Entry, FALSE, TRUE, UNKNOWN,
};
use reference::generate::draft::{self, with_column, with_number, Draft, Numbers, MIDDLE, SMALL};
use reference::generate::scramble::every_byte;
use reference::generate::{Input, Random, Size};
use reference::query::{stands_as, AND, CONDITION, DEFINE, NOT, OR};

/// Lists that are well formed are searched on one row or two, as are the others.
pub fn every_condition(seed: u64) -> Cases {
    let long = long_lists().into_iter();
    let lists = long.chain(every_list(6)).enumerate();
    let inputs = lists.map(|(number, list)| with_entries(&list, 1 + number % 2).finish());
    searches(seed, inputs)
}

/// Lists of one entry, of each operator, and of a nest.
fn listed() -> [Vec<Entry>; 5] {
    let (yes, no, unknown) = (of_truth(TRUE, 2), of_truth(FALSE, 0), of_truth(UNKNOWN, 1));
    [
        vec![yes.clone()],
        vec![no.clone(), operator(NOT)],
        vec![yes.clone(), unknown.clone(), operator(AND)],
        vec![unknown.clone(), yes.clone(), operator(OR)],
        vec![yes, no, unknown, operator(OR), operator(NOT), operator(AND)],
    ]
}

pub fn every_record(seed: u64) -> Cases {
    let sorts = (0..=255).flat_map(|sort| {
        let (yes, no, other) = (of_truth(TRUE, 0), of_truth(FALSE, 0), operator(sort));
        let lists = [vec![yes.clone(), other.clone()], vec![no, yes, other]];
        lists.map(|list| with_entries(&list, 1))
    });
    let cut = listed().into_iter().flat_map(|list| cut_or_counted(&list));
    let drafts = cut.map(|body| {
        let mut draft = Draft::new(1, b"A", vec![1]);
        draft.add_record((CONDITION, body));
        draft
    });
    let full = Draft::new(2, b"A+ B", vec![1, 5, 3, 5, 1, 4])
        .condition(
            b'A',
            &[
                compare(with_number(0, 0, 2, 3)),
                operator(NOT),
                compare(with_column((1, -1), 1, (1, 0), 0)),
                operator(OR),
            ],
        )
        .define(b'B', &[with_number(0, 0, 4, 3)]);
    let bytes = every_byte(full.query()).map(move |query| Input {
        query,
        notes: 40,
        trail: 320,
        numbers: 40,
        labels: 40,
        ..full.finish()
    });
    let orders = [[3, 3, 6], [3, 6, 3], [6, 3, 3], [6, 6, 3], [6, 3, 6]];
    let counts = [
        [13, 13],
        [13, 14],
        [26, 0],
        [0, 26],
        [27, 0],
        [0, 27],
        [1, 26],
    ];
    let ordered = orders.into_iter().map(|kinds| in_order(&kinds));
    let counted = counts
        .into_iter()
        .map(|[three, six]| in_order(&[vec![3; three], vec![6; six]].concat()));
    let twice = [[3, 6], [6, 3], [6, 6], [3, 3]]
        .into_iter()
        .flat_map(|kinds| {
            let draft = in_order(&kinds);
            [b'A', b'B', b'Q'].map(move |letter| {
                let mut draft = draft.clone();
                for at in draft.defines() {
                    draft.records[at].1[0] = letter;
                }
                draft
            })
        });
    let judged = rooms(
        seed,
        sorts
            .chain(drafts)
            .chain(ordered)
            .chain(counted)
            .chain(twice),
    );
    Box::new(judged.chain(searches(seed, bytes)))
}

/// Records of these kinds for A, B and so on, in this order.
fn in_order(kinds: &[u16]) -> Draft {
    let draft = Draft::new(1, b"A+ B", vec![1, 1]);
    kinds
        .iter()
        .zip((b'A'..=b'Z').cycle())
        .fold(draft, |draft, (&kind, letter)| match kind {
            DEFINE => draft.define(letter, &[with_number(0, 0, 1, 1)]),
            _ => draft.condition(letter, &[compare(with_number(0, 0, 1, 1))]),
        })
}

/// Each letter of the pattern has a condition of its own, but for some records of kind 3
/// among them.
fn conditional(random: &mut Random, size: &Size) -> Draft {
    let numbers = random.pick(&[Numbers::Low, Numbers::Low, Numbers::Extreme]);
    let mut draft = draft::accepted(random, size, numbers);
    let kept: Vec<u8> = draft
        .records
        .iter()
        .filter(|it| it.0 == DEFINE)
        .map(|it| it.1[0])
        .filter(|_| random.chance(20))
        .collect();
    let keeps = |it: &(u16, Vec<u8>)| stands_as(it.0) != DEFINE || kept.contains(&it.1[0]);
    draft.records.retain(keeps);
    for letter in draft.letters().into_iter().filter(|it| !kept.contains(it)) {
        let record = random_record(random, letter, draft.columns(), numbers);
        draft.add_record(record);
    }
    draft::widen_rooms(random, &mut draft);
    draft
}

pub fn random(seed: u64) -> Cases {
    made(seed, |random, number| match number % 10 {
        9 => conditional(random, &MIDDLE).finish(),
        _ => conditional(random, &SMALL).finish(),
    })
}
