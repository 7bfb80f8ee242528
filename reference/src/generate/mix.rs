//! A mixed stream of inputs: each number of the stream has its sort, so that
//! even a short stream holds all answers; all else is random from the seed.

use super::averages;
use super::damage::{damage, damage_twice};
use super::draft::{self, Draft, Input, Numbers, Room, Size};
use super::random::Random;
use super::texts;
use crate::pattern::{self, Pattern};

/// The input with this number in the stream.
pub fn input(random: &mut Random, size: &Size, number: usize) -> Input {
    let turn = number / 10;
    match number % 10 {
        0..=1 => lively(random, size).finish(),
        2 => jumping(random, size).finish(),
        3 if turn % 8 == 7 && size.pairs >= 600 => near_limit(random, size).finish(),
        3 => accepted(random, size, Numbers::Low).finish(),
        4 => adversarial(random, size).finish(),
        5 if turn % 2 == 1 => averages::draft(random, size).finish(),
        5 => accepted(random, size, Numbers::Extreme).finish(),
        6 => critical(random, size),
        slot @ 7..=8 => damaged(random, size, 1 + ((2 * turn + slot - 7) % 15) as u8),
        _ => damaged_twice(random, size),
    }
}

pub fn accepted(random: &mut Random, size: &Size, numbers: Numbers) -> Draft {
    let mut draft = draft::accepted(random, size, numbers);
    draft::widen_rooms(random, &mut draft);
    draft
}

/// An accepted draft that most likely has a match with rows.
pub fn lively(random: &mut Random, size: &Size) -> Draft {
    for _ in 0..4 {
        let draft = accepted(random, size, Numbers::Low);
        let [_, _, _, labels] = draft.needs();
        if labels > 0 {
            return draft;
        }
    }
    accepted(random, size, Numbers::Low)
}

/// An accepted draft in mode 2 or 3 that most likely goes on at a labelled row twice
/// or more: three matches with rows are written.
pub fn jumping(random: &mut Random, size: &Size) -> Draft {
    for _ in 0..12 {
        let draft = accepted(random, size, Numbers::Low);
        let letters: Vec<u8> = draft.letters().into_iter().collect();
        let mut drafts = draft.to_labelled_rows(&letters);
        drafts.retain(|draft| draft.matches_with_rows() > 2);
        if !drafts.is_empty() {
            return random.pick(&drafts);
        }
    }
    accepted(random, size, Numbers::Low)
}

/// A pattern that is hard on a careless walk; mostly on as many rows as it may
/// have.
pub fn adversarial(random: &mut Random, size: &Size) -> Draft {
    let fewest_rows = random.below(size.rows + 1);
    let most_places = size.pairs / (fewest_rows + 1);
    let text = texts::adversarial(random, most_places as u128).unwrap_or(b"()? A".to_vec());
    on_many_rows(random, size, &text)
}

/// A pattern with 250 to 262 places.
pub fn near_limit(random: &mut Random, size: &Size) -> Draft {
    let text = texts::near_limit(random);
    on_many_rows(random, size, &text)
}

fn on_many_rows(random: &mut Random, size: &Size, text: &[u8]) -> Draft {
    let with_factor = |tree: Pattern| tree.count_with_end() * tree.factor() as u128;
    let places = pattern::judge(text).map_or(1, with_factor);
    let most_rows = (size.pairs / places as usize)
        .saturating_sub(1)
        .min(size.rows);
    let n = match random.chance(70) {
        true => most_rows,
        false => random.below(most_rows + 1),
    };
    let mut draft = draft::with_text(random, size, Numbers::Low, text, n);
    draft::widen_rooms(random, &mut draft);
    draft
}

/// Rooms at, one beside or below what is needed, each at random.
pub fn critical(random: &mut Random, size: &Size) -> Input {
    let mut draft = lively(random, size);
    let working = [Room::Exact, Room::Exact, Room::Exact, Room::OneMore];
    draft.notes = random.pick(&working);
    draft.trail = random.pick(&working);
    let report = |random: &mut Random| {
        let part = Room::Part(random.below(100));
        random.pick(&[
            Room::Nothing,
            Room::OneShort,
            Room::Exact,
            Room::OneMore,
            part,
        ])
    };
    draft.numbers = report(random);
    draft.labels = report(random);
    draft.finish()
}

pub fn damaged(random: &mut Random, size: &Size, answer: u8) -> Input {
    loop {
        let mut draft = accepted(random, size, Numbers::Low);
        if damage(random, &mut draft, answer) {
            return draft.finish();
        }
    }
}

pub fn damaged_twice(random: &mut Random, size: &Size) -> Input {
    loop {
        let answers = [1, 1].map(|low| low + random.below(15) as u8);
        let mut draft = accepted(random, size, Numbers::Low);
        if damage_twice(random, &mut draft, answers) {
            return draft.finish();
        }
    }
}

/// All texts over an alphabet that are not refused, on all rows of 0 and 1 up
/// to a number of rows, in all skip modes with each letter of the text. A holds at
/// 1 and B at any row; the measures are the sum of A and the last row of all.
pub fn every_small_input(
    alphabet: &'static [u8],
    longest: usize,
    most_rows: usize,
) -> impl Iterator<Item = Input> {
    let not_refused = |text: &Vec<u8>| pattern::judge(text).is_ok();
    texts::every_text(alphabet, longest)
        .filter(not_refused)
        .flat_map(move |text| {
            every_row(most_rows).flat_map(move |rows| {
                let draft = Draft::new(1, &text, rows)
                    .define(b'A', &[draft::with_number(0, 0, 1, 1)])
                    .measure(6, 0, 0);
                let draft = match draft.letters().contains(&b'A') {
                    true => draft.measure(2, b'A', 0),
                    false => draft,
                };
                let drafts = draft.in_every_mode().into_iter();
                drafts.map(|draft| draft.finish())
            })
        })
}

/// The given texts on every truth table of A and B: up to a number of rows, at
/// each of which A, B, both or neither hold; in all skip modes with each letter.
pub fn every_table<'a>(
    texts: &'a [&'a [u8]],
    most_rows: usize,
) -> impl Iterator<Item = Input> + 'a {
    texts.iter().flat_map(move |text| {
        every_row(2 * most_rows)
            .filter(|bits| bits.len() % 2 == 0)
            .flat_map(move |rows| {
                let draft = Draft::new(2, text, rows)
                    .define(b'A', &[draft::with_number(0, 0, 1, 1)])
                    .define(b'B', &[draft::with_number(1, 0, 1, 1)])
                    .measure(1, 0, 0)
                    .measure(5, 0, 1);
                let drafts = draft.in_every_mode().into_iter();
                drafts.map(|draft| draft.finish())
            })
    })
}

/// The given texts on all rows of 0 to 3 up to a number of rows, where A holds at
/// 1, B at 2, C at 3 and no letter at 0, so that a match's labels can be any word;
/// in the modes 2 and 3 with each of A to D, whether the text has it or not. Up to
/// three rows also in report rooms of nothing, one less of each, and one more.
pub fn every_word<'a>(texts: &'a [&'a [u8]], most_rows: usize) -> impl Iterator<Item = Input> + 'a {
    texts.iter().flat_map(move |text| {
        every_row_of(4, most_rows).flat_map(move |rows| {
            let free = Draft::new(1, text, rows);
            let draft = [1, 2, 3].into_iter().fold(free, |draft, entry| {
                let holds = draft::with_number(0, 0, 1, entry.into());
                draft.define(b'@' + entry, &[holds])
            });
            let drafts = draft.measure(1, 0, 0).to_labelled_rows(b"ABCD");
            drafts.into_iter().flat_map(in_report_rooms)
        })
    })
}

/// Largest number of rows on which the report rooms below are tried.
const IN_ROOMS: usize = 3;

fn in_report_rooms(draft: Draft) -> Vec<Input> {
    let [notes, trail, numbers, labels] = draft.needs();
    let mut rooms = vec![(numbers, labels)];
    if draft.rows.len() <= IN_ROOMS {
        rooms.push((0, 0));
        rooms.push((numbers.saturating_sub(1), labels));
        rooms.push((numbers, labels.saturating_sub(1)));
        rooms.push((numbers + 1, labels + 1));
    }
    let input = |(numbers, labels)| draft.with_lengths([notes, trail, numbers, labels]);
    rooms.into_iter().map(input).collect()
}

fn every_row(most_rows: usize) -> impl Iterator<Item = Vec<i32>> {
    every_row_of(2, most_rows)
}

/// All rows of one column whose entries are 0 to below the given number.
pub fn every_row_of(entries: usize, most_rows: usize) -> impl Iterator<Item = Vec<i32>> {
    (0..=most_rows).flat_map(move |n| {
        let entry = move |number: usize, row| (number / entries.pow(row) % entries) as i32;
        (0..entries.pow(n as u32))
            .map(move |number| (0..n as u32).map(|row| entry(number, row)).collect())
    })
}
