//! Damage to a draft: for each answer of the table in document 01 many causes,
//! one of them taken at random. Where two are wanted, the one with the higher
//! number is done first, so that the lower one surely stands in the input. The
//! answers 14 and 15, the skip's letter, function 7 and kind 6 are from document 02,
//!

use super::conditions;
use super::draft::{define_body, random_record, with_number, Draft, Numbers, Room, Tail};
use super::random::Random;
use super::texts;
use crate::query::{
    stands_as, AVG, COMPARE, CONDITION, COUNT, DEFINE, MEASURE, MOST_DEFINES, MOST_MEASURES,
    MOST_TEXT, SHAPE, SKIP, TEXT, TO_FIRST, TO_LAST, TO_NEXT_ROW,
};
use crate::search::{self, MOST_ROWS, STUCK};

/// Damages a draft so that the answer applies. False where this draft cannot be
/// brought to that answer (a 13 without any match, a 15 without one that has rows),
/// and then it is unchanged.
pub fn damage(random: &mut Random, draft: &mut Draft, answer: u8) -> bool {
    match answer {
        1 => cut(random, draft),
        2 => wrong_kind(random, draft),
        3 => wrong_field(random, draft),
        4..=7 | 14 => wrong_text(random, draft, answer),
        8 => define_twice(random, draft),
        9 => ask_for_a_stranger(random, draft),
        10 => wrong_rows(random, draft),
        11 => draft.notes = short(random),
        12 => draft.trail = short(random),
        15 => return stick(random, draft),
        _ => return stop(random, draft),
    }
    true
}

/// Damages a draft for two answers; once if they are the same, since a second
/// damage of the same sort might undo the first.
pub fn damage_twice(random: &mut Random, draft: &mut Draft, answers: [u8; 2]) -> bool {
    // 14 stands where 5 does.
    let rank = |answer: u8| if answer == 14 { 5 } else { answer };
    let [one, other] = answers;
    let [low, high] = match rank(one) <= rank(other) {
        true => [one, other],
        false => [other, one],
    };
    damage(random, draft, high) && (low == high || damage(random, draft, low))
}

fn short(random: &mut Random) -> Room {
    let part = Room::Part(random.below(99));
    random.pick(&[Room::OneShort, Room::OneShort, Room::Nothing, part])
}

fn cut(random: &mut Random, draft: &mut Draft) {
    if draft.records.is_empty() {
        draft.tail = Tail::Stray(vec![0]);
        return;
    }
    draft.tail = match random.below(3) {
        0 => {
            let count = 1 + random.below(3);
            Tail::Stray(
                (0..count)
                    .map(|_| random.pick(&[0, 1, 2, 5, 255]))
                    .collect(),
            )
        }
        1 => Tail::Short(random.pick(&[1, 1, 2, 3, 4, 5, 100])),
        _ => Tail::Stretched(random.pick(&[1, 1, 2, 100, 65_000])),
    };
}

const UNKNOWN_KINDS: [u16; 9] = [0, 7, 8, 255, 256, 0x0101, 0x0106, 0x0600, 65_535];

fn wrong_kind(random: &mut Random, draft: &mut Draft) {
    let at = random.below(draft.records.len());
    match random.below(9) {
        0 => draft.records[at].0 = random.pick(&UNKNOWN_KINDS),
        1 => {
            let body = vec![0; random.below(3)];
            let kind = random.pick(&UNKNOWN_KINDS);
            draft.records.insert(at, (kind, body));
        }
        2 => {
            let kind = random.pick(&[SHAPE, TEXT, SKIP]);
            draft.records.retain(|record| record.0 != kind);
        }
        3 => {
            let kind = random.pick(&[SHAPE, TEXT, SKIP]);
            let again = draft.place_of(kind).unwrap_or(at);
            let record = draft.records[again].clone();
            let behind = random.pick(&[again, draft.records.len()]);
            draft.records.insert(behind, record);
        }
        4 => too_many_defines(random, draft),
        5 => too_many_measures(draft),
        6 => draft.records.clear(),
        _ => misplace(random, draft),
    }
}

/// Brings the number of measures to one more than there may be.
fn too_many_measures(draft: &mut Draft) {
    while draft.places_of(MEASURE).len() <= MOST_MEASURES {
        draft.records.push((MEASURE, vec![COUNT, 0, 0, 0]));
    }
}

/// The same for DEFINEs, of kind 3 alone, of kind 6 alone, or of both in turn.
fn too_many_defines(random: &mut Random, draft: &mut Draft) {
    let kinds = random.pick(&[
        [DEFINE, DEFINE],
        [CONDITION, CONDITION],
        [DEFINE, CONDITION],
    ]);
    while draft.defines().len() <= MOST_DEFINES {
        let have = draft.defines().len();
        let letter = b'A' + have as u8 % 26;
        let equal = with_number(0, 0, 1, 0);
        let body = match kinds[have % 2] {
            DEFINE => define_body(letter, &[equal]),
            _ => conditions::body(letter, &[conditions::compare(equal)]),
        };
        draft.add_record((kinds[have % 2], body));
    }
}

/// A record behind or before one of another kind.
fn misplace(random: &mut Random, draft: &mut Draft) {
    let before = draft.records.clone();
    let in_order = |draft: &Draft| draft.records.iter().map(|it| stands_as(it.0)).is_sorted();
    while in_order(draft) {
        draft.records = before.clone();
        let from = random.below(before.len());
        let record = draft.records.remove(from);
        let to = random.below(draft.records.len() + 1);
        draft.records.insert(to, record);
        if before.len() < 2 {
            draft.records.clear();
            return;
        }
    }
}

fn wrong_field(random: &mut Random, draft: &mut Draft) {
    let kinds: Vec<u16> = draft.records.iter().map(|record| record.0).collect();
    let mut different: Vec<u16> = kinds;
    different.dedup();
    let kind = random.pick(&different);
    let at = random.pick(&draft.places_of(kind));
    let columns = draft.columns();
    let body = &mut draft.records[at].1;
    if kind != TEXT && random.chance(20) {
        wrong_length(random, body);
        return;
    }
    match kind {
        SHAPE => wrong_shape(random, body),
        TEXT => lengthen(random, body),
        DEFINE => wrong_define(random, body, columns),
        CONDITION => wrong_condition(random, body, columns),
        SKIP => wrong_skip(random, body),
        _ => wrong_measure(random, body, columns),
    }
}

fn wrong_length(random: &mut Random, body: &mut Vec<u8>) {
    match random.below(4) {
        0 => body.push(0),
        1 => body.extend(vec![0; 12]),
        2 => {
            body.pop();
        }
        _ => body.clear(),
    }
}

fn wrong_shape(random: &mut Random, body: &mut [u8]) {
    match random.chance(60) {
        true => body[0] = random.pick(&[0, 9, 10, 255]),
        false => body[1] = random.pick(&[1, 128, 255]),
    }
}

fn lengthen(random: &mut Random, body: &mut Vec<u8>) {
    let length = MOST_TEXT + 1 + random.pick(&[0, 0, 1, 256]);
    body.resize(length.max(body.len()), b' ');
}

/// A mode that there is none of; a letter or another byte in the modes 0 and 1; or
/// no letter in the modes 2 and 3.
fn wrong_skip(random: &mut Random, body: &mut [u8]) {
    match random.below(3) {
        0 => body[0] = random.pick(&[4, 5, 128, 255]),
        1 => {
            body[0] = body[0].min(TO_NEXT_ROW);
            body[1] = random.pick(&[1, b'A', b'B', b'Z', 128, 255]);
        }
        _ => {
            body[0] = random.pick(&[TO_FIRST, TO_LAST]);
            body[1] = random.pick(&NO_LETTERS);
        }
    }
}

const NO_LETTERS: [u8; 6] = [0, b'@', b'[', b'a', b'z', 255];

fn wrong_define(random: &mut Random, body: &mut Vec<u8>, columns: u8) {
    match random.below(10) {
        0 => body[0] = random.pick(&NO_LETTERS),
        1 => body[1] = random.pick(&[0, 9, 255]),
        2 => body[1] = body[1] % 8 + 1,
        3 => {
            body[1] = 9;
            let comparison = body[2..14].to_vec();
            body.truncate(2);
            body.extend(comparison.repeat(9));
        }
        _ => {
            let comparison = 2 + 12 * random.below(body[1].into());
            wrong_comparison(random, &mut body[comparison..comparison + 12], columns);
        }
    }
}

/// A letter that is none, entries that come to nothing, or a wrong comparison.
fn wrong_condition(random: &mut Random, body: &mut Vec<u8>, columns: u8) {
    match random.below(10) {
        0 => body[0] = random.pick(&NO_LETTERS),
        1..=5 => conditions::damage(random, body),
        _ => {
            let mut entries = conditions::entries_of(body);
            let compared = (0..entries.len()).filter(|&at| entries[at][0] == COMPARE);
            let at = random.pick(&compared.collect::<Vec<_>>());
            wrong_comparison(random, &mut entries[at][1..], columns);
            *body = conditions::body(body[0], &entries);
        }
    }
}

const WRONG_OFFSETS: [i8; 4] = [-65, 65, 127, -128];

fn wrong_comparison(random: &mut Random, bytes: &mut [u8], columns: u8) {
    let right_is_column = bytes[3] == 1;
    match random.below(8) {
        0 => bytes[0] = random.pick(&[columns, 255]),
        1 => bytes[1] = random.pick(&WRONG_OFFSETS) as u8,
        2 => bytes[2] = random.pick(&[0, 7, 255]),
        3 => bytes[3] = random.pick(&[2, 255]),
        4 if right_is_column => bytes[4] = random.pick(&[columns, 255]),
        4 => bytes[4] = random.pick(&[1, 255]),
        5 if right_is_column => bytes[5] = random.pick(&WRONG_OFFSETS) as u8,
        5 => bytes[5] = random.pick(&[1, 255]),
        at => bytes[at] = random.pick(&[1, 128, 255]),
    }
}

fn wrong_measure(random: &mut Random, body: &mut [u8], columns: u8) {
    match random.below(5) {
        0 => body[0] = random.pick(&[0, AVG + 1, 255]),
        1 => body[1] = random.pick(&[1, b'@', b'[', b'a', 255]),
        2 => body[2] = random.pick(&[columns, 255]),
        3 => {
            body[0] = COUNT;
            body[2] = 1;
        }
        _ => body[3] = random.pick(&[1, 128, 255]),
    }
}

fn wrong_text(random: &mut Random, draft: &mut Draft, answer: u8) {
    let text = texts::refused(random, answer);
    if let Some(body) = draft.body_mut(TEXT) {
        *body = text;
    }
}

/// A second DEFINE for a letter, next to the first or far from it, the same or
/// another one, of the same kind or not; also for a letter that is not in the pattern.
fn define_twice(random: &mut Random, draft: &mut Draft) {
    let columns = draft.columns();
    let mut records: Vec<(u16, Vec<u8>)> = draft
        .defines()
        .into_iter()
        .map(|at| draft.records[at].clone())
        .collect();
    if records.is_empty() || random.chance(20) {
        let letter = random.pick(b"ABQZ");
        let record = random_record(random, letter, columns, Numbers::Low);
        records.push(record);
    }
    let first = random.pick(&records);
    let second = match random.chance(50) {
        true => first.clone(),
        false => random_record(random, first.1[0], columns, Numbers::Low),
    };
    records.insert(random.below(records.len() + 1), second);
    draft.records.retain(|it| stands_as(it.0) != DEFINE);
    for record in records {
        draft.add_record(record);
    }
}

/// A letter that is not in the pattern, in the skip record or in a measure.
fn ask_for_a_stranger(random: &mut Random, draft: &mut Draft) {
    let letters = draft.letters();
    let strangers: Vec<u8> = (b'A'..=b'Z').filter(|it| !letters.contains(it)).collect();
    let Some(last) = strangers.last() else {
        return;
    };
    let stranger = random.pick(&[strangers[0], *last]);
    if let (Some(skip), true) = (draft.body_mut(SKIP), random.chance(50)) {
        *skip = vec![random.pick(&[TO_FIRST, TO_LAST]), stranger];
        return;
    }
    let measures = draft.places_of(MEASURE);
    if measures.len() == MOST_MEASURES || (!measures.is_empty() && random.chance(50)) {
        let at = random.pick(&measures);
        draft.records[at].1[1] = stranger;
    } else {
        let function = random.between(COUNT.into(), AVG.into()) as u8;
        draft
            .records
            .push((MEASURE, vec![function, stranger, 0, 0]));
    }
}

/// Rows that are not whole; or, in a draft that is large anyway, too many.
fn wrong_rows(random: &mut Random, draft: &mut Draft) {
    let columns = usize::from(draft.columns());
    if draft.rows.len() > 6 * 8 && random.chance(10) {
        draft.rows = vec![1; (MOST_ROWS + 1) * columns];
        return;
    }
    if columns == 1 {
        if let Some(body) = draft.body_mut(SHAPE) {
            body[0] = 2;
        }
    }
    let columns = usize::from(draft.columns());
    let left_over = 1 + random.below(columns - 1);
    let whole = draft.rows.len() / columns * columns;
    draft.rows.resize(whole + left_over, 1);
}

/// Report rooms that end before the last match does.
fn stop(random: &mut Random, draft: &mut Draft) -> bool {
    let [_, _, numbers, labels] = draft.needs();
    let judged = search::room(&draft.query(), &draft.rows);
    if judged.0 != 0 || numbers == 0 {
        return false;
    }
    match labels > 0 && random.chance(50) {
        true => draft.labels = short(random),
        false => draft.numbers = short(random),
    }
    true
}

/// A skip to a letter that labels no row of some match, or its first row, where
/// there is such a letter; the matches before that one can be gone on from.
fn stick(random: &mut Random, draft: &mut Draft) -> bool {
    let letters: Vec<u8> = draft.letters().into_iter().collect();
    let mut drafts = draft.to_labelled_rows(&letters);
    drafts.retain(|draft| answer_with_room(draft) == STUCK);
    if drafts.is_empty() {
        return false;
    }
    *draft = random.pick(&drafts);
    true
}

/// The answer where all four rooms are exact.
fn answer_with_room(draft: &Draft) -> u8 {
    let [notes, trail, numbers, labels] = draft.needs();
    let outcome = search::search(
        &draft.query(),
        &draft.rows,
        &mut vec![0; notes],
        &mut vec![0; trail],
        &mut vec![0; numbers],
        &mut vec![0; labels],
    );
    outcome.answer
}
