//! A draft of an input: records, rows and rooms that can still be changed, and
//! the finished input made from it. From document 01, "Rows and query records"
//! for the bytes and "Report" for the rooms; and document 02, R-2, for the skip, R-5,
//! for the last of the functions, and R-7, for records of kind 6.

use super::conditions::{self, Entry};
use super::random::Random;
use super::texts;
use crate::pattern;
use crate::query::{
    stands_as, AVG, CONDITION, COUNT, DEFINE, MEASURE, PAST_LAST_ROW, SHAPE, SKIP, TEXT, TO_FIRST,
    TO_LAST, TO_NEXT_ROW,
};
use crate::search::{self, DONE};
use std::collections::BTreeSet;

/// What a search is called with; of the buffers only the lengths.
#[derive(Clone, Debug, PartialEq, Eq)]
pub struct Input {
    pub query: Vec<u8>,
    pub rows: Vec<i32>,
    pub notes: usize,
    pub trail: usize,
    pub numbers: usize,
    pub labels: usize,
    /// Without one it is the search that takes none.
    pub allowance: Option<u64>,
}

impl Input {
    /// The same search within an allowance.
    pub fn within(&self, allowance: u64) -> Input {
        Input {
            allowance: Some(allowance),
            ..self.clone()
        }
    }
}

/// The largest that a random draft may be.
#[derive(Clone, Copy, Debug)]
pub struct Size {
    pub rows: usize,
    pub columns: usize,
    pub pairs: usize,
}

/// Small enough for a program that runs very slowly.
pub const SMALL: Size = Size {
    rows: 6,
    columns: 3,
    pairs: 120,
};

pub const MIDDLE: Size = Size {
    rows: 60,
    columns: 8,
    pairs: 6_000,
};

pub const LARGE: Size = Size {
    rows: 500,
    columns: 8,
    pairs: 60_000,
};

/// A room's length against what is needed.
#[derive(Clone, Copy, Debug, PartialEq, Eq)]
pub enum Room {
    Nothing,
    OneShort,
    Exact,
    OneMore,
    /// So many more.
    More(usize),
    /// So many hundredths of what is needed.
    Part(usize),
}

impl Room {
    pub fn length(self, needed: usize) -> usize {
        match self {
            Room::Nothing => 0,
            Room::OneShort => needed.saturating_sub(1),
            Room::Exact => needed,
            Room::OneMore => needed + 1,
            Room::More(more) => needed + more,
            Room::Part(percent) => needed * percent / 100,
        }
    }
}

/// How the last bytes of the query are cut, for answer 1.
#[derive(Clone, Debug, PartialEq, Eq)]
pub enum Tail {
    Whole,
    /// One to three bytes behind the last record.
    Stray(Vec<u8>),
    /// So many bytes of the last record are missing, or all but one.
    Short(usize),
    /// The last record's length is given too large by so much.
    Stretched(u16),
}

#[derive(Clone, Debug, PartialEq, Eq)]
pub struct Draft {
    pub records: Vec<(u16, Vec<u8>)>,
    pub tail: Tail,
    pub rows: Vec<i32>,
    pub notes: Room,
    pub trail: Room,
    pub numbers: Room,
    pub labels: Room,
}

impl Draft {
    /// A draft of a query without DEFINEs and measures, past last row.
    pub fn new(columns: u8, text: &[u8], rows: Vec<i32>) -> Draft {
        Draft {
            records: vec![
                (SHAPE, vec![columns, 0]),
                (TEXT, text.to_vec()),
                (SKIP, vec![PAST_LAST_ROW, 0]),
            ],
            tail: Tail::Whole,
            rows,
            notes: Room::Exact,
            trail: Room::Exact,
            numbers: Room::Exact,
            labels: Room::Exact,
        }
    }

    pub fn define(mut self, letter: u8, comparisons: &[[u8; 12]]) -> Draft {
        self.add_define(define_body(letter, comparisons));
        self
    }

    /// A record of kind 6.
    pub fn condition(mut self, letter: u8, entries: &[Entry]) -> Draft {
        self.add_record((CONDITION, conditions::body(letter, entries)));
        self
    }

    pub fn measure(mut self, function: u8, letter: u8, column: u8) -> Draft {
        self.records
            .push((MEASURE, vec![function, letter, column, 0]));
        self
    }

    pub fn to_next_row(self) -> Draft {
        self.with_skip(TO_NEXT_ROW, 0)
    }

    pub fn to_first(self, letter: u8) -> Draft {
        self.with_skip(TO_FIRST, letter)
    }

    pub fn to_last(self, letter: u8) -> Draft {
        self.with_skip(TO_LAST, letter)
    }

    /// With these bytes in the skip record, whatever they are.
    pub fn with_skip(mut self, mode: u8, letter: u8) -> Draft {
        if let Some(skip) = self.body_mut(SKIP) {
            *skip = vec![mode, letter];
        }
        self
    }

    /// In the modes 2 and 3 with each of these letters.
    pub fn to_labelled_rows(&self, letters: &[u8]) -> Vec<Draft> {
        let both = |&letter| [TO_FIRST, TO_LAST].map(|mode| self.clone().with_skip(mode, letter));
        letters.iter().flat_map(both).collect()
    }

    /// In all four modes, with each letter that the pattern has.
    pub fn in_every_mode(&self) -> Vec<Draft> {
        let letters: Vec<u8> = self.letters().into_iter().collect();
        let mut drafts = self.to_labelled_rows(&letters);
        drafts.push(self.clone().with_skip(PAST_LAST_ROW, 0));
        drafts.push(self.clone().to_next_row());
        drafts
    }

    pub fn add_define(&mut self, body: Vec<u8>) {
        self.add_record((DEFINE, body));
    }

    /// A record of kind 3 or 6 behind the others, which stand before the skip record.
    pub fn add_record(&mut self, record: (u16, Vec<u8>)) {
        let at = self.place_of(SKIP).unwrap_or(self.records.len());
        self.records.insert(at, record);
    }

    /// The places of all records of kind 3 or 6.
    pub fn defines(&self) -> Vec<usize> {
        (0..self.records.len())
            .filter(|&at| stands_as(self.records[at].0) == DEFINE)
            .collect()
    }

    pub fn place_of(&self, kind: u16) -> Option<usize> {
        self.records.iter().position(|record| record.0 == kind)
    }

    pub fn places_of(&self, kind: u16) -> Vec<usize> {
        (0..self.records.len())
            .filter(|&at| self.records[at].0 == kind)
            .collect()
    }

    pub fn body_mut(&mut self, kind: u16) -> Option<&mut Vec<u8>> {
        let at = self.place_of(kind)?;
        Some(&mut self.records[at].1)
    }

    pub fn columns(&self) -> u8 {
        let at = self.place_of(SHAPE);
        at.and_then(|at| self.records[at].1.first().copied())
            .unwrap_or(1)
    }

    pub fn letters(&self) -> BTreeSet<u8> {
        let at = self.place_of(TEXT);
        at.and_then(|at| pattern::read(&self.records[at].1))
            .map_or(BTreeSet::new(), |tree| tree.letters())
    }

    pub fn query(&self) -> Vec<u8> {
        let mut query = Vec::new();
        let mut last = 0;
        for (kind, body) in &self.records {
            last = query.len();
            query.extend((body.len() as u16).to_le_bytes());
            query.extend(kind.to_le_bytes());
            query.extend(body);
        }
        match &self.tail {
            Tail::Whole => {}
            Tail::Stray(bytes) => query.extend(bytes),
            Tail::Short(bytes) => {
                let left = query.len().saturating_sub(*bytes);
                query.truncate(left.max(last + 1));
            }
            Tail::Stretched(more) => {
                let length = u16::from_le_bytes([query[last], query[last + 1]]);
                let stretched = length.saturating_add(*more).to_le_bytes();
                query[last..last + 2].copy_from_slice(&stretched);
            }
        }
        query
    }

    /// The lengths that a search of this draft needs: notes, trail, numbers and
    /// labels. A refused query needs nothing, so a few of each are lent to see
    /// that they stay as they are.
    pub fn needs(&self) -> [usize; 4] {
        let query = self.query();
        let (answer, places, n) = search::room(&query, &self.rows);
        if answer != DONE {
            return [2, 3, 4, 5];
        }
        let (notes, trail) = search::working_room(places, n, search::factor(&query));
        let (numbers, labels) = report_needs(&query, &self.rows, notes, trail);
        [notes, trail, numbers, labels]
    }

    pub fn finish(&self) -> Input {
        let [notes, trail, numbers, labels] = self.needs();
        self.with_lengths([
            self.notes.length(notes),
            self.trail.length(trail),
            self.numbers.length(numbers),
            self.labels.length(labels),
        ])
    }

    /// The finished input with one room at each critical length, the others
    /// exact; and with the report rooms ending at and beside each match.
    pub fn with_critical_rooms(&self) -> Vec<Input> {
        let needs = self.needs();
        let exact = self.with_lengths(needs);
        let mut lengths = vec![needs];
        for (room, needed) in needs.into_iter().enumerate() {
            for length in [0, needed.saturating_sub(1), needed + 1] {
                let mut changed = needs;
                changed[room] = length;
                lengths.push(changed);
            }
        }
        for (numbers, labels) in ends_of_matches(&exact) {
            for numbers in [numbers.saturating_sub(1), numbers, numbers + 1] {
                lengths.push([needs[0], needs[1], numbers, needs[3]]);
            }
            for labels in [labels.saturating_sub(1), labels, labels + 1] {
                lengths.push([needs[0], needs[1], needs[2], labels]);
            }
        }
        lengths
            .into_iter()
            .map(|lengths| self.with_lengths(lengths))
            .collect()
    }

    /// How many matches with rows a search of this draft finds with exact rooms.
    pub fn matches_with_rows(&self) -> usize {
        let mut before = 0;
        let ends = ends_of_matches(&self.with_lengths(self.needs()));
        let with_rows = ends.into_iter().filter(|&(_, labels)| {
            let empty = labels == before;
            before = labels;
            !empty
        });
        with_rows.count()
    }

    pub fn with_lengths(&self, [notes, trail, numbers, labels]: [usize; 4]) -> Input {
        Input {
            query: self.query(),
            rows: self.rows.clone(),
            notes,
            trail,
            numbers,
            labels,
            allowance: None,
        }
    }
}

/// The report lengths of a search for whose matches there is always room.
fn report_needs(query: &[u8], rows: &[i32], notes: usize, trail: usize) -> (usize, usize) {
    let Ok(accepted) = search::accept(query, rows) else {
        return (0, 0);
    };
    let n = accepted.n();
    let mut numbers = vec![0; n * accepted.numbers_per_match()];
    let mut labels = vec![0; n * (n + 1) / 2];
    let outcome = search::search(
        query,
        rows,
        &mut vec![0; notes],
        &mut vec![0; trail],
        &mut numbers,
        &mut labels,
    );
    let matches = outcome.matches as usize;
    (
        matches * accepted.numbers_per_match(),
        outcome.labels as usize,
    )
}

/// How far numbers and labels are written after each match.
fn ends_of_matches(input: &Input) -> Vec<(usize, usize)> {
    let Ok(accepted) = search::accept(&input.query, &input.rows) else {
        return Vec::new();
    };
    let mut numbers = vec![0; input.numbers];
    search::search(
        &input.query,
        &input.rows,
        &mut vec![0; input.notes],
        &mut vec![0; input.trail],
        &mut numbers,
        &mut vec![0; input.labels],
    );
    let per_match = accepted.numbers_per_match();
    let mut labels = 0;
    let mut ends = Vec::new();
    for (index, written) in numbers.chunks(per_match).enumerate() {
        labels += written[2] as usize;
        ends.push(((index + 1) * per_match, labels));
    }
    ends
}

pub fn define_body(letter: u8, comparisons: &[[u8; 12]]) -> Vec<u8> {
    let mut body = vec![letter, comparisons.len() as u8];
    body.extend(comparisons.concat());
    body
}

/// The bytes of `left operator number`.
pub fn with_number(column: u8, offset: i8, operator: u8, number: i32) -> [u8; 12] {
    let [a, b, c, d] = number.to_le_bytes();
    [column, offset as u8, operator, 0, 0, 0, 0, 0, a, b, c, d]
}

/// The bytes of `left operator (right + number)`; column and offset of each.
pub fn with_column(left: (u8, i8), operator: u8, right: (u8, i8), number: i32) -> [u8; 12] {
    let mut bytes = with_number(left.0, left.1, operator, number);
    bytes[3] = 1;
    bytes[4] = right.0;
    bytes[5] = right.1 as u8;
    bytes
}

/// How large the numbers of rows and comparisons are.
#[derive(Clone, Copy, Debug, PartialEq, Eq)]
pub enum Numbers {
    Low,
    Extreme,
}

/// At the ends and about the middle, and two whose four bytes all differ.
const EXTREME: [i32; 11] = [
    i32::MIN,
    i32::MIN + 1,
    i32::MIN / 2,
    -1,
    0,
    1,
    i32::MAX / 2,
    i32::MAX - 1,
    i32::MAX,
    0x0102_0304,
    -0x0102_0304,
];

pub fn number(random: &mut Random, numbers: Numbers) -> i32 {
    match numbers {
        Numbers::Low => random.between(-1, 3) as i32,
        Numbers::Extreme => random.pick(&EXTREME),
    }
}

/// A random accepted draft.
pub fn accepted(random: &mut Random, size: &Size, numbers: Numbers) -> Draft {
    // The larger of two, as small numbers of rows show little.
    let n = random.below(size.rows + 1).max(random.below(size.rows + 1));
    let most_places = (size.pairs / (n + 1)).min(256);
    let text = texts::accepted(random, most_places as u128);
    with_text(random, size, numbers, &text, n)
}

/// A random draft for a given text that is not refused.
pub fn with_text(
    random: &mut Random,
    size: &Size,
    numbers: Numbers,
    text: &[u8],
    n: usize,
) -> Draft {
    let columns = match random.chance(50) {
        true => 1,
        false => random.between(1, size.columns as i64) as u8,
    };
    let rows = (0..n * usize::from(columns))
        .map(|_| number(random, numbers))
        .collect();
    let mut draft = Draft::new(columns, text, rows);
    let letters: Vec<u8> = draft.letters().into_iter().collect();
    add_defines(random, &mut draft, &letters, numbers);
    let (mode, letter) = skip(random, text, &letters);
    draft = draft.with_skip(mode, letter);
    let measures = match random.chance(4) {
        true => 8,
        false => random.pick(&[0, 0, 0, 1, 1, 2, 3]),
    };
    for _ in 0..measures {
        draft = add_measure(random, draft, &letters);
    }
    draft
}

/// One of the four modes; a pattern without letters has the first two alone. Half
/// of the letters are the text's last, which seldom labels a match's first row.
pub fn skip(random: &mut Random, text: &[u8], letters: &[u8]) -> (u8, u8) {
    let mode = random.pick(&[PAST_LAST_ROW, TO_NEXT_ROW, TO_FIRST, TO_LAST]);
    let last = text.iter().rfind(|byte| letters.contains(byte));
    match (mode, last) {
        (PAST_LAST_ROW | TO_NEXT_ROW, _) => (mode, 0),
        (_, None) => (mode - TO_FIRST, 0),
        (_, Some(_)) if random.chance(50) => (mode, random.pick(letters)),
        (_, Some(&last)) => (mode, last),
    }
}

fn add_defines(random: &mut Random, draft: &mut Draft, letters: &[u8], numbers: Numbers) {
    let mut defined: Vec<u8> = letters.to_vec();
    defined.retain(|_| random.chance(65));
    if random.chance(15) {
        let other = random.between(b'A'.into(), b'Z'.into()) as u8;
        if !defined.contains(&other) {
            defined.push(other);
        }
    }
    random.shuffle(&mut defined);
    for letter in defined {
        let record = random_record(random, letter, draft.columns(), numbers);
        draft.add_record(record);
    }
}

/// Of so many records in a hundred the kind is 6.
const CONDITIONS: usize = 30;

/// A record of kind 3 or 6.
pub fn random_record(
    random: &mut Random,
    letter: u8,
    columns: u8,
    numbers: Numbers,
) -> (u16, Vec<u8>) {
    match random.chance(CONDITIONS) {
        true => conditions::random_record(random, letter, columns, numbers),
        false => (DEFINE, random_define(random, letter, columns, numbers)),
    }
}

pub fn random_define(random: &mut Random, letter: u8, columns: u8, numbers: Numbers) -> Vec<u8> {
    let count = match random.chance(3) {
        true => 8,
        false => random.pick(&[1, 1, 1, 1, 1, 2, 2, 3]),
    };
    let comparisons: Vec<[u8; 12]> = (0..count)
        .map(|_| comparison(random, columns, numbers, count))
        .collect();
    define_body(letter, &comparisons)
}

/// Letters with many comparisons get ones that are easily met, or they would
/// never hold.
pub fn comparison(random: &mut Random, columns: u8, numbers: Numbers, count: usize) -> [u8; 12] {
    let operator = match count {
        1 | 2 => random.between(1, 6) as u8,
        _ => random.pick(&[2, 4, 6]),
    };
    let left = (random.below(columns.into()) as u8, offset(random, count));
    let number = number(random, numbers);
    if random.chance(50) {
        return with_number(left.0, left.1, operator, number);
    }
    let right = (random.below(columns.into()) as u8, offset(random, count));
    let number = match random.chance(60) {
        true => 0,
        false => number,
    };
    with_column(left, operator, right, number)
}

fn offset(random: &mut Random, count: usize) -> i8 {
    let near = if count <= 2 { 30 } else { 10 };
    match random.below(100) {
        0..=1 => random.pick(&[-64, -63, 63, 64]),
        2..=4 => random.between(-7, 7) as i8,
        at if at < 5 + near => random.pick(&[-2, -1, -1, -1, 1, 1, 2]),
        _ => 0,
    }
}

fn add_measure(random: &mut Random, draft: Draft, letters: &[u8]) -> Draft {
    let function = random.between(COUNT.into(), AVG.into()) as u8;
    let letter = match letters.is_empty() || random.chance(35) {
        true => 0,
        false => random.pick(letters),
    };
    let column = match function {
        COUNT => 0,
        _ => random.below(draft.columns().into()) as u8,
    };
    draft.measure(function, letter, column)
}

/// Rooms that are large enough, exact or not.
pub fn widen_rooms(random: &mut Random, draft: &mut Draft) {
    let wide = |random: &mut Random| {
        let more = Room::More(random.below(6));
        random.pick(&[Room::Exact, Room::Exact, Room::OneMore, more])
    };
    draft.notes = wide(random);
    draft.trail = wide(random);
    draft.numbers = wide(random);
    draft.labels = wide(random);
}
