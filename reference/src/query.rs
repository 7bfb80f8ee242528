//! The query: its records, their fields and parts, and the answers 1, 2, 3
//! and 8. From document 01, "Rows and query records" and the table of answers,
//! and document 02, R-2, for the skip record's letter, R-5, for function 7, and R-7,
//! for records of kind 6. Each answer is judged over the whole query by a function of
//! its own, so that a low number late in the query comes before a high one early in it.

/// One record as it lies in the query; the length is that of the body.
#[derive(Clone, Copy, Debug, PartialEq, Eq)]
pub struct Record<'a> {
    pub kind: u16,
    pub body: &'a [u8],
}

pub const SHAPE: u16 = 1;
pub const TEXT: u16 = 2;
pub const DEFINE: u16 = 3;
pub const SKIP: u16 = 4;
pub const MEASURE: u16 = 5;
/// Stands where a DEFINE may, and counts as one.
pub const CONDITION: u16 = 6;

pub const MOST_COLUMNS: u8 = 8;
pub const MOST_TEXT: usize = 256;
pub const MOST_DEFINES: usize = 26;
pub const MOST_COMPARISONS: u8 = 8;
pub const MOST_ENTRIES: u8 = 16;
pub const MOST_MEASURES: usize = 8;
pub const FARTHEST_OFFSET: i8 = 64;
pub const COMPARISON_BYTES: usize = 12;

pub const COUNT: u8 = 1;
pub const SUM: u8 = 2;
pub const MIN: u8 = 3;
pub const MAX: u8 = 4;
pub const FIRST: u8 = 5;
pub const LAST: u8 = 6;
pub const AVG: u8 = 7;

/// What a measure tells of its rows.
#[derive(Clone, Copy, Debug, PartialEq, Eq)]
pub enum Function {
    Count,
    Sum,
    Min,
    Max,
    First,
    Last,
    Avg,
}

impl Function {
    /// The function with this number; None is answer 3.
    pub fn numbered(number: u8) -> Option<Function> {
        match number {
            COUNT => Some(Function::Count),
            SUM => Some(Function::Sum),
            MIN => Some(Function::Min),
            MAX => Some(Function::Max),
            FIRST => Some(Function::First),
            LAST => Some(Function::Last),
            AVG => Some(Function::Avg),
            _ => None,
        }
    }
}

/// A column read at a row some way off the current one.
#[derive(Clone, Copy, Debug, PartialEq, Eq)]
pub struct Reference {
    pub column: usize,
    pub offset: i64,
}

/// `left operator number`, or `left operator (number + right)`.
#[derive(Clone, Copy, Debug, PartialEq, Eq)]
pub struct Comparison {
    pub left: Reference,
    pub operator: u8,
    pub right: Option<Reference>,
    pub number: i64,
}

/// When a letter holds.
#[derive(Clone, Debug, PartialEq, Eq)]
pub struct Define {
    pub letter: u8,
    pub meaning: Meaning,
}

#[derive(Clone, Debug, PartialEq, Eq)]
pub enum Meaning {
    /// Kind 3: each of the comparisons, in order.
    All(Vec<Comparison>),
    /// Kind 6.
    One(Condition),
}

/// What the entries of a record of kind 6 come to.
#[derive(Clone, Debug, PartialEq, Eq)]
pub enum Condition {
    Compare(Comparison),
    And(Box<[Condition; 2]>),
    Or(Box<[Condition; 2]>),
    Not(Box<Condition>),
}

/// The first byte of an entry: a comparison follows, or nothing does.
pub const COMPARE: u8 = 0;
pub const AND: u8 = 1;
pub const OR: u8 = 2;
pub const NOT: u8 = 3;

impl Define {
    /// All comparisons, in the order of their bytes.
    pub fn comparisons(&self) -> Vec<Comparison> {
        match &self.meaning {
            Meaning::All(comparisons) => comparisons.clone(),
            Meaning::One(condition) => condition.comparisons(),
        }
    }
}

impl Condition {
    pub fn comparisons(&self) -> Vec<Comparison> {
        match self {
            Condition::Compare(comparison) => vec![*comparison],
            Condition::And(two) | Condition::Or(two) => {
                two.iter().flat_map(Condition::comparisons).collect()
            }
            Condition::Not(one) => one.comparisons(),
        }
    }
}

/// Where the search goes on after a match with rows; the modes 0 to 3 in order.
#[derive(Clone, Copy, Debug, PartialEq, Eq)]
pub enum Skip {
    PastLastRow,
    ToNextRow,
    /// At the match's first row with this letter.
    ToFirst(u8),
    /// At its last row with this letter.
    ToLast(u8),
}

pub const PAST_LAST_ROW: u8 = 0;
pub const TO_NEXT_ROW: u8 = 1;
pub const TO_FIRST: u8 = 2;
pub const TO_LAST: u8 = 3;

impl Skip {
    /// The letter that the modes 2 and 3 ask for.
    pub fn letter(self) -> Option<u8> {
        match self {
            Skip::PastLastRow | Skip::ToNextRow => None,
            Skip::ToFirst(letter) | Skip::ToLast(letter) => Some(letter),
        }
    }
}

/// A measure over the rows with a letter, or over all rows of the match.
#[derive(Clone, Copy, Debug, PartialEq, Eq)]
pub struct Measure {
    pub function: Function,
    pub letter: Option<u8>,
    pub column: usize,
}

/// The parts of a query that has none of the answers 1, 2 and 3.
#[derive(Clone, Debug, PartialEq, Eq)]
pub struct Query {
    pub columns: usize,
    pub text: Vec<u8>,
    pub defines: Vec<Define>,
    pub skip: Skip,
    pub measures: Vec<Measure>,
}

/// Reads the parts, or gives the lowest of the answers 1, 2 and 3 that applies.
pub fn read(query: &[u8]) -> Result<Query, u8> {
    let Some(records) = records(query) else {
        return Err(1);
    };
    if !kinds_are_right(&records) {
        return Err(2);
    }
    if !fields_are_right(&records) {
        return Err(3);
    }
    Ok(parts(&records))
}

/// The records in order. None if the query is cut: answer 1.
pub fn records(query: &[u8]) -> Option<Vec<Record<'_>>> {
    let mut records = Vec::new();
    let mut left = query;
    while !left.is_empty() {
        if left.len() < 4 {
            return None;
        }
        let length = usize::from(u16::from_le_bytes([left[0], left[1]]));
        let kind = u16::from_le_bytes([left[2], left[3]]);
        let behind_header = &left[4..];
        if length > behind_header.len() {
            return None;
        }
        records.push(Record {
            kind,
            body: &behind_header[..length],
        });
        left = &behind_header[length..];
    }
    Some(records)
}

/// The kind by whose place in the order a record is judged.
pub fn stands_as(kind: u16) -> u16 {
    match kind {
        CONDITION => DEFINE,
        other => other,
    }
}

/// False is answer 2. Kinds that never fall stand in the stated order, and the
/// counts then say all the rest; an empty query lacks three kinds. Kinds 3 and 6
/// stand in any order among themselves and are counted together.
pub fn kinds_are_right(records: &[Record]) -> bool {
    let kinds: Vec<u16> = records.iter().map(|it| stands_as(it.kind)).collect();
    let count = |kind: u16| kinds.iter().filter(|it| **it == kind).count();
    let known = kinds.iter().all(|kind| (SHAPE..=MEASURE).contains(kind));
    known
        && kinds.is_sorted()
        && count(SHAPE) == 1
        && count(TEXT) == 1
        && count(DEFINE) <= MOST_DEFINES
        && count(SKIP) == 1
        && count(MEASURE) <= MOST_MEASURES
}

/// False is answer 3. The kinds are right already, so the first record is the
/// shape; should its own body be wrong, 3 is the answer whatever is read as the
/// number of columns.
pub fn fields_are_right(records: &[Record]) -> bool {
    let columns = records[0].body.first().copied().unwrap_or(0);
    records.iter().all(|record| match record.kind {
        SHAPE => shape_is_right(record.body),
        TEXT => record.body.len() <= MOST_TEXT,
        DEFINE => define_is_right(record.body, columns),
        CONDITION => condition_is_right(record.body, columns),
        SKIP => skip_is_right(record.body),
        _ => measure_is_right(record.body, columns),
    })
}

fn shape_is_right(body: &[u8]) -> bool {
    match body {
        [columns, reserved] => (1..=MOST_COLUMNS).contains(columns) && *reserved == 0,
        _ => false,
    }
}

/// Modes 0 and 1 still have a reserved byte where modes 2 and 3 have a letter.
fn skip_is_right(body: &[u8]) -> bool {
    match body {
        [PAST_LAST_ROW | TO_NEXT_ROW, reserved] => *reserved == 0,
        [TO_FIRST | TO_LAST, letter] => letter.is_ascii_uppercase(),
        _ => false,
    }
}

fn measure_is_right(body: &[u8], columns: u8) -> bool {
    match body {
        [function, letter, column, reserved] => {
            Function::numbered(*function).is_some()
                && (*letter == 0 || letter.is_ascii_uppercase())
                && *column < columns
                && (*function != COUNT || *column == 0)
                && *reserved == 0
        }
        _ => false,
    }
}

fn define_is_right(body: &[u8], columns: u8) -> bool {
    match body {
        [letter, count, comparisons @ ..] => {
            letter.is_ascii_uppercase()
                && (1..=MOST_COMPARISONS).contains(count)
                && comparisons.len() == COMPARISON_BYTES * usize::from(*count)
                && comparisons
                    .chunks(COMPARISON_BYTES)
                    .all(|bytes| comparison_is_right(bytes, columns))
        }
        _ => false,
    }
}

fn condition_is_right(body: &[u8], columns: u8) -> bool {
    let [letter, count, entries @ ..] = body else {
        return false;
    };
    let Some(entries) = split_entries(entries) else {
        return false;
    };
    letter.is_ascii_uppercase()
        && (1..=MOST_ENTRIES).contains(count)
        && entries.len() == usize::from(*count)
        && entries
            .iter()
            .all(|entry| entry[0] != COMPARE || comparison_is_right(&entry[1..], columns))
        && condition(&entries).is_some()
}

/// Cuts the bytes into entries. None if one is of no known sort or cut short.
fn split_entries(mut bytes: &[u8]) -> Option<Vec<&[u8]>> {
    let mut entries = Vec::new();
    while let [sort, ..] = bytes {
        let length = match *sort {
            COMPARE => 1 + COMPARISON_BYTES,
            AND | OR | NOT => 1,
            _ => return None,
        };
        let (entry, rest) = bytes.split_at_checked(length)?;
        entries.push(entry);
        bytes = rest;
    }
    Some(entries)
}

/// What entries in postfix come to: an operator takes the results before it, the last
/// of them as its right side. None if one finds too few of them, or if not exactly
/// one result is left.
fn condition(entries: &[&[u8]]) -> Option<Condition> {
    let mut results = Vec::new();
    for entry in entries {
        let result = match entry[0] {
            COMPARE => Condition::Compare(comparison(&entry[1..])),
            NOT => Condition::Not(Box::new(results.pop()?)),
            operator => {
                let right = results.pop()?;
                let both = Box::new([results.pop()?, right]);
                match operator {
                    AND => Condition::And(both),
                    _ => Condition::Or(both),
                }
            }
        };
        results.push(result);
    }
    match results.len() {
        1 => results.pop(),
        _ => None,
    }
}

fn comparison_is_right(bytes: &[u8], columns: u8) -> bool {
    let (left_column, left_offset) = (bytes[0], bytes[1] as i8);
    let (operator, right_kind) = (bytes[2], bytes[3]);
    let (right_column, right_offset) = (bytes[4], bytes[5] as i8);
    let right_is_right = match right_kind {
        0 => right_column == 0 && right_offset == 0,
        1 => right_column < columns && offset_is_right(right_offset),
        _ => false,
    };
    left_column < columns
        && offset_is_right(left_offset)
        && (1..=6).contains(&operator)
        && right_is_right
        && bytes[6] == 0
        && bytes[7] == 0
}

fn offset_is_right(offset: i8) -> bool {
    (-FARTHEST_OFFSET..=FARTHEST_OFFSET).contains(&offset)
}

/// True is answer 8. A DEFINE for a letter outside the pattern counts too.
pub fn letter_is_defined_twice(query: &Query) -> bool {
    let letters: Vec<u8> = query.defines.iter().map(|define| define.letter).collect();
    letters
        .iter()
        .enumerate()
        .any(|(index, letter)| letters[..index].contains(letter))
}

/// The parts of records whose kinds and fields are right.
fn parts(records: &[Record]) -> Query {
    let bodies = |kind: u16| {
        records
            .iter()
            .filter(move |record| record.kind == kind)
            .map(|record| record.body)
    };
    Query {
        columns: usize::from(records[0].body[0]),
        text: records[1].body.to_vec(),
        defines: records.iter().filter_map(define).collect(),
        skip: bodies(SKIP).next().map_or(Skip::PastLastRow, skip),
        measures: bodies(MEASURE).map(measure).collect(),
    }
}

fn skip(body: &[u8]) -> Skip {
    match body[0] {
        PAST_LAST_ROW => Skip::PastLastRow,
        TO_NEXT_ROW => Skip::ToNextRow,
        TO_FIRST => Skip::ToFirst(body[1]),
        _ => Skip::ToLast(body[1]),
    }
}

fn define(record: &Record) -> Option<Define> {
    let meaning = |behind_count: &[u8]| match record.kind {
        DEFINE => {
            let comparisons = behind_count.chunks(COMPARISON_BYTES);
            Some(Meaning::All(comparisons.map(comparison).collect()))
        }
        CONDITION => condition(&split_entries(behind_count)?).map(Meaning::One),
        _ => None,
    };
    match record.body {
        [letter, _, behind_count @ ..] => Some(Define {
            letter: *letter,
            meaning: meaning(behind_count)?,
        }),
        _ => None,
    }
}

fn comparison(bytes: &[u8]) -> Comparison {
    let reference = |column: u8, offset: u8| Reference {
        column: usize::from(column),
        offset: i64::from(offset as i8),
    };
    let right = match bytes[3] {
        0 => None,
        _ => Some(reference(bytes[4], bytes[5])),
    };
    Comparison {
        left: reference(bytes[0], bytes[1]),
        operator: bytes[2],
        right,
        number: i64::from(i32::from_le_bytes([
            bytes[8], bytes[9], bytes[10], bytes[11],
        ])),
    }
}

fn measure(body: &[u8]) -> Measure {
    let letter = match body[1] {
        0 => None,
        letter => Some(letter),
    };
    Measure {
        function: Function::numbered(body[0]).expect("the fields are right"),
        letter,
        column: usize::from(body[2]),
    }
}
