//! The query's records: read in one pass over the bytes, every field tested,
//! for answers 1, 2, 3 and 8. A DEFINE is kept as its bytes, since only letters
//! that stand in the pattern are decoded later.

pub const COUNT: u8 = 1;
pub const SUM: u8 = 2;
pub const MIN: u8 = 3;
pub const MAX: u8 = 4;
pub const FIRST: u8 = 5;
pub const LAST: u8 = 6;
pub const AVG: u8 = 7;

pub const COMPARISON_BYTES: usize = 12;

const MOST_DEFINES: usize = 26;
const MOST_ENTRIES: u8 = 16;
const MOST_MEASURES: usize = 8;

/// A measure; the letter is 0 where it is over all rows of the match.
#[derive(Clone, Copy)]
pub struct Measure {
    pub function: u8,
    pub letter: u8,
    pub column: u8,
}

/// Where the search goes on after a match with rows; the letter's row is one of the
/// match.
#[derive(Clone, Copy, PartialEq, Eq)]
pub enum Skip {
    PastLastRow,
    ToNextRow,
    ToFirst(u8),
    ToLast(u8),
}

impl Skip {
    /// The letter, or 0.
    pub fn letter(self) -> u8 {
        match self {
            Skip::PastLastRow | Skip::ToNextRow => 0,
            Skip::ToFirst(letter) | Skip::ToLast(letter) => letter,
        }
    }
}

/// The parts of a query that has none of the answers 1, 2 and 3.
pub struct Query<'a> {
    pub columns: usize,
    pub text: &'a [u8],
    /// By letter, A first: the bytes of its comparisons, empty without DEFINE of kind 3.
    pub defines: [&'a [u8]; 26],
    /// By letter: the bytes of its entries, empty without DEFINE of kind 6.
    pub conditions: [&'a [u8]; 26],
    pub defined_twice: bool,
    pub skip: Skip,
    pub measures: [Measure; MOST_MEASURES],
    pub measure_count: usize,
}

impl Query<'_> {
    pub fn measures(&self) -> &[Measure] {
        &self.measures[..self.measure_count]
    }
}

/// Reads the parts, or gives the lowest of the answers 1, 2 and 3 that applies.
/// The pass goes on after a fault of 2 or 3, as a 1 may still come.
pub fn read(bytes: &[u8]) -> Result<Query<'_>, u64> {
    let mut query = Query {
        columns: 0,
        text: &[],
        defines: [&[]; 26],
        conditions: [&[]; 26],
        defined_twice: false,
        skip: Skip::PastLastRow,
        measures: [Measure {
            function: 0,
            letter: 0,
            column: 0,
        }; MOST_MEASURES],
        measure_count: 0,
    };
    let mut order = Order {
        last: 0,
        defines: 0,
        measures: 0,
        right: true,
    };
    let mut fields_right = true;
    let mut left = bytes;
    while let [length0, length1, kind0, kind1, behind @ ..] = left {
        let length = usize::from(u16::from_le_bytes([*length0, *length1]));
        if length > behind.len() {
            return Err(1);
        }
        let (body, rest) = behind.split_at(length);
        let kind = u16::from_le_bytes([*kind0, *kind1]);
        order.take(kind);
        // Out of order the answer is 2 or 1, and fields say nothing.
        fields_right = fields_right && order.right && query.take(kind, body);
        left = rest;
    }
    if !left.is_empty() {
        return Err(1);
    }
    if !order.is_whole() {
        return Err(2);
    }
    if !fields_right {
        return Err(3);
    }
    Ok(query)
}

/// Which kinds have come so far: one 1, one 2, 3s and 6s, one 4, 5s. A 6 counts as a 3.
struct Order {
    last: u16,
    defines: usize,
    measures: usize,
    right: bool,
}

impl Order {
    fn take(&mut self, kind: u16) {
        let kind = if kind == 6 { 3 } else { kind };
        let last = self.last;
        let fits = match kind {
            1 => last == 0,
            2 => last == 1,
            3 => {
                self.defines += 1;
                (last == 2 || last == 3) && self.defines <= MOST_DEFINES
            }
            4 => last == 2 || last == 3,
            5 => {
                self.measures += 1;
                last >= 4 && self.measures <= MOST_MEASURES
            }
            _ => false,
        };
        self.last = kind;
        self.right &= fits;
    }

    fn is_whole(&self) -> bool {
        self.right && self.last >= 4
    }
}

impl<'a> Query<'a> {
    /// Takes a record that stands in its order; false where a field is wrong.
    fn take(&mut self, kind: u16, body: &'a [u8]) -> bool {
        match kind {
            1 => self.take_shape(body),
            2 => {
                self.text = body;
                body.len() <= 256
            }
            3 => self.take_define(body),
            6 => self.take_condition(body),
            4 => self.take_skip(body),
            _ => self.take_measure(body),
        }
    }

    fn take_shape(&mut self, body: &[u8]) -> bool {
        let &[columns, 0] = body else { return false };
        self.columns = usize::from(columns);
        (1..=8).contains(&columns)
    }

    fn take_skip(&mut self, body: &[u8]) -> bool {
        let &[mode, letter] = body else { return false };
        self.skip = match (mode, letter) {
            (0, 0) => Skip::PastLastRow,
            (1, 0) => Skip::ToNextRow,
            (2, b'A'..=b'Z') => Skip::ToFirst(letter),
            (3, b'A'..=b'Z') => Skip::ToLast(letter),
            _ => return false,
        };
        true
    }

    fn take_measure(&mut self, body: &[u8]) -> bool {
        let &[function, letter, column, 0] = body else {
            return false;
        };
        self.measures[self.measure_count] = Measure {
            function,
            letter,
            column,
        };
        self.measure_count += 1;
        (COUNT..=AVG).contains(&function)
            && (letter == 0 || letter.is_ascii_uppercase())
            && usize::from(column) < self.columns
            && (function != COUNT || column == 0)
    }

    fn take_define(&mut self, body: &'a [u8]) -> bool {
        let [letter, count, comparisons @ ..] = body else {
            return false;
        };
        let right = letter.is_ascii_uppercase()
            && (1..=8).contains(count)
            && comparisons.len() == COMPARISON_BYTES * usize::from(*count)
            && comparisons
                .chunks_exact(COMPARISON_BYTES)
                .all(|bytes| comparison_is_right(bytes, self.columns));
        if right {
            let index = self.defined(*letter);
            self.defines[index] = comparisons;
        }
        right
    }

    fn take_condition(&mut self, body: &'a [u8]) -> bool {
        let [letter, count, list @ ..] = body else {
            return false;
        };
        let right = letter.is_ascii_uppercase()
            && (1..=MOST_ENTRIES).contains(count)
            && leaves_one(list, *count, self.columns);
        if right {
            let index = self.defined(*letter);
            self.conditions[index] = list;
        }
        right
    }

    /// The index of a letter that gets its DEFINE now.
    fn defined(&mut self, letter: u8) -> usize {
        let index = usize::from(letter - b'A');
        self.defined_twice |= !self.defines[index].is_empty() || !self.conditions[index].is_empty();
        index
    }
}

/// One entry of a postfix list.
#[derive(Clone, Copy)]
pub enum Entry<'a> {
    Compare(&'a [u8; COMPARISON_BYTES]),
    And,
    Or,
    Not,
}

/// The entry at the front of a list, and the rest; none where there is none.
pub fn first_entry(list: &[u8]) -> Option<(Entry<'_>, &[u8])> {
    let (kind, behind) = list.split_first()?;
    match kind {
        0 => {
            let (comparison, behind) = behind.split_first_chunk()?;
            Some((Entry::Compare(comparison), behind))
        }
        1 => Some((Entry::And, behind)),
        2 => Some((Entry::Or, behind)),
        3 => Some((Entry::Not, behind)),
        _ => None,
    }
}

/// Whether a list has so many entries, all right, which never run short and leave one
/// result.
fn leaves_one(list: &[u8], count: u8, columns: usize) -> bool {
    let (mut left, mut results) = (list, 0);
    for _ in 0..count {
        let Some((entry, behind)) = first_entry(left) else {
            return false;
        };
        let right = match entry {
            Entry::Compare(bytes) => {
                results += 1;
                comparison_is_right(bytes, columns)
            }
            Entry::Not => results >= 1,
            Entry::And | Entry::Or => {
                results -= 1;
                results >= 1
            }
        };
        if !right {
            return false;
        }
        left = behind;
    }
    left.is_empty() && results == 1
}

/// Tests all fields without a branch for each: they are nearly always right.
fn comparison_is_right(bytes: &[u8], columns: usize) -> bool {
    let &[left, left_offset, operator, right_kind, right, right_offset, 0, 0, _, _, _, _] = bytes
    else {
        return false;
    };
    let no_column = (right_kind == 0) & (right == 0) & (right_offset == 0);
    let column = (right_kind == 1) & (usize::from(right) < columns) & offset_is_right(right_offset);
    (usize::from(left) < columns)
        & offset_is_right(left_offset)
        & (operator.wrapping_sub(1) < 6)
        & (no_column | column)
}

fn offset_is_right(offset: u8) -> bool {
    offset.wrapping_add(64) <= 128
}
