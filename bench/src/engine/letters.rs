//! Letters at a row: their comparisons decoded from the query's bytes into flat
//! numbers, so that one test serves all six operators: a difference lies in an
//! interval, which may wrap. Rows outside the partition are not met. A condition in
//! postfix becomes comparisons that each say where to go on.

use super::query::{first_entry, Entry, COMPARISON_BYTES};

const MOST_ROWS: usize = 4096;

/// Met where `left - right` lies in the interval from `low`, `width` above it.
/// Left and right are distances from the current row's first entry.
#[derive(Clone, Copy, Default)]
pub struct Comparison {
    pub low: i64,
    pub width: u64,
    pub left: i16,
    pub right: i16,
    /// All bits of the right entry are kept, or none: a constant has no column.
    pub keep: i32,
}

/// How a letter is tested.
#[derive(Clone, Copy, Default, PartialEq, Eq)]
pub enum Test {
    /// It has no DEFINE: wherever a row is, it holds.
    #[default]
    Free,
    /// One comparison with a number.
    Constant,
    /// One comparison with a column.
    Column,
    /// Any comparisons. In place of a comparison the letter has where they
    /// begin and how many they are, as left and right, and how many rows they
    /// look back and ahead at the most, as low and width.
    Several,
    /// Comparisons joined by AND, OR and NOT. In place of a comparison the letter has
    /// which of the steps is the first, as left.
    Joined,
}

/// A comparison of a condition, and the steps that come next where it is met and
/// where it is not.
#[derive(Clone, Copy)]
pub struct Step {
    comparison: Comparison,
    met: u16,
    unmet: u16,
}

/// In the place of a step: the letter holds, or does not.
const HOLDS: u16 = u16::MAX;
const FAILS: u16 = u16::MAX - 1;

#[derive(Clone, Copy, Default)]
pub struct Letter {
    pub test: Test,
    pub comparison: Comparison,
}

/// The rows that a search runs over.
#[derive(Clone, Copy)]
pub struct Rows<'a> {
    pub entries: &'a [i32],
    pub columns: usize,
    pub n: usize,
}

impl<'a> Rows<'a> {
    /// The rows that these entries are, unless answer 10 applies.
    pub fn new(entries: &'a [i32], columns: usize) -> Result<Rows<'a>, u64> {
        let (n, rest) = (entries.len() / columns, entries.len() % columns);
        if rest != 0 || n > MOST_ROWS {
            return Err(10);
        }
        Ok(Rows {
            entries,
            columns,
            n,
        })
    }

    /// An entry, by its distance from the first of a row. It is there exactly if
    /// its row is: both ends of the slice are ends of rows.
    #[inline(always)]
    fn entry(&self, position: usize, distance: i16) -> Option<i64> {
        let at = (position * self.columns).wrapping_add_signed(isize::from(distance));
        self.entries.get(at).map(|&entry| i64::from(entry))
    }
}

impl Comparison {
    /// A comparison with a number.
    #[inline(always)]
    pub fn constant_is_met(&self, rows: &Rows, position: usize) -> bool {
        match rows.entry(position, self.left) {
            Some(left) => self.holds(left),
            None => false,
        }
    }

    /// A comparison with a column.
    #[inline(always)]
    pub fn column_is_met(&self, rows: &Rows, position: usize) -> bool {
        match (
            rows.entry(position, self.left),
            rows.entry(position, self.right),
        ) {
            (Some(left), Some(right)) => self.holds(left - right),
            _ => false,
        }
    }

    /// Several comparisons, of which this one is the part in the place.
    #[inline(always)]
    pub fn several_are_met(&self, decoded: &[Comparison], rows: &Rows, position: usize) -> bool {
        let (back, ahead) = (self.low as usize, self.width as usize);
        if position < back || position + ahead >= rows.n {
            return false;
        }
        let base = position * rows.columns;
        let at = |distance: i16| rows.entries[base.wrapping_add_signed(isize::from(distance))];
        decoded[self.left as usize..][..self.right as usize]
            .iter()
            .all(|one| one.holds(i64::from(at(one.left)) - i64::from(at(one.right) & one.keep)))
    }

    /// A condition, whose first step stands in the place. Each comparison is judged
    /// once at most.
    #[inline(always)]
    pub fn condition_is_true(&self, steps: &[Step], rows: &Rows, position: usize) -> bool {
        if position >= rows.n {
            return false;
        }
        let mut at = self.left as u16;
        while at < FAILS {
            let Step {
                comparison,
                met,
                unmet,
            } = &steps[usize::from(at)];
            let left = rows.entry(position, comparison.left);
            let right = rows.entry(position, comparison.right);
            let is_met = match (left, right) {
                (Some(left), Some(right)) => {
                    comparison.holds(left - (right & i64::from(comparison.keep)))
                }
                _ => false,
            };
            at = if is_met { *met } else { *unmet };
        }
        at == HOLDS
    }

    /// Met where this one is not, but for rows that are not there: there neither is.
    fn turned(&self) -> Comparison {
        Comparison {
            low: self.low.wrapping_add(self.width as i64).wrapping_add(1),
            width: u64::MAX - 1 - self.width,
            ..*self
        }
    }

    #[inline(always)]
    fn holds(&self, difference: i64) -> bool {
        difference.wrapping_sub(self.low) as u64 <= self.width
    }
}

/// Decodes a letter from the bytes of its DEFINE, whose fields are tested. If it
/// has several comparisons, they are put behind those decoded before.
pub fn decode(define: &[u8], columns: usize, decoded: &mut Vec<Comparison>) -> Letter {
    if define.is_empty() {
        return Letter::default();
    }
    let one = <&[u8; COMPARISON_BYTES]>::try_from(define).map(|bytes| single(bytes, columns));
    match one {
        Ok(Some(letter)) => letter,
        _ => several(define, columns, decoded),
    }
}

/// A letter with one comparison, unless it looks back only: behind the last row
/// such a comparison may be met, and no row is there.
fn single(bytes: &[u8; COMPARISON_BYTES], columns: usize) -> Option<Letter> {
    let looks_back = |offset: u8| (offset as i8) < 0;
    let (test, only_back) = match bytes[3] {
        0 => (Test::Constant, looks_back(bytes[1])),
        _ => (Test::Column, looks_back(bytes[1]) && looks_back(bytes[5])),
    };
    let comparison = comparison(bytes, columns);
    (!only_back).then_some(Letter { test, comparison })
}

fn several(define: &[u8], columns: usize, decoded: &mut Vec<Comparison>) -> Letter {
    let from = decoded.len();
    let (mut back, mut ahead) = (0, 0);
    for bytes in define.chunks_exact(COMPARISON_BYTES) {
        let (left, right) = (bytes[1] as i8, bytes[5] as i8);
        back = back.min(left).min(right);
        ahead = ahead.max(left).max(right);
        if let Ok(bytes) = bytes.try_into() {
            decoded.push(comparison(bytes, columns));
        }
    }
    Letter {
        test: Test::Several,
        comparison: Comparison {
            low: i64::from(back.unsigned_abs()),
            width: u64::from(ahead.unsigned_abs()),
            left: from as i16,
            right: (decoded.len() - from) as i16,
            keep: 0,
        },
    }
}

/// Decodes a letter from the entries of its condition, whose fields are tested. Its steps
/// are put behind those decoded before. NOT is taken to the comparisons, by the laws of De
/// Morgan, which hold for three truths as well. What is left is AND and OR alone, and there
/// unknown may stand as unmet: if all unknowns were false, what is true would be the same.
#[inline(never)]
pub fn condition(list: &[u8], columns: usize, steps: &mut Vec<Step>) -> Letter {
    let (mut left, mut entries) = (list, Vec::new());
    while let Some((entry, behind)) = first_entry(left) {
        entries.push(entry);
        left = behind;
    }
    let mut first = FAILS;
    put(
        &mut entries,
        columns,
        false,
        [HOLDS, FAILS],
        steps,
        &mut first,
    );
    Letter {
        test: Test::Joined,
        comparison: Comparison {
            left: first as i16,
            ..Comparison::default()
        },
    }
}

/// Puts the last operand of the entries, which is taken from them, and tells its first step.
fn put(
    entries: &mut Vec<Entry>,
    columns: usize,
    turned: bool,
    [met, unmet]: [u16; 2],
    steps: &mut Vec<Step>,
    first: &mut u16,
) {
    let is_and = match entries.pop() {
        None => return,
        Some(Entry::Not) => return put(entries, columns, !turned, [met, unmet], steps, first),
        Some(Entry::Compare(bytes)) => {
            let comparison = comparison(bytes, columns);
            *first = steps.len() as u16;
            steps.push(Step {
                comparison: match turned {
                    true => comparison.turned(),
                    false => comparison,
                },
                met,
                unmet,
            });
            return;
        }
        Some(Entry::And) => !turned,
        Some(Entry::Or) => turned,
    };
    put(entries, columns, turned, [met, unmet], steps, first);
    let behind = match is_and {
        true => [*first, unmet],
        false => [met, *first],
    };
    put(entries, columns, turned, behind, steps, first);
}

fn comparison(bytes: &[u8; COMPARISON_BYTES], columns: usize) -> Comparison {
    let distance =
        |column: u8, offset: u8| i16::from(offset as i8) * columns as i16 + i16::from(column);
    let left = distance(bytes[0], bytes[1]);
    let has_column = bytes[3] == 1;
    let number = i32::from_le_bytes([bytes[8], bytes[9], bytes[10], bytes[11]]);
    let (low, high) = interval(bytes[2], i64::from(number));
    Comparison {
        low,
        width: high.wrapping_sub(low) as u64,
        left,
        // A constant reads its left entry again, which is there, and keeps none
        // of it: so letters with several comparisons need no case for it.
        right: match has_column {
            true => distance(bytes[4], bytes[5]),
            false => left,
        },
        keep: -i32::from(has_column),
    }
}

/// What `left - right` may be, from low to high; unequal wraps round.
fn interval(operator: u8, number: i64) -> (i64, i64) {
    match operator {
        1 => (number, number),
        2 => (number + 1, number - 1),
        3 => (i64::MIN, number - 1),
        4 => (i64::MIN, number),
        5 => (number + 1, i64::MAX),
        _ => (number, i64::MAX),
    }
}
