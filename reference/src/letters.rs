//! The letters at the rows: comparisons with exact sums, rows that are not there, and
//! conditions of three truths. From document 01, "Rows and query records", below the
//! table, and document 02, R-7; the test of one letter from R-6.
//! Sums are taken in 64 bits, where two 32-bit numbers cannot wrap.

use crate::query::{Comparison, Condition, Define, Meaning, Query, Reference};

/// Which letter holds at which row.
#[derive(Clone, Debug, PartialEq, Eq)]
pub struct Held {
    rows: Vec<[bool; 26]>,
}

impl Held {
    /// The rows are whole: their number divides by the columns.
    pub fn new(query: &Query, rows: &[i32]) -> Held {
        let n = rows.len() / query.columns;
        Held::by(n, |letter, row| holds(query, rows, letter, row as u64))
    }

    /// So many rows, at which the letters hold as is told.
    pub fn by(n: usize, holds: impl Fn(u8, usize) -> bool) -> Held {
        let at = |row| std::array::from_fn(|index| holds(b'A' + index as u8, row));
        Held {
            rows: (0..n).map(at).collect(),
        }
    }

    pub fn row_count(&self) -> usize {
        self.rows.len()
    }

    pub fn holds(&self, letter: u8, row: usize) -> bool {
        self.rows[row][usize::from(letter - b'A')]
    }
}

/// SQL's three truths.
#[derive(Clone, Copy, Debug, PartialEq, Eq)]
pub enum Truth {
    True,
    False,
    Unknown,
}

/// True alone lets a letter hold; one without DEFINE always does.
pub fn holds(query: &Query, rows: &[i32], letter: u8, row: u64) -> bool {
    query
        .defines
        .iter()
        .filter(|define| define.letter == letter)
        .all(|define| is_met(define, rows, query.columns, row))
}

fn is_met(define: &Define, rows: &[i32], columns: usize, row: u64) -> bool {
    let compared = |comparison: &Comparison| compare(comparison, rows, columns, row);
    match &define.meaning {
        Meaning::All(comparisons) => comparisons.iter().all(|it| compared(it) == Truth::True),
        Meaning::One(condition) => judge(condition, &compared) == Truth::True,
    }
}

/// What a condition comes to where its comparisons come to what is told of them.
pub fn judge(condition: &Condition, compared: &dyn Fn(&Comparison) -> Truth) -> Truth {
    match condition {
        Condition::Compare(comparison) => compared(comparison),
        Condition::And(two) => and(judge(&two[0], compared), judge(&two[1], compared)),
        Condition::Or(two) => or(judge(&two[0], compared), judge(&two[1], compared)),
        Condition::Not(one) => not(judge(one, compared)),
    }
}

pub fn and(left: Truth, right: Truth) -> Truth {
    match (left, right) {
        (Truth::False, _) | (_, Truth::False) => Truth::False,
        (Truth::True, Truth::True) => Truth::True,
        _ => Truth::Unknown,
    }
}

pub fn or(left: Truth, right: Truth) -> Truth {
    match (left, right) {
        (Truth::True, _) | (_, Truth::True) => Truth::True,
        (Truth::False, Truth::False) => Truth::False,
        _ => Truth::Unknown,
    }
}

pub fn not(one: Truth) -> Truth {
    match one {
        Truth::True => Truth::False,
        Truth::False => Truth::True,
        Truth::Unknown => Truth::Unknown,
    }
}

/// A comparison that reads a row outside the partition is unknown, also if its
/// operator is "unequal".
pub fn compare(comparison: &Comparison, rows: &[i32], columns: usize, row: u64) -> Truth {
    let left = entry(comparison.left, rows, columns, row);
    let added = match comparison.right {
        None => Some(0),
        Some(right) => entry(right, rows, columns, row),
    };
    let (Some(left), Some(added)) = (left, added) else {
        return Truth::Unknown;
    };
    let right = comparison.number + added;
    let met = match comparison.operator {
        1 => left == right,
        2 => left != right,
        3 => left < right,
        4 => left <= right,
        5 => left > right,
        _ => left >= right,
    };
    match met {
        true => Truth::True,
        false => Truth::False,
    }
}

/// A column's entry, some rows off the given one; None where no row is. The given one
/// may be any number, a row or not, and the sum never wraps.
fn entry(reference: Reference, rows: &[i32], columns: usize, row: u64) -> Option<i64> {
    let n = rows.len() / columns;
    let read = usize::try_from(i128::from(row) + i128::from(reference.offset)).ok()?;
    (read < n).then(|| i64::from(rows[read * columns + reference.column]))
}

/// What a test of a letter tells.
#[derive(Clone, Copy, Debug, PartialEq, Eq)]
pub struct Tested {
    pub holds: bool,
    /// Comparisons of its kind 3 record up to and with the first that is not met, or all;
    /// 0 without such a record.
    pub judged: usize,
}

/// Tests a letter, in the pattern or not, at a row, there or not: behind the rows its
/// comparisons come to what they read. A byte that is no letter has no record.
pub fn test(query: &Query, rows: &[i32], letter: u8, row: u64) -> Tested {
    let mut own = query.defines.iter().filter(|it| it.letter == letter);
    let comparisons = match own.next().map(|define| &define.meaning) {
        Some(Meaning::All(comparisons)) => comparisons.as_slice(),
        Some(Meaning::One(_)) | None => &[],
    };
    let mut judged = 0;
    for comparison in comparisons {
        judged += 1;
        if compare(comparison, rows, query.columns, row) != Truth::True {
            break;
        }
    }
    Tested {
        holds: holds(query, rows, letter, row),
        judged,
    }
}
