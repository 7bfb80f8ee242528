//! Comparisons, the parts of a DEFINE: a column at some row against a number or another column plus a number, and the
//! 12 bytes that say so in a query. A part that the bytes cannot carry is written as one that the library refuses.

use std::ops::Add;

/// The column with this index, from 0, at the current row.
///
/// ```
/// use mireladle::col;
/// let above_the_row_before = col(0).gt(col(0).prev(1));
/// let accepted = col(1).eq(3);
/// let at_most_five_more_two_rows_on = col(0).le(col(0).next(2) + 5);
/// # let _ = (above_the_row_before, accepted, at_most_five_more_two_rows_on);
/// ```
pub const fn col(index: u8) -> Column {
    Column { index, offset: 0 }
}

/// A column at the current row or some rows before or behind it. Made by [`col`].
#[derive(Clone, Copy, Debug, PartialEq, Eq, Hash)]
pub struct Column {
    index: u8,
    /// Rows from the current one, negative towards the first row.
    offset: i16,
}

impl Column {
    /// The same column so many rows before the current one, at most 64: SQL's `PREV`. It replaces an earlier offset.
    #[must_use]
    pub const fn prev(self, rows: u8) -> Column {
        Column {
            index: self.index,
            offset: (rows as i16).saturating_neg(),
        }
    }

    /// The same column so many rows behind the current one, at most 64: SQL's `NEXT`. It replaces an earlier offset.
    #[must_use]
    pub const fn next(self, rows: u8) -> Column {
        Column {
            index: self.index,
            offset: rows as i16,
        }
    }

    /// This column plus a number; the sum is exact and never wraps. The operator `+` does the same.
    #[must_use]
    pub const fn plus(self, number: i32) -> Sum {
        Sum {
            column: self,
            number,
        }
    }

    /// Equal to.
    pub fn eq(self, right: impl Into<Operand>) -> Comparison {
        Comparison::new(self, Operator::Equal, right)
    }

    /// Unequal to. Like every comparison it is unknown where a row it looks at is missing, and so not
    /// true.
    pub fn ne(self, right: impl Into<Operand>) -> Comparison {
        Comparison::new(self, Operator::Unequal, right)
    }

    /// Less than.
    pub fn lt(self, right: impl Into<Operand>) -> Comparison {
        Comparison::new(self, Operator::Less, right)
    }

    /// Less than or equal to.
    pub fn le(self, right: impl Into<Operand>) -> Comparison {
        Comparison::new(self, Operator::AtMost, right)
    }

    /// Greater than.
    pub fn gt(self, right: impl Into<Operand>) -> Comparison {
        Comparison::new(self, Operator::Greater, right)
    }

    /// Greater than or equal to.
    pub fn ge(self, right: impl Into<Operand>) -> Comparison {
        Comparison::new(self, Operator::AtLeast, right)
    }

    /// The offset as a signed byte. One beyond a byte stays beyond 64, and so outside its values.
    fn offset_byte(self) -> u8 {
        let near = self.offset.clamp(i16::from(i8::MIN), i16::from(i8::MAX));
        near.to_le_bytes()[0]
    }
}

impl Add<i32> for Column {
    type Output = Sum;

    fn add(self, number: i32) -> Sum {
        self.plus(number)
    }
}

/// A column plus a number, for the right side of a comparison. Made by `+` or [`Column::plus`].
#[derive(Clone, Copy, Debug, PartialEq, Eq, Hash)]
pub struct Sum {
    column: Column,
    number: i32,
}

/// The right side of a comparison: made from an `i32`, a [`Column`], or a [`Sum`].
#[derive(Clone, Copy, Debug, PartialEq, Eq, Hash)]
pub struct Operand {
    column: Option<Column>,
    number: i32,
}

impl From<i32> for Operand {
    fn from(number: i32) -> Operand {
        Operand {
            column: None,
            number,
        }
    }
}

impl From<Column> for Operand {
    fn from(column: Column) -> Operand {
        Operand {
            column: Some(column),
            number: 0,
        }
    }
}

impl From<Sum> for Operand {
    fn from(sum: Sum) -> Operand {
        Operand {
            column: Some(sum.column),
            number: sum.number,
        }
    }
}

/// How a comparison compares.
#[derive(Clone, Copy, Debug, PartialEq, Eq, Hash)]
pub enum Operator {
    /// `=`
    Equal,
    /// `<>`
    Unequal,
    /// `<`
    Less,
    /// `<=`
    AtMost,
    /// `>`
    Greater,
    /// `>=`
    AtLeast,
}

impl Operator {
    fn number(self) -> u8 {
        match self {
            Operator::Equal => 1,
            Operator::Unequal => 2,
            Operator::Less => 3,
            Operator::AtMost => 4,
            Operator::Greater => 5,
            Operator::AtLeast => 6,
        }
    }
}

/// One comparison of a DEFINE. It is unknown where a row that it looks at is missing, whatever its
/// operator. `&`, `|` and `!` join comparisons to a [`Condition`](crate::Condition).
#[derive(Clone, Copy, Debug, PartialEq, Eq, Hash)]
#[must_use = "a comparison has an effect only in QueryBuilder::define"]
pub struct Comparison {
    left: Column,
    operator: Operator,
    right: Operand,
}

impl Comparison {
    /// A comparison with an operator that is only known at run time; the methods of [`Column`] read better otherwise.
    pub fn new(left: Column, operator: Operator, right: impl Into<Operand>) -> Comparison {
        Comparison {
            left,
            operator,
            right: right.into(),
        }
    }

    /// The comparison's bytes in a query.
    pub(crate) fn bytes(&self) -> [u8; 12] {
        let [n0, n1, n2, n3] = self.right.number.to_le_bytes();
        let (kind, column, offset) = match self.right.column {
            None => (0, 0, 0),
            Some(column) => (1, column.index, column.offset_byte()),
        };
        let left = self.left;
        [
            left.index,
            left.offset_byte(),
            self.operator.number(),
            kind,
            column,
            offset,
            0,
            0,
            n0,
            n1,
            n2,
            n3,
        ]
    }
}

#[cfg(test)]
mod tests {
    use super::*;

    #[test]
    fn bytes_of_each_right_side() {
        let number = col(2).next(1).ge(-2);
        assert_eq!(
            number.bytes(),
            [2, 1, 6, 0, 0, 0, 0, 0, 0xFE, 0xFF, 0xFF, 0xFF]
        );
        let column = col(0).gt(col(0).prev(1));
        assert_eq!(column.bytes(), [0, 0, 5, 1, 0, 0xFF, 0, 0, 0, 0, 0, 0]);
        let sum = col(0).prev(64).le(col(7).next(64) + i32::MIN);
        assert_eq!(sum.bytes(), [0, 0xC0, 4, 1, 7, 0x40, 0, 0, 0, 0, 0, 0x80]);
        assert_eq!(col(1).lt(col(3).plus(9)), col(1).lt(col(3) + 9));
    }

    #[test]
    fn numbers_of_the_operators() {
        let made = [
            col(0).eq(0),
            col(0).ne(0),
            col(0).lt(0),
            col(0).le(0),
            col(0).gt(0),
            col(0).ge(0),
        ];
        assert_eq!(
            made.map(|comparison| comparison.bytes()[2]),
            [1, 2, 3, 4, 5, 6]
        );
    }

    #[test]
    fn an_offset_beyond_a_byte_stays_outside() {
        for rows in 0..=255_u8 {
            let back = col(0).prev(rows).offset_byte() as i8;
            let on = col(0).next(rows).offset_byte() as i8;
            assert_eq!(i16::from(back) >= -64, rows <= 64, "{rows} back");
            assert_eq!(i16::from(on) <= 64, rows <= 64, "{rows} on");
            assert!(
                rows > 127
                    || (i16::from(back) == -i16::from(rows) && i16::from(on) == i16::from(rows))
            );
        }
    }

    #[test]
    fn a_later_offset_replaces_an_earlier_one() {
        assert_eq!(col(0).prev(3).next(2), col(0).next(2));
    }
}
