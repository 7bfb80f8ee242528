//! Measures, what a query asks of each match: a function over the match's rows, or over those with one letter, and the
//! 4 bytes that say so in a query.

/// A function over the rows of a match.
#[derive(Clone, Copy, Debug, PartialEq, Eq, Hash)]
#[non_exhaustive]
pub enum Function {
    /// How many rows; 0 where there are none, never null.
    Count,
    /// The sum of a column; null where there are no rows, like all that follow.
    Sum,
    /// The smallest entry of a column.
    Min,
    /// The largest entry of a column.
    Max,
    /// A column's entry at the first of the rows.
    First,
    /// A column's entry at the last of the rows.
    Last,
    /// The average of a column, cut toward zero: see [`Measure::avg`].
    Avg,
}

impl Function {
    fn number(self) -> u8 {
        match self {
            Function::Count => 1,
            Function::Sum => 2,
            Function::Min => 3,
            Function::Max => 4,
            Function::First => 5,
            Function::Last => 6,
            Function::Avg => 7,
        }
    }
}

/// One measure of a query: over all rows of a match unless [`of`](Measure::of) names a letter.
///
/// ```
/// use mireladle::Measure;
/// let count_of_a = Measure::count().of('A');
/// let last_price_of_b = Measure::last(0).of('B');
/// let sum_over_the_match = Measure::sum(1);
/// # let _ = (count_of_a, last_price_of_b, sum_over_the_match);
/// ```
#[derive(Clone, Copy, Debug, PartialEq, Eq, Hash)]
#[must_use = "a measure has an effect only in QueryBuilder::measure"]
pub struct Measure {
    function: Function,
    letter: Option<char>,
    column: u8,
}

impl Measure {
    /// A measure whose function is only known at run time. `COUNT` asks for column 0.
    pub const fn new(function: Function, column: u8) -> Measure {
        Measure {
            function,
            letter: None,
            column,
        }
    }

    /// How many rows.
    pub const fn count() -> Measure {
        Measure::new(Function::Count, 0)
    }

    /// The sum of a column.
    pub const fn sum(column: u8) -> Measure {
        Measure::new(Function::Sum, column)
    }

    /// The smallest entry of a column.
    pub const fn min(column: u8) -> Measure {
        Measure::new(Function::Min, column)
    }

    /// The largest entry of a column.
    pub const fn max(column: u8) -> Measure {
        Measure::new(Function::Max, column)
    }

    /// A column's entry at the first row.
    pub const fn first(column: u8) -> Measure {
        Measure::new(Function::First, column)
    }

    /// A column's entry at the last row.
    pub const fn last(column: u8) -> Measure {
        Measure::new(Function::Last, column)
    }

    /// The average of a column: the sum divided by the number of rows, cut toward zero as `/` does
    /// it. So it is a whole number, which lies between the smallest and the largest entry; no sum
    /// on the way to it overflows. [`sum`](Measure::sum) and [`count`](Measure::count) of the same
    /// rows tell what is cut off.
    ///
    /// ```
    /// use mireladle::{Measure, Query, Rows};
    ///
    /// let pairs = Query::builder(1).pattern("A A").measure(Measure::avg(0)).build()?;
    /// let report = pairs.search(Rows::new(&[3, 4, -3, -4, 1, -2], 1))?;
    /// let averages: Vec<_> = report.matches().flat_map(|found| found.measures()).collect();
    /// assert_eq!(averages, [Some(3), Some(-3), Some(0)]);
    /// # Ok::<(), mireladle::Error>(())
    /// ```
    pub const fn avg(column: u8) -> Measure {
        Measure::new(Function::Avg, column)
    }

    /// The same measure over the rows with this letter only, `A` to `Z`.
    pub const fn of(mut self, letter: char) -> Measure {
        self.letter = Some(letter);
        self
    }

    /// The measure's bytes in a query.
    pub(crate) fn bytes(&self) -> [u8; 4] {
        let letter = self.letter.map_or(0, letter_byte);
        [self.function.number(), letter, self.column, 0]
    }
}

/// A letter's byte in a query. What is no letter becomes a byte that the library refuses, and never 0, which would
/// mean all rows.
pub(crate) fn letter_byte(letter: char) -> u8 {
    match u8::try_from(letter) {
        Ok(byte) if byte.is_ascii_uppercase() => byte,
        _ => u8::MAX,
    }
}

#[cfg(test)]
mod tests {
    use super::*;

    #[test]
    fn bytes_of_each_function() {
        assert_eq!(Measure::count().of('A').bytes(), [1, 0x41, 0, 0]);
        assert_eq!(Measure::sum(7).bytes(), [2, 0, 7, 0]);
        assert_eq!(Measure::min(1).of('Z').bytes(), [3, 0x5A, 1, 0]);
        assert_eq!(Measure::max(2).bytes(), [4, 0, 2, 0]);
        assert_eq!(Measure::first(3).bytes(), [5, 0, 3, 0]);
        assert_eq!(Measure::last(0).of('B').bytes(), [6, 0x42, 0, 0]);
        assert_eq!(Measure::avg(0).bytes(), [7, 0, 0, 0]);
        assert_eq!(Measure::avg(4).of('C').bytes(), [7, 0x43, 4, 0]);
    }

    #[test]
    fn no_other_character_becomes_a_letter_or_all_rows() {
        for letter in ['\0', 'a', '@', '[', ' ', '\u{141}', '\u{C1}', char::MAX] {
            assert_eq!(letter_byte(letter), u8::MAX, "{letter:?}");
        }
    }
}
