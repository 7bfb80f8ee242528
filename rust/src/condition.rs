//! Conditions, what a DEFINE asks for: comparisons joined by AND, OR and NOT, kept as the postfix
//! list that a query has of them, so that no condition is too deep. Judging is the library's; here
//! is only how a condition is written. Tested here, and over rows in tests/conditions.rs.

use std::ops::{BitAnd, BitOr, Not};

use crate::comparison::Comparison;

/// The most comparisons of a DEFINE that only joins them by AND.
const MOST_COMPARISONS: usize = 8;
/// The most comparisons, ANDs, ORs and NOTs of any other DEFINE.
pub(crate) const MOST_ENTRIES: usize = 16;

/// Comparisons joined by `&`, `|` and `!`, or by [`and`](Condition::and) and [`or`](Condition::or).
///
/// A condition is true, false or unknown. A comparison that looks at a row which is not there is
/// unknown, and so is NOT of it; AND and OR go by SQL's tables: false AND unknown is false, true OR
/// unknown is true. A letter holds only where its condition is true.
///
/// ```
/// use mireladle::{col, Query, Rows};
///
/// // A row that does not have the price before it.
/// let changed = !col(0).eq(col(0).prev(1));
/// let query = Query::builder(1).pattern("A").define('A', [changed]).build()?;
/// let report = query.search(Rows::new(&[100, 100, 110], 1))?;
/// // The first row has none before it: whether they are equal is unknown there, and NOT as well.
/// assert_eq!(report.matches().map(|found| found.first_row()).collect::<Vec<_>>(), [2]);
///
/// // From a comparison on all joins read as SQL's do: NOT binds before AND, AND before OR.
/// let _outside = col(0).lt(90) | col(0).gt(110) & !col(0).eq(120);
/// # Ok::<(), mireladle::Error>(())
/// ```
///
/// A DEFINE has at most 8 comparisons; one with OR or NOT at most 16 comparisons, ANDs, ORs and
/// NOTs in all. A longer one is an [`Error::ConditionTooLong`](crate::Error::ConditionTooLong) when the
/// query is built.
#[derive(Clone, Debug, PartialEq, Eq, Hash)]
#[must_use = "a condition has an effect only in QueryBuilder::define"]
pub struct Condition {
    /// In postfix: an AND or OR joins the two results before it, a NOT turns the one before it.
    entries: Vec<Entry>,
}

#[derive(Clone, Copy, Debug, PartialEq, Eq, Hash)]
enum Entry {
    Compare(Comparison),
    And,
    Or,
    Not,
}

impl From<Comparison> for Condition {
    fn from(comparison: Comparison) -> Condition {
        Condition {
            entries: vec![Entry::Compare(comparison)],
        }
    }
}

impl Condition {
    /// True where all of these are. Of none there is no condition that a query could have, so a
    /// query with it is refused.
    ///
    /// ```
    /// use mireladle::{col, Condition};
    /// assert_eq!(Condition::all([col(0).gt(1), col(1).eq(2)]), col(0).gt(1) & col(1).eq(2));
    /// ```
    pub fn all(conditions: impl IntoIterator<Item = impl Into<Condition>>) -> Condition {
        Condition::joined(conditions, Entry::And)
    }

    /// True where one of these is. Of none there is no condition that a query could have, so a
    /// query with it is refused.
    ///
    /// ```
    /// use mireladle::{col, Condition};
    /// assert_eq!(Condition::any([col(0).eq(1), col(0).eq(2)]), col(0).eq(1) | col(0).eq(2));
    /// ```
    pub fn any(conditions: impl IntoIterator<Item = impl Into<Condition>>) -> Condition {
        Condition::joined(conditions, Entry::Or)
    }

    /// True where both are. The operator `&` does the same.
    pub fn and(self, other: impl Into<Condition>) -> Condition {
        self.then(other.into(), Entry::And)
    }

    /// True where one of them is, or both. The operator `|` does the same.
    pub fn or(self, other: impl Into<Condition>) -> Condition {
        self.then(other.into(), Entry::Or)
    }

    fn joined(conditions: impl IntoIterator<Item = impl Into<Condition>>, by: Entry) -> Condition {
        let mut conditions = conditions.into_iter().map(Into::into);
        let first = conditions.next();
        let first = first.unwrap_or(Condition {
            entries: Vec::new(),
        });
        conditions.fold(first, |all, next| all.then(next, by))
    }

    fn then(mut self, other: Condition, by: Entry) -> Condition {
        self.entries.extend(other.entries);
        self.entries.push(by);
        self
    }

    /// The comparisons, if all that joins them is AND.
    pub(crate) fn conjunction(&self) -> Option<Vec<Comparison>> {
        let comparisons: Vec<Comparison> = self.entries.iter().filter_map(compared).collect();
        let is_and = |entry: &&Entry| matches!(entry, Entry::And);
        let ands = self.entries.iter().filter(is_and).count();
        // With fewer comparisons there is an empty part somewhere, which cannot be left out.
        let all = comparisons.len().saturating_add(ands) == self.entries.len();
        let whole = comparisons.len() == ands.saturating_add(1) || self.entries.is_empty();
        (all && whole).then_some(comparisons)
    }

    /// How many comparisons there are.
    pub(crate) fn comparisons(&self) -> usize {
        self.entries.iter().filter_map(compared).count()
    }

    /// How many comparisons, ANDs, ORs and NOTs there are.
    pub(crate) fn len(&self) -> usize {
        self.entries.len()
    }

    /// Whether a query can have it as to its length.
    pub(crate) fn fits(&self) -> bool {
        match self.conjunction() {
            Some(comparisons) => comparisons.len() <= MOST_COMPARISONS,
            None => self.len() <= MOST_ENTRIES,
        }
    }

    /// The postfix list's bytes in a query, of so many entries at most.
    pub(crate) fn bytes(&self, most: usize) -> Vec<u8> {
        let mut bytes = Vec::new();
        for entry in self.entries.iter().take(most) {
            match entry {
                Entry::Compare(comparison) => {
                    bytes.push(0);
                    bytes.extend_from_slice(&comparison.bytes());
                }
                Entry::And => bytes.push(1),
                Entry::Or => bytes.push(2),
                Entry::Not => bytes.push(3),
            }
        }
        bytes
    }
}

fn compared(entry: &Entry) -> Option<Comparison> {
    match entry {
        Entry::Compare(comparison) => Some(*comparison),
        _ => None,
    }
}

impl Not for Condition {
    type Output = Condition;

    fn not(mut self) -> Condition {
        self.entries.push(Entry::Not);
        self
    }
}

impl Not for Comparison {
    type Output = Condition;

    fn not(self) -> Condition {
        !Condition::from(self)
    }
}

impl<T: Into<Condition>> BitAnd<T> for Condition {
    type Output = Condition;

    fn bitand(self, other: T) -> Condition {
        self.and(other)
    }
}

impl<T: Into<Condition>> BitAnd<T> for Comparison {
    type Output = Condition;

    fn bitand(self, other: T) -> Condition {
        Condition::from(self).and(other)
    }
}

impl<T: Into<Condition>> BitOr<T> for Condition {
    type Output = Condition;

    fn bitor(self, other: T) -> Condition {
        self.or(other)
    }
}

impl<T: Into<Condition>> BitOr<T> for Comparison {
    type Output = Condition;

    fn bitor(self, other: T) -> Condition {
        Condition::from(self).or(other)
    }
}

#[cfg(test)]
mod tests {
    use super::*;
    use crate::comparison::col;

    /// The list as its entries' first bytes, with the number of each comparison in the place of 0.
    fn list(condition: &Condition) -> String {
        let shown = |entry: &Entry| match entry {
            Entry::Compare(comparison) => char::from(b'0' + comparison.bytes()[8]),
            Entry::And => '&',
            Entry::Or => '|',
            Entry::Not => '!',
        };
        condition.entries.iter().map(shown).collect()
    }

    fn is(number: i32) -> Comparison {
        col(0).eq(number)
    }

    #[test]
    fn joins_stand_behind_what_they_join() {
        for (condition, expected) in [
            (Condition::from(is(1)), "1"),
            (!is(1), "1!"),
            (!!is(1), "1!!"),
            (is(1) & is(2), "12&"),
            (is(1) | is(2) & is(3), "123&|"),
            ((is(1) | is(2)) & is(3), "12|3&"),
            (is(1) & (is(2) | is(3)), "123|&"),
            (!is(1) & !(is(2) | is(3)), "1!23|!&"),
            (Condition::from(is(1)).and(is(2)).or(!is(3)), "12&3!|"),
            (Condition::all([is(1), is(2), is(3)]), "12&3&"),
            (Condition::any([!is(1), is(2) & is(3)]), "1!23&|"),
            (Condition::all([is(1)]), "1"),
        ] {
            assert_eq!(list(&condition), expected);
            assert_eq!(condition.len(), expected.len());
        }
    }

    #[test]
    fn bytes_of_a_list() {
        let condition = !(is(1) | col(2).prev(1).gt(7));
        let mut expected = vec![0];
        expected.extend(is(1).bytes());
        expected.push(0);
        expected.extend(col(2).prev(1).gt(7).bytes());
        expected.extend([2, 3]);
        assert_eq!(condition.bytes(MOST_ENTRIES), expected);
        assert_eq!(condition.bytes(1), expected[..13]);
    }

    #[test]
    fn a_conjunction_keeps_its_comparisons_in_order() {
        let (a, b, c) = (is(1), is(2), is(3));
        let nested = Condition::all([a & b, Condition::from(c)]);
        for condition in [a & b & c, a & (b & c), nested] {
            assert_eq!(condition.conjunction(), Some(vec![a, b, c]));
        }
        assert_eq!(Condition::from(a).conjunction(), Some(vec![a]));
        for condition in [a | b, !a, a & !b, (a | b) & c] {
            assert_eq!(condition.conjunction(), None);
        }
    }

    #[test]
    fn nothing_is_no_part_of_a_conjunction() {
        let none = || Condition::any(Vec::<Comparison>::new());
        assert_eq!(none().conjunction(), Some(vec![]));
        for condition in [none() & is(1), is(1) & none(), none() & is(1) & is(2)] {
            assert_eq!(condition.conjunction(), None);
        }
    }

    #[test]
    fn lengths_that_fit() {
        let many = |count: usize| vec![is(1); count];
        assert!(Condition::all(many(8)).fits());
        assert!(!Condition::all(many(9)).fits());
        assert!((!Condition::any(many(8))).fits());
        assert!(!(!!Condition::any(many(8))).fits());
        assert!(!Condition::any(many(9)).fits());
    }
}
