//! Rows as they are handed to a search: a slice of entries, row by row, and the number of columns.

/// Ordered rows of whole numbers, one partition, lying one behind the other in a slice.
///
/// Nothing is judged here: entries that do not make whole rows, and more than 4,096 rows, are refused by the search.
///
/// ```
/// use mireladle::Rows;
/// let rows = Rows::new(&[1, 10, 2, 20, 3, 30], 2);
/// assert_eq!(rows.len(), 3);
/// assert_eq!(rows.get(1), Some(&[2, 20][..]));
/// ```
#[derive(Clone, Copy, Debug, PartialEq, Eq, Hash)]
pub struct Rows<'a> {
    entries: &'a [i32],
    columns: u8,
}

impl<'a> Rows<'a> {
    /// Rows of so many columns.
    pub const fn new(entries: &'a [i32], columns: u8) -> Rows<'a> {
        Rows { entries, columns }
    }

    /// All entries, row by row.
    pub const fn entries(&self) -> &'a [i32] {
        self.entries
    }

    /// How many entries a row has.
    pub const fn columns(&self) -> u8 {
        self.columns
    }

    /// The number of whole rows; 0 if they have no columns.
    pub fn len(&self) -> usize {
        self.entries
            .len()
            .checked_div(usize::from(self.columns))
            .unwrap_or(0)
    }

    /// Whether there is no whole row.
    pub fn is_empty(&self) -> bool {
        self.len() == 0
    }

    /// The entries of a row, counted from 0.
    pub fn get(&self, row: usize) -> Option<&'a [i32]> {
        let columns = usize::from(self.columns);
        let begin = row.checked_mul(columns)?;
        let end = begin.checked_add(columns)?;
        self.entries
            .get(begin..end)
            .filter(|entries| !entries.is_empty())
    }

    /// The rows in order.
    pub fn iter(&self) -> impl ExactSizeIterator<Item = &'a [i32]> + 'a {
        // No row has 0 columns, and a chunk of 0 is not to be had: then there is nothing to go through.
        let whole = if self.columns == 0 { &[] } else { self.entries };
        whole.chunks_exact(usize::from(self.columns).max(1))
    }
}

#[cfg(test)]
mod tests {
    use super::*;

    #[test]
    fn rows_are_parts_of_the_slice() {
        let rows = Rows::new(&[1, 2, 3, 4, 5], 2);
        assert_eq!(rows.len(), 2);
        assert_eq!(rows.iter().collect::<Vec<_>>(), [[1, 2], [3, 4]]);
        assert_eq!(rows.get(1), Some(&[3, 4][..]));
        assert_eq!(rows.get(2), None);
        assert_eq!(rows.get(usize::MAX), None);
    }

    #[test]
    fn no_columns_are_no_rows() {
        let rows = Rows::new(&[1, 2], 0);
        assert!(rows.is_empty());
        assert_eq!(rows.iter().len(), 0);
        assert_eq!(rows.get(0), None);
    }
}
