//! The columns that a query names. Each has the name that the rows' first line gives it, and `c0`,
//! `c1` and so on by its place there. Where the names are not known, any name is one. A query can
//! name 8 columns of rows that have many more: they are numbered in the order of the rows, or of
//! the text where that is not known.

use super::fault::{cut, Fault};
use super::words::{is_name, Word, Words};

/// The most columns that one query can name.
pub const MOST_COLUMNS: usize = 8;

/// The index in a name such as `c0`, which every column has beside the one in the first line.
pub fn index_named(name: &str) -> Option<usize> {
    let digits = name.strip_prefix('c')?;
    match digits.chars().all(|c| c.is_ascii_digit()) {
        true => digits.parse().ok(),
        false => None,
    }
}

/// A column that a query names.
#[derive(Clone, Debug, PartialEq, Eq)]
pub struct NamedColumn {
    /// Its name: that of the rows' first line where that is known, and otherwise as it is written.
    pub name: String,
    /// Its place among the names that were handed over, from 0.
    pub index: Option<usize>,
    /// Where the text names it first.
    pub line: usize,
    /// The column in that line.
    pub column: usize,
}

impl NamedColumn {
    /// Whether another name is of the same column.
    pub fn is(&self, other: &NamedColumn) -> bool {
        match self.index {
            Some(_) => self.index == other.index,
            None => self.name == other.name,
        }
    }
}

/// All columns that were named so far, in the order of the text.
pub struct Columns<'a> {
    names: Option<&'a [String]>,
    pub named: Vec<NamedColumn>,
}

impl<'a> Columns<'a> {
    pub fn new(names: Option<&'a [String]>) -> Columns<'a> {
        Columns {
            names,
            named: Vec::new(),
        }
    }

    /// One more column, by its place among the names, which the text need not name.
    pub fn add(&mut self, index: usize) {
        let known = self.named.iter().any(|named| named.index == Some(index));
        let name = self.names.and_then(|names| names.get(index));
        if let Some(name) = name.filter(|_| !known) {
            self.named.push(NamedColumn {
                name: name.clone(),
                index: Some(index),
                line: 1,
                column: 1,
            });
        }
    }

    /// Passes the name of a column, and gives its place among those named.
    pub fn want(&mut self, words: &mut Words<'_>) -> Result<usize, Fault> {
        let found = self.find(words)?;
        let known = self.named.iter().position(|other| other.is(&found));
        let slot = known.unwrap_or(self.named.len());
        if slot >= MOST_COLUMNS {
            return Err(words.fault("at most 8 different columns in one query"));
        }
        if known.is_none() {
            self.named.push(found);
        }
        words.pass();
        Ok(slot)
    }

    /// The column that the next word names, which is not passed.
    pub fn find(&self, words: &Words<'_>) -> Result<NamedColumn, Fault> {
        let (line, column) = words.place();
        let found = |name: String, index| NamedColumn {
            name,
            index,
            line,
            column,
        };
        match (self.names, words.peek()) {
            (None, Word::Name(name) | Word::Quoted(name)) => Ok(found(name.clone(), None)),
            (Some(names), Word::Name(name) | Word::Quoted(name)) => {
                let quoted = matches!(words.peek(), Word::Quoted(_));
                let index = index_of(name, names, quoted);
                let named = |index: usize| Some((names.get(index)?.clone(), index));
                let (name, index) = index
                    .and_then(named)
                    .ok_or_else(|| words.fault(self.expected()))?;
                Ok(found(name, Some(index)))
            }
            (_, Word::Other('"')) => Err(words.fault("a closing quote behind this one")),
            _ => Err(words.fault(self.expected())),
        }
    }

    /// What is expected where a column stands.
    pub fn expected(&self) -> String {
        match self.names {
            Some(names) => one_of_the_columns(names),
            None => String::from("a column"),
        }
    }

    /// For each column named its number in the query, from 0: in the order of the rows where that
    /// is known, and otherwise in that of the text. And the columns in the order of their numbers.
    pub fn numbered(self) -> (Vec<u8>, Vec<NamedColumn>) {
        let mut sorted = self.named.clone();
        sorted.sort_by_key(|named| named.index);
        let number = |named: &NamedColumn| {
            let at = sorted.iter().position(|other| other == named);
            at.and_then(|at| u8::try_from(at).ok()).unwrap_or(u8::MAX)
        };
        (self.named.iter().map(number).collect(), sorted)
    }
}

/// The place of a column: by its name in the first line, by that name in other capitals where only
/// one column has it, or as `c0`, `c1` and so on.
pub fn index_of(name: &str, names: &[String], quoted: bool) -> Option<usize> {
    if let Some(index) = names.iter().position(|known| known == name) {
        return Some(index);
    }
    if quoted {
        return None;
    }
    if let Some(index) = index_named(name).filter(|index| *index < names.len()) {
        return Some(index);
    }
    let alike = |known: &String| known.eq_ignore_ascii_case(name);
    let mut found = (0..).zip(names).filter(|(_, known)| alike(known));
    match (found.next(), found.next()) {
        (Some((index, _)), None) => Some(index),
        _ => None,
    }
}

/// What is expected where a column stands, with all of them:
/// `a column (c0 or time, c1 or "base number")`.
pub fn one_of_the_columns(names: &[String]) -> String {
    const MOST_SHOWN: usize = 40;
    let both = |(index, name): (usize, &String)| match index_named(name) {
        Some(_) => format!("c{index}"),
        None => format!("c{index} or {}", as_written(&cut(name))),
    };
    let mut all: Vec<String> = names
        .iter()
        .enumerate()
        .map(both)
        .take(MOST_SHOWN)
        .collect();
    if names.len() > MOST_SHOWN {
        all.push(format!("... c{}", names.len().saturating_sub(1)));
    }
    format!("a column ({})", all.join(", "))
}

/// A name as a query has to write it: in quotes where it is more than one word.
pub fn as_written(name: &str) -> String {
    match is_name(name) {
        true => String::from(name),
        false => format!("\"{}\"", name.replace('"', "\"\"")),
    }
}

#[cfg(test)]
mod tests {
    use super::*;

    #[test]
    fn names_that_mean_a_column_by_its_index() {
        assert_eq!(index_named("c0"), Some(0));
        assert_eq!(index_named("c12"), Some(12));
        for name in ["c", "cx", "C0", "c-1", "c+1", "c99999999999999999999999"] {
            assert_eq!(index_named(name), None, "{name}");
        }
    }

    #[test]
    fn a_name_means_the_column_that_has_it_most_exactly() {
        let names = ["Time", "time", "Event", "c0"].map(String::from);
        assert_eq!(index_of("time", &names, false), Some(1));
        assert_eq!(index_of("TIME", &names, false), None);
        assert_eq!(index_of("EVENT", &names, false), Some(2));
        assert_eq!(index_of("EVENT", &names, true), None);
        assert_eq!(index_of("c0", &names, false), Some(3));
        assert_eq!(index_of("c1", &names, false), Some(1));
        assert_eq!(index_of("c4", &names, false), None);
    }
}
