//! Which columns of a file are what: their names from its first line, those that become entries of
//! rows, those that part the rows, and the one that orders them. Of names that are not asked for
//! nothing is expected: they may be empty, or stand twice.

use std::path::Path;

use mireladle::text::screen::shown;
use mireladle::text::{index_of, one_of_the_columns, Fault};

use super::failure::Failure;
use super::input::Record;

/// How the cells of a column become entries.
pub trait Reads {
    /// The number that a cell is; or what was expected in its place, and what to do about it.
    fn read(&self, name: &str, cell: &[u8]) -> Result<i32, (String, String)>;
}

/// The columns of a file.
pub struct Layout<R> {
    pub names: Vec<String>,
    /// For each entry of a row its column in the file, and how its cells are read.
    pub query: Vec<(usize, R)>,
    pub partition: Vec<usize>,
    pub order: Option<usize>,
}

/// A table of more columns shows only those that are asked for.
const MOST_SHOWN: usize = 8;

impl<R> Layout<R> {
    /// The columns that a table shows.
    pub fn shown(&self) -> Vec<usize> {
        let all = 0..self.names.len();
        let asked = |index: &usize| {
            self.query.iter().any(|(column, _)| column == index)
                || self.partition.contains(index)
                || self.order == Some(*index)
        };
        match self.names.len() <= MOST_SHOWN {
            true => all.collect(),
            false => all.filter(asked).collect(),
        }
    }

    /// How many entries a row has: where no column is named, one that is not looked at.
    pub fn entries(&self) -> usize {
        self.query.len().max(1)
    }
}

/// The column that an option names.
pub fn find(names: &[String], name: &str, option: &str) -> Result<usize, Failure> {
    index_of(name, names, false).ok_or_else(|| {
        let columns = one_of_the_columns(names);
        let found = shown(name);
        Failure::Option(format!("{option}: expected {columns}, found {found}"))
    })
}

/// The names in the first line, and what is wrong where one of them is no text in UTF-8: that counts
/// only where a name is asked for that is not found.
pub fn names(
    path: &Path,
    record: &Record<'_>,
    delimiter: u8,
) -> Result<(Vec<String>, Option<Failure>), Failure> {
    let wrong = |(fault, line): (Fault, String)| Failure::rows(path, fault, line);
    let mut names = Vec::new();
    let mut not_text = None;
    for index in 0..record.fields.len() {
        let cell = record.cell(index);
        if let Err(error) = std::str::from_utf8(&cell) {
            let byte = cell.get(error.valid_up_to()).copied().unwrap_or(0);
            let (mut fault, _) = record.fault(index, "text in UTF-8");
            fault.found = match cell.starts_with(b"\xFF\xFE") || cell.starts_with(b"\xFE\xFF") {
                true => String::from("UTF-16: save the file as CSV in UTF-8"),
                false => format!("the byte {byte:#04X}"),
            };
            not_text.get_or_insert(wrong((fault, String::new())));
        }
        names.push(String::from_utf8_lossy(&cell).into_owned());
    }
    let control = |byte: &u8| byte.is_ascii_control() && !byte.is_ascii_whitespace();
    if record.bytes.iter().any(control) {
        if let Some(failure) = not_text {
            return Err(failure);
        }
    }
    if record.bytes.contains(&0) {
        let (mut fault, _) = record.fault(0, "the names of the columns");
        fault.found = String::from("the byte 0x00: this is no CSV file");
        return Err(wrong((fault, String::new())));
    }
    // A first row that is taken for names would shift every label.
    let named = |name: &String| name.starts_with(|c: char| c.is_alphabetic() || c == '_');
    if !names.iter().any(named) {
        let expected = "the names of the columns, which begin with letters \
                        (--no-header if there are none)";
        return Err(wrong(record.fault(0, expected)));
    }
    if let ([name], b',') = (&names[..], delimiter) {
        let other = [(';', "--delimiter ';'"), ('\t', "--tab")];
        if let Some((sign, option)) = other.into_iter().find(|(sign, _)| name.contains(*sign)) {
            let expected = format!("commas between the names ({option} if {sign:?} parts them)");
            return Err(wrong(record.fault(0, expected)));
        }
    }
    Ok((names, not_text))
}

/// The names of a file without any.
pub fn numbered(columns: usize) -> Vec<String> {
    (0..columns).map(|index| format!("c{index}")).collect()
}

/// A name that is asked for and that several columns have.
pub fn twice<R>(layout: &Layout<R>, path: &Path, record: &Record<'_>) -> Result<(), Failure> {
    let asked = layout.query.iter().map(|(index, _)| index);
    for index in asked.chain(&layout.partition).chain(&layout.order) {
        let name = layout.names.get(*index);
        let same = layout.names.iter().filter(|other| Some(*other) == name);
        if same.count() > 1 {
            let mut places = (0..).zip(&layout.names).filter(|(_, it)| Some(*it) == name);
            let second = places.nth(1).map_or(*index, |(place, _)| place);
            let (fault, line) = record.fault(second, "a name that no other column has");
            return Err(Failure::rows(path, fault, line));
        }
    }
    Ok(())
}
