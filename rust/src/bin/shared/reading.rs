//! The reading of a file of rows, with failures that name the file.

use std::io;
use std::path::Path;

use mireladle::text::Fault;

use super::failure::Failure;
use super::input::{Field, Record, Records, Stop};
use super::layout;

/// The failure of a file that cannot be read.
pub fn unread(path: &Path) -> impl Fn(io::Error) -> Failure + '_ {
    |error| Failure::File {
        path: path.to_path_buf(),
        error,
    }
}

/// The next record of a file.
pub fn record<'a>(
    path: &Path,
    records: &'a mut Records,
    fields: &'a mut Vec<Field>,
) -> Result<Option<Record<'a>>, Failure> {
    records.next(fields).map_err(|stop| match stop {
        Stop::Io(error) => unread(path)(error),
        Stop::Fault(fault, line) => Failure::rows(path, fault, line),
    })
}

/// The names of the columns, by the first record, and what is wrong with their encoding.
pub fn column_names(
    path: &Path,
    first: Option<&Record<'_>>,
    header: bool,
    delimiter: u8,
) -> Result<(Vec<String>, Option<Failure>), Failure> {
    match (first, header) {
        (Some(record), true) => layout::names(path, record, delimiter),
        (Some(record), false) => Ok((layout::numbered(record.fields.len()), None)),
        (None, _) => {
            let expected = match header {
                true => "a first line with the names of the columns",
                false => "rows",
            };
            let fault = Fault::new(1, 1, expected, "an empty file");
            Err(Failure::rows(path, fault, String::new()))
        }
    }
}

/// The fault of an empty line in front of a row.
pub fn blank_line(path: &Path, line: u64, bytes: &[u8]) -> Failure {
    let record = Record {
        line,
        bytes,
        fields: &[],
    };
    let expected = "a row, since others follow";
    let (fault, shown) = record.fault_at(0, expected, "an empty line");
    Failure::rows(path, fault, shown)
}
