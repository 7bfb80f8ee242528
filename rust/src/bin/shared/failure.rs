//! Why a command gives no whole result: the message and the exit status of each failure. Messages
//! have a place wherever there is one, and no control character of the input reaches the screen.

use std::io::{self, ErrorKind};
use std::path::{Path, PathBuf};

use mireladle::text::screen::{mark, visible};
use mireladle::text::{Fault, QueryText};
use mireladle::Error;

use super::options::Command;

/// The input, the command line or the program is wrong, a search was refused, or the output cannot
/// be written.
pub const WRONG: u8 = 2;
/// The report may not be whole: a search stopped, for want of room, of a row to skip to or of
/// steps.
pub const STOPPED: u8 = 3;
/// The reader of the output has gone: what a shell shows of a program that a broken pipe ends.
const UNREAD: u8 = 141;

/// Why there is no whole result.
pub enum Failure {
    /// The command line is not as it should be.
    Usage(String),
    /// A value on the command line does not fit the file.
    Option(String),
    /// A file cannot be read.
    File { path: PathBuf, error: io::Error },
    /// A text is not as it should be; the line that the fault is in.
    Text {
        path: PathBuf,
        line: String,
        fault: Fault,
    },
    /// The library refused; where in the query.
    Refused { error: Error, place: Option<String> },
    /// The rows were refused, for these reasons.
    Rows(String),
    /// The program cannot be run, or what it printed is no report.
    Program { path: PathBuf, reason: String },
    /// The output cannot be written; whether the search whose report it is stopped.
    Output { error: io::Error, stopped: bool },
}

impl Failure {
    /// A fault in a file of rows, and the line that it is in.
    pub fn rows(path: &Path, fault: Fault, line: String) -> Failure {
        Failure::Text {
            path: path.to_path_buf(),
            line,
            fault,
        }
    }

    /// The exit status.
    pub fn status(&self) -> u8 {
        match self {
            Failure::Output { error, stopped } if error.kind() == ErrorKind::BrokenPipe => {
                match stopped {
                    false => UNREAD,
                    true => STOPPED,
                }
            }
            _ => WRONG,
        }
    }

    /// The message; none where whoever reads the output has had enough of it.
    pub fn message(&self, command: &Command) -> Option<String> {
        Some(match self {
            Failure::Usage(reason) => {
                let usage = command.usage();
                format!("{}\n{usage} (--help tells more)", visible(reason))
            }
            Failure::Option(reason) => visible(reason),
            Failure::File { path, error } => format!("{}: {error}", named(path)),
            Failure::Text { path, line, fault } => {
                format!("{}:{fault}{}", named(path), mark(line, fault.column))
            }
            Failure::Refused { error, place } => refusal(*error, place.as_deref()),
            Failure::Rows(reason) => visible(reason),
            Failure::Program { path, reason } => format!("{}: {reason}", named(path)),
            Failure::Output { error, .. } if error.kind() == ErrorKind::BrokenPipe => return None,
            Failure::Output { error, .. } => format!("the output cannot be written: {error}"),
        })
    }
}

/// A file's name as messages show it.
pub fn named(path: &Path) -> String {
    match path.as_os_str() == "-" {
        true => String::from("standard input"),
        false => visible(&path.display().to_string()),
    }
}

/// A refusal by the library, with its place in the text of the query.
pub fn refused(error: Error, path: &str, source: &str, text: &QueryText) -> Failure {
    let of_pattern = matches!(error, Error::NotAPattern { .. } | Error::PatternEnds { .. });
    let wrong = text.wrong_pattern().filter(|_| of_pattern);
    if let Some((error, fault)) = wrong {
        let marked = fault.marked(source);
        return Failure::Refused {
            error: short(error),
            place: Some(format!("{path}:{fault}{marked}")),
        };
    }
    let place = text.part(error).map(|part| {
        let (line, shown) = (part.line, visible(&part.text));
        format!("{path}:{line}: {shown}")
    });
    Failure::Refused { error, place }
}

fn refusal(error: Error, place: Option<&str>) -> String {
    let number = error.number();
    let number = number.map_or(String::new(), |number| format!(" {number}"));
    let place = place.map_or(String::new(), |place| format!("\n{place}"));
    // Of a pattern's text the linked library knows the place, so without one a program of another
    // version refused.
    let expected_place = matches!(error, Error::NotAPattern { .. } | Error::PatternEnds { .. })
        && !place.contains(": expected ");
    match expected_place {
        true => format!(
            "refused{number}: the program refuses the pattern, the linked library does not{place}"
        ),
        false => format!("refused{number}: {error}{place}"),
    }
}

/// The error without what was expected, which stands with its place.
fn short(error: Error) -> Error {
    match error {
        Error::NotAPattern { offset, .. } => Error::NotAPattern {
            offset,
            expected: None,
        },
        Error::PatternEnds { offset, .. } => Error::PatternEnds {
            offset,
            expected: None,
        },
        other => other,
    }
}
