//! The command line: which columns are what, how events are written, how the verdicts are told; or
//! what is wrong with it. Tested in tests/desk.rs.

use std::ffi::OsString;
use std::path::PathBuf;

use mireladle::text::screen::shown;

use crate::columns::Events;
use crate::failure::Failure;
use crate::options::{COMMAND, EVENTS};
use crate::shared::given::{self, wrong, About, Given};
use crate::terminal::Color;

/// What the command line asks for.
pub enum Task {
    About(About),
    Judge(Box<Judge>),
}

/// What is judged, and how it is told.
pub struct Judge {
    pub file: PathBuf,
    /// The names of the columns: bus, time, event, base, patch.
    pub columns: [String; 5],
    pub events: Events,
    pub delimiter: u8,
    pub header: bool,
    pub format: Format,
    pub color: Color,
}

/// How verdicts are told.
#[derive(Clone, Copy, Debug, PartialEq, Eq)]
pub enum Format {
    Table,
    Json,
    Csv,
    Quiet,
}

/// The options that name columns, which are also the names where they are not given.
pub const COLUMNS: [&str; 5] = ["bus", "time", "event", "base", "patch"];

/// Reads the command line.
pub fn task(arguments: impl Iterator<Item = OsString>) -> Result<Task, Failure> {
    let given = given::given(&COMMAND, arguments)?;
    Ok(match given.about()? {
        Some(about) => Task::About(about),
        None => Task::Judge(Box::new(judge(&given)?)),
    })
}

fn judge(given: &Given) -> Result<Judge, Failure> {
    given.exclude("quiet", "format", "")?;
    let format = match given.choice("format")?.as_deref() {
        _ if given.has("quiet") => Format::Quiet,
        Some("json") => Format::Json,
        Some("csv") => Format::Csv,
        _ => Format::Table,
    };
    let [file] = &given.paths[..] else {
        let count = given.paths.len();
        return Err(wrong(format!("expected one file, FILE, found {count}")));
    };
    Ok(Judge {
        file: file.clone(),
        columns: COLUMNS.map(|name| given.text(name).unwrap_or_else(|| String::from(name))),
        events: match given.text("events") {
            Some(text) => events(&text)?,
            None => Events::default(),
        },
        delimiter: given.delimiter()?,
        header: !given.has("no-header"),
        format,
        color: given.color()?,
    })
}

/// The texts of the events. Each of the three has to have one: where one is missing, another is
/// likely to have its number.
fn events(text: &str) -> Result<Events, Failure> {
    let found = |part: &str| wrong(format!("--events needs {EVENTS}, found {}", shown(part)));
    let mut texts: Vec<(String, i32)> = Vec::new();
    for part in text.split(',') {
        let (name, number) = part.rsplit_once('=').ok_or_else(|| found(part))?;
        let (name, number) = (name.trim(), number.trim());
        let event = match number {
            "1" => 1,
            "2" => 2,
            "3" => 3,
            _ => {
                return Err(wrong(format!(
                    "--events: expected 1, 2 or 3, found {}",
                    shown(number)
                )))
            }
        };
        if name.is_empty() {
            return Err(found(part));
        }
        if texts.iter().any(|(known, _)| known == name) {
            return Err(wrong(format!(
                "--events: {} stands there twice",
                shown(name)
            )));
        }
        texts.push((String::from(name), event));
    }
    for (event, what) in [(1, "an offer"), (2, "a refusal"), (3, "an acceptance")] {
        if !texts.iter().any(|(_, number)| *number == event) {
            return Err(wrong(format!("--events has no text for {event}, {what}")));
        }
    }
    Ok(Events::named(texts))
}
