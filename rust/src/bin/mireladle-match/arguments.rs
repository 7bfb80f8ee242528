//! The command line: what it asks for, or what is wrong with it. Options stand anywhere before `--`;
//! of one that is given twice the later counts, but for `-e`, whose texts are lines. A value stands
//! behind its option or behind `=`. Options that cannot both be heeded exclude each other, so that
//! none is left out in silence. Tested in tests/command.rs and tests/options.rs.

use std::ffi::OsString;
use std::path::PathBuf;

use mireladle::text::screen::shown;
use mireladle::Limits;

use crate::failure::Failure;
use crate::options::{COMMAND, DEPOTS, EXPLAIN, PID, STEPS};
use crate::shared::given::{self, wrong, About, Given};
use crate::shared::growing::Writer;
use crate::terminal::Color;

/// What the command line asks for.
pub enum Task {
    About(About),
    Search(Box<Search>),
}

/// What is searched, how, and how it is told.
pub struct Search {
    pub query: QuerySource,
    pub rows: PathBuf,
    pub by: Searcher,
    pub partition_by: Vec<String>,
    pub order_by: Option<String>,
    pub sort: bool,
    pub grouped: bool,
    /// How the rows are followed, where they are searched while they come.
    pub follow: Option<Follow>,
    pub delimiter: u8,
    pub header: bool,
    pub answer: Answer,
    pub rows_of_matches: bool,
    /// The names of the columns of depots and months, where the matches are counted by them.
    pub depots: Option<[String; 2]>,
    /// Where the picture of that table goes.
    pub svg: Option<PathBuf>,
    pub color: Color,
    pub warnings: bool,
}

/// How rows are followed.
#[derive(Clone, Copy, Debug, PartialEq, Eq)]
pub struct Follow {
    /// The process with whose end a file ends.
    pub writer: Option<Writer>,
}

/// Where the query's text comes from.
pub enum QuerySource {
    File(PathBuf),
    Text(String),
}

/// What searches.
pub enum Searcher {
    /// The linked library, within these limits.
    Library(Limits),
    /// The program at this path, which knows no limits but its own.
    Program(PathBuf),
}

/// How the answer is told.
#[derive(Clone, Copy, Debug, PartialEq, Eq)]
pub enum Answer {
    Table,
    Json,
    Csv,
    Count,
    Quiet,
    Bytes,
    /// Which letters hold at this row.
    Explain(Place),
}

/// A row: by its number in the file's only partition, or by the line where it begins.
#[derive(Clone, Copy, Debug, PartialEq, Eq)]
pub enum Place {
    Row(u64),
    Line(u64),
}

/// Reads the command line.
pub fn task(arguments: impl Iterator<Item = OsString>) -> Result<Task, Failure> {
    let given = given::given(&COMMAND, arguments)?;
    Ok(match given.about()? {
        Some(about) => Task::About(about),
        None => Task::Search(Box::new(search(given)?)),
    })
}

fn search(given: Given) -> Result<Search, Failure> {
    exclusions(&given)?;
    let answer = answer(&given)?;
    let by = searcher(&given)?;
    let columns = given.text("partition-by").unwrap_or_default();
    let partition_by: Vec<String> = match columns.is_empty() {
        true => Vec::new(),
        false => columns
            .split(',')
            .map(|name| String::from(name.trim()))
            .collect(),
    };
    let depots = depots(&given)?;
    let color = given.color()?;
    let delimiter = given.delimiter()?;
    let (query, rows) = files(&given)?;
    Ok(Search {
        query,
        rows,
        by,
        partition_by,
        order_by: given.text("order-by"),
        sort: given.has("sort"),
        grouped: given.has("grouped"),
        follow: follow(&given)?,
        delimiter,
        header: !given.has("no-header"),
        answer,
        rows_of_matches: given.has("rows"),
        depots,
        svg: given.value("svg").map(PathBuf::from),
        color,
        warnings: !given.has("no-warnings"),
    })
}

/// What cannot be done while rows come, and why.
const NOT_FOLLOWED: [(&str, &str); 6] = [
    ("sort", ": a row that is still to come may belong in front"),
    ("program", ": the program reads whole partitions"),
    ("depots", ": the table counts whole partitions"),
    ("count", ": how many there are is known only at the end"),
    ("explain", ": nothing is searched"),
    ("bytes", ": nothing is searched"),
];

fn exclusions(given: &Given) -> Result<(), Failure> {
    let no_steps = ": what the program reads has no place for a number of steps";
    let library = ": only the library can be told how many steps to take";
    given.exclude("bytes", "program", "")?;
    given.exclude("bytes", "steps", no_steps)?;
    given.exclude("program", "steps", library)?;
    given.exclude("bytes", "partition-by", ": the program reads one partition")?;
    for one in ["quiet", "count", "bytes", "explain"] {
        for other in ["rows", "format"] {
            given.exclude(one, other, "")?;
        }
    }
    for other in ["quiet", "count", "bytes", "depots"] {
        given.exclude("explain", other, "")?;
    }
    let letters = ": only the library can be asked for a letter at a row";
    given.exclude("explain", "program", letters)?;
    given.exclude("explain", "steps", ": nothing is searched")?;
    for other in ["steps", "program"] {
        given.exclude(
            "depots",
            other,
            ": the library counts, without an allowance of steps",
        )?;
    }
    for other in ["rows", "quiet", "count", "bytes"] {
        given.exclude("depots", other, "")?;
    }
    for (other, why) in NOT_FOLLOWED {
        given.exclude("follow", other, why)?;
    }
    given.exclude("quiet", "count", "")?;
    given.exclude("bytes", "quiet", "")?;
    given.exclude("bytes", "count", "")
}

/// Whether and how rows are followed.
fn follow(given: &Given) -> Result<Option<Follow>, Failure> {
    let writer = match given.text("pid") {
        None => None,
        Some(_) if !given.has("follow") => return Err(wrong("--pid needs --follow")),
        Some(text) => {
            let number = text.parse().ok().filter(|number| *number > 0);
            let wrong = || wrong(format!("--pid needs {PID}, found {}", shown(&text)));
            Some(Writer(number.ok_or_else(wrong)?))
        }
    };
    Ok(given.has("follow").then_some(Follow { writer }))
}

/// The two columns behind `--depots`.
fn depots(given: &Given) -> Result<Option<[String; 2]>, Failure> {
    let Some(text) = given.text("depots") else {
        return match given.has("svg") {
            true => Err(wrong("--svg needs --depots, the table that it draws")),
            false => Ok(None),
        };
    };
    let names: Vec<&str> = text.split(',').map(str::trim).collect();
    match names[..] {
        [depot, month] => Ok(Some([depot, month].map(String::from))),
        _ => Err(wrong(format!(
            "--depots needs {DEPOTS}, found {}",
            shown(&text)
        ))),
    }
}

fn answer(given: &Given) -> Result<Answer, Failure> {
    if given.has("quiet") {
        return Ok(Answer::Quiet);
    }
    if given.has("count") {
        return Ok(Answer::Count);
    }
    if given.has("bytes") {
        return Ok(Answer::Bytes);
    }
    if let Some(text) = given.text("explain") {
        return Ok(Answer::Explain(place(&text)?));
    }
    Ok(match given.choice("format")?.as_deref() {
        Some("json") => Answer::Json,
        Some("csv") => Answer::Csv,
        _ => Answer::Table,
    })
}

/// The row behind `--explain`.
fn place(text: &str) -> Result<Place, Failure> {
    let place = match text.strip_prefix("line=") {
        Some(line) => line.parse().map(Place::Line),
        None => text.parse().map(Place::Row),
    };
    let digits = text.trim_start_matches("line=");
    let plain = digits.bytes().all(|byte| byte.is_ascii_digit());
    place
        .ok()
        .filter(|_| plain)
        .ok_or_else(|| wrong(format!("--explain needs {EXPLAIN}, found {}", shown(text))))
}

fn searcher(given: &Given) -> Result<Searcher, Failure> {
    if let Some(path) = given.value("program") {
        return Ok(Searcher::Program(PathBuf::from(path)));
    }
    let limits = Limits::default();
    Ok(Searcher::Library(match given.text("steps") {
        Some(text) => limits.steps(number_of_steps(&text)?),
        None => limits,
    }))
}

/// The number behind `--steps`.
fn number_of_steps(text: &str) -> Result<u64, Failure> {
    let number = text.parse();
    number.map_err(|_| wrong(format!("--steps needs {STEPS}, found {}", shown(text))))
}

/// The query and the file of rows.
fn files(given: &Given) -> Result<(QuerySource, PathBuf), Failure> {
    let texts = given
        .options
        .iter()
        .filter(|(option, _)| option.long == "query");
    let texts: Vec<String> = texts
        .map(|(_, value)| value.to_string_lossy().into_owned())
        .collect();
    let count = given.paths.len();
    match (&given.paths[..], texts.is_empty()) {
        ([query, rows], true) => {
            let both = query.as_os_str() == "-" && rows.as_os_str() == "-";
            match both {
                true => Err(wrong("only one of QUERY and ROWS can be standard input")),
                false => Ok((QuerySource::File(query.clone()), rows.clone())),
            }
        }
        ([rows], false) => Ok((QuerySource::Text(texts.join("\n")), rows.clone())),
        ([], false) => Ok((QuerySource::Text(texts.join("\n")), PathBuf::from("-"))),
        (_, true) => Err(wrong(format!(
            "expected two files, QUERY and ROWS, found {count}"
        ))),
        (_, false) => Err(wrong(format!(
            "expected one file, ROWS, beside -e, found {count}"
        ))),
    }
}
