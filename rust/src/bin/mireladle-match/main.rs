//! mireladle-match: searches the rows of a CSV file, in one partition or many, for a query that is
//! written as readable text, and tells the matches. It promises a message with a place for every
//! text that it cannot read, the number and the reason of every refusal, and an exit status: 0 at
//! least one match, 1 none, 2 wrong input, a refusal or an output that cannot be written, 3 stopped
//! for want of room, of a row to skip to or of steps, 141 where the reader of the output left early,
//! so that a script cannot take a part of a report for the whole. Rows that are followed are searched
//! while they come: what has been read is searched before the command waits for more. It never
//! panics. Tested in tests/command.rs, tests/options.rs, tests/partitions.rs, tests/explain.rs,
//! tests/depots.rs, tests/follow.rs and tests/output.rs.

#![deny(unsafe_code)]
#![cfg_attr(test, allow(clippy::restriction))]

mod answer;
mod arguments;
mod columns;
mod explain;
mod options;
mod program;
#[path = "../shared/mod.rs"]
mod shared;

use std::io::{self, Read};
use std::path::Path;
use std::process::ExitCode;

use mireladle::text::screen::visible;
use mireladle::text::{self, lines, Codes, Fault, QueryText};

use answer::{Answering, Asked, Counting, MATCH};
use arguments::{task, Follow, QuerySource, Search, Task};
use columns::Layout;
use failure::{named, Failure};
use growing::Writer;
use input::{Records, Source};
use options::COMMAND;
use output::Out;
use partitions::{last_records, Added, Closing, Handling, Partitions};
use reading::{blank_line, column_names, record, unread};
use shared::{failure, growing, input, layout, output, partitions, reading, terminal};
use terminal::{tell, Progress, Style};

fn main() -> ExitCode {
    match task(std::env::args_os().skip(1)).and_then(|task| run(&task)) {
        Ok(status) => ExitCode::from(status),
        Err(failure) => {
            if let Some(message) = failure.message(&COMMAND) {
                tell(&message);
            }
            ExitCode::from(failure.status())
        }
    }
}

/// Runs a task and gives the exit status.
fn run(task: &Task) -> Result<u8, Failure> {
    match task {
        Task::About(about) => {
            output::print(&about.text(&COMMAND))?;
            Ok(MATCH)
        }
        Task::Search(search) => answer(search),
    }
}

/// Reads the file, searches its partitions and tells what was found.
fn answer(search: &Search) -> Result<u8, Failure> {
    let (path, source) = query_source(&search.query)?;
    let file = Source::open(&search.rows).map_err(unread(&search.rows))?;
    let mut records = records_of(&file, search)?;
    let mut fields = Vec::new();
    let first = record(&search.rows, &mut records, &mut fields)?;
    let (names, mut not_text) = column_names(
        &search.rows,
        first.as_ref(),
        search.header,
        search.delimiter,
    )?;
    let mut or_not_text = |failure| not_text.take().unwrap_or(failure);
    let counted_by = columns::depots(&names, search).map_err(&mut or_not_text)?;
    let of_table = counted_by.unwrap_or_default();
    let of_table = counted_by.map_or(&[][..], |_| &of_table);
    let text = read_query(&path, &source, &names, of_table).map_err(&mut or_not_text)?;
    let layout = columns::layout(names, &text, search).map_err(or_not_text)?;
    if let Some(record) = first.as_ref().filter(|_| search.header) {
        layout::twice(&layout, &search.rows, record)?;
    }
    if search.warnings {
        warn(&path, &text);
    }
    let asked = Asked { path, source, text };
    let counting = counted_by.map(|columns| Counting::new(&asked.text, columns));
    let style = Style::new(search.color);
    let answering = Answering::new(search, &asked, &layout, style, counting)?;
    if !search.header {
        // The first line is a row.
        records.back();
    }
    // How long a file is that grows is not known.
    let length = file.length.filter(|_| search.follow.is_none());
    let closing = match search.grouped {
        true => Closing::AtNext,
        false if is_read_twice(length, &layout) => {
            let closing = ends_of_partitions(search, &file, &layout)?;
            records = records_of(&file, search)?;
            if search.header {
                record(&search.rows, &mut records, &mut fields)?;
            }
            closing
        }
        false => Closing::AtEnd,
    };
    let handling = Handling {
        sort: search.sort,
        keep_records: Answering::keeps_records(search, &asked.text),
        keep_faults: false,
        in_lots: search.follow.is_some(),
        advice: match search.follow {
            Some(_) => "",
            None => " (--sort sorts them)",
        },
    };
    let reading = Reading {
        search,
        partitions: Partitions::new(&layout, closing, handling),
        answering,
        progress: Progress::new(length),
        length,
        out: Out::new()?,
    };
    reading.run(&mut records)
}

/// A file that is smaller is kept in memory.
const LARGE_FILE: u64 = 32_000_000;

/// The records of the file, from its beginning on.
fn records_of(file: &Source, search: &Search) -> Result<Records, Failure> {
    let records = match search.follow {
        None => file.records(search.delimiter),
        Some(Follow { writer: Some(_) }) if !file.can_grow => {
            let (path, end) = (named(&search.rows), "its own end is the end");
            return Err(Failure::Option(format!(
                "--pid: {path} is no file that grows, and {end}"
            )));
        }
        Some(Follow { writer: Some(_) }) if !Writer::can_be_seen() => {
            let reason = "--pid: without /proc the end of a process cannot be seen";
            return Err(Failure::Option(String::from(reason)));
        }
        Some(Follow { writer }) => file.followed(search.delimiter, writer),
    };
    records.map_err(unread(&search.rows))
}

/// Whether a file of this length is read once before, to find out where each partition ends.
fn is_read_twice(length: Option<u64>, layout: &Layout) -> bool {
    let large = length.is_some_and(|length| length >= LARGE_FILE);
    large && !layout.partition.is_empty()
}

/// Where each partition ends, by a first reading of the file.
fn ends_of_partitions(search: &Search, file: &Source, layout: &Layout) -> Result<Closing, Failure> {
    let mut records = records_of(file, search)?;
    Ok(last_records(&mut records, &layout.partition, search.header))
}

/// A query's text may be no longer: it is read whole.
const LONGEST_QUERY: u64 = 1 << 20;

/// What the query is called in messages, and its text.
fn query_source(source: &QuerySource) -> Result<(String, String), Failure> {
    let path = match source {
        QuerySource::Text(text) => return Ok((String::from("-e"), text.clone())),
        QuerySource::File(path) => path,
    };
    let failed = |error| Failure::File {
        path: path.clone(),
        error,
    };
    let mut bytes = Vec::new();
    let limit = LONGEST_QUERY.saturating_add(1);
    let read = match path.as_os_str() == "-" {
        true => io::stdin().take(limit).read_to_end(&mut bytes),
        false => {
            let file = std::fs::File::open(path).map_err(failed)?;
            file.take(limit).read_to_end(&mut bytes)
        }
    };
    read.map_err(failed)?;
    if u64::try_from(bytes.len()).unwrap_or(u64::MAX) > LONGEST_QUERY {
        let reason = "the text of a query has at most 1,048,576 bytes";
        return Err(failed(io::Error::other(reason)));
    }
    let text = String::from_utf8(bytes).map_err(|error| {
        let valid = error.utf8_error().valid_up_to();
        query_fault(path, not_text(error.as_bytes(), valid), "")
    })?;
    // Some programs put a mark of the encoding in front of a text.
    let plain = text.strip_prefix('\u{FEFF}').unwrap_or(&text);
    Ok((named(path), String::from(plain)))
}

fn query_fault(path: &Path, fault: Fault, text: &str) -> Failure {
    let line = lines(text).nth(fault.line.saturating_sub(1)).unwrap_or("");
    Failure::rows(path, fault, String::from(line))
}

/// The fault of bytes that are text up to some byte only.
fn not_text(bytes: &[u8], valid: usize) -> Fault {
    // With one more character the byte's line is there, also where it begins with the byte.
    let before = String::from_utf8_lossy(bytes.get(..valid).unwrap_or(&[]));
    let front = format!("{before}?");
    let line = lines(&front).count();
    let column = lines(&front).last().unwrap_or("").chars().count();
    let found = bytes
        .get(valid)
        .map_or(String::new(), |byte| format!("the byte {byte:#04X}"));
    Fault::new(line, column, "text in UTF-8", found)
}

/// Reads the query, which has these columns of the file too.
fn read_query(
    path: &str,
    source: &str,
    names: &[String],
    columns: &[usize],
) -> Result<QueryText, Failure> {
    let read = text::read_with_columns(source, names, columns);
    read.map_err(|fault| query_fault(Path::new(path), fault, source))
}

/// Tells what is likely not meant in a query.
fn warn(path: &str, text: &QueryText) {
    for warning in &text.warnings {
        let (line, column) = (warning.line, warning.column);
        let message = visible(&warning.message);
        tell(&format!("{path}:{line}:{column}: warning: {message}"));
    }
}

/// A file that is being read and answered.
struct Reading<'a> {
    search: &'a Search,
    partitions: Partitions<'a, Option<Codes>>,
    answering: Answering<'a>,
    progress: Progress,
    /// The length of the file, where it is one.
    length: Option<u64>,
    out: Out,
}

impl Reading<'_> {
    fn run(mut self, records: &mut Records) -> Result<u8, Failure> {
        let head = self.answering.head();
        self.write(&head)?;
        let read = self.read(records);
        if read.is_err() {
            // What came before a wrong row is told, whether it came together with it or not.
            self.search_what_came()?;
        }
        self.progress.end();
        if read? {
            self.partitions.at_least_one();
            self.close_all()?;
            self.answering.explained()?;
            let foot = self.answering.foot();
            self.write(&foot)?;
        }
        self.out.flush(self.answering.tally.stopped)?;
        self.answering.draw()?;
        Ok(self.answering.status())
    }

    /// Reads to the end; false where the answer is known before.
    fn read(&mut self, records: &mut Records) -> Result<bool, Failure> {
        let mut fields = Vec::new();
        let mut blank: Option<(u64, Vec<u8>)> = None;
        let mut count = 0_u64;
        loop {
            if self.search.follow.is_some() && records.has_to_wait(&mut fields) {
                self.search_what_came()?;
                if self.answering.has_enough() || self.answering.has_ended() {
                    return Ok(!self.answering.has_enough());
                }
            }
            let taken = records.taken;
            let Some(record) = reading::record(&self.search.rows, records, &mut fields)? else {
                return Ok(true);
            };
            count = count.wrapping_add(1);
            if count & 0xFFFF == 0 {
                self.progress.at(taken, self.partitions.rows);
            }
            if record.is_blank() {
                // Empty lines may stand behind the last row only.
                blank.get_or_insert((record.line, record.bytes.to_vec()));
                self.partitions.skip();
                continue;
            }
            if let Some((line, bytes)) = &blank {
                return Err(blank_line(&self.search.rows, *line, bytes));
            }
            let added = self.partitions.add(&record, &mut self.answering);
            let ready = added.map_err(|added| failure(self.search, added))?;
            if !ready.is_empty() {
                self.write(&ready)?;
            }
            if self.answering.has_enough() {
                return Ok(false);
            }
            if self.partitions.only_one_is_too_large() && self.is_not_worth_counting() {
                return Err(self.answering.refuse_all());
            }
        }
    }

    /// Searches the rows that have come since the last time, and tells the matches that are new.
    fn search_what_came(&mut self) -> Result<(), Failure> {
        self.progress.end();
        while let Some(partition) = self.partitions.next_with_rows() {
            let ready = self.answering.search_on(partition)?;
            self.write(&ready)?;
            if self.answering.has_enough() {
                break;
            }
        }
        // The head of a CSV file has to be there as well.
        self.out.flush(self.answering.tally.stopped)
    }

    /// Whether the rest of a file is too long, or may be, to be read only to count its rows.
    fn is_not_worth_counting(&self) -> bool {
        let short = self.length.is_some_and(|length| length < LARGE_FILE);
        // What is followed is searched first up to the last row that a search takes.
        !short && self.search.follow.is_none()
    }

    /// Answers what is still open.
    fn close_all(&mut self) -> Result<(), Failure> {
        loop {
            let ended = self.partitions.end(&mut self.answering);
            match ended.map_err(|added| failure(self.search, added))? {
                Some(ready) => self.write(&ready)?,
                None => return Ok(()),
            }
            if self.answering.has_enough() {
                return Ok(());
            }
        }
    }

    /// Writes; what comes of a pipe by and by is not held back.
    fn write(&mut self, bytes: &[u8]) -> Result<(), Failure> {
        let stopped = self.answering.tally.stopped;
        self.out.write(bytes, stopped)?;
        let comes_by_and_by = self.length.is_none() && self.search.grouped;
        match comes_by_and_by || self.search.follow.is_some() {
            true => self.out.flush(stopped),
            false => Ok(()),
        }
    }
}

fn failure(search: &Search, added: Added<Answering<'_>>) -> Failure {
    match added {
        Added::Fault(fault, line) => Failure::rows(&search.rows, fault, line),
        Added::Close(failure) => failure,
    }
}
