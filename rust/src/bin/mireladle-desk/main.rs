//! mireladle-desk: reads a CSV log of many buses and says of each whether it is cleared for the road.
//! It promises that no bus of the file is left out: one whose log cannot be judged is told as an
//! error, and a file with a line that cannot be given to a bus is refused as a whole. The exit status
//! is 0 where every bus is cleared, 1 where some is held or unreadable, 2 on wrong input, no bus, a
//! bus that is an error or an output that cannot be written, 141 where the reader of the output left
//! early. It never panics. Its weakness: a bus without a row in the file is not told. Tested in
//! tests/desk.rs.

#![deny(unsafe_code)]
#![cfg_attr(test, allow(clippy::restriction))]

mod arguments;
mod columns;
mod options;
// What another command alone uses is not dead: that command's build sees to it.
#[allow(dead_code)]
#[path = "../shared/mod.rs"]
mod shared;
mod verdicts;

use std::path::Path;
use std::process::ExitCode;

use arguments::{task, Format, Judge, Task};
use columns::Cells;
use failure::{named, Failure};
use input::{Record, Records, Source};
use options::COMMAND;
use output::Out;
use partitions::{Added, Closing, Handling, Partitions};
use reading::{blank_line, column_names, record, unread};
use shared::layout::{self, Layout};
use shared::{failure, input, output, partitions, reading, terminal};
use terminal::{tell, Progress, Style};
use verdicts::{Verdicts, CLEARED};

fn main() -> ExitCode {
    match task(std::env::args_os().skip(1)).and_then(run) {
        Ok(status) => ExitCode::from(status),
        Err(failure) => {
            if let Some(message) = failure.message(&COMMAND) {
                tell(&message);
            }
            ExitCode::from(failure.status())
        }
    }
}

/// Runs a task and gives the exit status.
fn run(task: Task) -> Result<u8, Failure> {
    match task {
        Task::About(about) => {
            output::print(&about.text(&COMMAND))?;
            Ok(CLEARED)
        }
        Task::Judge(mut judge) => answer(&mut judge),
    }
}

/// Reads the whole log, and only then tells the verdicts.
fn answer(judge: &mut Judge) -> Result<u8, Failure> {
    let path = judge.file.clone();
    let file = Source::open(&path).map_err(unread(&path))?;
    let mut records = file.records(judge.delimiter).map_err(unread(&path))?;
    let mut fields = Vec::new();
    let first = record(&path, &mut records, &mut fields)?;
    let (names, not_text) = column_names(&path, first.as_ref(), judge.header, judge.delimiter)?;
    let layout = columns::layout(names, judge).map_err(|failure| not_text.unwrap_or(failure))?;
    if let Some(record) = first.as_ref().filter(|_| judge.header) {
        layout::twice(&layout, &path, record)?;
    }
    if !judge.header {
        // The first line is a row.
        records.back();
    }
    let mut verdicts = Verdicts::default();
    let mut progress = Progress::new(file.length);
    let read = read(&path, &layout, &mut records, &mut verdicts, &mut progress);
    progress.end();
    read?;
    if verdicts.is_empty() {
        let name = named(&path);
        return Err(Failure::Rows(format!("{name}: expected rows, found none")));
    }
    let mut out = Out::new()?;
    out.write(&verdicts.told(judge.format, Style::new(judge.color)), false)?;
    out.flush(false)?;
    if judge.format == Format::Quiet {
        verdicts.errors().for_each(|error| tell(&error));
    }
    Ok(verdicts.status())
}

/// Reads all rows and judges each bus.
fn read(
    path: &Path,
    layout: &Layout<Cells>,
    records: &mut Records,
    verdicts: &mut Verdicts,
    progress: &mut Progress,
) -> Result<(), Failure> {
    let handling = Handling {
        keep_faults: true,
        ..Handling::default()
    };
    let mut partitions = Partitions::new(layout, Closing::AtEnd, handling);
    let mut fields = Vec::new();
    let mut blank: Option<(u64, Vec<u8>)> = None;
    loop {
        let taken = records.taken;
        let Some(record) = record(path, records, &mut fields)? else {
            break;
        };
        if partitions.rows & 0xFFFF == 0 {
            progress.at(taken, partitions.rows);
        }
        if record.is_blank() {
            // Empty lines may stand behind the last row only.
            blank.get_or_insert((record.line, record.bytes.to_vec()));
            continue;
        }
        if let Some((line, bytes)) = &blank {
            return Err(blank_line(path, *line, bytes));
        }
        of_some_bus(path, layout, &record)?;
        let added = partitions.add(&record, verdicts);
        added.map_err(|added| failure(path, added))?;
    }
    while partitions
        .end(verdicts)
        .map_err(|added| failure(path, added))?
        .is_some()
    {}
    Ok(())
}

/// Sees to it that a row tells its bus: one that does not may be any bus's last.
fn of_some_bus(path: &Path, layout: &Layout<Cells>, record: &Record<'_>) -> Result<(), Failure> {
    let bus = layout.partition.first().copied().unwrap_or(0);
    let expected = match (record.cell(bus).is_empty(), record.is_odd(bus)) {
        _ if record.fields.len() != layout.names.len() => return Ok(()),
        (true, _) => "a bus, since the row may be any bus's last",
        (_, true) => "nothing behind the closing quote",
        _ => return Ok(()),
    };
    let (fault, line) = record.fault(bus, expected);
    Err(Failure::rows(path, fault, line))
}

fn failure(path: &Path, added: Added<Verdicts>) -> Failure {
    match added {
        Added::Fault(fault, line) => Failure::rows(path, fault, line),
        Added::Close(failure) => failure,
    }
}
