//! Answers: each partition is searched, whole or while its rows come, and told as a table, as JSON or
//! as CSV, or only counted, in all or by depots and months. What the whole comes to is kept in a
//! [`Tally`], from which the exit status follows.

mod csv;
mod depots;
mod follow;
mod json;
mod table;

use std::path::Path;

pub use depots::Counting;
use follow::Feeds;

use mireladle::text::screen::visible;
use mireladle::text::QueryText;
use mireladle::{Ending, Error, Query, Report, Rows};

use crate::arguments::{Answer, Place, Search, Searcher};
use crate::columns::Layout;
use crate::explain::Explained;
use crate::failure::{named, refused, Failure, STOPPED, WRONG};
use crate::input::{fields_of, Record};
use crate::partitions::{Close, Partition, MOST_ROWS};
use crate::program::{self, Failed};
use crate::terminal::{grouped, tell, Style};

/// The exit status of at least one match.
pub const MATCH: u8 = 0;
/// The exit status of no match.
const NO_MATCH: u8 = 1;

/// What all searches came to.
#[derive(Default)]
pub struct Tally {
    pub matches: u64,
    pub partitions: u64,
    pub with_matches: u64,
    pub refused: bool,
    pub stopped: bool,
}

impl Tally {
    fn status(&self) -> u8 {
        match self {
            Tally { refused: true, .. } => WRONG,
            Tally { stopped: true, .. } => STOPPED,
            Tally { matches: 0, .. } => NO_MATCH,
            _ => MATCH,
        }
    }
}

/// The query's text, where it comes from, and what it means.
pub struct Asked {
    pub path: String,
    pub source: String,
    pub text: QueryText,
}

/// What searches and tells.
pub struct Answering<'a> {
    pub search: &'a Search,
    pub asked: &'a Asked,
    pub layout: &'a Layout,
    pub style: Style,
    query: Option<Query>,
    /// The table of depots by months, where that is asked for.
    counting: Option<Counting>,
    /// The searches that go on, where rows are followed.
    feeds: Feeds,
    pub tally: Tally,
}

/// One partition that was searched.
struct Searched<'a> {
    partition: &'a Partition,
    report: &'a Report,
    rows: usize,
}

impl<'a> Answering<'a> {
    /// Has the library judge the query first.
    pub fn new(
        search: &'a Search,
        asked: &'a Asked,
        layout: &'a Layout,
        style: Style,
        counting: Option<Counting>,
    ) -> Result<Answering<'a>, Failure> {
        let query = match search.by {
            Searcher::Program(_) => None,
            Searcher::Library(_) if search.answer == Answer::Bytes => None,
            Searcher::Library(_) => {
                let query = Query::from_bytes(asked.text.builder.to_bytes());
                Some(query.map_err(|error| Self::refusal(asked, error))?)
            }
        };
        let parted = !layout.partition.is_empty();
        if let (Answer::Explain(Place::Row(row)), true) = (search.answer, parted) {
            return Err(Failure::Option(format!(
                "--explain {row}: each partition has its own rows; name one by the line where it \
                 begins, as --explain line=N"
            )));
        }
        Ok(Answering {
            search,
            asked,
            layout,
            style,
            query,
            counting,
            feeds: Feeds::default(),
            tally: Tally::default(),
        })
        .and_then(Answering::can_follow)
    }

    fn refusal(asked: &Asked, error: Error) -> Failure {
        refused(error, &asked.path, &asked.source, &asked.text)
    }

    /// Whether records have to be kept to be told.
    pub fn keeps_records(search: &Search, text: &QueryText) -> bool {
        let rows = search.rows_of_matches || text.all_rows;
        if search.depots.is_some() {
            return false;
        }
        match search.answer {
            Answer::Table if search.follow.is_some() => rows,
            Answer::Table | Answer::Explain(_) => true,
            Answer::Json | Answer::Csv => rows,
            Answer::Count | Answer::Quiet | Answer::Bytes => false,
        }
    }

    /// Whether each row of a match is told.
    fn tells_rows(&self) -> bool {
        self.search.rows_of_matches || self.asked.text.all_rows
    }

    /// Whether the answer is known before the end of the file.
    pub fn has_enough(&self) -> bool {
        self.search.answer == Answer::Quiet && self.tally.matches > 0
    }

    /// The exit status: of several that apply the worst, but where only a match is asked for, that.
    pub fn status(&self) -> u8 {
        match self.has_enough() {
            true => MATCH,
            false => self.tally.status(),
        }
    }

    /// What stands in front of all partitions.
    pub fn head(&self) -> Vec<u8> {
        if self.counting.is_some() {
            return Vec::new();
        }
        match (self.search.answer, self.tells_rows()) {
            (Answer::Csv, false) => csv::match_head(self),
            (Answer::Csv, true) => csv::row_head(self),
            _ => Vec::new(),
        }
    }

    /// What stands behind all partitions.
    pub fn foot(&self) -> Vec<u8> {
        if let Some(counting) = &self.counting {
            return counting.told(self);
        }
        match self.search.answer {
            Answer::Table if !self.layout.partition.is_empty() => table::foot(&self.tally),
            Answer::Count => format!("{}\n", self.tally.matches).into_bytes(),
            _ => Vec::new(),
        }
    }

    /// Draws the table of depots by months, where that is asked for.
    pub fn draw(&self) -> Result<(), Failure> {
        let (Some(path), Some(counting)) = (&self.search.svg, &self.counting) else {
            return Ok(());
        };
        std::fs::write(path, counting.picture(self)).map_err(|error| Failure::File {
            path: path.clone(),
            error,
        })
    }

    /// Has a partition counted in the table of depots by months.
    fn count(&mut self, counting: &mut Counting, partition: &Partition) -> Result<(), Failure> {
        let columns = u8::try_from(self.layout.entries()).unwrap_or(u8::MAX);
        let other = Error::OtherLibrary { answer: 0 };
        let query = self.query.as_ref().ok_or(other);
        let taken = query.and_then(|query| counting.take(query, partition, columns));
        let taken = taken.map_err(|error| Self::refusal(self.asked, error))?;
        self.tally.matches = self.tally.matches.saturating_add(taken.matches);
        self.tally.refused |= taken.refused;
        self.tally.stopped |= taken.stopped;
        Ok(())
    }

    /// The report of a partition.
    fn report(&self, partition: &Partition) -> Result<Report, Failure> {
        let columns = u8::try_from(self.layout.entries()).unwrap_or(u8::MAX);
        match (&self.search.by, &self.query) {
            (Searcher::Library(limits), Some(query)) => {
                let rows = Rows::new(&partition.entries, columns);
                let report = query.search_within(rows, *limits);
                report.map_err(|error| Self::refusal(self.asked, error))
            }
            (Searcher::Program(path), _) => self.by_program(path, partition),
            (Searcher::Library(_), None) => {
                Err(Self::refusal(self.asked, Error::OtherLibrary { answer: 0 }))
            }
        }
    }

    fn by_program(&self, path: &Path, partition: &Partition) -> Result<Report, Failure> {
        let input = self.program_input(partition);
        let text = &self.asked.text;
        let searched = program::search(path, input, text.titles.len(), text.skip);
        searched.map_err(|failed| match failed {
            Failed::Refused(error) => Self::refusal(self.asked, error),
            other => Failure::Program {
                path: path.to_path_buf(),
                reason: other.reason(),
            },
        })
    }

    /// The standard input of the program `mireladle`: the query's length in 2 bytes, the query, the
    /// entries in 4 bytes each.
    fn program_input(&self, partition: &Partition) -> Vec<u8> {
        let query = self.asked.text.builder.to_bytes();
        // What the reader lets through is far shorter than that.
        let length = u16::try_from(query.len()).unwrap_or(u16::MAX);
        let mut bytes = length.to_le_bytes().to_vec();
        bytes.extend_from_slice(&query);
        let entries = partition.entries.iter();
        bytes.extend(entries.flat_map(|entry| entry.to_le_bytes()));
        bytes
    }

    /// A partition by its name: `bus=17, day=3`.
    fn name(&self, partition: &Partition) -> String {
        self.named_by(&partition.values)
    }

    /// A partition's name by the values of the columns that part the rows.
    fn named_by(&self, values: &[Vec<u8>]) -> String {
        let named = self.layout.partition.iter().zip(values);
        let part = |(column, value): (&usize, &Vec<u8>)| {
            let name = self.layout.names.get(*column).map_or("", String::as_str);
            format!("{name}={}", String::from_utf8_lossy(value))
        };
        let parts: Vec<String> = named.map(part).collect();
        visible(&parts.join(", "))
    }

    /// Why a partition is refused, and what to do about it.
    fn too_large(&self, partition: &Partition, more_to_come: bool) -> String {
        let path = named(&self.search.rows);
        let more = if more_to_come { "more than " } else { "" };
        let count = match more_to_come {
            true => MOST_ROWS,
            false => partition.count,
        };
        let (what, how) = match self.layout.partition.is_empty() {
            true => (path, String::from("part it by --partition-by COLUMN")),
            false => {
                let columns = self.layout.partition.iter();
                let names = columns.filter_map(|column| self.layout.names.get(*column).cloned());
                let names: Vec<String> = names.collect();
                let how = format!(
                    "part it further, by --partition-by {},COLUMN",
                    names.join(",")
                );
                (format!("{} of {path}", self.name(partition)), visible(&how))
            }
        };
        format!(
            "refused 10: {what} has {more}{} rows, and a search takes at most 4,096; {how}, such \
             as a day, or search a part of the file",
            grouped(count)
        )
    }

    /// The refusal of rows that are not parted, where not all of them were read.
    pub fn refuse_all(&self) -> Failure {
        Failure::Rows(self.too_large(&Partition::default(), true))
    }

    /// Tells what stopped a search, where the answer has no place for it.
    fn tell_stopped(&self, searched: &Searched<'_>) {
        let in_table = self.search.follow.is_none() && !self.tells_rows();
        if self.search.answer == Answer::Table && in_table {
            return;
        }
        let name = match self.layout.partition.is_empty() {
            true => named(&self.search.rows),
            false => self.name(searched.partition),
        };
        let why = table::stopped(self, searched);
        tell(&format!("{name}: {}", why.trim_end_matches(": ")));
    }

    /// What is told of a row, where the partition has it.
    fn explain(&mut self, partition: &Partition, place: Place) -> Result<Vec<u8>, Failure> {
        let row = match place {
            Place::Row(row) => usize::try_from(row).ok(),
            Place::Line(line) => partition.lines.iter().position(|it| *it == line),
        };
        let Some(row) = row.filter(|row| *row < partition.lines.len()) else {
            return Ok(Vec::new());
        };
        let Some(query) = &self.query else {
            return Ok(Vec::new());
        };
        let columns = u8::try_from(self.layout.entries()).unwrap_or(u8::MAX);
        let explained = Explained {
            query,
            layout: self.layout,
            rows: Rows::new(&partition.entries, columns),
            row,
        };
        let letters = explained.letters();
        let letters = letters.map_err(|error| Self::refusal(self.asked, error))?;
        self.tally.matches = 1;
        let cells = table::row_cells(self, partition, row);
        let line = partition.lines.get(row).copied().unwrap_or(0);
        let name = match self.layout.partition.is_empty() {
            true => String::new(),
            false => format!("{}: ", self.name(partition)),
        };
        Ok(format!("{name}row {row}, line {line}: {cells}\n\n{letters}").into_bytes())
    }

    /// A row that was asked for and is nowhere is a failure; one that was refused was told.
    pub fn explained(&self) -> Result<(), Failure> {
        let Answer::Explain(place) = self.search.answer else {
            return Ok(());
        };
        if self.tally.matches > 0 || self.tally.refused {
            return Ok(());
        }
        let path = named(&self.search.rows);
        Err(Failure::Option(match place {
            Place::Row(row) => format!("--explain {row}: {path} has no such row"),
            Place::Line(line) => {
                format!("--explain line={line}: no row of {path} begins at that line")
            }
        }))
    }

    fn tell(&self, searched: &Searched<'_>) -> Vec<u8> {
        match (self.search.answer, self.tells_rows()) {
            (Answer::Table, false) if self.search.follow.is_some() => follow::lines(self, searched),
            (Answer::Table, false) => table::matches(self, searched),
            (Answer::Table, true) => table::rows(self, searched),
            (Answer::Json, false) => json::matches(self, searched),
            (Answer::Json, true) => json::rows(self, searched),
            (Answer::Csv, false) => csv::matches(self, searched),
            (Answer::Csv, true) => csv::rows(self, searched),
            (Answer::Count | Answer::Quiet | Answer::Bytes | Answer::Explain(_), _) => Vec::new(),
        }
    }
}

impl Close for Answering<'_> {
    type Error = Failure;

    fn close(&mut self, partition: Partition) -> Result<Vec<u8>, Failure> {
        self.tally.partitions = self.tally.partitions.saturating_add(1);
        if self.search.follow.is_some() {
            return self.search_to_end(partition);
        }
        if partition.count > MOST_ROWS {
            self.tally.refused = true;
            tell(&self.too_large(&partition, false));
        }
        if let Some(mut counting) = self.counting.take() {
            let counted = self.count(&mut counting, &partition);
            self.counting = Some(counting);
            return counted.map(|()| Vec::new());
        }
        if partition.count > MOST_ROWS {
            return Ok(Vec::new());
        }
        if self.search.answer == Answer::Bytes {
            // There is something to write: that counts as found.
            self.tally.matches = 1;
            return Ok(self.program_input(&partition));
        }
        if let Answer::Explain(place) = self.search.answer {
            return self.explain(&partition, place);
        }
        let report = self.report(&partition)?;
        let found = u64::try_from(report.len()).unwrap_or(u64::MAX);
        self.tally.matches = self.tally.matches.saturating_add(found);
        let with = u64::from(found > 0);
        self.tally.with_matches = self.tally.with_matches.saturating_add(with);
        let searched = Searched {
            partition: &partition,
            report: &report,
            rows: partition.lines.len(),
        };
        if report.ending() != Ending::Done {
            self.tally.stopped = true;
            self.tell_stopped(&searched);
        }
        Ok(self.tell(&searched))
    }
}

/// The cells of a row as they stand in the file.
fn cells_of(partition: &Partition, row: usize, delimiter: u8) -> Vec<Vec<u8>> {
    let bytes = partition.record(row);
    let fields = fields_of(bytes, delimiter);
    let record = Record {
        line: 0,
        bytes,
        fields: &fields,
    };
    let cell = |index| record.cell(index).into_owned();
    (0..fields.len()).map(cell).collect()
}

impl Searched<'_> {
    /// The cells of a row as they stand in the file.
    fn cells(&self, row: usize, delimiter: u8) -> Vec<Vec<u8>> {
        cells_of(self.partition, row, delimiter)
    }

    /// The line where a row stands; of one behind the last row the line behind it.
    fn line(&self, row: usize) -> u64 {
        self.partition.lines.get(row).copied().unwrap_or(0)
    }

    /// Each row of each match with the match's number and the row's label; of a match that takes no
    /// row the row where it was found, without label.
    fn labelled(&self) -> impl Iterator<Item = (usize, usize, Option<char>)> + '_ {
        self.report.matches().flat_map(|found| {
            let empty = found.is_empty().then_some((found.first_row(), None));
            let rows = found.labelled_rows().map(|(row, label)| (row, Some(label)));
            let number = found.number();
            rows.chain(empty)
                .map(move |(row, label)| (number, row, label))
        })
    }
}

/// Names that all differ: where one stands already, a number is put behind it.
fn distinct(names: impl IntoIterator<Item = String>) -> Vec<String> {
    let mut all: Vec<String> = Vec::new();
    for name in names {
        let numbered = (2..).map(|number: u32| format!("{name}_{number}"));
        let mut free = std::iter::once(name.clone()).chain(numbered);
        let name = free.find(|name| !all.contains(name)).unwrap_or(name);
        all.push(name);
    }
    all
}
