//! The depot-by-month table (document 02, R-4). What is kept is the list of reports, one
//! for each partition that has a number; table and list of entries are told from it anew
//! each time, and so are the words of a state and the numbers of a list that hold them.

use crate::query;
use crate::search::{self, Buffers, Outcome, DONE};

pub const DEPOTS: i32 = 64;
pub const MONTHS: i32 = 12;
pub const MOST_PARTITIONS: u64 = 65_535;
/// A partition that gets no number.
pub const NO_NUMBER: u8 = 20;

/// Where the words of a state lie: the cells, depot by depot, then the one called outside,
/// the partitions with a number, the numbers of the list that are used, and the two
/// named columns.
pub const OUTSIDE: usize = (DEPOTS * MONTHS) as usize;
pub const PARTITIONS: usize = OUTSIDE + 1;
pub const LISTED: usize = OUTSIDE + 2;
pub const DEPOT: usize = OUTSIDE + 3;
pub const MONTH: usize = OUTSIDE + 4;
pub const WORDS: usize = OUTSIDE + 5;

/// Numbers of one entry.
pub const ENTRY: usize = 2;

/// So many partitions with one and the same report, numbered one behind the other.
#[derive(Clone, Debug, PartialEq, Eq)]
pub struct Report {
    pub times: u64,
    pub answer: u8,
    /// Depot and month in the first row of each match; of a stopped one, of those that
    /// were found by then.
    pub firsts: Vec<(i32, i32)>,
}

/// All that was reported to one table, and the columns named for it.
#[derive(Clone, Debug, PartialEq, Eq)]
pub struct Reports {
    pub depot: u64,
    pub month: u64,
    pub all: Vec<Report>,
}

impl Reports {
    pub fn new(depot: u64, month: u64) -> Reports {
        let all = Vec::new();
        Reports { depot, month, all }
    }

    /// How many partitions have a number.
    pub fn partitions(&self) -> u64 {
        self.all.iter().map(|report| report.times).sum()
    }

    /// Takes one partition in: searched, and reported where it gets a number.
    pub fn take(&mut self, list: usize, query: &[u8], rows: &[i32], lent: Buffers) -> Outcome {
        if self.partitions() == MOST_PARTITIONS {
            return without_number();
        }
        let (outcome, firsts) = self.search(query, rows, lent);
        if outcome.answer != DONE && self.entries().len() + ENTRY > list {
            return without_number();
        }
        self.add(outcome.answer, firsts);
        outcome
    }

    /// The search, unless a named column is outside the shape: that is a field outside its
    /// values, so 3, behind 1 and 2. With it depot and month of each match found.
    fn search(
        &self,
        query: &[u8],
        rows: &[i32],
        (notes, trail, numbers, labels): Buffers,
    ) -> (Outcome, Vec<(i32, i32)>) {
        let read = match query::read(query) {
            Ok(read) => read,
            Err(answer) => return (Outcome::refused(query, answer), Vec::new()),
        };
        let columns = read.columns;
        if self.depot.max(self.month) >= columns as u64 {
            return (Outcome::refused(query, 3), Vec::new());
        }
        let outcome = search::search(query, rows, notes, trail, numbers, labels);
        let per_match = 3 + 2 * read.measures.len();
        let matches = numbers
            .chunks(per_match)
            .take(outcome.matches as usize)
            .map(|written| {
                let first_row = written[1] as usize * columns;
                let entry = |column| rows[first_row + column as usize];
                (entry(self.depot), entry(self.month))
            });
        (outcome, matches.collect())
    }

    fn add(&mut self, answer: u8, firsts: Vec<(i32, i32)>) {
        match self.all.last_mut() {
            Some(last) if last.answer == answer && last.firsts == firsts => last.times += 1,
            _ => self.all.push(Report {
                times: 1,
                answer,
                firsts,
            }),
        }
    }

    /// The cells: of all reports that ended as done, the matches that belong there.
    pub fn cells(&self) -> Vec<u64> {
        let mut cells = vec![0; OUTSIDE + 1];
        for report in self.all.iter().filter(|report| report.answer == DONE) {
            for &(depot, month) in &report.firsts {
                cells[place(depot, month)] += report.times;
            }
        }
        cells
    }

    /// Number and answer of each partition that was refused or stopped.
    pub fn entries(&self) -> Vec<u32> {
        let mut entries = Vec::new();
        let mut number = 0;
        for report in &self.all {
            let numbers = number + 1..=number + report.times;
            number += report.times;
            if report.answer != DONE {
                entries.extend(numbers.flat_map(|it| [it as u32, report.answer.into()]));
            }
        }
        entries
    }

    /// All words of a state that holds this.
    pub fn words(&self) -> Vec<u64> {
        let mut words = self.cells();
        words.push(self.partitions());
        words.push(self.entries().len() as u64);
        words.extend([self.depot, self.month]);
        words
    }

    /// Writes state and list; what lies behind the words and the entries stays.
    pub fn write(&self, state: &mut [u64], list: &mut [u32]) {
        state[..WORDS].copy_from_slice(&self.words());
        let entries = self.entries();
        list[..entries.len()].copy_from_slice(&entries);
    }
}

/// The cell of a depot and a month.
pub fn place(depot: i32, month: i32) -> usize {
    match (0..DEPOTS).contains(&depot) && (1..=MONTHS).contains(&month) {
        true => (depot * MONTHS + month - 1) as usize,
        false => OUTSIDE,
    }
}

/// 20 and zeros.
fn without_number() -> Outcome {
    Outcome {
        answer: NO_NUMBER,
        matches: 0,
        labels: 0,
        steps: 0,
        offset: 0,
    }
}

/// Begins a table in a state that is long enough: 0, otherwise 20 without change.
pub fn begin(state: &mut [u64], depot: u64, month: u64) -> u8 {
    if state.len() < WORDS {
        return NO_NUMBER;
    }
    Reports::new(depot, month).write(state, &mut []);
    DONE
}
