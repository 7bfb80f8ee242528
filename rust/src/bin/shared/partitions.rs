//! The partitions of a file: rows that stand together or not are put together by the values of the
//! columns that part them, and each partition is handed on once no further row of it can come. That
//! is at the end of the file, or earlier: where the file is said to be grouped, when the next
//! partition begins; and where a large file was read once before, behind the partition's last row.
//! So the memory is that of the open partitions. What partitions come to is written in the order in
//! which they begin.

use std::collections::hash_map::DefaultHasher;
use std::collections::{HashMap, HashSet, VecDeque};
use std::hash::{Hash, Hasher};

use mireladle::text::cells::order_key;
use mireladle::text::{Fault, Seconds};

use super::input::{Record, Records};
use super::layout::{Layout, Reads};

/// The most rows that a search takes.
pub const MOST_ROWS: u64 = 4096;

/// The rows of one partition.
#[derive(Default)]
pub struct Partition {
    /// Its number, from 0, in the order in which partitions begin.
    pub number: u64,
    /// The cells of the columns that part the rows.
    pub values: Vec<Vec<u8>>,
    /// The entries, row by row; of rows that are taken in lots those that are not taken yet.
    pub entries: Vec<i32>,
    /// The line of each row.
    pub lines: Vec<u64>,
    /// How many rows there are; those beyond the most that a search takes are only counted.
    pub count: u64,
    /// The records as they stand in the file, where they are kept, and where each ends.
    kept: Vec<u8>,
    ends: Vec<usize>,
    /// The keys to sort by, where the rows are to be sorted.
    keys: Vec<Seconds>,
    last_key: Option<(Seconds, u64)>,
    /// The first fault in a row and that row's line, where faults are kept: then the entries are not
    /// all, and not to be used.
    pub fault: Option<(Fault, String)>,
    /// The number of its last record in the file, where that is known.
    last_record: Option<u64>,
}

impl Partition {
    /// A row's record, where records are kept.
    pub fn record(&self, row: usize) -> &[u8] {
        let start = row.checked_sub(1).and_then(|before| self.ends.get(before));
        let start = start.copied().unwrap_or(0);
        let end = self.ends.get(row).copied().unwrap_or(start);
        self.kept.get(start..end).unwrap_or(&[])
    }

    /// Forgets all rows, but not how many there are.
    pub fn forget_rows(&mut self) {
        (self.entries, self.lines) = (Vec::new(), Vec::new());
        (self.kept, self.ends) = (Vec::new(), Vec::new());
        self.keys = Vec::new();
    }

    /// Puts the rows into the order of their keys; equal ones stay as they stand.
    fn sort(&mut self, entries: usize) {
        let sorted = self.keys.windows(2).all(|two| match two {
            [one, other] => one <= other,
            _ => true,
        });
        if sorted {
            return;
        }
        let mut order: Vec<usize> = (0..self.lines.len()).collect();
        order.sort_by_key(|row| self.keys.get(*row).copied());
        let rows: Vec<&[i32]> = self.entries.chunks_exact(entries.max(1)).collect();
        let row = |at: &usize| rows.get(*at).copied().unwrap_or(&[]);
        let sorted: Vec<i32> = order.iter().flat_map(row).copied().collect();
        let lines = order.iter().filter_map(|at| self.lines.get(*at).copied());
        let lines = lines.collect();
        let (mut kept, mut ends) = (Vec::with_capacity(self.kept.len()), Vec::new());
        if !self.ends.is_empty() {
            for at in &order {
                kept.extend_from_slice(self.record(*at));
                ends.push(kept.len());
            }
        }
        (self.entries, self.lines) = (sorted, lines);
        (self.kept, self.ends) = (kept, ends);
    }
}

/// When a partition is handed on.
pub enum Closing {
    /// At the end of the file.
    AtEnd,
    /// When the next begins: one that begins again is a fault.
    AtNext,
    /// Behind its last record, by the hash of its values.
    Known(HashMap<u64, u64>),
}

/// What a partition comes to.
enum Slot {
    Open(Box<Partition>),
    Done(Vec<u8>),
}

/// What is done with a partition that is whole: the bytes that it comes to.
pub trait Close {
    type Error;
    fn close(&mut self, partition: Partition) -> Result<Vec<u8>, Self::Error>;
}

/// What becomes of rows.
#[derive(Clone, Copy, Default)]
pub struct Handling {
    /// They are sorted, and not only checked for their order.
    pub sort: bool,
    /// Their records are kept.
    pub keep_records: bool,
    /// A fault in one is kept with its partition, and does not end the reading.
    pub keep_faults: bool,
    /// They are taken in lots, as they come, from the partitions that [`Partitions::next_with_rows`]
    /// tells.
    pub in_lots: bool,
    /// What is said behind the fault of one that is out of order.
    pub advice: &'static str,
}

/// The partitions that are open, and those that wait for an earlier one.
pub struct Partitions<'a, R> {
    layout: &'a Layout<R>,
    closing: Closing,
    handling: Handling,
    open: HashMap<Vec<u8>, u64>,
    closed: HashSet<u64>,
    slots: VecDeque<Slot>,
    /// The number of the first slot, from 0.
    first: u64,
    /// The slots with rows that are not taken yet, where they are taken in lots.
    with_rows: VecDeque<u64>,
    /// The values of the record at hand, and those of the one before with its slot.
    key: Vec<u8>,
    current_key: Vec<u8>,
    current: Option<u64>,
    records: u64,
    /// Rows that were read.
    pub rows: u64,
}

impl<'a, R: Reads> Partitions<'a, R> {
    pub fn new(layout: &'a Layout<R>, closing: Closing, handling: Handling) -> Partitions<'a, R> {
        Partitions {
            layout,
            closing,
            handling,
            open: HashMap::new(),
            closed: HashSet::new(),
            slots: VecDeque::new(),
            first: 0,
            with_rows: VecDeque::new(),
            key: Vec::new(),
            current_key: Vec::new(),
            current: None,
            records: 0,
            rows: 0,
        }
    }

    /// One more record. The bytes are those that can be written now.
    pub fn add<C: Close>(
        &mut self,
        record: &Record<'_>,
        close: &mut C,
    ) -> Result<Vec<u8>, Added<C>> {
        self.records = self.records.saturating_add(1);
        self.rows = self.rows.saturating_add(1);
        self.check(record)?;
        let mut ready = Vec::new();
        let slot = self.slot(record, close, &mut ready)?;
        let last = self.put(record, slot)?;
        if last {
            self.current = None;
            self.open.remove(&self.key);
            self.close_slot(slot, close, &mut ready)?;
        }
        Ok(ready)
    }

    /// A record that is no row.
    pub fn skip(&mut self) {
        self.records = self.records.saturating_add(1);
    }

    /// The count of its fields is checked of every record: one that is shifted must not be read.
    fn check<C: Close>(&self, record: &Record<'_>) -> Result<(), Added<C>> {
        let (wanted, found) = (self.layout.names.len(), record.fields.len());
        if wanted == found {
            return Ok(());
        }
        let expected = format!("as many entries as there are names, {wanted}");
        let (mut fault, line) = record.fault(wanted, expected);
        fault.found = match (record.is_blank(), found > wanted) {
            (true, _) => String::from("an empty line"),
            (_, true) => String::from("more"),
            _ => found.to_string(),
        };
        Err(Added::Fault(fault, line))
    }

    /// The number of the slot of a record's partition, which is opened if there is none yet.
    fn slot<C: Close>(
        &mut self,
        record: &Record<'_>,
        close: &mut C,
        ready: &mut Vec<u8>,
    ) -> Result<u64, Added<C>> {
        key_of(record, &self.layout.partition, &mut self.key);
        if let Some(slot) = self.current.filter(|_| self.current_key == self.key) {
            return Ok(slot);
        }
        if matches!(self.closing, Closing::AtNext) {
            self.close_current(record, close, ready)?;
        }
        let next = self.first.saturating_add(count(self.slots.len()));
        let slot = match self.open.get(&self.key) {
            Some(slot) => *slot,
            None => {
                self.open.insert(self.key.clone(), next);
                self.slots
                    .push_back(Slot::Open(Box::new(self.begun(record, next))));
                next
            }
        };
        self.current_key.clone_from(&self.key);
        self.current = Some(slot);
        Ok(slot)
    }

    /// Closes the partition before, where a file is grouped, once it is seen that the record's was
    /// not closed yet.
    fn close_current<C: Close>(
        &mut self,
        record: &Record<'_>,
        close: &mut C,
        ready: &mut Vec<u8>,
    ) -> Result<(), Added<C>> {
        if self.closed.contains(&hash(&self.key)) {
            let column = self.layout.partition.first().copied().unwrap_or(0);
            let expected = "rows of one partition together, as --grouped says";
            let (mut fault, line) = record.fault(column, expected);
            fault.found = format!("{} once more", fault.found);
            return Err(Added::Fault(fault, line));
        }
        let Some(slot) = self.current.take() else {
            return Ok(());
        };
        self.open.remove(&self.current_key);
        self.closed.insert(hash(&self.current_key));
        self.close_slot(slot, close, ready)
    }

    /// A partition that begins with this record.
    fn begun(&self, record: &Record<'_>, number: u64) -> Partition {
        let cell = |column: &usize| record.cell(*column).into_owned();
        Partition {
            number,
            values: self.layout.partition.iter().map(cell).collect(),
            last_record: match &self.closing {
                Closing::Known(last) => last.get(&hash(&self.key)).copied(),
                _ => None,
            },
            ..Partition::default()
        }
    }

    /// Puts a record into an open partition, and tells whether it is its last.
    fn put<C: Close>(&mut self, record: &Record<'_>, slot: u64) -> Result<bool, Added<C>> {
        let at = usize::try_from(slot.saturating_sub(self.first)).unwrap_or(usize::MAX);
        let Some(Slot::Open(partition)) = self.slots.get_mut(at) else {
            return Ok(false);
        };
        partition.count = partition.count.saturating_add(1);
        let first_too_many = partition.count == MOST_ROWS.saturating_add(1);
        if self.handling.in_lots && partition.entries.is_empty() {
            // One that gets too large is told once; its further rows are nobody's.
            if partition.count <= MOST_ROWS || first_too_many {
                self.with_rows.push_back(slot);
            }
        }
        if partition.count <= MOST_ROWS && partition.fault.is_none() {
            let row = Row {
                layout: self.layout,
                record,
                handling: self.handling,
            };
            match row.append(partition) {
                Ok(()) => {}
                Err(fault) if self.handling.keep_faults => partition.fault = Some(fault),
                Err((fault, line)) => return Err(Added::Fault(fault, line)),
            }
        } else if first_too_many && !self.handling.in_lots {
            // Only counted from here on.
            partition.forget_rows();
        }
        Ok(partition.last_record == Some(self.records))
    }

    /// Hands a partition on; what it comes to is ready where no earlier one is open.
    fn close_slot<C: Close>(
        &mut self,
        slot: u64,
        close: &mut C,
        ready: &mut Vec<u8>,
    ) -> Result<(), Added<C>> {
        let at = usize::try_from(slot.saturating_sub(self.first)).unwrap_or(usize::MAX);
        if let Some(place) = self.slots.get_mut(at) {
            if let Slot::Open(partition) = place {
                let mut partition = std::mem::take(&mut **partition);
                if self.handling.sort {
                    partition.sort(self.layout.entries());
                }
                let bytes = close.close(partition).map_err(Added::Close)?;
                *place = Slot::Done(bytes);
            }
        }
        while let Some(Slot::Done(bytes)) = self.slots.front_mut() {
            match ready.is_empty() {
                true => *ready = std::mem::take(bytes),
                false => ready.append(bytes),
            }
            self.slots.pop_front();
            self.first = self.first.saturating_add(1);
        }
        Ok(())
    }

    /// Hands on one partition that is still open at the end of the file: the first. None where
    /// there is none.
    pub fn end<C: Close>(&mut self, close: &mut C) -> Result<Option<Vec<u8>>, Added<C>> {
        if self.slots.is_empty() {
            return Ok(None);
        }
        let mut ready = Vec::new();
        self.close_slot(self.first, close, &mut ready)?;
        Ok(Some(ready))
    }

    /// The next partition with rows that are not taken yet, where they are taken in lots: each once,
    /// in the order of their first such rows.
    pub fn next_with_rows(&mut self) -> Option<&mut Partition> {
        while let Some(slot) = self.with_rows.pop_front() {
            // One that was closed meanwhile has handed on its rows.
            let at = slot.checked_sub(self.first);
            let at = at.and_then(|at| usize::try_from(at).ok());
            let open = |slot: &Slot| matches!(slot, Slot::Open(_));
            if at.and_then(|at| self.slots.get(at)).is_some_and(open) {
                return match self.slots.get_mut(at?) {
                    Some(Slot::Open(partition)) => Some(partition),
                    _ => None,
                };
            }
        }
        None
    }

    /// Where the rows are not parted there is one partition, also without rows.
    pub fn at_least_one(&mut self) {
        if self.layout.partition.is_empty() && self.rows == 0 {
            self.slots.push_back(Slot::Open(Box::default()));
        }
    }

    /// Whether the only partition is already larger than a search takes.
    pub fn only_one_is_too_large(&self) -> bool {
        self.layout.partition.is_empty() && self.rows > MOST_ROWS
    }
}

/// Why a record could not be added.
pub enum Added<C: Close> {
    Fault(Fault, String),
    Close(C::Error),
}

fn count(length: usize) -> u64 {
    u64::try_from(length).unwrap_or(u64::MAX)
}

/// A row that is put into its partition.
struct Row<'a, 'b, R> {
    layout: &'a Layout<R>,
    record: &'a Record<'b>,
    handling: Handling,
}

impl<R: Reads> Row<'_, '_, R> {
    fn append(&self, partition: &mut Partition) -> Result<(), (Fault, String)> {
        let record = self.record;
        if let Some(column) = self.layout.order {
            self.order(column, partition)?;
        }
        if self.layout.query.is_empty() {
            partition.entries.push(0);
        }
        for (column, reads) in &self.layout.query {
            if record.is_odd(*column) {
                return Err(record.fault(*column, "nothing behind the closing quote"));
            }
            let name = self.layout.names.get(*column);
            let name = name.map_or("", String::as_str);
            let read = reads.read(name, &record.cell(*column));
            let entry = read.map_err(|(expected, advice)| {
                let (mut fault, line) = record.fault(*column, expected);
                fault.found.push_str(&advice);
                (fault, line)
            })?;
            partition.entries.push(entry);
        }
        partition.lines.push(record.line);
        if self.handling.keep_records {
            partition.kept.extend_from_slice(record.bytes);
            partition.ends.push(partition.kept.len());
        }
        Ok(())
    }

    /// Sees to it that the row is not before the one before it, or notes where it has to go.
    fn order(&self, column: usize, partition: &mut Partition) -> Result<(), (Fault, String)> {
        let record = self.record;
        let key = order_key(&record.cell(column));
        let expected = "a whole number, a date or a time to order the rows by";
        let key = key.ok_or_else(|| record.fault(column, expected))?;
        if self.handling.sort {
            partition.keys.push(key);
            return Ok(());
        }
        match partition.last_key {
            Some((last, line)) if key < last => {
                let name = self.layout.names.get(column);
                let name = name.map_or("", String::as_str);
                let expected = format!(
                    "rows in the order of `{name}`, and so nothing below that of line {line}{}",
                    self.handling.advice
                );
                Err(record.fault(column, expected))
            }
            _ => {
                partition.last_key = Some((key, record.line));
                Ok(())
            }
        }
    }
}

/// The values of the columns that part the rows, each with its length in front.
fn key_of(record: &Record<'_>, columns: &[usize], key: &mut Vec<u8>) {
    key.clear();
    for column in columns {
        let cell = record.cell(*column);
        key.extend_from_slice(&cell.len().to_le_bytes());
        key.extend_from_slice(&cell);
    }
}

fn hash(key: &[u8]) -> u64 {
    let mut hasher = DefaultHasher::new();
    key.hash(&mut hasher);
    hasher.finish()
}

/// Reads a file once to find out where each partition has its last record. A fault ends it: it is
/// told when the file is read again.
pub fn last_records(records: &mut Records, columns: &[usize], header: bool) -> Closing {
    let mut last = HashMap::new();
    let (mut fields, mut key, mut current) = (Vec::new(), Vec::new(), Vec::new());
    let mut number = 0_u64;
    if header {
        let _ = records.next(&mut fields);
    }
    while let Ok(Some(record)) = records.next(&mut fields) {
        key_of(&record, columns, &mut key);
        if key != current && number > 0 {
            last.insert(hash(&current), number);
        }
        std::mem::swap(&mut key, &mut current);
        number = number.saturating_add(1);
    }
    last.insert(hash(&current), number);
    Closing::Known(last)
}
