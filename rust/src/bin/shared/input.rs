//! Rows as they are read: a file, one that grows, or standard input, record by record, in memory for
//! one record at a time. A record is a line, or several where a quoted field goes over line ends; lines end in LF, CR
//! LF or CR alone. Fields are parted by a byte and may be quoted. Nothing is judged of a field but
//! where it ends, so that columns which nobody asks for may hold anything, text of any encoding and
//! bytes of any value. Its weakness: an opening quote that is never closed takes the rest of the
//! file into its field, up to the longest record, and is told only then.

use std::borrow::Cow;
use std::fs::File;
use std::io::{self, ErrorKind, Read, Seek, SeekFrom};
use std::path::Path;

use mireladle::text::screen::shown;
use mireladle::text::Fault;

use super::growing::{Growing, Writer};

/// Bytes that are read at once.
const CHUNK: usize = 1 << 18;
/// A record is no longer and has no more fields, so that a file without line ends does not fill the
/// memory.
const LONGEST_RECORD: usize = 1 << 24;
const MOST_FIELDS: usize = 1 << 14;

/// One field of a record: its bytes, without quotes.
#[derive(Clone, Copy, Debug, PartialEq, Eq)]
pub struct Field {
    start: usize,
    end: usize,
    /// Whether a quote stands in it twice for once.
    escaped: bool,
    /// Where something stands behind its closing quote.
    odd: bool,
}

/// One record with the line where it begins, from 1.
#[derive(Clone, Copy)]
pub struct Record<'a> {
    pub line: u64,
    pub bytes: &'a [u8],
    pub fields: &'a [Field],
}

impl<'a> Record<'a> {
    /// Whether it is an empty line.
    pub fn is_blank(&self) -> bool {
        self.bytes.iter().all(u8::is_ascii_whitespace)
    }

    /// A field's content, without spaces around it.
    pub fn cell(&self, index: usize) -> Cow<'a, [u8]> {
        let Some(field) = self.fields.get(index) else {
            return Cow::Borrowed(&[]);
        };
        let bytes = self.bytes.get(field.start..field.end).unwrap_or(&[]);
        match field.escaped {
            true => Cow::Owned(unescaped(bytes)),
            false => Cow::Borrowed(trimmed(bytes)),
        }
    }

    /// Whether something stands behind a field's closing quote.
    pub fn is_odd(&self, index: usize) -> bool {
        self.fields.get(index).is_some_and(|field| field.odd)
    }

    /// The fault that something else was expected in place of a field, and its line.
    pub fn fault(&self, index: usize, expected: impl Into<String>) -> (Fault, String) {
        let found = String::from_utf8_lossy(&self.cell(index)).into_owned();
        let start = match self.fields.get(index) {
            Some(field) => field.start,
            None => self.bytes.len(),
        };
        self.fault_at(start, expected, shown(&found))
    }

    /// The fault at a byte of the record, and the line in which that lies.
    pub fn fault_at(
        &self,
        byte: usize,
        expected: impl Into<String>,
        found: impl Into<String>,
    ) -> (Fault, String) {
        let text = |bytes: &[u8]| String::from_utf8_lossy(bytes).into_owned();
        let before = text(self.bytes.get(..byte).unwrap_or(self.bytes));
        let behind = text(self.bytes.get(byte..).unwrap_or(&[]));
        // With a mark behind it the last line of the front is there, also where it is empty.
        let front = format!("{before}^");
        let lines = mireladle::text::lines(&front).count();
        let last = mireladle::text::lines(&front).last().unwrap_or("^");
        let column = last.chars().count();
        let rest = mireladle::text::lines(&behind).next().unwrap_or("");
        let line = usize::try_from(self.line).unwrap_or(usize::MAX);
        let line = line.saturating_add(lines).saturating_sub(1);
        let shown = format!("{}{rest}", last.strip_suffix('^').unwrap_or(last));
        (Fault::new(line, column, expected, found), shown)
    }
}

/// The bytes without spaces at their ends.
fn trimmed(mut bytes: &[u8]) -> &[u8] {
    while let [b' ' | b'\t', rest @ ..] = bytes {
        bytes = rest;
    }
    while let [rest @ .., b' ' | b'\t'] = bytes {
        bytes = rest;
    }
    bytes
}

fn unescaped(bytes: &[u8]) -> Vec<u8> {
    let mut content = Vec::with_capacity(bytes.len());
    let mut quote = false;
    for byte in bytes {
        quote = *byte == b'"' && !quote;
        if !quote {
            content.push(*byte);
        }
    }
    content
}

/// Why there is no further record.
pub enum Stop {
    Io(io::Error),
    Fault(Fault, String),
}

/// The records of a source.
pub struct Records {
    source: Box<dyn Read>,
    buffer: Vec<u8>,
    at: usize,
    filled: usize,
    ended: bool,
    delimiter: u8,
    line: u64,
    /// Where the record before began, and its line.
    before: (usize, u64),
    /// Bytes that were read.
    pub taken: u64,
}

/// A file of rows, or standard input.
pub struct Source {
    file: Option<File>,
    /// Whether it is a file that can grow, and no pipe or terminal.
    pub can_grow: bool,
    /// The length of a file that can be read again.
    pub length: Option<u64>,
}

impl Source {
    /// Opens a file, or standard input for `-`.
    pub fn open(path: &Path) -> io::Result<Source> {
        if path.as_os_str() == "-" {
            return Ok(Source {
                file: None,
                can_grow: false,
                length: None,
            });
        }
        let file = File::open(path)?;
        let about = file.metadata()?;
        // A file of the system may say that it is empty, and is read like a pipe.
        let length = Some(about.len()).filter(|length| about.is_file() && *length > 0);
        Ok(Source {
            file: Some(file),
            can_grow: about.is_file(),
            length,
        })
    }

    /// Its records from the beginning on, as they come. A file that can grow ends once the process
    /// that writes it has ended, where that is known; all else ends where it ends.
    pub fn followed(&self, delimiter: u8, writer: Option<Writer>) -> io::Result<Records> {
        Ok(match &self.file {
            Some(file) if self.can_grow => {
                let file = file.try_clone()?;
                Records::new(Box::new(Growing::new(file, writer)), delimiter)
            }
            Some(file) => Records::new(Box::new(file.try_clone()?), delimiter),
            None => Records::new(Box::new(io::stdin()), delimiter),
        })
    }

    /// Its records from the beginning on; of a file that can be read again, so often as one likes,
    /// and not beyond the length that it had when it was opened.
    pub fn records(&self, delimiter: u8) -> io::Result<Records> {
        let source: Box<dyn Read> = match (&self.file, self.length) {
            (None, _) => Box::new(io::stdin()),
            (Some(file), None) => Box::new(file.try_clone()?),
            (Some(file), Some(length)) => {
                let mut file = file.try_clone()?;
                file.seek(SeekFrom::Start(0))?;
                Box::new(file.take(length))
            }
        };
        Ok(Records::new(source, delimiter))
    }
}

impl Records {
    fn new(source: Box<dyn Read>, delimiter: u8) -> Records {
        Records {
            source,
            buffer: vec![0; CHUNK],
            at: 0,
            filled: 0,
            ended: false,
            delimiter,
            line: 1,
            before: (0, 1),
            taken: 0,
        }
    }

    /// Whether the next record has to be waited for: what was read holds none that is whole.
    pub fn has_to_wait(&self, fields: &mut Vec<Field>) -> bool {
        let bytes = self.buffer.get(self.at..self.filled).unwrap_or(&[]);
        bytes.is_empty() || split(bytes, self.delimiter, self.ended, fields).is_none()
    }

    /// The next record; none behind the last. A mark of the encoding in front of all is left out.
    pub fn next<'a>(&'a mut self, fields: &'a mut Vec<Field>) -> Result<Option<Record<'a>>, Stop> {
        loop {
            if self.taken == 0 {
                self.fill()?;
                let front = self.buffer.get(..self.filled).unwrap_or(&[]);
                self.at = if front.starts_with(b"\xEF\xBB\xBF") {
                    3
                } else {
                    0
                };
            }
            let bytes = self.buffer.get(self.at..self.filled).unwrap_or(&[]);
            if bytes.is_empty() && self.ended {
                return Ok(None);
            }
            if let Some(split) = split(bytes, self.delimiter, self.ended, fields) {
                let start = self.at;
                let line = self.line;
                self.before = (start, line);
                self.at = start.saturating_add(split.length);
                self.line = line.saturating_add(split.lines);
                let end = start.saturating_add(split.content);
                let bytes = self.buffer.get(start..end).unwrap_or(&[]);
                match split.end {
                    End::Whole => {}
                    End::Open => return Err(self.unclosed(line, bytes, fields)),
                    End::Crowded => return Err(crowded(line, bytes)),
                }
                return Ok(Some(Record {
                    line,
                    bytes,
                    fields,
                }));
            }
            if bytes.len() >= LONGEST_RECORD {
                return Err(self.unclosed(self.line, bytes, fields));
            }
            self.read_on(bytes.len())?;
        }
    }

    /// Goes back to the record that was handed out last.
    pub fn back(&mut self) {
        (self.at, self.line) = self.before;
    }

    /// Reads on behind a part of a record of this length: of a long one until it is twice as long,
    /// since it is looked at from its beginning each time.
    fn read_on(&mut self, length: usize) -> Result<(), Stop> {
        let enough = match length > CHUNK {
            true => length.saturating_mul(2).min(LONGEST_RECORD),
            false => 0,
        };
        loop {
            self.fill()?;
            if self.ended || self.filled.saturating_sub(self.at) >= enough {
                return Ok(());
            }
        }
    }

    /// Reads on; what is not yet handed out moves to the front.
    fn fill(&mut self) -> Result<(), Stop> {
        if self.at > 0 {
            self.buffer.copy_within(self.at..self.filled, 0);
            self.filled = self.filled.saturating_sub(self.at);
            self.at = 0;
        }
        if self.filled == self.buffer.len() {
            self.buffer.resize(self.buffer.len().saturating_mul(2), 0);
        }
        let room = self.buffer.get_mut(self.filled..).unwrap_or(&mut []);
        loop {
            match self.source.read(room) {
                Ok(0) => self.ended = true,
                Ok(count) => {
                    self.filled = self.filled.saturating_add(count);
                    let count = u64::try_from(count).unwrap_or(u64::MAX);
                    self.taken = self.taken.saturating_add(count);
                }
                Err(error) if error.kind() == ErrorKind::Interrupted => continue,
                Err(error) => return Err(Stop::Io(error)),
            }
            return Ok(());
        }
    }

    /// The fault of a record that does not end.
    fn unclosed(&self, line: u64, bytes: &[u8], fields: &[Field]) -> Stop {
        let record = Record {
            line,
            bytes,
            fields,
        };
        let last = fields.last().map_or(0, |field| field.start);
        let quote = last.saturating_sub(1);
        let (at, expected) = match bytes.get(quote) == Some(&b'"') && !fields.is_empty() {
            true => (quote, "a closing quote"),
            false => (0, "a line end in the first 16,777,216 bytes of a row"),
        };
        let found = match bytes.len() >= LONGEST_RECORD {
            true => "none in 16,777,216 bytes",
            false => "the end of the file",
        };
        let (fault, shown) = record.fault_at(at, expected, found);
        Stop::Fault(fault, shown.chars().take(1000).collect())
    }
}

/// How long a record is, with its line end and without, and how many lines it takes.
struct Split {
    length: usize,
    content: usize,
    lines: u64,
    end: End,
}

/// How a record ends.
enum End {
    /// At a line end, or at the end of the file.
    Whole,
    /// Inside quotes, at the end of the file.
    Open,
    /// Behind too many fields.
    Crowded,
}

/// The fault of a record with too many fields.
fn crowded(line: u64, bytes: &[u8]) -> Stop {
    let record = Record {
        line,
        bytes,
        fields: &[],
    };
    let (fault, _) = record.fault_at(0, "at most 16,384 columns", "more");
    Stop::Fault(fault, String::new())
}

/// The fields of the record at the front of some bytes; none where it may go on behind them.
fn split(bytes: &[u8], delimiter: u8, last: bool, fields: &mut Vec<Field>) -> Option<Split> {
    fields.clear();
    let (mut at, mut lines) = (0_usize, 1_u64);
    loop {
        let start = at.saturating_add(spaces(bytes.get(at..)?, delimiter));
        let mut field = Field {
            start,
            end: start,
            escaped: false,
            odd: false,
        };
        let mut from = start;
        if bytes.get(start) == Some(&b'"') {
            let inside = start.saturating_add(1);
            field.start = inside;
            let Some(quoted) = closing(bytes, inside) else {
                // What is open is the last field, also for the message about it.
                field.end = bytes.len();
                fields.push(field);
                return last.then_some(Split {
                    length: bytes.len(),
                    content: bytes.len(),
                    lines,
                    end: End::Open,
                });
            };
            field.end = quoted.at;
            field.escaped = quoted.escaped;
            lines = lines.saturating_add(quoted.lines);
            from = quoted.at.saturating_add(1);
        }
        let rest = bytes.get(from..)?;
        let ends = |byte: &u8| *byte == delimiter || *byte == b'\n' || *byte == b'\r';
        let end = rest.iter().position(ends);
        let stop = from.saturating_add(end.unwrap_or(rest.len()));
        if field.start == start {
            field.end = stop;
        } else {
            let behind = bytes.get(from..stop)?;
            field.odd = !behind.iter().all(u8::is_ascii_whitespace);
        }
        fields.push(field);
        let whole = |length: usize| {
            Some(Split {
                length,
                content: stop,
                lines,
                end: match fields.len() <= MOST_FIELDS {
                    true => End::Whole,
                    false => End::Crowded,
                },
            })
        };
        if fields.len() > MOST_FIELDS {
            return whole(stop);
        }
        let next = stop.saturating_add(1);
        match bytes.get(stop) {
            None if last => return whole(stop),
            None => return None,
            Some(b'\n') => return whole(next),
            Some(b'\r') => match bytes.get(next) {
                Some(b'\n') => return whole(next.saturating_add(1)),
                None if !last => return None,
                _ => return whole(next),
            },
            Some(_) => at = next,
        }
    }
}

/// How many spaces stand in front; a tab that parts columns is none.
fn spaces(bytes: &[u8], delimiter: u8) -> usize {
    let space = |byte: &u8| *byte == b' ' || *byte == b'\t' && delimiter != b'\t';
    bytes.iter().take_while(|byte| space(byte)).count()
}

struct Closing {
    at: usize,
    escaped: bool,
    lines: u64,
}

/// Where the quote is that closes a field which begins here.
fn closing(bytes: &[u8], from: usize) -> Option<Closing> {
    let (mut at, mut escaped, mut lines) = (from, false, 0_u64);
    loop {
        match bytes.get(at)? {
            b'"' if bytes.get(at.saturating_add(1)) == Some(&b'"') => {
                escaped = true;
                at = at.saturating_add(2);
            }
            b'"' => return Some(Closing { at, escaped, lines }),
            byte => {
                let next = bytes.get(at.saturating_add(1));
                let ends = *byte == b'\n' || *byte == b'\r' && next != Some(&b'\n');
                lines = lines.saturating_add(u64::from(ends));
                at = at.saturating_add(1);
            }
        }
    }
}

/// The fields of a record that was kept.
pub fn fields_of(bytes: &[u8], delimiter: u8) -> Vec<Field> {
    let mut fields = Vec::new();
    split(bytes, delimiter, true, &mut fields);
    fields
}

#[cfg(test)]
mod tests {
    use super::*;

    /// Hands out a few bytes at a time, as a slow pipe does.
    struct Slow(Vec<u8>, usize);

    impl Read for Slow {
        fn read(&mut self, room: &mut [u8]) -> io::Result<usize> {
            let count = self.1.min(self.0.len()).min(room.len());
            room[..count].copy_from_slice(&self.0[..count]);
            self.0.drain(..count);
            Ok(count)
        }
    }

    fn all(text: &[u8], at_once: usize) -> Vec<(u64, Vec<String>)> {
        let mut records = Records {
            source: Box::new(Slow(text.to_vec(), at_once)),
            buffer: vec![0; 4],
            at: 0,
            filled: 0,
            ended: false,
            delimiter: b',',
            line: 1,
            before: (0, 1),
            taken: 0,
        };
        let mut fields = Vec::new();
        let mut all = Vec::new();
        loop {
            match records.next(&mut fields) {
                Ok(None) => return all,
                Ok(Some(record)) => {
                    let cells = 0..record.fields.len();
                    let cell = |at| String::from_utf8_lossy(&record.cell(at)).into_owned();
                    all.push((record.line, cells.map(cell).collect()));
                }
                Err(Stop::Fault(fault, _)) => {
                    all.push((0, vec![fault.to_string()]));
                    return all;
                }
                Err(Stop::Io(error)) => panic!("{error}"),
            }
        }
    }

    #[test]
    fn records_are_the_same_however_slow_they_come() {
        let text = b"\xEF\xBB\xBFa, b ,\"c\"\r\n1,\"2\n\r\n3\",\"x\"\"y\"\r4,,\n\n5";
        let expected = [
            (1, vec!["a", "b", "c"]),
            (2, vec!["1", "2\n\r\n3", "x\"y"]),
            (5, vec!["4", "", ""]),
            (6, vec![""]),
            (7, vec!["5"]),
        ];
        let expected = expected.map(|(line, cells)| {
            let cells: Vec<String> = cells.into_iter().map(String::from).collect();
            (line, cells)
        });
        for at_once in [3, 5, 100] {
            assert_eq!(all(text, at_once), expected, "{at_once}");
        }
    }

    #[test]
    fn an_open_quote_is_told_where_it_opens() {
        let open = "2:3: expected a closing quote, found the end of the file";
        let told = all(b"a,b\n1,\"2\n3,4\n", 2);
        assert_eq!(told.last(), Some(&(0, vec![String::from(open)])));
        let long = [&b"a\n"[..], &vec![b'x'; LONGEST_RECORD + 9]].concat();
        let told = all(&long, CHUNK);
        let words = &told.last().unwrap().1[0];
        assert!(
            words.starts_with("2:1: expected a line end in the first "),
            "{words}"
        );
        let wide = all(&b",1".repeat(MOST_FIELDS + 9), 1000);
        let words = "1:1: expected at most 16,384 columns, found more";
        assert_eq!(wide, [(0, vec![String::from(words)])]);
    }

    #[test]
    fn what_stands_behind_a_quote_is_odd() {
        let fields = fields_of(b"\"a\" b,\"c\" ,d\" e", b',');
        let odd: Vec<bool> = fields.iter().map(|field| field.odd).collect();
        assert_eq!(odd, [true, false, false]);
    }
}
