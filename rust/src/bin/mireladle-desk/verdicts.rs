//! Verdicts: each bus's log is judged by the library, and told with the line of the file to look at,
//! as a table, as JSON or as CSV. It promises that every bus is told, and that a bus is told as
//! cleared where the library says so and nowhere else: a log with a fault or with too many rows is
//! not judged, and is an error.

use mireladle::text::screen::cut;
use mireladle::{Desk, Rows, Verdict, LOG_COLUMNS};

use crate::arguments::Format;
use crate::failure::{Failure, WRONG};
use crate::partitions::{Close, Partition, MOST_ROWS};
use crate::shared::csv::Line;
use crate::shared::json::string;
use crate::shared::table::{counted, shown_name, write_table};
use crate::terminal::Style;

/// The exit status where every bus is cleared.
pub const CLEARED: u8 = 0;
/// The exit status where some bus is held or unreadable.
const NOT_CLEARED: u8 = 1;

/// What is said of a bus.
enum Said {
    Verdict(Verdict),
    /// Why there is no verdict.
    Error(String),
}

impl Said {
    fn word(&self) -> &'static str {
        match self {
            Said::Verdict(Verdict::Cleared) => CLEARED_WORD,
            Said::Verdict(Verdict::Held { .. }) => "held",
            Said::Verdict(Verdict::Unreadable) => "unreadable",
            Said::Error(_) => "error",
        }
    }

    fn last_refusal(&self) -> Option<usize> {
        match self {
            Said::Verdict(Verdict::Held { last_refusal }) => *last_refusal,
            _ => None,
        }
    }

    fn reason(&self) -> Option<&str> {
        match self {
            Said::Verdict(Verdict::Unreadable) => Some("an event other than 1, 2 and 3"),
            Said::Error(reason) => Some(reason),
            Said::Verdict(_) => None,
        }
    }
}

/// A bus that was judged.
struct Bus {
    name: Vec<u8>,
    rows: u64,
    said: Said,
    /// The line to look at.
    line: Option<u64>,
}

/// The buses that were judged, in the order in which they begin.
#[derive(Default)]
pub struct Verdicts {
    desk: Desk,
    buses: Vec<Bus>,
}

impl Close for Verdicts {
    type Error = Failure;

    fn close(&mut self, mut log: Partition) -> Result<Vec<u8>, Failure> {
        let (said, line) = self.judge(&mut log);
        self.buses.push(Bus {
            name: log.values.pop().unwrap_or_default(),
            rows: log.count,
            said,
            line,
        });
        Ok(Vec::new())
    }
}

impl Verdicts {
    /// What is said of a log, and the line to look at.
    fn judge(&mut self, log: &mut Partition) -> (Said, Option<u64>) {
        if let Some((fault, _)) = log.fault.take() {
            let line = u64::try_from(fault.line).ok();
            let reason = format!("expected {}, found {}", fault.expected, fault.found);
            return (Said::Error(reason), line);
        }
        if log.count > MOST_ROWS {
            let reason = "refused 10: more than 4,096 rows; judge the last part of the log alone";
            return (Said::Error(String::from(reason)), None);
        }
        let verdict = match self.desk.judge(Rows::new(&log.entries, LOG_COLUMNS)) {
            Ok(verdict) => verdict,
            Err(error) => {
                let number = error.number().map_or(String::new(), |it| format!(" {it}"));
                return (Said::Error(format!("refused{number}: {error}")), None);
            }
        };
        let row = match verdict {
            Verdict::Cleared => None,
            Verdict::Held { last_refusal } => last_refusal,
            Verdict::Unreadable => first_other(&log.entries),
        };
        let line = row.and_then(|row| log.lines.get(row).copied());
        (Said::Verdict(verdict), line)
    }

    pub fn is_empty(&self) -> bool {
        self.buses.is_empty()
    }

    /// The exit status: 0 only where every bus is cleared.
    pub fn status(&self) -> u8 {
        let mut status = CLEARED;
        for bus in &self.buses {
            status = match &bus.said {
                Said::Verdict(Verdict::Cleared) => status,
                Said::Verdict(_) => status.max(NOT_CLEARED),
                Said::Error(_) => WRONG,
            };
        }
        status
    }

    /// The verdicts as they are told.
    pub fn told(&self, format: Format, style: Style) -> Vec<u8> {
        match format {
            Format::Table => self.table(style).into_bytes(),
            Format::Json => self.json().into_bytes(),
            Format::Csv => self.csv(style),
            Format::Quiet => Vec::new(),
        }
    }

    /// The buses that are errors, for messages.
    pub fn errors(&self) -> impl Iterator<Item = String> + '_ {
        let buses = self.buses.iter();
        let errors = buses.filter(|bus| matches!(bus.said, Said::Error(_)));
        errors.map(|bus| format!("{}: {}", bus.shown(), bus.sentence()))
    }

    fn table(&self, style: Style) -> String {
        let mut lines = vec![["bus", "rows", "verdict"].map(String::from).to_vec()];
        for bus in &self.buses {
            lines.push(vec![bus.shown(), bus.rows.to_string(), bus.sentence()]);
        }
        let mut text = String::new();
        write_table(&mut text, &lines, style, |style, sentence| {
            match sentence == CLEARED_WORD {
                true => style.found(sentence),
                false => style.in_color(sentence, RED),
            }
        });
        text.push_str(&format!("\n{}\n", self.counts()));
        text
    }

    /// How many buses there are, and of which verdict: `3 buses: 2 cleared, 1 held`.
    fn counts(&self) -> String {
        let count = |word: &str| {
            self.buses
                .iter()
                .filter(|it| it.said.word() == word)
                .count()
        };
        let words = [CLEARED_WORD, "held", "unreadable", "error"];
        let counts = words.map(|word| (count(word), word)).into_iter();
        let counts = counts.filter(|(count, _)| *count > 0);
        let counts: Vec<String> = counts
            .map(|(count, word)| format!("{count} {word}"))
            .collect();
        let buses = u64::try_from(self.buses.len()).unwrap_or(u64::MAX);
        let buses = counted(buses, "no bus", "1 bus", "buses");
        format!("{buses}: {}", counts.join(", "))
    }

    fn json(&self) -> String {
        let number = |number: Option<u64>| number.map_or(String::from("null"), |it| it.to_string());
        let mut text = String::new();
        for bus in &self.buses {
            text.push_str("{\"bus\":");
            string(&mut text, &String::from_utf8_lossy(&bus.name));
            text.push_str(&format!(
                ",\"verdict\":\"{}\",\"rows\":{},\"last_refusal\":{},\"line\":{},\"reason\":",
                bus.said.word(),
                bus.rows,
                number(
                    bus.said
                        .last_refusal()
                        .and_then(|row| u64::try_from(row).ok())
                ),
                number(bus.line)
            ));
            match bus.said.reason() {
                Some(reason) => string(&mut text, reason),
                None => text.push_str("null"),
            }
            text.push_str("}\n");
        }
        text
    }

    fn csv(&self, style: Style) -> Vec<u8> {
        let mut bytes = b"bus,verdict,rows,last_refusal,line,reason\n".to_vec();
        for bus in &self.buses {
            let mut line = Line::new(style);
            line.text(&bus.name);
            line.text(bus.said.word().as_bytes());
            line.number(bus.rows);
            match bus.said.last_refusal() {
                Some(row) => line.number(row),
                None => line.text(b""),
            }
            match bus.line {
                Some(number) => line.number(number),
                None => line.text(b""),
            }
            line.text(bus.said.reason().unwrap_or("").as_bytes());
            bytes.append(&mut line.ended());
        }
        bytes
    }
}

/// What a table says of a bus that is cleared, and of no other.
const CLEARED_WORD: &str = "cleared";
/// The colour of all others.
const RED: &str = "\u{1B}[1;31m";

impl Bus {
    /// Its name as a table shows it.
    fn shown(&self) -> String {
        shown_name(&cut(&String::from_utf8_lossy(&self.name)))
    }

    /// What is said of it, and where to look.
    fn sentence(&self) -> String {
        let word = self.said.word();
        let line = self.line.map(|line| format!("line {line}"));
        let told = match (&self.said, line) {
            (Said::Verdict(Verdict::Cleared), _) => return String::from(word),
            (Said::Verdict(Verdict::Held { .. }), Some(line)) => {
                format!("{word}, last refusal in {line}")
            }
            (Said::Verdict(Verdict::Held { .. }), None) => format!("{word}, no refusal"),
            (said, line) => {
                let reason = said.reason().unwrap_or("");
                let line = line.map_or(String::new(), |line| format!("{line}: "));
                format!("{word}, {line}{reason}")
            }
        };
        shown_name(&told)
    }
}

/// The first row with an event other than 1, 2 and 3.
fn first_other(entries: &[i32]) -> Option<usize> {
    let rows = Rows::new(entries, LOG_COLUMNS);
    let mut events = rows.iter().map(|row| row.get(1));
    events.position(|event| !event.is_some_and(|event| (1..=3).contains(event)))
}
