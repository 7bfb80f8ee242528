//! What a terminal gets that a file or a pipe does not: colours, and a line that tells how far a
//! large file is read. And messages, which are written to standard error.

use std::io::{self, IsTerminal, Write};
use std::sync::atomic::{AtomicBool, Ordering};
use std::time::{Duration, Instant};

/// Whether the line that tells how far a file is read stands on the screen.
static PROGRESS: AtomicBool = AtomicBool::new(false);

/// Writes a message. Should it not be written, the exit status still tells.
pub fn tell(message: &str) {
    clear();
    let _ = writeln!(io::stderr(), "{message}");
}

/// Takes the line away that tells how far a file is read.
fn clear() {
    if PROGRESS.swap(false, Ordering::Relaxed) {
        let _ = write!(io::stderr(), "\r\u{1B}[K");
    }
}

/// When colours are used.
#[derive(Clone, Copy, Debug, PartialEq, Eq)]
pub enum Color {
    Auto,
    Always,
    Never,
}

/// How standard output is written to.
#[derive(Clone, Copy)]
pub struct Style {
    pub on_terminal: bool,
    colored: bool,
}

impl Style {
    pub fn new(color: Color) -> Style {
        let on_terminal = io::stdout().is_terminal();
        let unwanted = std::env::var_os("NO_COLOR").is_some_and(|value| !value.is_empty());
        let dumb = std::env::var_os("TERM").is_some_and(|value| value == "dumb");
        Style {
            on_terminal,
            colored: match color {
                Color::Always => true,
                Color::Never => false,
                Color::Auto => on_terminal && !unwanted && !dumb,
            },
        }
    }

    /// What is looked for: a label, or the labels of a match.
    pub fn found(self, text: &str) -> String {
        self.in_color(text, "\u{1B}[1;32m")
    }

    /// The head of a table.
    pub fn head(self, text: &str) -> String {
        self.in_color(text, "\u{1B}[1m")
    }

    /// A text in a colour, which is the sequence that turns it on.
    pub fn in_color(self, text: &str, color: &str) -> String {
        match self.colored {
            true => format!("{color}{text}\u{1B}[0m"),
            false => String::from(text),
        }
    }
}

/// How far a file is read.
pub struct Progress {
    length: Option<u64>,
    on_terminal: bool,
    told: Option<Instant>,
}

/// Of a file with less nothing is told.
const LARGE: u64 = 10_000_000;
const PAUSE: Duration = Duration::from_millis(250);

impl Progress {
    pub fn new(length: Option<u64>) -> Progress {
        Progress {
            length,
            on_terminal: io::stderr().is_terminal(),
            told: None,
        }
    }

    /// So many bytes and rows are read.
    pub fn at(&mut self, bytes: u64, rows: u64) {
        let small = self.length.unwrap_or(bytes) < LARGE;
        if !self.on_terminal || small || self.told.is_some_and(|told| told.elapsed() < PAUSE) {
            return;
        }
        self.told = Some(Instant::now());
        let rows = grouped(rows);
        let megabytes = |bytes: u64| grouped(bytes.checked_div(1_000_000).unwrap_or(0));
        let line = match self.length {
            Some(length) => {
                let percent = bytes.saturating_mul(100).checked_div(length).unwrap_or(0);
                format!("{percent} % of {} MB, {rows} rows", megabytes(length))
            }
            None => format!("{} MB, {rows} rows", megabytes(bytes)),
        };
        PROGRESS.store(true, Ordering::Relaxed);
        let _ = write!(io::stderr(), "\r{line}\u{1B}[K");
    }

    /// All is read.
    pub fn end(&mut self) {
        clear();
    }
}

/// A number with commas between its thousands.
pub fn grouped(number: u64) -> String {
    let digits = number.to_string();
    let mut text = String::new();
    for (at, digit) in digits.chars().enumerate() {
        let left = digits.len().saturating_sub(at);
        if at > 0 && left.checked_rem(3) == Some(0) {
            text.push(',');
        }
        text.push(digit);
    }
    text
}
