//! Lines of CSV by RFC 4180. On a terminal nothing of the data can upset it; elsewhere the data
//! stays as it is.

use mireladle::text::screen::visible;

use super::terminal::Style;

/// A line that is being written.
pub struct Line {
    bytes: Vec<u8>,
    any: bool,
    on_terminal: bool,
}

impl Line {
    pub fn new(style: Style) -> Line {
        Line {
            bytes: Vec::new(),
            any: false,
            on_terminal: style.on_terminal,
        }
    }

    fn part(&mut self) {
        if self.any {
            self.bytes.push(b',');
        }
        self.any = true;
    }

    pub fn number(&mut self, number: impl std::fmt::Display) {
        self.part();
        self.bytes.extend_from_slice(number.to_string().as_bytes());
    }

    pub fn text(&mut self, text: &[u8]) {
        self.part();
        let shown = self
            .on_terminal
            .then(|| visible(&String::from_utf8_lossy(text)));
        let text = shown.as_ref().map_or(text, |shown| shown.as_bytes());
        let quoted = |byte: &u8| matches!(byte, b',' | b'"' | b'\n' | b'\r');
        if !text.iter().any(quoted) {
            self.bytes.extend_from_slice(text);
            return;
        }
        self.bytes.push(b'"');
        for byte in text {
            if *byte == b'"' {
                self.bytes.push(b'"');
            }
            self.bytes.push(*byte);
        }
        self.bytes.push(b'"');
    }

    pub fn ended(mut self) -> Vec<u8> {
        self.bytes.push(b'\n');
        self.bytes
    }
}
