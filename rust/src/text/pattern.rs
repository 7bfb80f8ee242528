//! A pattern's text with the place of each of its bytes, and where it is wrong and what could stand
//! there. The library says both: this module only finds the place in the query and the words for
//! what stands there. Tested here and in tests/command.rs.

use super::fault::{visible, Fault};
use crate::{Error, Query};

/// The most bytes that a pattern can have.
pub const LONGEST_PATTERN: usize = 256;

/// A pattern's text.
#[derive(Clone, Debug, PartialEq, Eq)]
pub struct PatternText {
    pub text: String,
    /// Line and column of each byte, and of what stands behind the last.
    places: Vec<(usize, usize)>,
    end: (usize, usize),
}

impl PatternText {
    /// A text without characters, which ends at this place.
    pub fn new(end: (usize, usize)) -> PatternText {
        PatternText {
            text: String::new(),
            places: Vec::new(),
            end,
        }
    }

    /// One more character, which stands at this place.
    pub fn push(&mut self, c: char, place: (usize, usize)) {
        self.text.push(c);
        self.places.resize(self.text.len(), place);
    }

    /// The same text, ending at this place.
    pub fn ending(mut self, end: (usize, usize)) -> PatternText {
        self.end = end;
        self
    }

    /// The text without spaces at its ends.
    pub fn trimmed(mut self) -> PatternText {
        let kept = self.text.trim_end_matches(' ').len();
        if let Some(place) = self.places.get(kept) {
            self.end = *place;
        }
        self.text.truncate(kept);
        self.places.truncate(kept);
        let front = kept.saturating_sub(self.text.trim_start_matches(' ').len());
        self.text.drain(..front);
        self.places.drain(..front);
        self
    }

    /// The place of a byte.
    pub fn place(&self, byte: usize) -> (usize, usize) {
        self.places.get(byte).copied().unwrap_or(self.end)
    }

    /// What is wrong in the text: the library's refusal 5 or 14, and the place with what was
    /// expected and found. None of a pattern that is not refused so.
    ///
    /// The library is asked anew, since a program that refused the pattern does not tell the place.
    pub fn wrong(&self) -> Option<(Error, Fault)> {
        let error = Query::builder(1).pattern(&*self.text).build().err()?;
        let (Error::NotAPattern { offset, expected } | Error::PatternEnds { offset, expected }) =
            error
        else {
            return None;
        };
        let offset = usize::try_from(offset).ok()?;
        let found = self.text.char_indices().find(|(at, _)| *at >= offset);
        let found = found.map_or(String::from("the end of the pattern"), |(_, c)| in_words(c));
        let expected = expected.map_or(
            String::from("more, but a pattern has at most 256 bytes"),
            |expected| expected.to_string(),
        );
        let (line, column) = self.place(offset);
        Some((error, Fault::new(line, column, expected, found)))
    }
}

/// A character so that it can be seen which one it is: other scripts have letters that look like
/// ours.
fn in_words(c: char) -> String {
    let code = u32::from(c);
    match c {
        ' ' => String::from("a space"),
        '!'..='~' => format!("`{c}`"),
        _ if c.is_ascii() => format!("the byte 0x{code:02X}"),
        _ if c.is_whitespace() || visible(c.encode_utf8(&mut [0; 4])) != String::from(c) => {
            format!("the character U+{code:04X}")
        }
        _ => format!("`{c}` (U+{code:04X})"),
    }
}

#[cfg(test)]
mod tests {
    use super::*;

    /// The place, in a line where the pattern begins at column 10.
    fn place(pattern: &str) -> Option<String> {
        let place = |(at, c): (usize, char)| (at, c, (3, 10 + at));
        let characters: Vec<_> = pattern.chars().enumerate().map(place).collect();
        let end = (3, 10 + characters.len());
        let mut text = PatternText::new(end);
        characters
            .iter()
            .for_each(|(_, c, place)| text.push(*c, *place));
        text.wrong().map(|(_, fault)| fault.to_string())
    }

    #[test]
    fn the_place_is_the_first_character_that_cannot_stand_there() {
        for (text, mark) in [
            ("AB", " ^"),
            ("A**", "  ^"),
            ("A+ ?", "   ^"),
            ("a", "^"),
            ("A \u{E9}", "  ^"),
            ("\u{E9}", "^"),
            ("A||B", "  ^"),
            ("(|A)", " ^"),
            ("A)", " ^"),
            ("* A", "^"),
            ("A{100}", "    ^"),
            ("A{0}", "   ^"),
            ("A{01}", "   ^"),
            ("A{,0}", "   ^"),
            ("A{,}", "   ^"),
            ("A{}", "  ^"),
            ("A{ 2}", "  ^"),
            ("A{2,1}", "     ^"),
            ("A{50,49}", "     ^"),
            ("A{2}{3}", "    ^"),
            // Here something is missing behind the text.
            ("", "^"),
            ("(A", "  ^"),
            ("A |", "   ^"),
            ("(A (B", "     ^"),
            ("A{2,", "    ^"),
        ] {
            let column = 10 + mark.len() - 1;
            let place = place(text).unwrap();
            assert!(
                place.starts_with(&format!("3:{column}: ")),
                "{text} {place}"
            );
        }
    }

    #[test]
    fn what_was_expected_and_what_was_found() {
        let begin = "expected a letter A to Z, `$`, `(`, `^` or a space";
        for (text, expected) in [
            ("A{0}", String::from("3:13: expected `,`, found `}`")),
            (
                "A{3,2",
                String::from("3:15: expected a digit 0 to 9, found the end of the pattern"),
            ),
            (
                "A{ 2}",
                String::from("3:12: expected a digit 0 to 9 or `,`, found a space"),
            ),
            ("\u{E9}", format!("3:10: {begin}, found `\u{E9}` (U+00E9)")),
            // The Cyrillic letter that looks like A, a tab, an escape, and a turn of direction.
            (
                "\u{410}",
                format!("3:10: {begin}, found `\u{410}` (U+0410)"),
            ),
            ("\tA", format!("3:10: {begin}, found the byte 0x09")),
            ("\u{1B}[m", format!("3:10: {begin}, found the byte 0x1B")),
            (
                "\u{202E}",
                format!("3:10: {begin}, found the character U+202E"),
            ),
            (
                "\u{3000}",
                format!("3:10: {begin}, found the character U+3000"),
            ),
        ] {
            assert_eq!(place(text), Some(expected), "{text:?}");
        }
        let full = place(&("A ".repeat(127) + "A|")).unwrap();
        let expected = "more, but a pattern has at most 256 bytes";
        assert_eq!(
            full,
            format!("3:266: expected {expected}, found the end of the pattern")
        );
    }

    #[test]
    fn a_pattern_has_no_such_place() {
        for text in [
            "A",
            "^ (A | B+?)*? $",
            "() A{2} B{0,} C{,3} D{10,99}?",
            "((((((((A))))))))",
            "(A*)*",
            "(A{99}){99}",
            &" ".repeat(257),
        ] {
            assert_eq!(place(text), None, "{text}");
        }
    }
}
