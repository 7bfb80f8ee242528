//! What is wrong in a text that was read: the line, the column, what was expected there and what
//! was found instead. Lines and columns count from 1, columns in characters. Nothing that is shown
//! of a text can upset a screen: see [`visible`].

use std::fmt;

use super::lines::lines;
use super::width::of_character;

/// One fault. Reading stops at the first.
#[derive(Clone, Debug, PartialEq, Eq)]
pub struct Fault {
    /// The line, from 1.
    pub line: usize,
    /// The column in that line, from 1, in characters.
    pub column: usize,
    /// What was expected there, in words.
    pub expected: String,
    /// What stands there, in words.
    pub found: String,
}

impl Fault {
    /// A fault at this line and column.
    pub fn new(
        line: usize,
        column: usize,
        expected: impl Into<String>,
        found: impl Into<String>,
    ) -> Fault {
        Fault {
            line,
            column,
            expected: expected.into(),
            found: found.into(),
        }
    }

    /// The faulty line with a mark under the column.
    pub fn marked<'a>(&'a self, text: &'a str) -> Marked<'a> {
        Marked { fault: self, text }
    }
}

impl fmt::Display for Fault {
    fn fmt(&self, f: &mut fmt::Formatter<'_>) -> fmt::Result {
        let Fault {
            line,
            column,
            expected,
            found,
        } = self;
        // What was expected can name columns, whose names are part of the input.
        let (expected, found) = (visible(expected), visible(found));
        write!(f, "{line}:{column}: expected {expected}, found {found}")
    }
}

impl std::error::Error for Fault {}

/// A fault in its text; see [`Fault::marked`].
pub struct Marked<'a> {
    fault: &'a Fault,
    text: &'a str,
}

impl fmt::Display for Marked<'_> {
    fn fmt(&self, f: &mut fmt::Formatter<'_>) -> fmt::Result {
        let number = self.fault.line.saturating_sub(1);
        let line = lines(self.text).nth(number).unwrap_or("");
        f.write_str(&mark(line, self.fault.column))
    }
}

/// Of a longer line a part is shown: on a screen the mark would be lost.
pub const LONGEST_SHOWN: usize = 160;
/// Characters before and behind the mark in such a part.
const AROUND: usize = 60;

/// A line on a line of its own, with a mark under the column below it; nothing of an empty line.
pub fn mark(line: &str, column: usize) -> String {
    if line.trim().is_empty() {
        return String::new();
    }
    let before = column.saturating_sub(1);
    let (shown, before) = match line.chars().count() > LONGEST_SHOWN {
        true => part(line, before),
        false => (visible(line), before),
    };
    format!("\n    {shown}\n    {}^", gap(&shown, before))
}

/// The part of a line around a character, and how many characters of it stand before that one.
fn part(line: &str, before: usize) -> (String, usize) {
    const LEFT_OUT: &str = "...";
    let from = before.saturating_sub(AROUND);
    let to = before.saturating_add(AROUND);
    let first = if from > 0 { LEFT_OUT } else { "" };
    let last = if to < line.chars().count() {
        LEFT_OUT
    } else {
        ""
    };
    let inside: String = line.chars().take(to).skip(from).collect();
    let before = before.saturating_sub(from).saturating_add(first.len());
    (format!("{first}{}{last}", visible(&inside)), before)
}

/// As much space as the first characters of a shown line take. A tab is kept, so that what follows
/// the space stays under its place.
fn gap(line: &str, characters: usize) -> String {
    let space = |c: char| match c {
        '\t' => String::from(c),
        _ => " ".repeat(of_character(c)),
    };
    line.chars().take(characters).map(space).collect()
}

/// The column at which the last part of a line begins.
pub fn column_of(line: &str, last: &str) -> usize {
    let before = line.chars().count().saturating_sub(last.chars().count());
    before.saturating_add(1)
}

/// A text with a mark for each character that would upset a screen. A tab is left.
pub fn visible(text: &str) -> String {
    let seen = |c: char| match upsets(c) && c != '\t' {
        true => char::REPLACEMENT_CHARACTER,
        false => c,
    };
    text.chars().map(seen).collect()
}

/// Whether a character steers a screen: control characters, and those that turn the direction of
/// writing or part lines.
pub fn upsets(c: char) -> bool {
    let turns = matches!(c, '\u{61C}' | '\u{200E}' | '\u{200F}' | '\u{2028}'..='\u{202E}' | '\u{2066}'..='\u{2069}');
    c.is_control() || turns
}

/// A piece of text as a fault shows it: quoted, and cut if it is long.
pub fn shown(text: &str) -> String {
    match text.is_empty() {
        true => String::from("nothing"),
        false => format!("`{}`", cut(text)),
    }
}

/// The front of a text, with dots behind it where there is more.
pub fn cut(text: &str) -> String {
    const LONGEST: usize = 40;
    let front: String = text.chars().take(LONGEST).collect();
    let dots = if front.len() < text.len() { "..." } else { "" };
    format!("{}{dots}", visible(&front))
}

#[cfg(test)]
mod tests {
    use super::*;

    #[test]
    fn a_mark_stands_under_its_column() {
        let fault = Fault::new(2, 4, "this", "that");
        assert_eq!(fault.to_string(), "2:4: expected this, found that");
        assert_eq!(
            fault.marked("one\nA: x = 1\n").to_string(),
            "\n    A: x = 1\n       ^"
        );
        assert_eq!(
            fault.marked("one\nA\t x\n").to_string(),
            "\n    A\t x\n     \t ^"
        );
        // A wide character takes two columns, a combining mark none.
        assert_eq!(
            fault.marked("one\n\u{4FA1}e\u{301}x\n").to_string(),
            "\n    \u{4FA1}e\u{301}x\n       ^"
        );
    }

    #[test]
    fn a_control_character_does_not_reach_the_screen() {
        let fault = Fault::new(1, 3, "this", shown("a\r\u{1B}[31m"));
        assert_eq!(
            fault.to_string(),
            "1:3: expected this, found `a\u{FFFD}\u{FFFD}[31m`"
        );
        assert_eq!(
            fault.marked("a\u{7}b\0\n").to_string(),
            "\n    a\u{FFFD}b\u{FFFD}\n      ^"
        );
        let named = Fault::new(1, 1, "a column (c0 or \u{1B}[2J)", "\u{202E}");
        assert_eq!(
            named.to_string(),
            "1:1: expected a column (c0 or \u{FFFD}[2J), found \u{FFFD}"
        );
    }

    #[test]
    fn a_line_that_is_not_there_has_no_mark() {
        for text in ["", "one", "one\n\n"] {
            assert_eq!(
                Fault::new(2, 1, "", "").marked(text).to_string(),
                "",
                "{text:?}"
            );
        }
        assert_eq!(
            Fault::new(0, 0, "", "").marked("one").to_string(),
            "\n    one\n    ^"
        );
    }

    #[test]
    fn of_a_long_line_a_part_is_shown() {
        let line = "x".repeat(100) + "!" + &"y".repeat(100);
        let (x, y) = ("x".repeat(60), "y".repeat(59));
        let gap = " ".repeat(4 + 3 + 60);
        assert_eq!(mark(&line, 101), format!("\n    ...{x}!{y}...\n{gap}^"));
        let begin = mark(&line, 1);
        assert_eq!(begin, format!("\n    {x}...\n    ^"));
        let end = mark(&line, 202);
        assert_eq!(end, format!("\n    ...{}\n{gap}^", "y".repeat(60)));
    }

    #[test]
    fn long_text_is_cut() {
        assert_eq!(shown(""), "nothing");
        assert_eq!(shown("ab"), "`ab`");
        assert_eq!(
            shown(&"\u{E9}".repeat(41)),
            format!("`{}...`", "\u{E9}".repeat(40))
        );
    }
}
