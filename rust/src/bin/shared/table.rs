//! Tables that people read, and numbers in words. Names and cells come from the input and are shown
//! without anything that would upset a screen.

use mireladle::text::screen::{visible, width};

use super::terminal::Style;

/// A number of things in words.
pub fn counted(number: u64, none: &str, one: &str, more: &str) -> String {
    match number {
        0 => String::from(none),
        1 => String::from(one),
        _ => format!("{number} {more}"),
    }
}

/// A name or a cell as a table shows it: a tab would move what stands behind it.
pub fn shown_name(name: &str) -> String {
    visible(name).replace('\t', "\u{FFFD}")
}

/// Writes lines of cells under one another: to the right, but the last of each line to the left.
/// The first line is the head; the last cell of the others is what the table is about, and stands
/// in a colour.
pub fn write_table(
    text: &mut String,
    lines: &[Vec<String>],
    style: Style,
    color: impl Fn(Style, &str) -> String,
) {
    let widths = widths(lines);
    for (number, line) in lines.iter().enumerate() {
        let mut written = String::new();
        for (index, (cell, column)) in line.iter().zip(&widths).enumerate() {
            let gap = if index == 0 { "" } else { "  " };
            let last = index.saturating_add(1) == line.len();
            let space = if last {
                0
            } else {
                column.saturating_sub(width(cell))
            };
            let colored = match last && number > 0 && !cell.is_empty() {
                true => color(style, cell),
                false => cell.clone(),
            };
            written.push_str(&format!("{gap}{:space$}{colored}", ""));
        }
        let written = written.trim_end();
        let written = match number {
            0 => style.head(written),
            _ => String::from(written),
        };
        text.push_str(&written);
        text.push('\n');
    }
}

fn widths(lines: &[Vec<String>]) -> Vec<usize> {
    let mut widths = Vec::new();
    for line in lines {
        widths.resize(line.len().max(widths.len()), 0);
        for (column, cell) in widths.iter_mut().zip(line) {
            *column = width(cell).max(*column);
        }
    }
    widths
}
