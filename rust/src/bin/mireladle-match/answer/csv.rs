//! Matches and rows as CSV by RFC 4180, for spreadsheets and other programs: a first line with names
//! that all differ, then one record a match, or one a row of a match. Null is an empty field.

use super::{distinct, Answering, Searched};
use crate::shared::csv::Line;

/// The names in front of the measures, behind those of the columns that part the rows.
const MATCH: [&str; 5] = ["match", "first_line", "first_row", "rows", "labels"];
/// The names in front of the file's own.
const ROW: [&str; 4] = ["match", "label", "line", "row"];

fn partition_names<'a>(answering: &'a Answering<'_>) -> impl Iterator<Item = String> + 'a {
    let columns = answering.layout.partition.iter();
    columns.filter_map(|column| answering.layout.names.get(*column).cloned())
}

pub fn match_head(answering: &Answering<'_>) -> Vec<u8> {
    let names = partition_names(answering)
        .chain(MATCH.map(String::from))
        .chain(answering.asked.text.titles.iter().cloned());
    let mut line = Line::new(answering.style);
    distinct(names)
        .iter()
        .for_each(|name| line.text(name.as_bytes()));
    line.ended()
}

pub fn row_head(answering: &Answering<'_>) -> Vec<u8> {
    let names = ROW.map(String::from).into_iter();
    let names = names.chain(answering.layout.names.iter().cloned());
    let mut line = Line::new(answering.style);
    distinct(names)
        .iter()
        .for_each(|name| line.text(name.as_bytes()));
    line.ended()
}

pub fn matches(answering: &Answering<'_>, searched: &Searched<'_>) -> Vec<u8> {
    let mut bytes = Vec::new();
    for found in searched.report {
        let mut line = Line::new(answering.style);
        for value in &searched.partition.values {
            line.text(value);
        }
        line.number(found.number());
        line.number(searched.line(found.first_row()));
        line.number(found.first_row());
        line.number(found.len());
        line.text(found.labels().as_bytes());
        for measure in found.measures() {
            match measure {
                Some(number) => line.number(number),
                None => line.text(b""),
            }
        }
        bytes.append(&mut line.ended());
    }
    bytes
}

pub fn rows(answering: &Answering<'_>, searched: &Searched<'_>) -> Vec<u8> {
    let mut bytes = Vec::new();
    for (number, row, label) in searched.labelled() {
        let mut line = Line::new(answering.style);
        line.number(number);
        line.text(label.map_or(String::new(), String::from).as_bytes());
        line.number(searched.line(row));
        line.number(row);
        for cell in searched.cells(row, answering.search.delimiter) {
            line.text(&cell);
        }
        bytes.append(&mut line.ended());
    }
    bytes
}
