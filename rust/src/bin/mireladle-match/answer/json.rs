//! Matches and rows as JSON, one object to a line. A cell of the file that is written as JSON writes
//! a number is one, any other is a string; null is null.

use super::{distinct, Answering, Searched};
use crate::shared::json::{string, value};

pub fn matches(answering: &Answering<'_>, searched: &Searched<'_>) -> Vec<u8> {
    let mut text = String::new();
    let partition = partition(answering, searched);
    let titles = &answering.asked.text.titles;
    for found in searched.report {
        text.push('{');
        text.push_str(&partition);
        text.push_str(&format!(
            "\"match\":{},\"first_line\":{},\"first_row\":{},\"rows\":{},\"labels\":\"{}\",\
             \"measures\":{{",
            found.number(),
            searched.line(found.first_row()),
            found.first_row(),
            found.len(),
            found.labels()
        ));
        for (index, (title, measure)) in titles.iter().zip(found.measures()).enumerate() {
            let gap = if index == 0 { "" } else { "," };
            text.push_str(gap);
            string(&mut text, title);
            match measure {
                Some(number) => text.push_str(&format!(":{number}")),
                None => text.push_str(":null"),
            }
        }
        text.push_str("}}\n");
    }
    text.into_bytes()
}

pub fn rows(answering: &Answering<'_>, searched: &Searched<'_>) -> Vec<u8> {
    let mut text = String::new();
    let names = ["match", "label", "line", "row"].map(String::from);
    let names = names
        .into_iter()
        .chain(answering.layout.names.iter().cloned());
    let names = distinct(names);
    for (number, row, label) in searched.labelled() {
        let line = searched.line(row);
        let label = label.map_or(String::from("null"), |label| format!("\"{label}\""));
        text.push_str(&format!(
            "{{\"match\":{number},\"label\":{label},\"line\":{line},\"row\":{row}"
        ));
        let cells = searched.cells(row, answering.search.delimiter);
        for (name, cell) in names.iter().skip(4).zip(cells) {
            text.push(',');
            string(&mut text, name);
            text.push(':');
            value(&mut text, &cell);
        }
        text.push_str("}\n");
    }
    text.into_bytes()
}

/// The partition as the first member of an object, with a comma behind it; nothing where the rows
/// are not parted.
fn partition(answering: &Answering<'_>, searched: &Searched<'_>) -> String {
    let layout = answering.layout;
    if layout.partition.is_empty() {
        return String::new();
    }
    let mut text = String::from("\"partition\":{");
    let columns = layout.partition.iter().zip(&searched.partition.values);
    for (index, (column, cell)) in columns.enumerate() {
        let gap = if index == 0 { "" } else { "," };
        text.push_str(gap);
        string(
            &mut text,
            layout.names.get(*column).map_or("", String::as_str),
        );
        text.push(':');
        value(&mut text, cell);
    }
    text.push_str("},");
    text
}
