//! What people read: the matches as a table, then all rows with their labels beside them. A row that
//! lies in several matches has a label for each, so that every label stands with the number of its
//! match. Where the rows are parted, only partitions with matches are told, each under its name.
//! Names and cells come from the input and are shown without anything that would upset a screen.

use mireladle::text::no_row_behind;
use mireladle::text::screen::cut;
use mireladle::{Ending, Match};

use super::{cells_of, Answering, Searched, Tally};
use crate::partitions::Partition;
use crate::shared::table::{counted, shown_name, write_table};
use crate::terminal::Style;

/// A partition's matches and rows.
pub fn matches(answering: &Answering<'_>, searched: &Searched<'_>) -> Vec<u8> {
    let parted = !answering.layout.partition.is_empty();
    let report = searched.report;
    if parted && report.is_empty() && report.ending() == Ending::Done {
        return Vec::new();
    }
    let name = match parted {
        true => format!("{}: ", answering.name(searched.partition)),
        false => String::new(),
    };
    let mut text = format!("{name}{}\n", summary(answering, searched));
    if !report.is_empty() {
        text.push('\n');
        write_table(
            &mut text,
            &match_lines(answering, searched),
            answering.style,
            Style::found,
        );
    }
    text.push('\n');
    write_table(
        &mut text,
        &row_lines(answering, searched),
        answering.style,
        Style::found,
    );
    if parted {
        text.push('\n');
    }
    text.into_bytes()
}

/// The rows of a partition's matches.
pub fn rows(answering: &Answering<'_>, searched: &Searched<'_>) -> Vec<u8> {
    let parted = !answering.layout.partition.is_empty();
    if searched.report.is_empty() {
        return Vec::new();
    }
    let shown = answering.layout.shown();
    let mut head = ["match", "line", "row"].map(String::from).to_vec();
    head.extend(names(answering, &shown));
    head.push(String::from("label"));
    let mut lines = vec![head];
    for (number, row, label) in searched.labelled() {
        let mut line = vec![
            number.to_string(),
            searched.line(row).to_string(),
            row.to_string(),
        ];
        line.extend(cells(answering, searched, row, &shown));
        line.push(String::from(label.unwrap_or('-')));
        lines.push(line);
    }
    let mut text = match parted {
        true => format!("{}:\n", answering.name(searched.partition)),
        false => String::new(),
    };
    write_table(&mut text, &lines, answering.style, Style::found);
    if parted {
        text.push('\n');
    }
    text.into_bytes()
}

/// What all partitions come to.
pub fn foot(tally: &Tally) -> Vec<u8> {
    let matches = counted(tally.matches, "no match", "1 match", "matches");
    let partitions = counted(
        tally.partitions,
        "no partition",
        "1 partition",
        "partitions",
    );
    let text = match tally.matches {
        0 => format!("{matches} in {partitions}\n"),
        _ => format!("{matches} in {} of {partitions}\n", tally.with_matches),
    };
    text.into_bytes()
}

fn summary(answering: &Answering<'_>, searched: &Searched<'_>) -> String {
    let report = searched.report;
    let found = u64::try_from(report.len()).unwrap_or(u64::MAX);
    let matches = counted(found, "no match", "1 match", "matches");
    let steps = counted(report.steps(), "0 steps", "1 step", "steps");
    format!("{}{matches} in {steps}", stopped(answering, searched))
}

/// What stopped the search, in front of a summary; nothing where it is done.
pub fn stopped(answering: &Answering<'_>, searched: &Searched<'_>) -> String {
    let why = |last: Match<'_>| {
        let number = u64::try_from(last.number()).unwrap_or(u64::MAX);
        no_row_behind(answering.asked.text.skip, number, last.labels())
    };
    match searched.report.ending() {
        Ending::Done | Ending::Waiting => String::new(),
        Ending::NoSkipRow => match searched.report.matches().last().and_then(why) {
            Some(why) => format!("stopped since {why}: "),
            None => String::from("stopped: "),
        },
        Ending::OutOfSteps => String::from("stopped since --steps allows no more: "),
        _ => String::from("stopped for want of room: "),
    }
}

fn match_lines(answering: &Answering<'_>, searched: &Searched<'_>) -> Vec<Vec<String>> {
    let mut head: Vec<String> = ["match", "first row", "rows"].map(String::from).to_vec();
    let titles = answering.asked.text.titles.iter();
    head.extend(titles.map(|title| shown_name(title)));
    head.push(String::from("labels"));
    let lines = searched.report.matches().map(|found| match_line(&found));
    std::iter::once(head).chain(lines).collect()
}

fn match_line(found: &Match<'_>) -> Vec<String> {
    let mut line = vec![
        found.number().to_string(),
        found.first_row().to_string(),
        found.len().to_string(),
    ];
    line.extend(found.measures().map(|result| match result {
        Some(number) => number.to_string(),
        None => String::from("null"),
    }));
    line.push(String::from(if found.is_empty() {
        "-"
    } else {
        found.labels()
    }));
    line
}

fn row_lines(answering: &Answering<'_>, searched: &Searched<'_>) -> Vec<Vec<String>> {
    // Where rows are parted or sorted, a row's number does not tell its line.
    let with_line = !answering.layout.partition.is_empty() || answering.search.sort;
    let shown = answering.layout.shown();
    let mut head = vec![String::from("row")];
    head.extend(with_line.then(|| String::from("line")));
    head.extend(names(answering, &shown));
    head.push(String::from("match:label"));
    let mut lines = vec![head];
    for (row, labels) in labels_of_rows(searched).into_iter().enumerate() {
        let mut line = vec![row.to_string()];
        line.extend(with_line.then(|| searched.line(row).to_string()));
        line.extend(cells(answering, searched, row, &shown));
        line.push(labels);
        lines.push(line);
    }
    lines
}

fn names(answering: &Answering<'_>, shown: &[usize]) -> Vec<String> {
    let names = shown
        .iter()
        .filter_map(|at| answering.layout.names.get(*at));
    names.map(|name| shown_name(name)).collect()
}

/// A row's cells with the names of their columns: `time 545, event 2`.
pub fn row_cells(answering: &Answering<'_>, partition: &Partition, row: usize) -> String {
    let shown = answering.layout.shown();
    let cells = cells_of(partition, row, answering.search.delimiter);
    let cells = names(answering, &shown)
        .into_iter()
        .zip(shown_cells(&cells, &shown));
    let cells: Vec<String> = cells.map(|(name, cell)| format!("{name} {cell}")).collect();
    cells.join(", ")
}

fn cells(
    answering: &Answering<'_>,
    searched: &Searched<'_>,
    row: usize,
    shown: &[usize],
) -> Vec<String> {
    let cells = searched.cells(row, answering.search.delimiter);
    shown_cells(&cells, shown)
}

fn shown_cells(cells: &[Vec<u8>], shown: &[usize]) -> Vec<String> {
    let cell = |at: &usize| {
        let cell = cells.get(*at).map_or(&[][..], |cell| cell);
        // A long text would push the labels off the screen.
        shown_name(&cut(&String::from_utf8_lossy(cell)))
    };
    shown.iter().map(cell).collect()
}

/// For each row its labels with the numbers of their matches; `3:-` where match 3 was found and
/// takes no row.
fn labels_of_rows(searched: &Searched<'_>) -> Vec<String> {
    let mut labels = vec![String::new(); searched.rows];
    for (number, row, label) in searched.labelled() {
        if let Some(of_row) = labels.get_mut(row) {
            let gap = if of_row.is_empty() { "" } else { " " };
            of_row.push_str(&format!("{gap}{number}:{}", label.unwrap_or('-')));
        }
    }
    labels
}
