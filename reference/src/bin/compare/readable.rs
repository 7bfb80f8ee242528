//! A case in words and in bytes, with what the product and the reference make of
//! it: what is printed of a difference.

use crate::case::{Call, Case};
use crate::engine::Engine;
use crate::in_lots::Lots;
use reference::depots::Report;
use reference::generate::partitions::Sequence;
use reference::query::{
    self, Comparison, Condition, Function, Meaning, Measure, Query, Record, Reference as Entry,
    Skip, CONDITION, DEFINE, MEASURE, SHAPE, SKIP, TEXT,
};
use std::fmt::{Display, Write};

/// The case and how the two differ on it.
pub fn difference(product: &dyn Engine, case: &Case) -> String {
    let [(returned, left), (expected, expected_left)] = case.both(product);
    let mut text = describe(case);
    for (name, (product, reference)) in case.names().iter().zip(returned.iter().zip(&expected)) {
        let mark = if product == reference { "  " } else { "* " };
        let _ = writeln!(
            text,
            "  {mark}{name}: product {product}, reference {reference}"
        );
    }
    for line in expected_left.differences(&left) {
        let _ = writeln!(text, "  * {line}");
    }
    text
}

/// The case alone.
pub fn describe(case: &Case) -> String {
    let input = &case.input;
    let call = match (&case.call, input.allowance) {
        (Call::Search, None) => "mireladle_search".to_string(),
        (Call::Search, Some(most)) => format!("mireladle_search_within, allowance {most}"),
        (Call::Room, _) => "mireladle_room".to_string(),
        (Call::Test { letter, row }, _) => {
            let letter = [*letter].escape_ascii().to_string();
            format!("mireladle_test, letter `{letter}`, row {row}")
        }
        (Call::Desk, _) => "mireladle_desk".to_string(),
        (Call::Partition(sequence), _) => table(sequence),
        (Call::Lots(lots), allowance) => in_lots(lots, allowance),
        (Call::Derive, _) => "mireladle_search, against what its report in mode 1 says".to_string(),
    };
    let mut text = format!("  {call}, noise {}\n", case.noise);
    if case.call != Call::Desk {
        for line in query_lines(&input.query) {
            let _ = writeln!(text, "  {line}");
        }
        let _ = writeln!(text, "  query: {}", hexadecimal(&input.query));
    }
    let _ = writeln!(
        text,
        "  rows, {} entries: {}",
        input.rows.len(),
        list(&input.rows)
    );
    if !matches!(case.call, Call::Room | Call::Test { .. }) {
        let _ = writeln!(
            text,
            "  lent: notes {}, trail {}, numbers {}, labels {}",
            input.notes, input.trail, input.numbers, input.labels
        );
    }
    text
}

/// A table and the partitions before the last.
fn table(sequence: &Sequence) -> String {
    const MOST: usize = 8;
    let mut text = format!(
        "mireladle_depots_partition, columns {} and {}, state {}, list {}",
        sequence.depot, sequence.month, sequence.state, sequence.list
    );
    for report in &sequence.before {
        let Report { times, answer, .. } = report;
        let matches = report.firsts.len();
        let _ = write!(text, "; {times} before, answer {answer}, matches {matches}");
    }
    for input in sequence.partitions.iter().take(MOST) {
        let (query, rows) = (hexadecimal(&input.query), list(&input.rows));
        let _ = write!(text, "\n  behind query {query}, rows {rows}");
    }
    let more = sequence.partitions.len().saturating_sub(MOST);
    if more > 0 {
        let _ = write!(text, "\n  and {more} more");
    }
    text
}

/// A search in lots: what is named, and the calls.
fn in_lots(lots: &Lots, allowance: Option<u64>) -> String {
    const MOST: usize = 40;
    let mut text = format!("mireladle_begin, largest {}", lots.largest);
    if let Some((words, behind)) = &lots.words {
        let _ = write!(text, ", behind {behind} calls any feed: {}", list(words));
    }
    if let Some(most) = allowance {
        let _ = write!(text, ", allowance {most}");
    }
    for call in lots.calls.iter().take(MOST) {
        let name = if call.last { "last" } else { "more" };
        let (present, entries) = (call.present, call.entries);
        let _ = write!(text, "; {name} {present} of {entries} entries");
    }
    let more = lots.calls.len().saturating_sub(MOST);
    if more > 0 {
        let _ = write!(text, "; and {more} more");
    }
    text
}

/// The records in words; of a query that is refused for its records or fields,
/// kinds and bytes.
fn query_lines(bytes: &[u8]) -> Vec<String> {
    match (query::read(bytes), query::records(bytes)) {
        (Ok(query), _) => in_words(&query),
        (Err(_), Some(records)) => records.iter().map(record_line).collect(),
        (Err(_), None) => vec!["the query is cut".to_string()],
    }
}

fn in_words(query: &Query) -> Vec<String> {
    let mut lines = vec![
        format!("columns: {}", query.columns),
        format!("pattern: {}", quoted(&query.text)),
    ];
    for define in &query.defines {
        let meaning = match &define.meaning {
            Meaning::All(comparisons) => {
                let words: Vec<String> = comparisons.iter().map(comparison).collect();
                words.join(", ")
            }
            Meaning::One(one) => condition(one),
        };
        lines.push(format!("{}: {meaning}", char::from(define.letter)));
    }
    lines.push(match query.skip {
        Skip::PastLastRow => "skip: past last row".to_string(),
        Skip::ToNextRow => "skip: to next row".to_string(),
        Skip::ToFirst(letter) => format!("skip: to first {}", char::from(letter)),
        Skip::ToLast(letter) => format!("skip: to last {}", char::from(letter)),
    });
    lines.extend(query.measures.iter().map(measure));
    lines
}

/// With parentheses around each AND and OR.
fn condition(one: &Condition) -> String {
    let joined = |two: &[Condition; 2], word| {
        let [left, right] = two.each_ref().map(condition);
        format!("({left} {word} {right})")
    };
    match one {
        Condition::Compare(compared) => comparison(compared),
        Condition::And(two) => joined(two, "AND"),
        Condition::Or(two) => joined(two, "OR"),
        Condition::Not(inner) => format!("NOT {}", condition(inner)),
    }
}

fn comparison(comparison: &Comparison) -> String {
    let operator = match comparison.operator {
        1 => "=",
        2 => "<>",
        3 => "<",
        4 => "<=",
        5 => ">",
        _ => ">=",
    };
    let number = comparison.number;
    let right = match comparison.right {
        None => number.to_string(),
        Some(right) if number == 0 => entry(right),
        Some(right) => format!("{} + {number}", entry(right)),
    };
    format!("{} {operator} {right}", entry(comparison.left))
}

fn entry(entry: Entry) -> String {
    let column = entry.column;
    match entry.offset {
        0 => format!("c{column}"),
        back @ ..=-1 => format!("PREV(c{column}, {})", -back),
        on => format!("NEXT(c{column}, {on})"),
    }
}

fn measure(measure: &Measure) -> String {
    let function = match measure.function {
        Function::Count => "COUNT",
        Function::Sum => "SUM",
        Function::Min => "MIN",
        Function::Max => "MAX",
        Function::First => "FIRST",
        Function::Last => "LAST",
        Function::Avg => "AVG",
    };
    let letter = measure
        .letter
        .map_or(String::new(), |letter| format!("{}.", char::from(letter)));
    format!("measure: {function}({letter}c{})", measure.column)
}

fn record_line(record: &Record) -> String {
    let name = match record.kind {
        SHAPE => "shape",
        TEXT => return format!("pattern: {}", quoted(record.body)),
        DEFINE => "DEFINE",
        CONDITION => "condition",
        SKIP => "skip",
        MEASURE => "measure",
        _ => "unknown",
    };
    let body = hexadecimal(record.body);
    format!("record of kind {} ({name}): {body}", record.kind)
}

fn quoted(text: &[u8]) -> String {
    format!("`{}` ({} bytes)", text.escape_ascii(), text.len())
}

fn hexadecimal(bytes: &[u8]) -> String {
    let words: Vec<String> = bytes.iter().map(|byte| format!("{byte:02X}")).collect();
    words.join(" ")
}

/// The first of many items.
fn list<T: Display>(items: &[T]) -> String {
    const MOST: usize = 64;
    let mut words: Vec<String> = items.iter().take(MOST).map(T::to_string).collect();
    if items.len() > MOST {
        words.push("..".to_string());
    }
    words.join(", ")
}
