//! The program: what it prints for what it reads. From document 01, the last
//! paragraph of "Report"; its tests stand here in the order given there. What it
//! prints for a 15 is as for a 13 (document 02, R-2).

use crate::search::{self, Outcome, DONE, STOPPED, STUCK};

pub const LONGEST_QUERY: usize = 4096;
pub const MOST_ROW_BYTES: usize = 32_768;
pub const MOST_PAIRS: usize = 16_000;
pub const REPORT_NUMBERS: usize = 8192;
pub const LABEL_BYTES: usize = 65_536;

/// What is printed for a whole standard input.
pub fn program(stdin: &[u8]) -> Vec<u8> {
    print(stdin).into_bytes()
}

fn print(stdin: &[u8]) -> String {
    let [low, high, behind_length @ ..] = stdin else {
        return refused(1);
    };
    let length = usize::from(u16::from_le_bytes([*low, *high]));
    if length > LONGEST_QUERY {
        return too_large();
    }
    if behind_length.len() < length {
        return refused(1);
    }
    let (query, row_bytes) = behind_length.split_at(length);
    if row_bytes.len() > MOST_ROW_BYTES {
        return too_large();
    }
    // Bytes behind the last whole number are a 10, which ranks behind 1 to 9;
    // the whole numbers may be judged first, since they can only give a 10 too.
    let rows = whole_numbers(row_bytes);
    let (answer, places, n) = search::room(query, &rows);
    if answer != DONE {
        return refused(answer);
    }
    if row_bytes.len() % 4 != 0 {
        return refused(10);
    }
    if places * (n + 1) * search::factor(query) > MOST_PAIRS {
        return too_large();
    }
    searched(query, &rows, places, n)
}

fn refused(answer: u8) -> String {
    format!("refused {answer}\n")
}

fn too_large() -> String {
    String::from("too large\n")
}

fn whole_numbers(bytes: &[u8]) -> Vec<i32> {
    bytes
        .chunks_exact(4)
        .map(|four| i32::from_le_bytes([four[0], four[1], four[2], four[3]]))
        .collect()
}

fn searched(query: &[u8], rows: &[i32], places: usize, n: usize) -> String {
    let (notes, trail) = search::working_room(places, n, search::factor(query));
    let mut numbers = vec![0; REPORT_NUMBERS];
    let mut labels = vec![0; LABEL_BYTES];
    let outcome = search::search(
        query,
        rows,
        &mut vec![0; notes],
        &mut vec![0; trail],
        &mut numbers,
        &mut labels,
    );
    let measures = crate::query::read(query).map_or(0, |parts| parts.measures.len());
    header(&outcome) + &match_lines(&outcome, &numbers, &labels, 3 + 2 * measures)
}

fn header(outcome: &Outcome) -> String {
    let word = match outcome.answer {
        STOPPED | STUCK => "stopped",
        _ => "matches",
    };
    format!("{word} {} steps {}\n", outcome.matches, outcome.steps)
}

fn match_lines(
    outcome: &Outcome,
    numbers: &[i64],
    mut labels: &[u8],
    numbers_per_match: usize,
) -> String {
    let mut lines = String::new();
    for written in numbers
        .chunks(numbers_per_match)
        .take(outcome.matches as usize)
    {
        let (of_match, of_later) = labels.split_at(written[2] as usize);
        labels = of_later;
        lines += &match_line(written, of_match);
    }
    lines
}

fn match_line(written: &[i64], labels: &[u8]) -> String {
    let mut words: Vec<String> = written[..3].iter().map(i64::to_string).collect();
    words.push(match labels {
        [] => String::from("-"),
        _ => labels.iter().map(|&label| char::from(label)).collect(),
    });
    words.extend(written[3..].chunks(2).map(|measure| match measure[0] {
        0 => String::from("null"),
        _ => measure[1].to_string(),
    }));
    words.join(" ") + "\n"
}
