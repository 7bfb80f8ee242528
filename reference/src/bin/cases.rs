//! Prints cases with the results of the reference, one on each line: fields
//! parted by `;`, the numbers of a list by `,`.
//! `cases SEED COUNT`: query; rows; lengths of notes, trail, numbers and labels;
//! answer; matches; labels; steps; offset; then all four buffers after the call, each
//! filled with 7 before it. `cases text SEED COUNT`: text; answer; P, or 0.
//! `cases program SEED COUNT`: standard input; what is printed for it.

use reference::cases;
use reference::generate::Random;
use std::fmt::Display;
use std::io::{self, BufWriter, Write};
use std::process::ExitCode;

fn main() -> ExitCode {
    let arguments: Vec<String> = std::env::args().skip(1).collect();
    let words: Vec<&str> = arguments.iter().map(String::as_str).collect();
    let (line, seed, count): (fn(&mut Random, usize) -> String, _, _) = match words[..] {
        [seed, count] => (search_line, seed, count),
        ["text", seed, count] => (text_line, seed, count),
        ["program", seed, count] => (program_line, seed, count),
        _ => return usage(),
    };
    let (Ok(seed), Ok(count)) = (seed.parse(), count.parse()) else {
        return usage();
    };
    match print(line, seed, count) {
        Ok(()) => ExitCode::SUCCESS,
        Err(_) => ExitCode::FAILURE,
    }
}

fn usage() -> ExitCode {
    eprintln!("cases [text | program] SEED COUNT");
    ExitCode::from(2)
}

fn print(line: fn(&mut Random, usize) -> String, seed: u64, count: usize) -> io::Result<()> {
    let mut random = Random::new(seed);
    let mut out = BufWriter::new(io::stdout().lock());
    for number in 0..count {
        writeln!(out, "{}", line(&mut random, number))?;
    }
    out.flush()
}

fn list<T: Display>(items: &[T]) -> String {
    let words: Vec<String> = items.iter().map(T::to_string).collect();
    words.join(",")
}

fn search_line(random: &mut Random, number: usize) -> String {
    let case = cases::search_case(random, number);
    [
        list(&case.query),
        list(&case.rows),
        list(&case.lengths).replace(',', ";"),
        case.answer.to_string(),
        list(&case.counts).replace(',', ";"),
        list(&case.notes),
        list(&case.trail),
        list(&case.numbers),
        list(&case.labels),
    ]
    .join(";")
}

fn text_line(random: &mut Random, _: usize) -> String {
    let case = cases::text_case(random);
    format!("{};{};{}", list(&case.text), case.answer, case.places)
}

fn program_line(random: &mut Random, number: usize) -> String {
    let case = cases::program_case(random, number);
    format!("{};{}", list(&case.stdin), list(&case.printed))
}
