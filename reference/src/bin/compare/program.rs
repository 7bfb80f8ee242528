//! The program as a whole: what it prints for a standard input, byte by byte,
//! against what the reference says. An input on which they differ is shrunk.

use reference::generate::draft::{with_column, with_number, Draft};
use reference::generate::{limits, stdin, Random};
use reference::program::program;
use std::io::{ErrorKind, Read, Write};
use std::path::Path;
use std::process::{Command, Stdio};

/// The most runs that are tried for one shrinking.
const TRIES: usize = 2_000;

/// Column X of the bench sheet.
const X: [i32; 5] = [100, 110, 120, 115, 130];

/// An input for each of the ways to end: a match, no rows, an empty match with nulls,
/// a refusal of two that apply, more pairs than are searched, a report that stops, and
/// a search that has no row to go on at.
fn of_each_end() -> [Vec<u8>; 7] {
    let rising = |rows: &[i32], last_of| {
        let prev = |operator| with_column((0, 0), operator, (0, -1), 0);
        let draft = Draft::new(1, b"A+ B", Vec::new())
            .define(b'A', &[prev(5)])
            .define(b'B', &[prev(3)])
            .measure(1, b'A', 0)
            .measure(6, last_of, 0);
        stdin::whole(&draft.query(), rows)
    };
    let empty_match = Draft::new(1, b"A*", Vec::new())
        .define(b'A', &[with_number(0, 0, 5, 0)])
        .measure(2, b'A', 0)
        .measure(1, b'A', 0)
        .measure(6, 0, 0);
    // The letter C is not in the pattern, and there is a byte behind the rows.
    let mut two_refusals = rising(&X, b'C');
    two_refusals.push(0);
    let many_pairs = Draft::new(1, b"(A{51}){5}", Vec::new());
    // Nineteen numbers for each match: 431 fit.
    let mut stops = Draft::new(1, b"A", Vec::new());
    for function in 1..=7 {
        stops = stops.measure(function, b'A', 0);
    }
    stops = stops.measure(7, 0, 0);
    let growing: Vec<i32> = (0..432)
        .map(|k| if k % 2 == 0 { 37 * k * k } else { -37 * k * k })
        .collect();
    [
        rising(&X, b'B'),
        rising(&[], b'B'),
        stdin::whole(&empty_match.query(), &[1, 1, 0]),
        two_refusals,
        stdin::whole(&many_pairs.query(), &[7; 62]),
        stdin::whole(&stops.query(), &growing),
        stdin::of_input(&limits::stuck_at_last_row(3).finish()),
    ]
}

/// Listed inputs first, one for each end, long ones and those at limits, then random
/// ones, short and of middle size in turn.
pub fn inputs(seed: u64, count: usize) -> impl Iterator<Item = Vec<u8>> {
    let mut random = Random::new(seed);
    let made = (0..count).map(move |number| match number % 2 {
        0 => stdin::input(&mut random, number / 2),
        _ => stdin::middle(&mut random, number / 2),
    });
    let listed = of_each_end().into_iter().chain(stdin::long());
    listed.chain(stdin::at_limits()).chain(made)
}

/// Whether the program at the path prints what it should.
pub fn agrees(path: &Path, input: &[u8]) -> bool {
    run(path, input).is_ok_and(|printed| printed == program(input))
}

/// What the program prints, or why it did not come to its end.
fn run(path: &Path, input: &[u8]) -> Result<Vec<u8>, String> {
    let words = |error: std::io::Error| error.to_string();
    let mut child = Command::new(path)
        .stdin(Stdio::piped())
        .stdout(Stdio::piped())
        .spawn()
        .map_err(words)?;
    let (into, out) = (child.stdin.take(), child.stdout.take());
    let (Some(mut into), Some(mut out)) = (into, out) else {
        return Err("no pipes".to_string());
    };
    let mut printed = Vec::new();
    let written = std::thread::scope(|scope| {
        // A program that has seen enough may stop reading.
        let writer = scope.spawn(move || match into.write_all(input) {
            Err(error) if error.kind() != ErrorKind::BrokenPipe => Err(error),
            _ => Ok(()),
        });
        let read = out.read_to_end(&mut printed).map(|_| ());
        writer.join().unwrap_or(Ok(())).and(read)
    });
    written.map_err(words)?;
    let status = child.wait().map_err(words)?;
    match status.code() {
        Some(0) => Ok(printed),
        _ => Err(format!("ended with {status}")),
    }
}

/// A smaller input on which they differ still.
pub fn shrink(path: &Path, input: &[u8]) -> Vec<u8> {
    let mut small = input.to_vec();
    let mut length = small.len();
    let mut tries = 0;
    while length > 0 {
        let mut at = 0;
        while at + length <= small.len() && tries < TRIES {
            let mut changed = small.clone();
            changed.drain(at..at + length);
            tries += 1;
            match agrees(path, &changed) {
                true => at += length,
                false => small = changed,
            }
        }
        length /= 2;
    }
    small
}

/// The input in bytes, and both outputs.
pub fn difference(path: &Path, input: &[u8]) -> String {
    const MOST: usize = 400;
    let shown: Vec<String> = input.iter().map(|byte| format!("{byte:02X}")).collect();
    let product = match run(path, input) {
        Ok(printed) => quoted(&printed, MOST),
        Err(reason) => reason,
    };
    let reference = quoted(&program(input), MOST);
    let count = input.len();
    let shown = shown[..count.min(MOST)].join(" ");
    format!("  input, {count} bytes: {shown}\n  product: {product}\n  reference: {reference}\n")
}

fn quoted(printed: &[u8], most: usize) -> String {
    let shown = &printed[..printed.len().min(most)];
    format!("`{}` ({} bytes)", shown.escape_ascii(), printed.len())
}

#[cfg(test)]
mod tests {
    use super::*;

    #[test]
    fn the_listed_inputs_end_in_each_way() {
        let printed = of_each_end().map(|input| String::from_utf8(program(&input)).unwrap());
        let [found, no_rows, nulls, refused, large, stopped, stuck] = &printed;
        assert_eq!(found, "matches 1 steps 12\n1 1 3 AAB 2 115\n");
        assert_eq!(no_rows, "matches 0 steps 0\n");
        assert_eq!(
            nulls,
            "matches 2 steps 9\n1 0 2 AA 2 2 1\n2 2 0 - null 0 null\n"
        );
        assert_eq!(refused, "refused 9\n");
        assert_eq!(large, "too large\n");
        let lines: Vec<&str> = stopped.lines().collect();
        assert_eq!(lines[0], "stopped 431 steps 864");
        assert_eq!(lines[4], "4 3 1 A 1 -333 -333 -333 -333 -333 -333 -333");
        assert_eq!(lines.len(), 432);
        // Fork, A, B and END at rows 0 and 1; at row 2 fork, A, B failing behind the
        // rows, C and END.
        assert_eq!(stuck, "stopped 3 steps 13\n1 0 2 AB\n2 1 2 AB\n3 2 1 C\n");
    }

    /// The program's own crate is run by the gate on the first of them.
    #[test]
    fn the_first_is_that_of_the_program_s_crate() {
        let [first, ..] = of_each_end();
        let stdin = include_bytes!("../../../../crates/mireladle/stdin");
        let stdout = include_bytes!("../../../../crates/mireladle/stdout");
        assert_eq!(first, stdin);
        assert_eq!(program(&first), stdout);
    }
}
