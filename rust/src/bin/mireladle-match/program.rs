//! Searches by running the program `mireladle` in the place of the library: the query and the rows
//! go to its standard input, and the lines that it prints are read back into a report. The
//! program's exit status is always 0, so what it printed has to tell: a report counts only where it
//! is whole, each line of it with its line end, and where nothing was written to standard error.
//! Anything else is told. What stopped a search the program does not say: it is found from the last
//! match, behind which there is a row to skip to or none. Weakness: a program that never ends is
//! waited for. Tested here and in tests/command.rs.

use std::io::{self, ErrorKind, Write};
use std::path::Path;
use std::process::{Command, Output, Stdio};
use std::str::FromStr;

use mireladle::lent::Outcome;
use mireladle::{Error, Report, Skip};

use mireladle::text::screen::{shown, visible, LONGEST_SHOWN};
use mireladle::text::{lines, no_row_behind};

/// Why the program gave no report.
pub enum Failed {
    /// It could not be run to its end.
    Run(io::Error),
    /// It wrote this to standard error.
    Said(String),
    /// It refused.
    Refused(Error),
    /// The input is beyond what the program takes, which is less than what the library takes.
    TooLarge,
    /// What it printed ends too early: what is missing.
    Cut(String),
    /// It printed a line that is not as it should be.
    Line(String),
}

impl Failed {
    /// The reason in words; a refusal has its own.
    pub fn reason(&self) -> String {
        match self {
            Failed::Run(error) => error.to_string(),
            Failed::Said(message) => format!("no report counts beside its message:{message}"),
            Failed::Refused(error) => error.to_string(),
            Failed::TooLarge => String::from(
                "too large: expected a query of at most 4,096 bytes, 8,192 entries and 16,000 pairs",
            ),
            Failed::Cut(missing) => format!("the report is cut: {missing}"),
            Failed::Line(line) => format!("expected the lines of a report, found {}", shown(line)),
        }
    }
}

/// The answers that a first line stands for. 15 is told as 13.
const DONE: u64 = 0;
const STOPPED: u64 = 13;
const NO_SKIP_ROW: u64 = 15;

/// Runs the program on an input and reads the report of a query with so many measures and this
/// skip.
pub fn search(path: &Path, input: Vec<u8>, measures: usize, skip: Skip) -> Result<Report, Failed> {
    let output = run(path, input).map_err(Failed::Run)?;
    let message = said(&String::from_utf8_lossy(&output.stderr));
    if !output.status.success() {
        let ended = format!("ended with {}{message}", output.status);
        return Err(Failed::Run(io::Error::other(ended)));
    }
    match output.stderr.is_empty() {
        true => read(&String::from_utf8_lossy(&output.stdout), measures, skip),
        false => Err(Failed::Said(message)),
    }
}

fn run(path: &Path, input: Vec<u8>) -> io::Result<Output> {
    let mut child = Command::new(path)
        .stdin(Stdio::piped())
        .stdout(Stdio::piped())
        .stderr(Stdio::piped())
        .spawn()?;
    let into = child.stdin.take();
    // Written beside the reading, so that neither has to wait for the other. A program that has
    // seen enough may stop reading; what it prints then tells.
    let writer = std::thread::spawn(move || match into.map(|mut into| into.write_all(&input)) {
        Some(Err(error)) if error.kind() != ErrorKind::BrokenPipe => Err(error),
        _ => Ok(()),
    });
    let output = child.wait_with_output()?;
    match writer.join() {
        Ok(written) => written?,
        Err(_) => return Err(io::Error::other("the input could not be written")),
    }
    Ok(output)
}

/// What the program wrote to standard error, each line on a line of its own, and not too much of
/// it.
fn said(text: &str) -> String {
    const MOST_LINES: usize = 10;
    let line = |line: &str| {
        let front: String = line.chars().take(LONGEST_SHOWN).collect();
        format!("\n    {}", visible(&front))
    };
    lines(text).take(MOST_LINES).map(line).collect()
}

/// Reads the printed lines.
fn read(printed: &str, measures: usize, skip: Skip) -> Result<Report, Failed> {
    let mut lines = whole_lines(printed)?;
    let first = lines.next().unwrap_or("");
    let head = head(first)?;
    let (mut numbers, mut labels) = (Vec::new(), String::new());
    let mut matches: u64 = 0;
    let mut goes_on = true;
    for line in lines {
        matches = matches.saturating_add(1);
        let of_match = match_line(line, matches, measures).filter(|_| matches <= head.matches);
        let (of_match, of_rows) = of_match.ok_or_else(|| strange(line))?;
        goes_on = no_row_behind(skip, matches, of_rows).is_none();
        numbers.extend(of_match);
        labels.push_str(of_rows);
    }
    if matches < head.matches {
        let missing = format!("matches told {}, printed {matches}", head.matches);
        return Err(Failed::Cut(missing));
    }
    // A search stops behind the first match that has no row to skip to, and not for want of room.
    let outcome = Outcome {
        answer: match head.answer {
            STOPPED if !goes_on => NO_SKIP_ROW,
            other => other,
        },
        labels: u64::try_from(labels.len()).unwrap_or(u64::MAX),
        ..head
    };
    Report::new(&outcome, numbers, labels.into_bytes(), measures).map_err(|_| strange(first))
}

/// The lines, where each has its line end. A refusal has one line.
fn whole_lines(printed: &str) -> Result<impl Iterator<Item = &str>, Failed> {
    if printed.is_empty() {
        return Err(Failed::Cut(String::from("nothing was printed")));
    }
    let Some(whole) = printed.strip_suffix('\n') else {
        let last = printed.rsplit('\n').next().unwrap_or("");
        let missing = format!("no line end behind {}", shown(last));
        return Err(Failed::Cut(missing));
    };
    match whole.split_once('\n') {
        Some((refused, behind)) if head(refused).is_err() => {
            Err(strange(&format!("{refused} {behind}")))
        }
        _ => Ok(whole.split('\n')),
    }
}

/// The first line: answer, matches and steps of a report, or why there is none.
fn head(line: &str) -> Result<Outcome, Failed> {
    let words: Vec<&str> = line.split(' ').collect();
    let (answer, matches, steps) = match words[..] {
        ["matches", matches, "steps", steps] => (DONE, matches, steps),
        ["stopped", matches, "steps", steps] => (STOPPED, matches, steps),
        ["too", "large"] => return Err(Failed::TooLarge),
        ["refused", answer] => {
            let answer = number(answer).ok_or_else(|| strange(line))?;
            return Err(Failed::Refused(Error::from_answer(answer, 0)));
        }
        _ => return Err(strange(line)),
    };
    Ok(Outcome {
        answer,
        matches: number(matches).ok_or_else(|| strange(line))?,
        labels: 0,
        steps: number(steps).ok_or_else(|| strange(line))?,
        offset: 0,
    })
}

fn strange(line: &str) -> Failed {
    Failed::Line(String::from(line))
}

/// A number as the program prints it: digits, with a `-` in front if it is negative.
fn number<T: FromStr>(word: &str) -> Option<T> {
    match word.starts_with('+') {
        true => None,
        false => word.parse().ok(),
    }
}

/// The report numbers of the match with this number, and its labels: number, first row, rows taken,
/// labels or `-`, then so many measures.
fn match_line(line: &str, matches: u64, measures: usize) -> Option<(Vec<i64>, &str)> {
    let mut words = line.split(' ');
    let mut numbers: Vec<i64> = Vec::new();
    for _ in 0..3 {
        numbers.push(number(words.next()?)?);
    }
    let labels = match words.next()? {
        "-" => "",
        "" => return None,
        labels => labels,
    };
    for _ in 0..measures {
        match words.next()? {
            "null" => numbers.extend([0, 0]),
            result => numbers.extend([1, number(result)?]),
        }
    }
    let [told, _, taken, ..] = numbers[..] else {
        return None;
    };
    let numbered = u64::try_from(told) == Ok(matches);
    let labelled = usize::try_from(taken) == Ok(labels.len());
    let letters = labels.bytes().all(|label| label.is_ascii_uppercase());
    let ends = words.next().is_none();
    (numbered && labelled && letters && ends).then_some((numbers, labels))
}

#[cfg(test)]
mod tests {
    use mireladle::Ending;

    use super::*;

    const PAST: Skip = Skip::PastLastRow;

    fn lines(report: &Report) -> Vec<String> {
        let line = |found: mireladle::Match<'_>| {
            let measures: Vec<Option<i64>> = found.measures().collect();
            format!(
                "{} {} {} {measures:?}",
                found.number(),
                found.first_row(),
                found.labels()
            )
        };
        report.matches().map(line).collect()
    }

    #[test]
    fn printed_lines_are_read() {
        let printed = "matches 2 steps 12\n1 1 3 AAB 2 -115\n2 4 0 - 0 null\n";
        let Ok(report) = read(printed, 2, PAST) else {
            panic!("a report");
        };
        assert_eq!((report.len(), report.steps()), (2, 12));
        assert_eq!(
            lines(&report),
            ["1 1 AAB [Some(2), Some(-115)]", "2 4  [Some(0), None]"]
        );
        assert_eq!(report.ending(), Ending::Done);
        let stopped = read("stopped 0 steps 3\n", 0, PAST);
        assert!(stopped.is_ok_and(|report| report.ending() == Ending::Stopped));
    }

    /// Both answers of a stopped search are printed alike: the last match tells which it was.
    #[test]
    fn what_stopped_a_search_is_found_from_its_last_match() {
        let ending = |printed: &str, skip| match read(printed, 0, skip) {
            Ok(report) => (report.ending(), report.len()),
            Err(failed) => panic!("{}", failed.reason()),
        };
        let (first, last) = (Skip::ToFirst('A'), Skip::ToLast('A'));
        let two = "stopped 2 steps 9\n1 0 3 BAA\n2 2 2 AB\n";
        for skip in [first, last] {
            assert_eq!(ending(two, skip), (Ending::NoSkipRow, 2));
        }
        for skip in [PAST, Skip::ToNextRow, Skip::ToFirst('B'), Skip::ToLast('B')] {
            assert_eq!(ending(two, skip), (Ending::Stopped, 2));
        }
        let empty = "stopped 2 steps 9\n1 0 3 BAA\n2 2 0 -\n";
        let none = "stopped 0 steps 3\n";
        for skip in [first, last] {
            assert_eq!(ending(empty, skip), (Ending::Stopped, 2));
            assert_eq!(ending(none, skip), (Ending::Stopped, 0));
        }
        let done = two.replace("stopped", "matches");
        assert_eq!(ending(&done, PAST), (Ending::Done, 2));
    }

    #[test]
    fn refusals_and_strange_lines_are_told() {
        assert!(matches!(
            read("refused 7\n", 0, PAST),
            Err(Failed::Refused(Error::TooManyPlaces))
        ));
        assert!(matches!(
            read("too large\n", 0, PAST),
            Err(Failed::TooLarge)
        ));
        for strange in [
            "too\n",
            "too large\nor not\n",
            "refused 7\n\n",
            "refused +7\n",
            "matches 0 steps 3\n\n",
            "matches 1 steps 3\n1 0 2 A\n",
            "matches 1 steps 3\n1 0 1 A 5\n",
            "matches 1 steps 3\n1 0 1 A\n2 1 1 A\n",
            "matches 1 steps 3\n2 0 1 A\n",
            "matches 1 steps 3\n1 0 1 a\n",
            "matches 1 steps 3\n1 0 0 \n",
            "matches 1 steps 3\n1 0 1 A\r\n",
            "matches 2 steps 3\n1 0 1 AA\n2 0 1 \n",
            "matches x steps 3\n",
            "matches 0 steps x\n",
        ] {
            assert!(
                matches!(read(strange, 0, PAST), Err(Failed::Line(_))),
                "{strange}"
            );
        }
    }

    /// Every front of a report but the whole is told as cut, or at least not taken for a report.
    #[test]
    fn every_cut_is_told() {
        let whole = "matches 2 steps 12\n1 1 3 AAB 2 -115\n2 4 0 - 0 null\n";
        assert!(read(whole, 2, PAST).is_ok());
        for end in 0..whole.len() {
            let cut = read(&whole[..end], 2, PAST);
            assert!(matches!(cut, Err(Failed::Cut(_))), "{end}");
        }
        let stopped = "stopped 1 steps 12\n1 1 3 AAB\n";
        for end in 0..stopped.len() {
            let cut = read(&stopped[..end], 0, PAST);
            assert!(matches!(cut, Err(Failed::Cut(_))), "{end}");
        }
        for cut in ["refused 1", "too large", "matches 0 steps 1"] {
            assert!(matches!(read(cut, 0, PAST), Err(Failed::Cut(_))), "{cut}");
        }
    }

    #[test]
    fn a_message_is_shown_line_by_line() {
        assert_eq!(said(""), "");
        assert_eq!(said("a\u{1B}[2J\nb"), "\n    a\u{FFFD}[2J\n    b");
        assert_eq!(said(&"x\n".repeat(99)).lines().count(), 1 + 10);
    }
}
