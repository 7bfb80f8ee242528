//! The command mireladle-match as a user runs it: what it prints for the shipped examples, its exit status, its
//! messages, and the bytes that it writes for the program.

#![allow(clippy::restriction)]

use std::path::{Path, PathBuf};
use std::process::{Command, Output};

const UNITS: &str =
    "only whole numbers are compared, so count in smaller units, such as 245 for 24.5";
const EXAMPLES: &str = concat!(env!("CARGO_MANIFEST_DIR"), "/../examples");

fn run(arguments: &[&str]) -> Output {
    Command::new(env!("CARGO_BIN_EXE_mireladle-match"))
        .args(arguments)
        .output()
        .unwrap()
}

fn example(name: &str) -> String {
    format!("{EXAMPLES}/{name}")
}

fn status(output: &Output) -> i32 {
    output.status.code().unwrap()
}

fn text(bytes: &[u8]) -> &str {
    std::str::from_utf8(bytes).unwrap()
}

/// A file of this test run; names differ from test to test, since tests run side by side.
fn file(name: &str, content: impl AsRef<[u8]>) -> String {
    let path: PathBuf = Path::new(env!("CARGO_TARGET_TMPDIR")).join(name);
    std::fs::write(&path, content).unwrap();
    path.into_os_string().into_string().unwrap()
}

/// Exit status and messages for a query and rows that give no result.
fn failure(name: &str, query: &str, rows: &str) -> (i32, String) {
    let query = file(&format!("{name}.txt"), query);
    let rows = file(&format!("{name}.csv"), rows);
    let output = run(&[&query, &rows]);
    assert_eq!(text(&output.stdout), "");
    let message = text(&output.stderr).replace(env!("CARGO_TARGET_TMPDIR"), "");
    (status(&output), message)
}

#[test]
fn rising_falling() {
    let output = run(&[
        &example("rising-falling.txt"),
        &example("rising-falling.csv"),
    ]);
    let expected = "\
1 match in 12 steps

match  first row  rows  COUNT(A)  LAST(B.price)  labels
    1          1     3         2            115  AAB

row  price  match:label
  0    100
  1    110  1:A
  2    120  1:A
  3    115  1:B
  4    130
";
    assert_eq!(
        (status(&output), text(&output.stdout), text(&output.stderr)),
        (0, expected, "")
    );
}

#[test]
fn release() {
    let output = run(&[&example("release.txt"), &example("release.csv")]);
    let printed = text(&output.stdout);
    assert_eq!(status(&output), 0);
    assert!(printed.starts_with("2 matches in 22 steps\n"), "{printed}");
    for line in [
        "    1          0     4            540           560           7           31         2  ORRC",
        "    2         11     4            700           709           8           41         2  ORRC",
        "  3   560      3     7     31  1:C",
        "  6   611      3     7     32",
        " 10   655      3     7     40",
        " 14   709      3     8     41  2:C",
    ] {
        assert!(printed.lines().any(|printed| printed == line), "{line}\n{printed}");
    }
}

#[test]
fn valleys() {
    let output = run(&[&example("valleys.txt"), &example("valleys.csv")]);
    let expected = "\
3 matches in 32 steps

match  first row  rows  FIRST(S.price)  LAST(D.price)  LAST(U.price)  AVG(price)  labels
    1          0     4              20             15             24          19  SDUU
    2          3     5              24             12             22          18  SDDUU
    3          7     3              22             21             25          22  SDU

row  price  match:label
  0     20  1:S
  1     15  1:D
  2     18  1:U
  3     24  1:U 2:S
  4     17  2:D
  5     12  2:D
  6     19  2:U
  7     22  2:U 3:S
  8     21  3:D
  9     25  3:U
";
    assert_eq!(
        (status(&output), text(&output.stdout), text(&output.stderr)),
        (0, expected, "")
    );
}

/// OR, NOT, BETWEEN and IN. What is asked of the row before the first is unknown, and NOT does not
/// make it true.
#[test]
fn outside() {
    let output = run(&[&example("outside.txt"), &example("outside.csv")]);
    let expected = "\
2 matches in 15 steps

match  first row  rows  COUNT(O)  FIRST(O.price)  labels
    1          2     3         3             120  OOO
    2          6     1         1               0  O

row  price  match:label
  0    100
  1    105
  2    120  1:O
  3    999  1:O
  4    118  1:O
  5    121
  6      0  2:O
";
    assert_eq!(
        (status(&output), text(&output.stdout), text(&output.stderr)),
        (0, expected, "")
    );
}

/// A condition that cannot be read gets its line, its column and a mark under it.
#[test]
fn a_condition_that_cannot_be_read() {
    let rows = file("joins.csv", "price\n1\n");
    let query = file(
        "joins.txt",
        "pattern: A\nA: price = 1 OR NOT (price IS NULL)\n",
    );
    let output = run(&[&query, &rows]);
    assert_eq!(status(&output), 2);
    let expected = "\
:2:28: expected one of = <> < <= > >=, BETWEEN or IN, since every cell is a number and none is NULL, \
found `IS`
    A: price = 1 OR NOT (price IS NULL)
                               ^
";
    let printed = text(&output.stderr);
    assert!(printed.ends_with(expected), "{printed}");
    let nots = "NOT ".repeat(16);
    let long = format!("pattern: A\nA: {nots}price = 1\n");
    let query = file("joins-long.txt", long);
    let printed = run(&[&query, &rows]);
    let printed = text(&printed.stderr);
    let expected = ":2:1: expected at most 16 comparisons, ANDs, ORs and NOTs in a DEFINE";
    assert!(printed.contains(expected), "{printed}");
    assert!(printed.contains("found 17 of them"), "{printed}");
}

/// A match without a row to skip to is printed, and the first line says why it is the last.
#[test]
fn a_search_without_a_row_to_skip_to_says_why() {
    let rows = file("no-row.csv", "event\n1\n2\n1\n1\n2\n");
    let output = |name: &str, skip: &str| {
        let query = format!("pattern: A B?\nA: event = 1\nB: event = 2\nskip: {skip}");
        let query = file(&format!("{name}.txt"), query);
        let output = run(&[&query, &rows]);
        assert_eq!(text(&output.stderr), "");
        (status(&output), text(&output.stdout).to_owned())
    };
    let expected = "\
stopped since no row of match 2 is labelled B: 2 matches in 9 steps

match  first row  rows  labels
    1          0     2  AB
    2          2     1  A

row  event  match:label
  0      1  1:A
  1      2  1:B
  2      1  2:A
  3      1
  4      2
";
    assert_eq!(output("no-row", "to last B"), (3, String::from(expected)));
    let first = expected.lines().next().unwrap();
    let readme = include_str!("../../README.md");
    assert!(readme.contains(&format!("```text\n{first}\n```")));
    for which in ["first", "last"] {
        let (status, printed) = output(&format!("no-row-{which}"), &format!("to {which} A"));
        let expected = format!("the {which} row labelled A is the first row of match 1: 1 match ");
        let begins = printed.starts_with(&format!("stopped since {expected}"));
        assert!(status == 3 && begins, "{status} {printed}");
    }
}

/// The match of the first example is found with the eighth of twelve steps.
#[test]
fn a_search_out_of_steps_prints_what_it_found() {
    let files = [example("rising-falling.txt"), example("rising-falling.csv")];
    let output = |steps: &str| {
        let output = run(&["--steps", steps, &files[0], &files[1]]);
        assert_eq!(text(&output.stderr), "", "{steps}");
        (status(&output), text(&output.stdout).to_owned())
    };
    let whole = text(&run(&[&files[0], &files[1]]).stdout).to_owned();
    let found = whole.replace(
        "1 match in 12 steps",
        "stopped since --steps allows no more: 1 match in 8 steps",
    );
    assert_eq!(output("8"), (3, found.clone()));
    assert_eq!(output("11"), (3, found.replace("8 steps", "11 steps")));
    let none = |steps: &str| {
        let rows = "\n\nrow  price  match:label\n  0    100\n  1    110\n  2    120\n  3    115\n";
        let head = format!("stopped since --steps allows no more: no match in {steps}");
        (3, format!("{head}{rows}  4    130\n"))
    };
    assert_eq!(output("7"), none("7 steps"));
    assert_eq!(output("1"), none("1 step"));
    assert_eq!(output("0"), none("0 steps"));
    // As many as the search takes, or more, change nothing.
    for enough in ["12", "13", "0012", "18446744073709551615"] {
        assert_eq!(output(enough), (0, whole.clone()), "{enough}");
    }
    let readme = include_str!("../../README.md");
    let first = found.lines().next().unwrap();
    assert!(readme.contains(&format!("```text\n{first}\n```")));
}

/// What the search comes to first is told.
#[test]
fn a_search_that_needs_no_further_step_says_why_it_stopped() {
    let rows = file("steps-15.csv", "event\n1\n2\n1\n1\n2\n");
    let query = "pattern: A B?\nA: event = 1\nB: event = 2\nskip: to last B";
    let query = file("steps-15.txt", query);
    let first_line = |steps: &str| {
        let output = run(&[&query, "--steps", steps, &rows]);
        let printed = text(&output.stdout);
        (status(&output), printed.lines().next().unwrap().to_owned())
    };
    let no_row = "stopped since no row of match 2 is labelled B: 2 matches in 9 steps";
    let no_step = "stopped since --steps allows no more: 1 match in 8 steps";
    assert_eq!(first_line("8"), (3, String::from(no_step)));
    assert_eq!(first_line("9"), (3, String::from(no_row)));
    assert_eq!(first_line("10"), (3, String::from(no_row)));
    // A refusal does not depend on the steps.
    let query = file("steps-refused.txt", "pattern: ((((A*)*)*)*)*\nA: true");
    let output = run(&["--steps", "0", &query, &rows]);
    assert_eq!((status(&output), text(&output.stdout)), (2, ""));
    assert!(text(&output.stderr).starts_with("refused 6: "));
}

#[test]
fn a_number_of_steps_that_is_wrong_is_told() {
    let files = [example("rising-falling.txt"), example("rising-falling.csv")];
    let message = |arguments: &[&str]| {
        let output = run(arguments);
        assert_eq!(
            (status(&output), text(&output.stdout)),
            (2, ""),
            "{arguments:?}"
        );
        let message = text(&output.stderr).to_owned();
        let (first, usage) = message.split_once('\n').unwrap();
        let both = "usage: mireladle-match [OPTIONS] QUERY ROWS\n       \
                    mireladle-match [OPTIONS] -e TEXT [ROWS] (--help tells more)\n";
        assert_eq!(usage, both);
        first.to_owned()
    };
    let needs = "--steps needs a whole number from 0 to 18446744073709551615";
    for (wrong, found) in [
        ("", "nothing"),
        ("-1", "`-1`"),
        ("1.5", "`1.5`"),
        ("1e6", "`1e6`"),
        ("1,000", "`1,000`"),
        (" 7", "` 7`"),
        ("many", "`many`"),
        ("18446744073709551616", "`18446744073709551616`"),
        ("\u{1B}[31m", "`\u{FFFD}[31m`"),
    ] {
        let expected = format!("{needs}, found {found}");
        assert_eq!(message(&["--steps", wrong, &files[0], &files[1]]), expected);
    }
    // The number was forgotten.
    let expected = format!("{needs}, found `query.txt`");
    assert_eq!(message(&["--steps", "query.txt", "rows.csv"]), expected);
    assert_eq!(message(&[&files[0], &files[1], "--steps"]), needs);
    // A value stands behind its option or behind `=`.
    let joined = message(&["--steps=x", &files[0], &files[1]]);
    assert_eq!(joined, format!("{needs}, found `x`"));
    assert_eq!(status(&run(&["--steps=9", &files[0], &files[1]])), 3);
}

/// The program has no allowance: neither of two options is left out in silence.
#[test]
fn steps_are_for_the_library_alone() {
    let files = [example("rising-falling.txt"), example("rising-falling.csv")];
    let (program, input) = stand_in("steps-program", "matches 0 steps 3\\n");
    for (options, expected) in [
        (
            &["--program", program.as_str(), "--steps", "9"][..],
            "--program and --steps exclude each other: \
             only the library can be told how many steps to take\n",
        ),
        (
            &["--steps", "9", "--bytes"],
            "--bytes and --steps exclude each other: \
             what the program reads has no place for a number of steps\n",
        ),
    ] {
        let files = [files[0].as_str(), files[1].as_str()];
        let output = run(&[options, &files].concat());
        assert_eq!((status(&output), text(&output.stdout)), (2, ""));
        let message = text(&output.stderr);
        assert!(message.starts_with(expected), "{message}");
    }
    assert_eq!(std::fs::read(input).unwrap(), b"");
    // Behind `--` it is the name of a file, and the later of two numbers counts.
    let output = run(&["--", "--steps", &files[1]]);
    assert!(text(&output.stderr).starts_with("--steps: "), "{output:?}");
    let output = run(&["--steps", "0", &files[0], "--steps", "12", &files[1]]);
    assert_eq!(status(&output), 0);
}

#[test]
fn overlapping_and_empty_matches_are_told_apart() {
    let query = file(
        "overlap.txt",
        "pattern: A*\nA: c0 > 0\nskip: to next row\nmeasures: MIN(c0)",
    );
    let rows = file("overlap.csv", "price\n1\n1\n0\n");
    let output = run(&[&query, &rows]);
    let expected = "\
3 matches in 13 steps

match  first row  rows  MIN(price)  labels
    1          0     2           1  AA
    2          1     1           1  A
    3          2     0        null  -

row  price  match:label
  0      1  1:A
  1      1  1:A 2:A
  2      0  3:-
";
    assert_eq!((status(&output), text(&output.stdout)), (0, expected));
}

/// Cut toward zero on both sides of it, null over no rows, and under the column's own name.
#[test]
fn averages_are_whole_numbers() {
    let query = file(
        "average.txt",
        "pattern: A B*\nA: true\nB: c0 = 2\nmeasures: avg(degrees), AVG(B.c1), SUM(B.degrees), COUNT(B)",
    );
    let rows = file(
        "average.csv",
        "event,degrees\n1,8\n2,3\n2,4\n1,-2\n2,-3\n2,-4\n1,-1\n",
    );
    let output = run(&[&query, &rows]);
    let expected = "\
3 matches in 20 steps

match  first row  rows  AVG(degrees)  AVG(B.degrees)  SUM(B.degrees)  COUNT(B)  labels
    1          0     3             5               3               7         2  ABB
    2          3     3            -3              -3              -7         2  ABB
    3          6     1            -1            null            null         0  A
";
    let printed = text(&output.stdout);
    assert!(printed.starts_with(expected), "{printed}");
    assert_eq!((status(&output), text(&output.stderr)), (0, ""));
    // The function's number, the letter and the column, as the program reads them.
    let bytes = run(&["--bytes", &query, &rows]).stdout;
    for measure in [[4, 0, 5, 0, 7, 0, 1, 0], [4, 0, 5, 0, 7, b'B', 1, 0]] {
        assert!(bytes.windows(8).any(|part| part == measure), "{measure:?}");
    }
}

#[test]
fn each_row_has_its_own_label() {
    let query = file(
        "own.txt",
        "pattern: (A | B)+ C\nA: c0 = 1\nB: c0 = 2\nC: c0 = 3",
    );
    let rows = file("own.csv", "event\n1\n2\n3\n3\n2\n1\n3\n");
    let output = run(&[&query, &rows]);
    let printed = text(&output.stdout);
    let labels = "row  event  match:label
  0      1  1:A
  1      2  1:B
  2      3  1:C
  3      3
  4      2  2:B
  5      1  2:A
  6      3  2:C
";
    assert!(printed.ends_with(labels), "{printed}");
}

/// Names with an escape sequence, a tab, and one that turns the direction of writing.
#[test]
fn control_characters_of_the_data_do_not_reach_the_screen() {
    let rows = file(
        "control.csv",
        "\"a\u{1B}[31m\",\"b\tc\u{9B}\",d\u{202E}\n1,2,3\n",
    );
    let query = file("control.txt", "pattern: A\nmeasures: LAST(A.c0), SUM(c1)");
    let output = run(&[&query, &rows]);
    let expected = "\
1 match in 2 steps

match  first row  rows  LAST(A.a\u{FFFD}[31m)  SUM(b\u{FFFD}c\u{FFFD})  labels
    1          0     1               1          2  A

row  a\u{FFFD}[31m  b\u{FFFD}c\u{FFFD}  d\u{FFFD}  match:label
  0       1     2   3  1:A
";
    assert_eq!((status(&output), text(&output.stdout)), (0, expected));
    let wrong = file("control-wrong.txt", "pattern: A\nA: x = 1");
    for output in [
        run(&[&wrong, &rows]),
        run(&["--\u{1B}[31m", &query, &rows]),
        run(&["no\u{1B}[31m", &rows]),
    ] {
        let message = text(&output.stderr);
        let upsets = |c: char| c.is_control() && !"\n\t".contains(c) || c == '\u{202E}';
        assert!(
            status(&output) == 2 && message.contains("[31m"),
            "{message:?}"
        );
        assert!(!message.contains(upsets), "{message:?}");
    }
}

/// Names of two wide characters, of a letter with a mark of its own, and with an emoji.
#[test]
fn wide_characters_keep_the_tables_in_line() {
    let rows = file(
        "wide.csv",
        "\u{4FA1}\u{683C},ve\u{301}lo,\"x\u{1F600}\",d\n1,2,3,4\n",
    );
    let query = file("wide.txt", "pattern: A\nmeasures: LAST(c0), LAST(c1)");
    let output = run(&[&query, &rows]);
    // On a screen the entries stand under the last column of their names, as they do here.
    let expected = "\
1 match in 2 steps

match  first row  rows  LAST(\u{4FA1}\u{683C})  LAST(ve\u{301}lo)  labels
    1          0     1           1           2  A

row  \u{4FA1}\u{683C}  ve\u{301}lo  x\u{1F600}  d  match:label
  0     1     2    3  4  1:A
";
    assert_eq!((status(&output), text(&output.stdout)), (0, expected));
}

/// CR LF, and CR alone, as LF: in the rows and in the query.
#[test]
fn every_line_end_is_read() {
    let read = |name: &str| std::fs::read_to_string(example(name)).unwrap();
    let expected = run(&[&example("release.txt"), &example("release.csv")]);
    for (name, end) in [("crlf", "\r\n"), ("cr", "\r")] {
        let query = file(
            &format!("{name}.txt"),
            read("release.txt").replace('\n', end),
        );
        let rows = file(
            &format!("{name}.csv"),
            read("release.csv").replace('\n', end),
        );
        let output = run(&[&query, &rows]);
        assert_eq!(
            (status(&output), text(&output.stdout)),
            (0, text(&expected.stdout)),
            "{name}"
        );
    }
    let wrong = failure("cr-wrong", "pattern: A\nA: a = 1", "a\r1\r1.5\r2\r");
    let number = "a whole number from -2147483648 to 2147483647";
    let message =
        format!("/cr-wrong.csv:3:1: expected {number}, found `1.5`; {UNITS}\n    1.5\n    ^\n");
    assert_eq!(wrong, (2, message));
}

#[test]
fn no_match_and_no_rows() {
    let query = file("none.txt", "pattern: A\nA: c0 > 5");
    let rows = file("none.csv", "price\n1\n");
    assert_eq!(
        text(&run(&[&query, &rows]).stdout),
        "no match in 1 step\n\nrow  price  match:label\n  0      1\n"
    );
    let empty = file("none-empty.csv", "\u{FEFF}price\r\n");
    assert_eq!(
        text(&run(&[&query, &empty]).stdout),
        "no match in 0 steps\n\nrow  price  match:label\n"
    );
}

#[test]
fn bytes_for_the_program() {
    let output = run(&[
        "--bytes",
        &example("rising-falling.txt"),
        &example("rising-falling.csv"),
    ]);
    let mut expected = vec![72, 0];
    expected.extend([2, 0, 1, 0, 1, 0, 4, 0, 2, 0, 0x41, 0x2B, 0x20, 0x42]);
    expected.extend([
        0x0E, 0, 3, 0, 0x41, 1, 0, 0, 5, 1, 0, 0xFF, 0, 0, 0, 0, 0, 0,
    ]);
    expected.extend([
        0x0E, 0, 3, 0, 0x42, 1, 0, 0, 3, 1, 0, 0xFF, 0, 0, 0, 0, 0, 0,
    ]);
    expected.extend([
        2, 0, 4, 0, 0, 0, 4, 0, 5, 0, 1, 0x41, 0, 0, 4, 0, 5, 0, 6, 0x42, 0, 0,
    ]);
    expected.extend([
        100, 0, 0, 0, 110, 0, 0, 0, 120, 0, 0, 0, 115, 0, 0, 0, 130, 0, 0, 0,
    ]);
    assert_eq!((status(&output), output.stdout), (0, expected));
    // Whether a query is accepted is then for the program to say.
    let query = file("bytes.txt", "pattern: A**\nA: a < 0");
    let rows = file("bytes.csv", "b,a\nx,-1\n");
    let refused = run(&[&query, "--bytes", &rows]);
    assert_eq!(status(&refused), 0);
    assert_eq!(refused.stdout[2 + 6..][..7], [3, 0, 2, 0, b'A', b'*', b'*']);
    assert!(refused.stdout.ends_with(&[0xFF; 4]));
}

#[test]
fn refusals_have_number_and_words() {
    let refused = |name: &str, query: &str, expected: &str| {
        assert_eq!(
            failure(name, &format!("{query}\n"), "a,b\n1,2\n"),
            (2, String::from(expected))
        );
    };
    refused(
        "refused-4",
        "# deep\npattern: (((((((((A)))))))))\nA: true",
        "refused 4: more than 8 parentheses are open somewhere in the pattern\n\
         /refused-4.txt:2: pattern: (((((((((A)))))))))\n",
    );
    refused(
        "refused-5",
        "pattern: A** # twice\nA: true",
        "refused 5: the pattern text is wrong at byte 2, counted from 0\n\
         /refused-5.txt:1:12: expected a letter A to Z, `$`, `(`, `?`, `^`, `|`, a space or the end, \
         found `*`\n    pattern: A** # twice\n               ^\n",
    );
    refused(
        "refused-5-tab",
        "A: a = 1\n  pattern: (\u{9}A |",
        "refused 5: the pattern text is wrong at byte 1, counted from 0\n\
         /refused-5-tab.txt:2:13: expected a letter A to Z, `$`, `(`, `)`, `^` or a space, \
         found the byte 0x09\n      pattern: (\u{9}A |\n                ^\n",
    );
    refused(
        "refused-14",
        "A: a = 1\npattern: A | # B",
        "refused 14: the pattern text ends where it could go on to a pattern, behind 3 bytes\n\
         /refused-14.txt:2:13: expected a letter A to Z, `$`, `(`, `^` or a space, \
         found the end of the pattern\n    pattern: A | # B\n                ^\n",
    );
    refused(
        "refused-8",
        "pattern: A\nA: a = 1\nA: a = 2 # again\nA: a = 3",
        "refused 8: a letter has two DEFINEs\n/refused-8.txt:3: A: a = 2\n",
    );
    refused(
        "refused-9",
        "pattern: A\nmeasures: COUNT(B)\nA: true",
        "refused 9: a measure or the skip names a letter that is not in the pattern\n\
         /refused-9.txt:2: measures: COUNT(B)\n",
    );
    let many = format!("a\n{}", "1\n".repeat(4097));
    let rows = failure("refused-10", "pattern: A\nA: true", &many);
    let expected = "refused 10: /refused-10.csv has 4,097 rows, and a search takes at most 4,096; \
                    part it by --partition-by COLUMN, such as a day, or search a part of the file\n";
    assert_eq!(rows, (2, String::from(expected)));
}

/// Of the two lines that can name a letter which the pattern does not have, the right one is shown.
#[test]
fn a_skip_to_a_letter_outside_the_pattern_is_shown() {
    let query = "pattern: A\nskip: to  first B # none\nmeasures: COUNT(A)\nA: true";
    let expected = "refused 9: a measure or the skip names a letter that is not in the pattern\n\
         /refused-9-skip.txt:2: skip: to  first B\n";
    let refused = failure("refused-9-skip", query, "a\n1\n");
    assert_eq!(refused, (2, String::from(expected)));
    let query = "pattern: A\nskip: to last A\nmeasures: COUNT(B)\nA: true";
    let (status, message) = failure("refused-9-both", query, "a\n1\n");
    let measures = "/refused-9-both.txt:3: measures: COUNT(B)\n";
    assert!(status == 2 && message.ends_with(measures), "{message}");
}

/// What the README shows of the command is what it does.
#[test]
fn the_readme_is_true() {
    let readme = include_str!("../../README.md");
    let (status, message) = failure("query", "pattern: A{30,2}\nA: true", "a\n1\n");
    assert_eq!(status, 2);
    let message = message.replace("/query.txt", "query.txt");
    assert!(
        readme.contains(&format!("```text\n{message}```")),
        "{message}"
    );
    for name in ["release.txt", "outside.txt"] {
        let query = std::fs::read_to_string(example(name)).unwrap();
        let plain = |line: &&str| !line.starts_with('#');
        let query: Vec<&str> = query.lines().filter(plain).collect();
        let shown = format!("```text\n{}\n```", query.join("\n"));
        assert!(readme.contains(&shown), "{name}");
    }
}

#[test]
fn wrong_input_has_a_place_and_what_was_expected() {
    let wrong = |name: &str, query: &str, rows: &str, expected: &str| {
        assert_eq!(failure(name, query, rows), (2, String::from(expected)));
    };
    wrong(
        "wrong-column",
        "pattern: A\nA: evnt = 1",
        "time,event\n",
        "/wrong-column.txt:2:4: expected a column (c0 or time, c1 or event), found `evnt`\n    A: evnt = 1\n       ^\n",
    );
    wrong(
        "wrong-row",
        "pattern: A\nA: b = 1",
        "a,b\n1,2\n3,x\n",
        "/wrong-row.csv:3:3: expected a whole number from -2147483648 to 2147483647, found `x`; \
         a column of texts needs codes, so write a line such as `b: 'x'=1` into the query\n    \
         3,x\n      ^\n",
    );
    wrong(
        "wrong-end",
        "# nothing\n",
        "a\n",
        "/wrong-end.txt:2:1: expected a `pattern:` line, found the end of the file\n",
    );
}

#[test]
fn files_that_are_no_text_or_not_there() {
    let good = example("rising-falling.txt");
    let binary = file("binary.csv", b"price\n1\n\xFF2\n");
    let output = run(&[&good, &binary]);
    assert_eq!(status(&output), 2);
    let message = text(&output.stderr);
    assert!(
        message.contains("binary.csv:3:1: expected a whole number "),
        "{message}"
    );
    let header = file("binary-header.csv", b"pri\xFFce\n1\n");
    let output = run(&[&good, &header]);
    assert!(text(&output.stderr)
        .ends_with("binary-header.csv:1:1: expected text in UTF-8, found the byte 0xFF\n"));
    let missing = run(&[&good, &example("no-such-file.csv")]);
    assert_eq!(status(&missing), 2);
    assert!(text(&missing.stderr).contains("no-such-file.csv: "));
}

#[test]
fn the_command_line() {
    let help = run(&["--help"]);
    assert_eq!(status(&help), 0);
    let usage = "usage: mireladle-match [OPTIONS] QUERY ROWS";
    assert!(text(&help.stdout).contains(usage));
    for wrong in [
        &[][..],
        &["one"],
        &["one", "two", "three"],
        &["--byte", "one", "two"],
        &["one", "two", "--program"],
        &["--bytes", "--program", "three", "one", "two"],
        &[
            "--bytes",
            "--program",
            "three",
            "--steps",
            "4",
            "one",
            "two",
        ],
    ] {
        let output = run(wrong);
        assert_eq!(
            (status(&output), text(&output.stdout)),
            (2, ""),
            "{wrong:?}"
        );
        assert!(text(&output.stderr).contains("usage: "), "{wrong:?}");
    }
}

/// A script in the place of the program. A shell writes it: a file that this process has open for
/// writing could be handed to a process that another test starts, and would be too busy to be run.
fn script(name: &str, lines: &str) -> String {
    let path = format!("{}/{name}.sh", env!("CARGO_TARGET_TMPDIR"));
    let made = Command::new("sh")
        .args([
            "-c",
            r##"printf '#!/bin/sh\n%s\n' "$1" > "$0" && chmod 755 "$0""##,
            &path,
            lines,
        ])
        .status();
    assert!(made.unwrap().success());
    path
}

/// A script that keeps what it reads in a file and prints what it is told to.
fn stand_in(name: &str, prints: &str) -> (String, String) {
    let input = file(&format!("{name}.input"), "");
    let path = script(name, &format!("cat > '{input}'\nprintf '{prints}'"));
    (path, input)
}

#[test]
fn a_program_searches_in_the_place_of_the_library() {
    let files = [
        &example("rising-falling.txt"),
        &example("rising-falling.csv"),
    ];
    let (program, input) = stand_in("program", "matches 1 steps 12\\n1 1 3 AAB 2 115\\n");
    let output = run(&["--program", &program, files[0], files[1]]);
    let by_library = run(&[files[0], files[1]]);
    assert_eq!((status(&output), text(&output.stderr)), (0, ""));
    assert_eq!(text(&output.stdout), text(&by_library.stdout));
    let bytes = run(&["--bytes", files[0], files[1]]);
    assert_eq!(std::fs::read(input).unwrap(), bytes.stdout);
}

#[test]
fn a_report_that_is_not_whole_has_a_status_of_its_own() {
    let files = [example("release.txt"), example("release.csv")];
    let (program, _) = stand_in("stops", "stopped 0 steps 3\\n");
    let output = run(&["--program", &program, &files[0], &files[1]]);
    assert_eq!((status(&output), text(&output.stderr)), (3, ""));
    assert!(text(&output.stdout).starts_with("stopped for want of room: "));
    // The program prints the same where there is no row to skip to: the last match tells.
    let query = file(
        "stops-behind.txt",
        "pattern: O C*\nskip: to last C\nO: true\nC: true",
    );
    for (name, last, expected) in [
        (
            "stops-behind",
            "2 1 2 OO",
            "stopped since no row of match 2 is labelled C: 2 matches in 9 steps\n",
        ),
        (
            "stops-first",
            "2 1 2 CO",
            "stopped since the last row labelled C is the first row of match 2: 2 matches ",
        ),
        (
            "stops-room",
            "2 1 2 OC",
            "stopped for want of room: 2 matches in 9 steps\n",
        ),
    ] {
        let prints = format!("stopped 2 steps 9\\n1 0 2 OC\\n{last}\\n");
        let (program, input) = stand_in(name, &prints);
        let output = run(&["--program", &program, &query, &files[1]]);
        assert_eq!((status(&output), text(&output.stderr)), (3, ""), "{name}");
        let printed = text(&output.stdout);
        assert!(printed.starts_with(expected), "{name}: {printed}");
        // What the program reads has the mode and the letter.
        let skip = [2, 0, 4, 0, 3, b'C'];
        let read = std::fs::read(input).unwrap();
        assert!(read.windows(6).any(|part| part == skip), "{name}");
    }
}

#[test]
fn a_program_that_refuses_or_says_something_else() {
    let files = [example("release.txt"), example("release.csv")];
    let message = |program: &str| {
        let output = run(&["--program", program, &files[0], &files[1]]);
        assert_eq!(text(&output.stdout), "");
        let message = text(&output.stderr).replace(env!("CARGO_TARGET_TMPDIR"), "");
        (status(&output), message)
    };
    let refused = format!(
        "refused 9: {}\n{}:8: measures: {}\n",
        "a measure or the skip names a letter that is not in the pattern",
        files[0],
        "FIRST(O.time), LAST(C.time), LAST(base), LAST(patch), COUNT(R)"
    );
    let (program, _) = stand_in("refuses", "refused 9\\n");
    assert_eq!(message(&program), (2, refused));
    // The program tells no place: the library that is linked does.
    let (program, _) = stand_in("refuses-14", "refused 14\\n");
    let query = file("refuses-14.txt", "pattern: (A\nA: true");
    let output = run(&["--program", &program, &query, &files[1]]);
    let place = "/refuses-14.txt:1:12: expected `$`, `(`, `)`, `*`, ";
    assert_eq!(status(&output), 2);
    assert!(text(&output.stderr).contains(place), "{output:?}");
    let (program, _) = stand_in("refuses-5", "refused 5\\n");
    let differ = "refused 5: the program refuses the pattern, the linked library does not\n";
    let said = message(&program);
    assert!(said.0 == 2 && said.1.starts_with(differ), "{said:?}");
    let large = "/large.sh: too large: expected a query of at most 4,096 bytes, 8,192 entries and 16,000 pairs\n";
    let (program, _) = stand_in("large", "too large\\n");
    assert_eq!(message(&program), (2, String::from(large)));
    let missing = message("/no/such/program");
    assert!(missing.0 == 2 && missing.1.starts_with("/no/such/program: "));
}

/// Real processes whose report is not whole, or that say something beside it.
#[test]
fn a_program_whose_report_is_not_whole() {
    let files = [
        &example("rising-falling.txt"),
        &example("rising-falling.csv"),
    ];
    let message = |name: &str, lines: &str| {
        let program = script(name, &format!("cat > /dev/null\n{lines}"));
        let output = run(&["--program", &program, files[0], files[1]]);
        assert_eq!((status(&output), text(&output.stdout)), (2, ""), "{name}");
        text(&output.stderr).replace(env!("CARGO_TARGET_TMPDIR"), "")
    };
    let head = "printf 'matches 1 steps 12\\n'";
    // 115 without its last digit is a number too.
    assert_eq!(
        message("cut-line", &format!("{head}; printf '1 1 3 AAB 2 11'")),
        "/cut-line.sh: the report is cut: no line end behind `1 1 3 AAB 2 11`\n"
    );
    assert_eq!(
        message("cut-end", &format!("{head}; printf '1 1 3 AAB 2 115'")),
        "/cut-end.sh: the report is cut: no line end behind `1 1 3 AAB 2 115`\n"
    );
    assert_eq!(
        message("cut-lines", head),
        "/cut-lines.sh: the report is cut: matches told 1, printed 0\n"
    );
    assert_eq!(
        message("cut-all", ":"),
        "/cut-all.sh: the report is cut: nothing was printed\n"
    );
    assert_eq!(
        message("cut-answer", "printf 'refused 1'"),
        "/cut-answer.sh: the report is cut: no line end behind `refused 1`\n"
    );
    let whole = format!("{head}; printf '1 1 3 AAB 2 115\\n'");
    assert_eq!(
        message(
            "says",
            &format!("{whole}; printf 'no room \\033[31m\\non it' >&2")
        ),
        "/says.sh: no report counts beside its message:\n    no room \u{FFFD}[31m\n    on it\n"
    );
    assert_eq!(
        message("says-only", "echo 'the input cannot be read' >&2"),
        "/says-only.sh: no report counts beside its message:\n    the input cannot be read\n"
    );
    assert_eq!(
        message("fails", &format!("{whole}; echo why >&2; exit 4")),
        "/fails.sh: ended with exit status: 4\n    why\n"
    );
}
