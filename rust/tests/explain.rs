//! `--explain`: which letters hold at a row, with the comparisons that were judged and the values
//! that were compared; rows by their numbers and by their lines; and what is said where there is no
//! such row.

#![allow(clippy::restriction)]

use std::path::Path;
use std::process::{Command, Output};

const COMMAND: &str = env!("CARGO_BIN_EXE_mireladle-match");

fn example(name: &str) -> String {
    format!("{}/../examples/{name}", env!("CARGO_MANIFEST_DIR"))
}

fn run(arguments: &[&str]) -> Output {
    Command::new(COMMAND).args(arguments).output().unwrap()
}

fn explained(row: &str, query: &str, rows: &str) -> String {
    let output = run(&["--explain", row, query, rows]);
    let message = String::from_utf8_lossy(&output.stderr);
    assert_eq!(output.status.code(), Some(0), "{message}");
    String::from_utf8(output.stdout).unwrap()
}

fn refused(arguments: &[&str]) -> String {
    let output = run(arguments);
    assert_eq!(output.status.code(), Some(2), "{arguments:?}");
    assert!(output.stdout.is_empty());
    String::from_utf8(output.stderr).unwrap()
}

fn file(name: &str, text: &str) -> String {
    let path = Path::new(env!("CARGO_TARGET_TMPDIR")).join(name);
    std::fs::write(&path, text).unwrap();
    path.to_str().unwrap().to_owned()
}

#[test]
fn where_each_define_stops() {
    let (query, rows) = (example("release.txt"), example("release.csv"));
    assert_eq!(
        explained("1", &query, &rows),
        "\
row 1, line 3: time 545, event 2, base 7, patch 31

O does not hold, 1 of 1 comparison judged:
    event = 1  false  2 = 1
R holds, 3 of 3 comparisons judged:
    event = 2            true  2 = 2
    base = PREV(base)    true  7 = 7
    patch = PREV(patch)  true  31 = 31
C does not hold, 1 of 3 comparisons judged:
    event = 3  false  2 = 3
"
    );
    let shown = explained("1", &query, &rows);
    assert_eq!(explained("line=3", &query, &rows), shown);
    let readme = include_str!("../../README.md");
    assert!(readme.contains(&format!("```text\n{shown}```")));
}

#[test]
fn rows_that_are_not_there() {
    let query = file(
        "ends.txt",
        "pattern: A B S\nA: price = 1, price > PREV(price, 2), price = 9\n\
         B: NEXT(price) <= price + -3\nS: true\nZ: price <> 1\n",
    );
    let rows = file("ends.csv", "price\n1\n2\n1\n");
    assert_eq!(
        explained("0", &query, &rows),
        "\
row 0, line 2: price 1

A does not hold, 2 of 3 comparisons judged:
    price = 1               true     1 = 1
    price > PREV(price, 2)  unknown  row -2 is not there
B does not hold, 1 of 1 comparison judged:
    NEXT(price) <= price - 3  false  2 <= -2
S holds, as at every row
Z does not hold, 1 of 1 comparison judged:
    price <> 1  false  1 <> 1
    (the pattern has no such letter)
"
    );
    let last = explained("2", &query, &rows);
    assert!(
        last.contains("    NEXT(price) <= price - 3  unknown  row 3 is not there\n"),
        "{last}"
    );
    assert!(
        last.contains("    price > PREV(price, 2)  false  1 > 1\n"),
        "{last}"
    );
}

/// Of a condition with OR or NOT every comparison is shown.
#[test]
fn conditions() {
    let (query, rows) = (example("outside.txt"), example("outside.csv"));
    assert_eq!(
        explained("0", &query, &rows),
        "\
row 0, line 2: price 100

O does not hold:
    NOT (price >= PREV(price) - 10 AND price <= PREV(price) + 10) OR price = 0 OR price = 999
    price >= PREV(price) - 10  unknown  row -1 is not there
    price <= PREV(price) + 10  unknown  row -1 is not there
    price = 0                  false    100 = 0
    price = 999                false    100 = 999
"
    );
    let leaps = explained("2", &query, &rows);
    assert!(leaps.contains("\nO holds:\n"), "{leaps}");
    assert!(
        leaps.contains("  price <= PREV(price) + 10  false  120 <= 115\n"),
        "{leaps}"
    );
    let query = file(
        "joins-shown.txt",
        "pattern: A\nA: x = 1 AND (y = 2 OR NOT (x = 3 OR y = 4 AND NOT \"a b\" < 5)), NOT NOT x = 6",
    );
    let rows = file("joins-shown.csv", "x,y,a b\n1,2,3\n");
    let shown = explained("0", &query, &rows);
    assert!(
        shown.contains(
            "    x = 1 AND (y = 2 OR NOT (x = 3 OR y = 4 AND NOT \"a b\" < 5)) AND NOT NOT x = 6\n"
        ),
        "{shown}"
    );
}

/// A log of several buses: by the line, with the texts of codes.
#[test]
fn rows_of_partitions() {
    let (query, rows) = (example("buses.sql"), example("buses.csv"));
    let shown = explained("line=4", &query, &rows);
    let head = "bus=B17: row 1, line 4: time 2026-03-01 08:01:00, bus B17, event refused, base 7, patch 31\n";
    assert!(shown.starts_with(head), "{shown}");
    assert!(
        shown.contains("    event = 'offered'  false  'refused' = 'offered'\n"),
        "{shown}"
    );
    assert!(
        shown.contains("\nR holds, 3 of 3 comparisons judged:\n"),
        "{shown}"
    );
    assert_eq!(
        refused(&["--explain", "4", &query, &rows]),
        "--explain 4: each partition has its own rows; name one by the line where it begins, as \
         --explain line=N\n"
    );
}

/// Where rows are sorted, their numbers are those of the table.
#[test]
fn sorted_rows() {
    let rows = file("sorted.csv", "time,x\n3,30\n1,10\n2,20\n");
    let output = run(&[
        "--sort",
        "--order-by",
        "time",
        "--explain",
        "1",
        "-e",
        "pattern: A",
        "-e",
        "A: x > PREV(x)",
        &rows,
    ]);
    let shown = String::from_utf8(output.stdout).unwrap();
    assert!(
        shown.starts_with("row 1, line 4: time 2, x 20\n"),
        "{shown}"
    );
    assert!(
        shown.ends_with("    x > PREV(x)  true  20 > 10\n"),
        "{shown}"
    );
}

#[test]
fn what_cannot_be_explained() {
    let (query, rows) = (example("release.txt"), example("release.csv"));
    for (row, expected) in [
        ("15", format!("--explain 15: {rows} has no such row\n")),
        (
            "line=1",
            format!("--explain line=1: no row of {rows} begins at that line\n"),
        ),
        (
            "line=17",
            format!("--explain line=17: no row of {rows} begins at that line\n"),
        ),
        (
            "18446744073709551615",
            format!("--explain 18446744073709551615: {rows} has no such row\n"),
        ),
    ] {
        assert_eq!(refused(&["--explain", row, &query, &rows]), expected);
    }
    for row in [
        "-1",
        "+1",
        "",
        "x",
        "line=",
        "line=-2",
        "line=line=2",
        "18446744073709551616",
    ] {
        let told = refused(&["--explain", row, &query, &rows]);
        let expected = "--explain needs the number of a row from 0 on, or line=N, found ";
        assert!(told.starts_with(expected), "{row}: {told}");
    }
    for other in [
        "--rows",
        "--count",
        "--quiet",
        "--bytes",
        "--steps=5",
        "--program=x",
        "--format=json",
    ] {
        let told = refused(&["--explain", "1", other, &query, &rows]);
        assert!(told.contains(" exclude each other"), "{other}: {told}");
    }
    let long = file("long.csv", &("x\n".to_owned() + &"1\n".repeat(4097)));
    let told = refused(&[
        "--explain",
        "1",
        "-e",
        "pattern: A",
        "-e",
        "A: x = 1",
        &long,
    ]);
    assert!(told.starts_with("refused 10: "), "{told}");
}
