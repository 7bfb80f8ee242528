//! The output of mireladle-match where it cannot be written whole: closed, full, not open for
//! writing, or read by a program that stops reading. A shell sets these up, as a user would.

#![allow(clippy::restriction)]

use std::path::Path;
use std::process::{Command, Output, Stdio};

const COMMAND: &str = env!("CARGO_BIN_EXE_mireladle-match");

/// A file of this test run; names differ from test to test, since tests run side by side.
fn file(name: &str, content: &str) -> String {
    let path = Path::new(env!("CARGO_TARGET_TMPDIR")).join(name);
    std::fs::write(&path, content).unwrap();
    path.into_os_string().into_string().unwrap()
}

/// Runs a line of shell in which `$match` is the command and `$query` and `$rows` are files.
fn shell(name: &str, rows: usize, line: &str) -> (i32, String, String) {
    let query = file(&format!("{name}.txt"), "pattern: A\nA: true");
    // Rows of some 100 bytes: 4,096 of them are more than a pipe holds.
    let row = format!("{}\n", ["-2147483648"; 8].join(","));
    let rows = format!("a,b,d,e,f,g,h,i\n{}", row.repeat(rows));
    let rows = file(&format!("{name}.csv"), &rows);
    let output = Command::new("bash")
        .args(["-c", line])
        .env("match", COMMAND)
        .env("query", query)
        .env("rows", rows)
        .output()
        .unwrap();
    all(&output)
}

fn all(output: &Output) -> (i32, String, String) {
    let text = |bytes: &[u8]| String::from_utf8(bytes.to_vec()).unwrap();
    (
        output.status.code().unwrap(),
        text(&output.stdout),
        text(&output.stderr),
    )
}

#[test]
fn a_closed_output_is_an_error() {
    let message = "the output cannot be written: standard output is closed\n";
    for (name, line) in [
        ("closed", r#""$match" "$query" "$rows" >&-"#),
        ("closed-in", r#""$match" "$query" "$rows" <&- >&-"#),
        ("closed-bytes", r#""$match" --bytes "$query" "$rows" >&-"#),
        ("closed-help", r#""$match" --help >&-"#),
    ] {
        let expected = (2, String::new(), String::from(message));
        assert_eq!(shell(name, 3, line), expected, "{line}");
    }
    // With the messages closed too, the status still tells.
    let silent = shell("closed-all", 3, r#""$match" "$query" "$rows" <&- >&- 2>&-"#);
    assert_eq!(silent, (2, String::new(), String::new()));
    // What goes wrong before anything is written keeps its own message and status.
    let refused = shell("closed-refused", 4097, r#""$match" "$query" "$rows" >&-"#);
    assert!(refused.0 == 2 && refused.2.starts_with("refused 10: "));
}

#[test]
fn an_output_that_goes_nowhere_is_none() {
    let done = (0, String::new(), String::new());
    for (name, line) in [
        ("null", r#""$match" "$query" "$rows" >/dev/null"#),
        // Opened for reading too, as Python's subprocess.DEVNULL is.
        ("null-both", r#""$match" "$query" "$rows" 1<>/dev/null"#),
        ("null-in", r#""$match" "$query" "$rows" <&- >/dev/null"#),
    ] {
        assert_eq!(shell(name, 3, line), done, "{line}");
    }
    let quiet = Command::new(COMMAND)
        .arg("--help")
        .stdout(Stdio::null())
        .status();
    assert_eq!(quiet.unwrap().code(), Some(0));
}

#[test]
fn an_output_without_room_or_leave_is_an_error() {
    for (name, line) in [
        ("full", r#""$match" "$query" "$rows" >/dev/full"#),
        ("full-help", r#""$match" --help >/dev/full"#),
        ("read-only", r#""$match" "$query" "$rows" 1</dev/null"#),
    ] {
        let (status, _, message) = shell(name, 3, line);
        let told = message.starts_with("the output cannot be written: ");
        assert!(status == 2 && told, "{line}: {status} {message}");
    }
    // More than one buffer, so that the fault is met while the report is being written.
    let (status, _, _) = shell("full-long", 4096, r#""$match" "$query" "$rows" >/dev/full"#);
    assert_eq!(status, 2);
}

#[test]
fn a_reader_that_has_enough_is_no_success() {
    let line = r#""$match" "$query" "$rows" | head -1; echo "${PIPESTATUS[0]}""#;
    let expected = "4096 matches in 8192 steps\n141\n";
    let output = shell("head", 4096, line);
    assert_eq!(output, (0, String::from(expected), String::new()));
}

#[test]
fn a_stopped_search_stays_stopped() {
    // The shell writes the program: a file that this process has open for writing could be handed
    // to a process that another test starts, and would be too busy to be run.
    let program = format!("{}/stopped-head.sh", env!("CARGO_TARGET_TMPDIR"));
    let line = format!(
        r##"printf '#!/bin/sh\ncat > /dev/null\necho stopped 0 steps 3\n' > '{program}'
        chmod 755 '{program}'
        "$match" --program '{program}' "$query" "$rows" | head -1; echo "${{PIPESTATUS[0]}}""##
    );
    let expected = "stopped for want of room: no match in 3 steps\n3\n";
    let output = shell("stopped-head", 4096, &line);
    assert_eq!(output, (0, String::from(expected), String::new()));
    // Also where there is no row to skip to.
    let line = line
        .replace("stopped-head", "stopped-behind")
        .replace("0 steps 3", "1 steps 3\\necho 1 0 1 A")
        .replace(r#""$query" "$rows""#, r#""$query.skip" "$rows""#);
    file(
        "stopped-behind.txt.skip",
        "pattern: A\nA: true\nskip: to first A",
    );
    let why = "the first row labelled A is the first row of match 1";
    let expected = format!("stopped since {why}: 1 match in 3 steps\n3\n");
    let output = shell("stopped-behind", 4096, &line);
    assert_eq!(output, (0, expected, String::new()));
    // And where no step is left: a match takes two.
    let line = r#""$match" --steps 9 "$query" "$rows" | head -1; echo "${PIPESTATUS[0]}""#;
    let expected = "stopped since --steps allows no more: 4 matches in 9 steps\n3\n";
    let output = shell("stopped-steps", 4096, line);
    assert_eq!(output, (0, String::from(expected), String::new()));
}
