//! The command's options: what is made from their one description, and what is said of wrong ones.

#![allow(clippy::restriction)]

use std::process::{Command, Output};

const COMMAND: &str = env!("CARGO_BIN_EXE_mireladle-match");
const ROOT: &str = concat!(env!("CARGO_MANIFEST_DIR"), "/..");

fn run(arguments: &[&str]) -> Output {
    Command::new(COMMAND).args(arguments).output().unwrap()
}

fn printed(arguments: &[&str]) -> String {
    let output = run(arguments);
    assert_eq!(output.status.code(), Some(0), "{arguments:?}");
    String::from_utf8(output.stdout).unwrap()
}

#[test]
fn version_help_and_manual() {
    assert_eq!(printed(&["--version"]), "mireladle-match 0.1.0\n");
    assert_eq!(printed(&["-V"]), printed(&["--version"]));
    let help = printed(&["-h"]);
    for part in [
        "--partition-by COLUMN",
        "--follow\n",
        "--pid PID\n",
        "Examples:",
        "Exit status:",
        "141  the reader",
    ] {
        assert!(help.contains(part), "{part}");
    }
    let manual = printed(&["--man"]);
    assert!(manual.starts_with(".TH MIRELADLE\\-MATCH 1 "), "{manual}");
    assert!(manual.contains("\n.SH EXIT STATUS\n"));
}

/// bash itself reads its completions, and offers what they say.
#[test]
fn completions_are_offered() {
    let script = printed(&["--completions", "bash"]);
    let line = format!(
        "{script}\nCOMP_WORDS=(mireladle-match --fo); COMP_CWORD=1; _mireladle_match\n\
         echo \"${{COMPREPLY[*]}}\"\nCOMP_WORDS=(mireladle-match -f j); COMP_CWORD=2\n\
         _mireladle_match; echo \"${{COMPREPLY[*]}}\""
    );
    let output = Command::new("bash").args(["-c", &line]).output().unwrap();
    assert_eq!(
        String::from_utf8_lossy(&output.stdout),
        "--follow --format\njson\n"
    );
    assert!(printed(&["--completions=zsh"]).starts_with("#compdef mireladle-match\n"));
    assert!(printed(&["--completions", "fish"]).contains("-l format -s f -x -a 'table json csv'"));
}

#[test]
fn wrong_options_are_told() {
    let query = format!("{ROOT}/examples/release.txt");
    let rows = format!("{ROOT}/examples/release.csv");
    let told = |options: &[&str]| {
        let output = run(&[options, &[&query, &rows]].concat());
        assert_eq!(output.status.code(), Some(2), "{options:?}");
        let message = String::from_utf8(output.stderr).unwrap();
        message.lines().next().unwrap().to_owned()
    };
    for (options, expected) in [
        (
            &["--format", "xml"][..],
            "--format is table or json or csv, found `xml`",
        ),
        (
            &["--color=red"],
            "--color is auto or always or never, found `red`",
        ),
        (&["--rows=1"], "--rows takes no value"),
        (&["-x"], "there is no option -x"),
        (&["-qc"], "there is no option -qc"),
        (
            &["--sort"],
            "--sort needs --order-by, the column to sort by",
        ),
        (&["-q", "-c"], "--quiet and --count exclude each other"),
        (
            &["-c", "-f", "json"],
            "--count and --format exclude each other",
        ),
        (&["-t", "-d;"], "--delimiter and --tab exclude each other"),
        (
            &["-d", ";;"],
            "--delimiter is one character, such as `;`, found `;;`",
        ),
        (
            &["-e", "pattern: A"],
            "expected one file, ROWS, beside -e, found 2",
        ),
        (
            &["--bytes", "-p", "base"],
            "--bytes and --partition-by exclude each other: the program reads one partition",
        ),
    ] {
        assert_eq!(told(options), expected, "{options:?}");
    }
    let both = run(&["-", "-"]);
    let message = String::from_utf8_lossy(&both.stderr).into_owned();
    assert!(message.starts_with("only one of QUERY and ROWS can be standard input\n"));
    let forgotten = run(&[&query, &rows, "--format"]);
    let message = String::from_utf8_lossy(&forgotten.stderr).into_owned();
    assert!(
        message.starts_with("--format needs a value: FORMAT\n"),
        "{message}"
    );
}

/// Colours are for terminals, or where they are asked for.
#[test]
fn colours_are_not_for_pipes() {
    let query = format!("{ROOT}/examples/rising-falling.txt");
    let rows = format!("{ROOT}/examples/rising-falling.csv");
    assert!(!printed(&[&query, &rows]).contains('\u{1B}'));
    let coloured = printed(&["--color", "always", &query, &rows]);
    assert!(
        coloured.contains("\u{1B}[1;32mAAB\u{1B}[0m\n"),
        "{coloured}"
    );
    assert!(!printed(&["--color", "never", &query, &rows]).contains('\u{1B}'));
}
