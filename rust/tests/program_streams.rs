//! The program `mireladle` on streams that fail: what it could not read or write it says on
//! standard error, and of an input that it could not read to its end it prints nothing. It has no
//! exit status to say so by.
//!
//! The program is the one at MIRELADLE_PROGRAM or, without that, target/bin/mireladle (`tools/build
//! mireladle`). What it prints of an input that is read whole is compared by `compare --program` of
//! reference/.

#![allow(clippy::restriction)]

use std::fs::File;
use std::io::{ErrorKind, Read, Write};
use std::os::fd::OwnedFd;
use std::os::unix::net::UnixStream;
use std::os::unix::process::ExitStatusExt;
use std::path::{Path, PathBuf};
use std::process::{Child, Command, Output, Stdio};
use std::thread::sleep;
use std::time::{Duration, Instant};

/// W1 of the bench sheet, and what is printed of it.
const INPUT: &[u8] = include_bytes!("../../crates/mireladle/stdin");
const REPORT: &str = include_str!("../../crates/mireladle/stdout");

const UNREAD: &str = "mireladle: standard input could not be read: ";
const UNWRITTEN: &str = "mireladle: standard output could not be written: ";

/// The number of a signal that ends a program by itself.
const SIGXFSZ: i32 = 25;

fn program() -> PathBuf {
    let path = match std::env::var_os("MIRELADLE_PROGRAM") {
        Some(path) => PathBuf::from(path),
        None => Path::new(env!("CARGO_MANIFEST_DIR")).join("../target/bin/mireladle"),
    };
    assert!(path.is_file(), "{} is not built", path.display());
    path
}

/// The program with all three streams in pipes, unless they are set to something else.
fn command() -> Command {
    piped(Command::new(program()))
}

/// The program run by a shell line, in which it is `$0`.
fn shell(line: &str) -> Command {
    let mut command = Command::new("sh");
    command.arg("-c").arg(line).arg(program());
    piped(command)
}

fn piped(mut command: Command) -> Command {
    command
        .stdin(Stdio::piped())
        .stdout(Stdio::piped())
        .stderr(Stdio::piped());
    command
}

/// Runs it to its end on an input that is written at once.
fn run(command: &mut Command, input: &[u8]) -> Output {
    let mut child = command.spawn().unwrap();
    if let Some(mut stdin) = child.stdin.take() {
        match stdin.write_all(input) {
            Err(error) if error.kind() != ErrorKind::BrokenPipe => panic!("{error}"),
            _ => {}
        }
    }
    child.wait_with_output().unwrap()
}

fn stream(end: UnixStream) -> Stdio {
    Stdio::from(OwnedFd::from(end))
}

/// A file of this test run; names differ from test to test, since tests run side by side.
fn file(name: &str) -> PathBuf {
    Path::new(env!("CARGO_TARGET_TMPDIR")).join(name)
}

fn printed(output: &Output) -> &str {
    std::str::from_utf8(&output.stdout).unwrap()
}

/// It ended by itself, printed this, and said this and the system's reason.
fn ended(output: &Output, report: &str, said: &str) {
    let message = std::str::from_utf8(&output.stderr).unwrap();
    assert_eq!(output.status.code(), Some(0), "{message}");
    assert_eq!(printed(output), report);
    let reason = message.strip_prefix(said).unwrap_or_else(|| {
        panic!("`{message}` does not begin with `{said}`");
    });
    assert!(reason.len() > 1 && reason.ends_with('\n'), "{message}");
    assert_eq!(reason.lines().count(), 1, "{message}");
}

/// It ended by itself, printed this, and said nothing.
fn whole(output: &Output, report: &str) {
    assert_eq!(std::str::from_utf8(&output.stderr).unwrap(), "");
    assert_eq!(output.status.code(), Some(0));
    assert_eq!(printed(output), report);
}

/// A query without DEFINE or measures, and so many rows, in front of which the query's length
/// stands.
fn input(text: &[u8], to_next_row: bool, rows: usize) -> Vec<u8> {
    let mut query = b"\x02\0\x01\0\x01\0".to_vec();
    query.extend([text.len() as u8, 0, 2, 0]);
    query.extend(text);
    query.extend([2, 0, 4, 0, u8::from(to_next_row), 0]);
    let mut input = vec![query.len() as u8, 0];
    input.extend(query);
    input.extend(vec![0; 4 * rows]);
    input
}

/// An input of 2,730 matches of `A`, and its report of some 36 KB.
fn long() -> (Vec<u8>, String) {
    const MATCHES: usize = 2_730;
    let mut report = format!("matches {MATCHES} steps {}\n", 2 * MATCHES);
    for row in 0..MATCHES {
        report.push_str(&format!("{} {row} 1 A\n", row + 1));
    }
    (input(b"A", false, MATCHES), report)
}

#[test]
fn a_whole_input_says_nothing() {
    whole(&run(&mut command(), INPUT), REPORT);
    let (input, report) = long();
    whole(&run(&mut command(), &input), &report);
}

#[test]
fn input_in_pieces_is_read_to_its_end() {
    let mut child = command().spawn().unwrap();
    let mut stdin = child.stdin.take().unwrap();
    for piece in INPUT.chunks(30) {
        stdin.write_all(piece).unwrap();
        sleep(Duration::from_millis(100));
    }
    drop(stdin);
    whole(&child.wait_with_output().unwrap(), REPORT);
}

#[test]
fn a_directory_cannot_be_read() {
    let folder = File::open(env!("CARGO_MANIFEST_DIR")).unwrap();
    ended(&run(command().stdin(folder), &[]), "", UNREAD);
}

#[test]
fn a_file_open_for_writing_cannot_be_read() {
    let file = File::create(file("write-only")).unwrap();
    ended(&run(command().stdin(file), &[]), "", UNREAD);
}

#[test]
fn a_closed_input_cannot_be_read() {
    ended(&run(&mut shell(r#"exec "$0" <&-"#), &[]), "", UNREAD);
}

/// The first four rows are there and the fifth is not yet: no report on four.
#[test]
fn input_that_does_not_wait_is_not_taken_for_its_end() {
    let (mut ours, theirs) = UnixStream::pair().unwrap();
    ours.write_all(&INPUT[..INPUT.len() - 4]).unwrap();
    theirs.set_nonblocking(true).unwrap();
    let output = run(command().stdin(stream(theirs)), &[]);
    ended(&output, "", UNREAD);
    drop(ours);
}

/// Where a wait has a limit, a stop and a continue interrupt a read, with no byte read.
#[test]
fn an_interrupted_read_is_made_again() {
    let (mut ours, theirs) = UnixStream::pair().unwrap();
    theirs
        .set_read_timeout(Some(Duration::from_secs(600)))
        .unwrap();
    ours.write_all(&INPUT[..INPUT.len() - 4]).unwrap();
    let child = command().stdin(stream(theirs)).spawn().unwrap();
    until_state(&child, 'S');
    sleep(Duration::from_millis(300));
    for (signal, state) in [("STOP", 'T'), ("CONT", 'S')] {
        let words = ["-c", "kill -s $0 $1", signal, &child.id().to_string()];
        assert!(Command::new("sh").args(words).status().unwrap().success());
        until_state(&child, state);
    }
    ours.write_all(&INPUT[INPUT.len() - 4..]).unwrap();
    drop(ours);
    whole(&child.wait_with_output().unwrap(), REPORT);
}

/// Waits until the process is in this state: S asleep, T stopped. A process that has ended is in
/// none of them.
fn until_state(child: &Child, state: char) {
    let path = format!("/proc/{}/stat", child.id());
    let start = Instant::now();
    loop {
        let text = std::fs::read_to_string(&path).unwrap();
        let now = text.rsplit(") ").next().unwrap().chars().next().unwrap();
        if now == state || now == 'Z' {
            return;
        }
        assert!(start.elapsed() < Duration::from_secs(60), "{text}");
        sleep(Duration::from_millis(10));
    }
}

#[test]
fn a_full_disk_is_told() {
    let full = File::options().write(true).open("/dev/full").unwrap();
    ended(&run(command().stdout(full), INPUT), "", UNWRITTEN);
}

#[test]
fn a_closed_output_is_told() {
    ended(&run(&mut shell(r#"exec "$0" >&-"#), INPUT), "", UNWRITTEN);
}

#[test]
fn a_file_open_for_reading_is_told() {
    let file = File::open(program());
    ended(&run(command().stdout(file.unwrap()), INPUT), "", UNWRITTEN);
}

/// The limit is passed in the middle of the report: the first write is short, and the second fails.
#[test]
fn a_limit_on_the_size_of_files_is_told() {
    let (input, report) = long();
    let path = file("limited");
    let line = r#"trap '' XFSZ; ulimit -f 4; exec "$0" >"#;
    let line = format!("{line}'{}'", path.display());
    ended(&run(&mut shell(&line), &input), "", UNWRITTEN);
    let written = std::fs::read_to_string(&path).unwrap();
    assert!(!written.is_empty() && written.len() < report.len());
    assert!(report.starts_with(&written));
}

/// By default the system ends the program, and its status says so.
#[test]
fn a_limit_on_the_size_of_files_ends_it() {
    let line = r#"ulimit -c 0; ulimit -f 4; exec "$0" >"#;
    let line = format!("{line}'{}'", file("limited-by-signal").display());
    let output = run(&mut shell(&line), &long().0);
    assert_eq!(output.status.signal(), Some(SIGXFSZ));
}

#[test]
fn an_output_that_nobody_reads_is_told() {
    let mut command = shell(r#"trap '' PIPE; exec "$0""#);
    let mut child = command.spawn().unwrap();
    drop(child.stdout.take());
    child.stdin.take().unwrap().write_all(INPUT).unwrap();
    ended(&child.wait_with_output().unwrap(), "", UNWRITTEN);
}

/// The program ignores SIGPIPE from its start, as every program of its language does today: where
/// the caller leaves the signal as it is, the failed write is told all the same. (The test has its
/// name from the time before, when the signal ended the program.)
#[test]
fn an_output_that_nobody_reads_ends_it() {
    let mut child = command().spawn().unwrap();
    drop(child.stdout.take());
    child.stdin.take().unwrap().write_all(INPUT).unwrap();
    ended(&child.wait_with_output().unwrap(), "", UNWRITTEN);
}

/// Writes until nothing more fits; the result is how many bytes that were.
fn fill(end: &UnixStream) -> usize {
    end.set_nonblocking(true).unwrap();
    let mut filled = 0;
    let mut writer = end;
    loop {
        match writer.write(&[b'.'; 4096]) {
            Ok(count) => filled += count,
            Err(error) if error.kind() == ErrorKind::WouldBlock => return filled,
            Err(error) => panic!("{error}"),
        }
    }
}

#[test]
fn output_that_does_not_wait_is_told() {
    let (_ours, theirs) = UnixStream::pair().unwrap();
    fill(&theirs);
    let output = run(command().stdout(stream(theirs)), INPUT);
    ended(&output, "", UNWRITTEN);
}

/// Where a wait has a limit, a write that fits in part is short. There is room for a part of the
/// report, which has some 68 KB, and more is made after the first wait is over.
#[test]
fn a_short_write_is_finished() {
    const WAIT: Duration = Duration::from_secs(2);
    let (mut ours, theirs) = UnixStream::pair().unwrap();
    let filled = fill(&theirs);
    let mut drained = vec![0; 16_384];
    ours.read_exact(&mut drained).unwrap();
    theirs.set_nonblocking(false).unwrap();
    theirs.set_write_timeout(Some(WAIT)).unwrap();
    let input = input(b"A*", true, 361);
    let mut child = command().stdout(stream(theirs)).spawn().unwrap();
    child.stdin.take().unwrap().write_all(&input).unwrap();
    sleep(WAIT + WAIT / 2);
    let mut read = Vec::new();
    ours.read_to_end(&mut read).unwrap();
    whole(&child.wait_with_output().unwrap(), "");
    let text = std::str::from_utf8(&read[filled - drained.len()..]).unwrap();
    assert!(text.len() > 65_000, "{} bytes", text.len());
    assert_eq!(text, printed(&run(&mut command(), &input)));
}
