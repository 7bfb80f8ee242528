//! `mireladle-match --follow` with real parts: pipes whose writer waits until it has seen a match,
//! slow writers, files that grow while they are followed, processes that end. What is told is
//! compared with what the same command tells of the whole file.

#![allow(clippy::restriction)]

use std::fs::{File, OpenOptions};
use std::io::{BufRead, BufReader, Read, Write};
use std::os::unix::process::ExitStatusExt;
use std::path::Path;
use std::process::{Child, ChildStdin, Command, Stdio};
use std::sync::mpsc::{channel, Receiver, RecvTimeoutError};
use std::thread::{sleep, spawn};
use std::time::{Duration, Instant};

const COMMAND: &str = env!("CARGO_BIN_EXE_mireladle-match");
const ROOT: &str = concat!(env!("CARGO_MANIFEST_DIR"), "/..");
/// More than anything here takes, also on a machine that has much else to do.
const LONG: Duration = Duration::from_secs(60);
/// As long as nothing is to be heard.
const SHORT: Duration = Duration::from_millis(400);

/// Prices that rise once or more and then fall.
const RISING: &str = "pattern: A+ B\nA: price > PREV(price)\nB: price < PREV(price)\n";
/// The same for each bus.
const BUSES: &str = "PARTITION BY bus\nPATTERN (A+ B)\nMEASURES LAST(B.price) AS low\n\
                     DEFINE A AS price > PREV(price), B AS price < PREV(price)\n";

/// A file's path; names differ from test to test, since tests run side by side.
fn path(name: &str) -> String {
    let path = Path::new(env!("CARGO_TARGET_TMPDIR")).join(name);
    path.into_os_string().into_string().unwrap()
}

/// A command that runs, and the lines that it has written so far.
struct Running {
    child: Child,
    lines: Receiver<String>,
}

impl Running {
    fn new(arguments: &[&str]) -> Running {
        let mut child = Command::new(COMMAND)
            .args(arguments)
            .stdin(Stdio::piped())
            .stdout(Stdio::piped())
            .stderr(Stdio::piped())
            .spawn()
            .unwrap();
        let (send, lines) = channel();
        let output = BufReader::new(child.stdout.take().unwrap());
        spawn(move || {
            let mut lines = output.lines().map_while(Result::ok);
            lines.all(|line| send.send(line).is_ok())
        });
        Running { child, lines }
    }

    fn input(&mut self) -> ChildStdin {
        self.child.stdin.take().unwrap()
    }

    /// The next line, which has to come.
    fn line(&self) -> String {
        self.lines.recv_timeout(LONG).unwrap()
    }

    /// Nothing comes, and the command goes on.
    fn is_silent(&mut self) {
        let next = self.lines.recv_timeout(SHORT);
        assert_eq!(next, Err(RecvTimeoutError::Timeout));
        assert_eq!(self.child.try_wait().unwrap(), None);
    }

    /// Exit status, the lines that are left, and messages of a command that has to end.
    fn end(mut self) -> (i32, Vec<String>, String) {
        let mut stderr = self.child.stderr.take().unwrap();
        let messages = spawn(move || {
            let mut messages = String::new();
            stderr.read_to_string(&mut messages).unwrap();
            messages
        });
        let began = Instant::now();
        let status = loop {
            if let Some(status) = self.child.try_wait().unwrap() {
                break status;
            }
            assert!(began.elapsed() < LONG, "it does not end");
            sleep(Duration::from_millis(5));
        };
        let status = status
            .code()
            .unwrap_or_else(|| 128 + status.signal().unwrap());
        let messages = messages.join().unwrap();
        let messages = messages.replace(env!("CARGO_TARGET_TMPDIR"), "");
        (status, self.lines.iter().collect(), messages)
    }
}

/// A test that fails leaves no command behind that follows a file for ever.
impl Drop for Running {
    fn drop(&mut self) {
        let _ = self.child.kill();
        let _ = self.child.wait();
    }
}

/// Exit status, output and messages of a command that gets this input at once.
fn run(arguments: &[&str], input: &str) -> (i32, String, String) {
    let mut running = Running::new(arguments);
    let mut stdin = running.input();
    // One that has seen enough does not read on.
    let _ = stdin.write_all(input.as_bytes());
    drop(stdin);
    let (status, lines, messages) = running.end();
    let text: String = lines.iter().map(|line| format!("{line}\n")).collect();
    (status, text, messages)
}

fn write(mut to: impl Write, text: &str) {
    to.write_all(text.as_bytes()).unwrap();
    to.flush().unwrap();
}

#[test]
fn a_match_is_told_before_the_writer_of_a_pipe_goes_on() {
    let mut running = Running::new(&["--follow", "-e", RISING, "-"]);
    let mut input = running.input();
    write(&input, "price\n100\n110\n120\n");
    running.is_silent();
    write(&input, "115\n");
    assert_eq!(running.line(), "match 1, lines 3 to 5, AAB");
    // A row that is not whole yet could still be any number.
    write(&input, "130\n9");
    running.is_silent();
    write(&input, "0");
    running.is_silent();
    write(&input, "\n");
    assert_eq!(running.line(), "match 2, lines 6 to 7, AB");
    // The last row has no line end; the end of the pipe is the end.
    write(&mut input, "200\n7");
    running.is_silent();
    drop(input);
    assert_eq!(running.line(), "match 3, lines 8 to 9, AB");
    assert_eq!(running.end(), (0, vec![], String::new()));
}

#[test]
fn what_waits_for_a_row_is_told_at_the_end() {
    let mut running = Running::new(&["--follow", "-e", "pattern: A+", "-e", "A: price > 5", "-"]);
    let mut input = running.input();
    write(&mut input, "price\n6\n7\n");
    running.is_silent();
    drop(input);
    assert_eq!(running.line(), "match 1, lines 2 to 3, AA");
    assert_eq!(running.end().0, 0);
    let none = run(&["--follow", "-e", RISING, "-"], "price\n1\n2\n");
    assert_eq!(none, (1, String::new(), String::new()));
    let empty = run(&["--follow", "-e", RISING, "-"], "price\n");
    assert_eq!(empty, (1, String::new(), String::new()));
}

/// A shell writes the example's rows, and its pauses are those of a real log.
#[test]
fn the_example_of_a_log_that_grows() {
    let line =
        r#""$root/examples/growing-log" 0.1 | "$match" --follow "$root/examples/buses.sql" -"#;
    let output = Command::new("bash")
        .args(["-c", line])
        .env("match", COMMAND)
        .env("root", ROOT)
        .output()
        .unwrap();
    let expected = "\
bus=B17: match 1, lines 2 to 8, ORRC, offered=1772352000, accepted=1772352180, refusals=2
1 match in 1 of 3 partitions
";
    assert_eq!(String::from_utf8_lossy(&output.stdout), expected);
    assert_eq!(output.status.code(), Some(0));
    let readme = std::fs::read_to_string(format!("{ROOT}/README.md")).unwrap();
    assert!(readme.contains(expected));
}

/// A process that appends what it is told to a file, and ends when it is told no more.
struct Writer(Child);

impl Writer {
    fn new(path: &str) -> Writer {
        let file = OpenOptions::new().append(true).create(true).open(path);
        let cat = Command::new("cat")
            .stdin(Stdio::piped())
            .stdout(file.unwrap())
            .spawn();
        Writer(cat.unwrap())
    }

    fn write(&mut self, text: &str) {
        write(self.0.stdin.as_mut().unwrap(), text);
    }

    fn end(mut self) {
        drop(self.0.stdin.take());
        self.0.wait().unwrap();
    }
}

#[test]
fn a_file_is_followed_until_its_writer_ends() {
    let log = path("follow-grows.csv");
    let _ = std::fs::remove_file(&log);
    let mut writer = Writer::new(&log);
    let pid = writer.0.id().to_string();
    // Not even the names of the columns are there.
    let mut running = Running::new(&["--follow", "--pid", &pid, "-e", BUSES, &log]);
    running.is_silent();
    writer.write("bus,price\nB1,100\nB2,5\nB1,110\n");
    running.is_silent();
    writer.write("B1,90\nB2,6\n");
    assert_eq!(running.line(), "bus=B1: match 1, lines 4 to 5, AB, low=90");
    running.is_silent();
    writer.write("B3,1\nB2,4\nB1,9");
    assert_eq!(running.line(), "bus=B2: match 1, lines 6 to 8, AB, low=4");
    running.is_silent();
    writer.write("5\nB1,3");
    // What the writer wrote last has no line end, and counts all the same.
    writer.end();
    assert_eq!(running.line(), "bus=B1: match 2, lines 9 to 10, AB, low=3");
    let foot = vec![String::from("3 matches in 2 of 3 partitions")];
    assert_eq!(running.end(), (0, foot, String::new()));
}

#[test]
fn a_process_that_has_ended_already_ends_the_file() {
    let log = path("follow-ended.csv");
    std::fs::write(&log, "price\n1\n2\n1\n").unwrap();
    let mut ended = Command::new("true").spawn().unwrap();
    let pid = ended.id().to_string();
    ended.wait().unwrap();
    let told = run(&["--follow", "--pid", &pid, "-e", RISING, &log], "");
    let expected = String::from("match 1, lines 3 to 4, AB\n");
    assert_eq!(told, (0, expected, String::new()));
}

#[test]
fn without_a_process_a_file_is_followed_until_an_interrupt() {
    let log = path("follow-interrupt.csv");
    std::fs::write(&log, "price\n1\n2\n1\n").unwrap();
    let mut running = Running::new(&["--follow", "-e", RISING, &log]);
    assert_eq!(running.line(), "match 1, lines 3 to 4, AB");
    running.is_silent();
    let mut file = OpenOptions::new().append(true).open(&log).unwrap();
    write(&mut file, "5\n0\n");
    assert_eq!(running.line(), "match 2, lines 5 to 6, AB");
    running.is_silent();
    let pid = running.child.id().to_string();
    let kill = Command::new("kill").args(["-INT", &pid]).status().unwrap();
    assert!(kill.success());
    assert_eq!(running.end(), (128 + 2, vec![], String::new()));
}

#[test]
fn a_file_that_becomes_shorter_is_an_error() {
    let log = path("follow-shorter.csv");
    std::fs::write(&log, "price\n1\n2\n1\n").unwrap();
    let running = Running::new(&["--follow", "-e", RISING, &log]);
    assert_eq!(running.line(), "match 1, lines 3 to 4, AB");
    let file = OpenOptions::new().write(true).open(&log).unwrap();
    file.set_len(6).unwrap();
    let message = "/follow-shorter.csv: it became shorter while it was followed: rows that were \
                   read are gone\n";
    assert_eq!(running.end(), (2, vec![], String::from(message)));
}

#[test]
fn a_pipe_with_a_name_ends_where_it_ends() {
    let pipe = path("follow-pipe");
    let _ = std::fs::remove_file(&pipe);
    assert!(Command::new("mkfifo")
        .arg(&pipe)
        .status()
        .unwrap()
        .success());
    let running = Running::new(&["--follow", "-e", RISING, &pipe]);
    let mut file = File::create(&pipe).unwrap();
    write(&mut file, "price\n1\n2\n1\n");
    assert_eq!(running.line(), "match 1, lines 3 to 4, AB");
    drop(file);
    assert_eq!(running.end(), (0, vec![], String::new()));
    let running = Running::new(&["--follow", "--pid", "1", "-e", RISING, &pipe]);
    let file = File::create(&pipe).unwrap();
    let message = "--pid: /follow-pipe is no file that grows, and its own end is the end\n";
    assert_eq!(running.end(), (2, vec![], String::from(message)));
    drop(file);
}

#[test]
fn quiet_ends_at_the_first_match() {
    let mut running = Running::new(&["--follow", "-q", "-e", RISING, "-"]);
    let mut input = running.input();
    write(&mut input, "price\n1\n2\n");
    running.is_silent();
    write(&mut input, "1\n");
    // The pipe is still open.
    assert_eq!(running.end(), (0, vec![], String::new()));
    drop(input);
}

/// A reader that left is noticed with the next match.
#[test]
fn a_reader_that_leaves_ends_it() {
    let mut child = Command::new(COMMAND)
        .args(["--follow", "-e", RISING, "-"])
        .stdin(Stdio::piped())
        .stdout(Stdio::piped())
        .stderr(Stdio::piped())
        .spawn()
        .unwrap();
    let mut input = child.stdin.take().unwrap();
    let mut output = BufReader::new(child.stdout.take().unwrap());
    write(&mut input, "price\n1\n2\n1\n");
    let mut line = String::new();
    output.read_line(&mut line).unwrap();
    assert_eq!(line, "match 1, lines 3 to 4, AB\n");
    drop(output);
    write(&mut input, "2\n1\n");
    let ended = child.wait_with_output().unwrap();
    assert_eq!((ended.status.code(), &*ended.stderr), (Some(141), &b""[..]));
    drop(input);
}

#[test]
fn a_first_line_may_be_a_row_and_lines_may_end_in_two_bytes() {
    let mut running = Running::new(&[
        "--follow",
        "--no-header",
        "-e",
        &RISING.replace("price", "c0"),
        "-",
    ]);
    let mut input = running.input();
    write(&mut input, "1\r\n2\r\n1\r");
    running.is_silent();
    write(&mut input, "\n");
    assert_eq!(running.line(), "match 1, lines 2 to 3, AB");
    drop(input);
    assert_eq!(running.end(), (0, vec![], String::new()));
}

#[test]
fn a_query_that_looks_ahead_is_refused_before_the_first_row() {
    let ahead =
        "refused 17: the query looks ahead, so that rows which are still to come could change \
                 what was found: ";
    let advice = "\nwithout --follow it is searched once all rows are there\n";
    for (query, why) in [
        (
            "pattern: A+ B\nB: price > 1 OR NOT price < NEXT(price, 3)",
            "B reads 3 rows on\n-e:2: B: price > 1 OR NOT price < NEXT(price, 3)",
        ),
        (
            "PATTERN (A B $)\nDEFINE A AS price > 1",
            "its pattern has a `$` at byte 4, counted from 0\n-e:1: PATTERN (A B $)",
        ),
    ] {
        let mut running = Running::new(&["--follow", "--no-warnings", "-e", query, "-"]);
        let mut input = running.input();
        write(&mut input, "price\n");
        let message = format!("{ahead}{why}{advice}");
        assert_eq!(running.end(), (2, vec![], message));
        drop(input);
        // Whole rows can be searched with it.
        assert_eq!(
            run(&["-q", "--no-warnings", "-e", query, "-"], "price\n2\n2\n").0,
            0
        );
    }
}

#[test]
fn a_search_that_stops_is_told_at_once_and_the_others_go_on() {
    let mut running = Running::new(&[
        "--follow",
        "-p",
        "bus",
        "--steps",
        "3",
        "-e",
        "pattern: A",
        "-e",
        "A: true",
        "-",
    ]);
    let mut input = running.input();
    write(&mut input, "bus,price\nB1,1\nB1,2\nB2,3\n");
    assert_eq!(running.line(), "bus=B1: match 1, line 2, A");
    assert_eq!(running.line(), "bus=B2: match 1, line 4, A");
    write(&mut input, "B1,1\nB2,3\nB3,7\n");
    assert_eq!(running.line(), "bus=B3: match 1, line 7, A");
    drop(input);
    let foot = vec![String::from("3 matches in 3 of 3 partitions")];
    let stopped = "bus=B1: stopped since --steps allows no more\n\
                   bus=B2: stopped since --steps allows no more\n";
    assert_eq!(running.end(), (3, foot, String::from(stopped)));
    // Of the only partition nothing more can be told, so nothing is waited for.
    let query = "pattern: A B?\nA: price > 1\nB: price > 2\nskip: to first B";
    let mut running = Running::new(&["--follow", "-e", query, "-"]);
    let mut input = running.input();
    write(&mut input, "price\n2\n5\n2\n1\n");
    assert_eq!(running.line(), "match 1, lines 2 to 3, AB");
    let why = "standard input: stopped since no row of match 2 is labelled B\n";
    let second = vec![String::from("match 2, line 3, A")];
    assert_eq!(running.end(), (3, second, String::from(why)));
    drop(input);
}

#[test]
fn more_rows_than_a_search_takes_are_refused_behind_what_was_found() {
    // The match ends with row 4,095.
    let rows = |bus: &str, count: usize| {
        let front = format!("{bus},1\n").repeat(4095);
        format!("{front}{}", format!("{bus},2\n").repeat(count - 4095))
    };
    let query = "pattern: A{2,} B\nA: price = 1\nB: price = 2";
    let query = ["--follow", "-e", query, "-"];
    // One partition: nothing is waited for behind it.
    let mut running = Running::new(&query);
    let mut input = running.input();
    write(&mut input, &format!("bus,price\n{}", rows("B1", 4096)));
    assert!(running.line().starts_with("match 1, lines 2 to 4097, AAA"));
    running.is_silent();
    write(&mut input, "B1,1\n");
    let message =
        "refused 10: standard input has more than 4,096 rows, and a search takes at most \
                   4,096; part it by --partition-by COLUMN, such as a day, or search a part of the \
                   file\n";
    assert_eq!(running.end(), (2, vec![], String::from(message)));
    drop(input);
    // Several: the others go on, and each is told once.
    let query = [&["-p", "bus"], &query[..]].concat();
    let mut running = Running::new(&query);
    let mut input = running.input();
    write(&mut input, &format!("bus,price\n{}", rows("B1", 5000)));
    assert!(running
        .line()
        .starts_with("bus=B1: match 1, lines 2 to 4097, AAA"));
    write(
        &mut input,
        &format!("{}{}", rows("B2", 4096), rows("B1", 4100)),
    );
    assert!(running
        .line()
        .starts_with("bus=B2: match 1, lines 5002 to 9097, AAA"));
    drop(input);
    let (status, foot, messages) = running.end();
    assert_eq!(
        (status, &foot[..]),
        (2, &[String::from("2 matches in 2 of 2 partitions")][..])
    );
    let refusal = "refused 10: bus=B1 of standard input has more than 4,096 rows, ";
    assert!(messages.starts_with(refusal), "{messages}");
    assert_eq!(messages.lines().count(), 1);
}

#[test]
fn partitions_that_stand_together_end_where_the_next_begins() {
    let query = "pattern: A+\nA: price > 1";
    let mut running = Running::new(&[
        "--follow",
        "--grouped",
        "-p",
        "bus",
        "-f",
        "csv",
        "-e",
        query,
        "-",
    ]);
    let mut input = running.input();
    write(&mut input, "bus,price\n");
    // The names are there before the first match.
    assert_eq!(running.line(), "bus,match,first_line,first_row,rows,labels");
    write(&mut input, "B1,2\nB1,3\n");
    running.is_silent();
    write(&mut input, "B2,7\n");
    assert_eq!(running.line(), "B1,1,2,0,2,AA");
    write(&mut input, "B1,9\n");
    let (status, lines, messages) = running.end();
    // That B2 has ended is no longer sure.
    assert_eq!((status, lines), (2, vec![]));
    assert!(
        messages.contains(":5:1: expected rows of one partition together"),
        "{messages}"
    );
}

#[test]
fn rows_of_matches_are_told_with_them() {
    let mut running = Running::new(&["--follow", "--rows", "-f", "json", "-e", RISING, "-"]);
    let mut input = running.input();
    write(&mut input, "price,note\n1,a\n2,\"b, c\"\n");
    running.is_silent();
    write(&mut input, "1,d\n");
    let rows = [
        r#"{"match":1,"label":"A","line":3,"row":1,"price":2,"note":"b, c"}"#,
        r#"{"match":1,"label":"B","line":4,"row":2,"price":1,"note":"d"}"#,
    ];
    assert_eq!([running.line(), running.line()], rows);
    drop(input);
    assert_eq!(running.end(), (0, vec![], String::new()));
    let table = run(
        &["--follow", "--rows", "-p", "bus", "-e", RISING, "-"],
        "bus,price\nB1,1\nB1,2\nB1,1\n",
    );
    let expected = "\
bus=B1:
match  line  row  bus  price  label
    1     3    1   B1      2  A
    1     4    2   B1      1  B

1 match in 1 of 1 partition
";
    assert_eq!(table.1, expected);
}

#[test]
fn a_wrong_row_is_an_error_with_its_line_behind_what_was_found() {
    let mut running = Running::new(&[
        "--follow",
        "--order-by",
        "price",
        "-e",
        "pattern: A",
        "-e",
        "A: price > 1",
        "-",
    ]);
    let mut input = running.input();
    write(&mut input, "price\n2\n");
    assert_eq!(running.line(), "match 1, line 2, A");
    // What comes together with the wrong row, but before it, is told.
    write(&mut input, "3\n1\n");
    let message =
        "standard input:4:1: expected rows in the order of `price`, and so nothing below \
                   that of line 3, found `1`\n    1\n    ^\n";
    let second = vec![String::from("match 2, line 3, A")];
    assert_eq!(running.end(), (2, second, String::from(message)));
    drop(input);
}

#[test]
fn what_cannot_be_followed_is_told() {
    for (arguments, reason) in [
        (&["--follow", "--sort"][..], "--follow and --sort exclude each other: a row that is still to come may belong in front"),
        (&["--follow", "--program", "x"], "--follow and --program exclude each other: the program reads whole partitions"),
        (&["--follow", "--depots", "a,b"], "--follow and --depots exclude each other: the table counts whole partitions"),
        (&["--follow", "--count"], "--follow and --count exclude each other: how many there are is known only at the end"),
        (&["--follow", "--explain", "1"], "--follow and --explain exclude each other: nothing is searched"),
        (&["--follow", "--bytes"], "--follow and --bytes exclude each other: nothing is searched"),
        (&["--pid", "1"], "--pid needs --follow"),
        (&["--follow", "--pid", "0"], "--pid needs the number of a process, found `0`"),
        (&["--follow", "--pid", "x"], "--pid needs the number of a process, found `x`"),
    ] {
        let all = [arguments, &["-e", RISING, "-"]].concat();
        let (status, lines, messages) = run(&all, "price\n1\n");
        assert_eq!((status, &*lines), (2, ""));
        assert!(messages.starts_with(&format!("{reason}\nusage: ")), "{messages}");
    }
    let (status, _, messages) = run(&["--follow", "--pid", "1", "-e", RISING, "-"], "price\n1\n");
    let reason = "--pid: standard input is no file that grows, and its own end is the end\n";
    assert_eq!((status, &*messages), (2, reason));
}

/// Small numbers from a generator that is the same everywhere.
struct Random(u64);

impl Random {
    fn below(&mut self, count: usize) -> usize {
        self.0 = self
            .0
            .wrapping_mul(6364136223846793005)
            .wrapping_add(1442695040888963407);
        (self.0 >> 33) as usize % count
    }
}

/// A pipe cut at random bytes, with and without pauses, gives what the whole file does, each
/// partition's matches in their order.
#[test]
fn any_cutting_of_the_bytes_gives_the_matches_of_the_whole() {
    let mut random = Random(8);
    for round in 0..12 {
        let mut text = String::from("bus,price,note\n");
        for _ in 0..300 {
            let (bus, price) = (random.below(5), random.below(9));
            let note = ["", "\"a, b\"", "\"two\nlines\"", "x"][random.below(4)];
            text.push_str(&format!("B{bus},{price},{note}\n"));
        }
        let skip = ["past last row", "to next row"][round % 2];
        let query = format!("{RISING}skip: {skip}\nmeasures: SUM(price), COUNT(A)");
        let options = ["-p", "bus", "-f", "json", "-e", &query, "-"];
        let (status, whole, _) = run(&options, &text);
        assert_eq!(status, 0);
        let mut running = Running::new(&[&["--follow"], &options[..]].concat());
        let mut input = running.input();
        let mut rest = text.as_bytes();
        while !rest.is_empty() {
            let (lot, behind) = rest.split_at((1 + random.below(400)).min(rest.len()));
            input.write_all(lot).unwrap();
            rest = behind;
            if random.below(3) == 0 {
                sleep(Duration::from_millis(2));
            }
        }
        drop(input);
        let (status, lines, messages) = running.end();
        assert_eq!((status, &*messages), (0, ""));
        let of_bus = |line: &&str, bus: usize| line.contains(&format!("\"bus\":\"B{bus}\""));
        for bus in 0..5 {
            let followed = lines
                .iter()
                .map(String::as_str)
                .filter(|line| of_bus(line, bus));
            let told = whole.lines().filter(|line| of_bus(line, bus));
            assert!(followed.eq(told), "round {round}, bus {bus}");
        }
        assert_eq!(lines.len(), whole.lines().count());
    }
}
