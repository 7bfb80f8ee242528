//! The release desk: the crate's verdicts against a reading of the log in plain Rust, without any
//! search, on all short logs and on random long ones; refusals and stops; and the command
//! mireladle-desk on files as depots have them, with the near misses that must not be cleared.

#![allow(clippy::restriction)]

use std::io::Write;
use std::process::{Command, Output, Stdio};

use mireladle::{lent, Desk, Error, Rows, Verdict};

const COMMAND: &str = env!("CARGO_BIN_EXE_mireladle-desk");
const ROOT: &str = concat!(env!("CARGO_MANIFEST_DIR"), "/..");

type Row = [i32; 4];

fn judge(log: &[Row]) -> Result<Verdict, Error> {
    Desk::new().judge(Rows::new(&log.concat(), 4))
}

/// The request's words, read backwards from the last row.
fn by_hand(log: &[Row]) -> Verdict {
    if log.iter().any(|row| ![1, 2, 3].contains(&row[1])) {
        return Verdict::Unreadable;
    }
    let held = Verdict::Held {
        last_refusal: log.iter().rposition(|row| row[1] == 2),
    };
    let mut at = match log.len() {
        0 | 1 => return held,
        n => n - 1,
    };
    if log[at][1] != 3 {
        return held;
    }
    loop {
        // Row `at` is the acceptance or a refusal behind the offer that is looked for.
        if at == 0 || log[at][2..] != log[at - 1][2..] {
            return held;
        }
        at -= 1;
        match log[at][1] {
            1 => return Verdict::Cleared,
            2 => {}
            _ => return held,
        }
    }
}

#[test]
fn all_short_logs() {
    let mut rows = Vec::new();
    for event in [1, 2, 3, 4] {
        for (base, patch) in [(7, 31), (7, 32), (8, 31)] {
            rows.push([0, event, base, patch]);
        }
    }
    let (mut desk, mut cleared) = (Desk::new(), 0);
    for length in 0..=4 {
        for number in 0..rows.len().pow(length) {
            let digit = |at: u32| number / rows.len().pow(at) % rows.len();
            let log: Vec<Row> = (0..length).map(|at| rows[digit(at)]).collect();
            let verdict = desk.judge(Rows::new(&log.concat(), 4)).unwrap();
            assert_eq!(verdict, by_hand(&log), "{log:?}");
            cleared += u32::from(verdict.is_cleared());
        }
    }
    // An offer, k refusals and an acceptance of one of three numbers, behind any readable rows: for
    // 2, 3 and 4 rows 3, 9 * 3 + 3 and 81 * 3 + 9 * 3 + 3.
    assert_eq!(cleared, 3 + 30 + 273);
}

/// Numbers that look random, always the same.
struct Chance(u64);

impl Chance {
    fn below(&mut self, n: u64) -> i32 {
        let next = self.0.wrapping_mul(6_364_136_223_846_793_005);
        self.0 = next.wrapping_add(1_442_695_040_888_963_407);
        ((self.0 >> 33) % n) as i32
    }

    /// A log that is cleared, or one change away from it.
    fn log(&mut self) -> Vec<Row> {
        let numbers = [self.below(3), i32::MIN + self.below(3)];
        let mut log: Vec<Row> = (0..self.below(6))
            .map(|_| [0, 1 + self.below(3), self.below(2), self.below(2)])
            .collect();
        log.push([0, 1, numbers[0], numbers[1]]);
        for _ in 0..self.below(9) {
            log.push([0, 2, numbers[0], numbers[1]]);
        }
        log.push([0, 3, numbers[0], numbers[1]]);
        let at = self.below(log.len() as u64) as usize;
        match self.below(6) {
            0 => log[at][1] = self.below(5),
            1 => log[at][2] ^= 1,
            2 => log[at][3] ^= i32::MIN,
            3 => log.push([0, 1 + self.below(3), numbers[0], numbers[1]]),
            4 => drop(log.remove(at)),
            _ => {}
        }
        log
    }
}

#[test]
fn random_logs_at_and_near_the_edge() {
    let (mut chance, mut cleared) = (Chance(14), 0);
    for _ in 0..20_000 {
        let log = chance.log();
        let verdict = judge(&log).unwrap();
        assert_eq!(verdict, by_hand(&log), "{log:?}");
        cleared += u32::from(verdict.is_cleared());
    }
    assert!((4_000..16_000).contains(&cleared), "{cleared}");
}

#[test]
fn the_longest_logs() {
    let mut log = vec![[0, 2, 7, 31]; 4096];
    log[0][1] = 1;
    let last = Verdict::Held {
        last_refusal: Some(4095),
    };
    assert_eq!(judge(&log), Ok(last));
    log[4095][1] = 3;
    assert_eq!(judge(&log), Ok(Verdict::Cleared));
    log[0][3] = 30;
    assert!(matches!(judge(&log), Ok(Verdict::Held { .. })));
    log[2000][1] = -1;
    assert_eq!(judge(&log), Ok(Verdict::Unreadable));
    log.push([0; 4]);
    assert_eq!(judge(&log), Err(Error::WrongRows));
}

#[test]
fn rows_that_are_no_log() {
    let mut desk = Desk::new();
    let cut = desk.judge(Rows::new(&[1, 1, 7, 31, 2, 3, 7], 4));
    assert_eq!(cut, Err(Error::WrongRows));
    let three = desk.judge(Rows::new(&[1, 7, 31, 3, 7, 31], 3));
    assert_eq!(three, Err(Error::ColumnCount { query: 4, rows: 3 }));
    // The buffers of a longer log before do not matter.
    assert!(desk.judge(Rows::new(&[9; 400], 4)).is_ok());
    let cleared = [0, 1, 7, 31, 0, 3, 7, 31];
    assert_eq!(desk.judge(Rows::new(&cleared, 4)), Ok(Verdict::Cleared));
}

#[test]
fn stops_rank_before_every_verdict() {
    let judged = |log: &[Row], notes: usize, trail: usize, numbers: usize, labels: usize| {
        let judged = lent::desk(
            &log.concat(),
            &mut vec![0; notes],
            &mut vec![0; trail],
            &mut vec![0; numbers],
            &mut vec![0; labels],
        );
        (judged.answer, judged.verdict, judged.found, judged.row)
    };
    // No rows: 6 pairs. With less it is a refusal and not held.
    assert_eq!(judged(&[], 1, 6, 0, 0), (0, 2, 0, 0));
    assert_eq!(judged(&[], 0, 6, 0, 0), (11, 0, 0, 0));
    assert_eq!(judged(&[], 1, 5, 0, 0), (12, 0, 0, 0));
    let cleared = [[0, 1, 7, 31], [0, 3, 7, 31]];
    assert_eq!(judged(&cleared, 3, 18, 3, 2), (0, 1, 0, 0));
    assert_eq!(judged(&cleared, 3, 18, 2, 2), (13, 0, 0, 0));
    assert_eq!(judged(&cleared, 3, 18, 3, 1), (13, 0, 0, 0));
    // Where an odd event would make it unreadable, too.
    let odd = [[0, 9, 7, 31], [0, 1, 7, 31], [0, 3, 7, 31]];
    assert_eq!(judged(&odd, 3, 24, 3, 2), (0, 3, 0, 0));
    assert_eq!(judged(&odd, 3, 24, 0, 0), (13, 0, 0, 0));
    assert_eq!(judged(&[[0, 2, 7, 31]], 2, 12, 0, 0), (0, 2, 1, 0));
}

// ---- the command

fn run(arguments: &[&str], input: &[u8]) -> Output {
    let mut child = Command::new(COMMAND)
        .args(arguments)
        .current_dir(ROOT)
        .stdin(Stdio::piped())
        .stdout(Stdio::piped())
        .stderr(Stdio::piped())
        .spawn()
        .unwrap();
    // A command that does not read its input to the end is as good.
    let _ = child.stdin.take().unwrap().write_all(input);
    child.wait_with_output().unwrap()
}

/// Status, standard output and standard error.
fn told(arguments: &[&str], input: &str) -> (i32, String, String) {
    let output = run(arguments, input.as_bytes());
    let text = |bytes| String::from_utf8(bytes).unwrap();
    let status = output.status.code().unwrap();
    (status, text(output.stdout), text(output.stderr))
}

const HEAD: &str = "bus,time,event,base,patch\n";

/// Each bus with its verdict, of rows in CSV without their head; and the status.
fn verdicts(rows: &str) -> (i32, Vec<(String, String)>) {
    let (status, csv, errors) = told(&["-f", "csv", "-"], &format!("{HEAD}{rows}"));
    assert_eq!(errors, "");
    let pair = |line: &str| {
        let mut cells = line.split(',').map(String::from);
        (cells.next().unwrap(), cells.next().unwrap())
    };
    (status, csv.lines().skip(1).map(pair).collect())
}

fn verdict(rows: &str) -> (i32, String) {
    let (status, all) = verdicts(rows);
    assert_eq!(all.len(), 1, "{rows}");
    (status, all[0].1.clone())
}

#[test]
fn the_example_has_every_verdict() {
    let (status, table, errors) = told(&["examples/desk.csv"], "");
    let expected = "\
bus  rows  verdict
B17     3  cleared
B18     3  held, last refusal in line 14
B19     3  held, no refusal
B20     3  held, last refusal in line 11
B21     3  unreadable, line 12: an event other than 1, 2 and 3
B22     1  held, no refusal
B23     2  cleared

7 buses: 2 cleared, 4 held, 1 unreadable
";
    assert_eq!((status, table.as_str(), errors.as_str()), (1, expected, ""));
    let readme = std::fs::read_to_string(format!("{ROOT}/README.md")).unwrap();
    assert!(readme.contains(expected), "README tells another table");
}

#[test]
fn json_and_csv_are_one_record_a_bus() {
    let rows = format!("{HEAD}\"a \"\"b\"\"\",1,1,7,31\nc,1,2,7,31\nd,1,x,7,31\ne,1,1,,31\n");
    let (status, json, _) = told(&["--format=json", "-"], &rows);
    let expected = r#"{"bus":"a \"b\"","verdict":"held","rows":1,"last_refusal":null,"line":null,"reason":null}
{"bus":"c","verdict":"held","rows":1,"last_refusal":0,"line":3,"reason":null}
{"bus":"d","verdict":"unreadable","rows":1,"last_refusal":null,"line":4,"reason":"an event other than 1, 2 and 3"}
{"bus":"e","verdict":"error","rows":1,"last_refusal":null,"line":5,"reason":"expected a whole number from -2147483648 to 2147483647, found nothing"}
"#;
    assert_eq!((status, json.as_str()), (2, expected));
    let (_, csv, _) = told(&["-f", "csv", "-"], &rows);
    let expected = "\
bus,verdict,rows,last_refusal,line,reason
\"a \"\"b\"\"\",held,1,,,
c,held,1,0,3,
d,unreadable,1,,4,\"an event other than 1, 2 and 3\"
e,error,1,,5,\"expected a whole number from -2147483648 to 2147483647, found nothing\"
";
    assert_eq!(csv, expected);
}

#[test]
fn near_misses_are_not_cleared() {
    let cleared = "a,1,1,7,31\na,2,2,7,31\na,3,3,7,31\n";
    assert_eq!(verdict(cleared), (0, String::from("cleared")));
    for held in [
        // The acceptance is not last.
        "a,1,1,7,31\na,2,3,7,31\na,3,2,7,31\n",
        "a,1,1,7,31\na,2,3,7,31\na,3,3,7,31\n",
        "a,1,1,7,31\na,2,3,7,31\na,3,1,7,31\n",
        // Base or patch differs in a refusal, in the acceptance, in the offer.
        "a,1,1,7,31\na,2,2,8,31\na,3,3,7,31\n",
        "a,1,1,7,31\na,2,2,7,30\na,3,3,7,31\n",
        "a,1,1,7,31\na,2,2,7,31\na,3,3,8,31\n",
        "a,1,1,7,31\na,2,2,7,31\na,3,3,7,32\n",
        "a,1,1,7,32\na,2,2,7,31\na,3,3,7,31\n",
        "a,1,1,31,7\na,2,3,7,31\n",
        // No offer.
        "a,2,2,7,31\na,3,3,7,31\n",
        "a,3,3,7,31\n",
        // Only an offer.
        "a,1,1,7,31\n",
    ] {
        assert_eq!(verdict(held), (1, String::from("held")), "{held}");
    }
}

#[test]
fn what_is_no_event_makes_a_log_unreadable() {
    let odd = [
        "0",
        "4",
        "-1",
        "4294967299",
        "00:00:03",
        "3.0",
        "ACCEPTED",
        "",
        "x",
        "\"3 \"\" \"",
    ];
    for event in odd {
        let last = format!("a,1,1,7,31\na,2,{event},7,31\n");
        assert_eq!(verdict(&last), (1, String::from("unreadable")), "{last}");
        let first = format!("a,1,{event},7,31\na,2,1,7,31\na,3,3,7,31\n");
        assert_eq!(verdict(&first), (1, String::from("unreadable")), "{first}");
    }
}

#[test]
fn a_broken_bus_is_an_error_and_the_others_go_on() {
    let good = "b,1,1,7,31\nb,2,3,7,31\n";
    for (broken, reason) in [
        // Out of order: the acceptance has to be the last by time too.
        (
            "a,2,1,7,31\na,1,3,7,31\n",
            "line 3: expected rows in the order of `time`",
        ),
        (
            "a,1,1,7,31\na,noon,3,7,31\n",
            "line 3: expected a whole number, a date or a time",
        ),
        (
            "a,1,1,7,31\na,2,3,x,31\n",
            "line 3: expected a whole number from",
        ),
        (
            "a,1,1,7,31\na,2,3,7,4294967327\n",
            "line 3: expected a whole number from",
        ),
        (
            "a,1,1,7,31\na,2,3,7,31.0\n",
            "line 3: expected a whole number from",
        ),
        (
            "a,1,1,7,31\na,2,\"3\"x,7,31\n",
            "line 3: expected nothing behind the closing quote",
        ),
        // What comes behind a fault does not mend it.
        (
            "a,2,1,7,31\na,1,1,7,31\na,3,1,7,31\na,4,3,7,31\n",
            "line 3: expected rows in",
        ),
    ] {
        let (status, table, _) = told(&["-"], &format!("{HEAD}{broken}{good}"));
        assert_eq!(status, 2, "{table}");
        let line = table.lines().nth(1).unwrap();
        assert!(line.contains(&format!("  error, {reason}")), "{line}");
        assert!(
            table.lines().nth(2).unwrap().ends_with("2  cleared"),
            "{table}"
        );
        assert!(
            table.ends_with("\n2 buses: 1 cleared, 1 error\n"),
            "{table}"
        );
        // With --quiet too.
        let (status, table, errors) = told(&["-q", "-"], &format!("{HEAD}{broken}{good}"));
        assert_eq!((status, table.as_str()), (2, ""));
        assert!(
            errors.starts_with(&format!("a: error, {reason}")),
            "{errors}"
        );
    }
    // Equal times keep their order, and fractions and offsets count.
    assert_eq!(verdict("a,1,1,7,31\na,1,3,7,31\n").0, 0);
    let at = |one: &str, other: &str| verdict(&format!("a,{one},1,7,31\na,{other},3,7,31\n")).0;
    assert_eq!(at("2026-03-01 04:00:00.5", "2026-03-01 04:00:00.25"), 2);
    assert_eq!(at("2026-03-01T04:00:00Z", "2026-03-01T04:30:00+01:00"), 2);
    assert_eq!(at("1772352000000", "1772352000001"), 0);
}

#[test]
fn the_worst_bus_decides_the_status_wherever_it_stands() {
    let cleared = |bus: &str| format!("{bus},1,1,7,31\n{bus},2,3,7,31\n");
    let held = |bus: &str| format!("{bus},1,1,7,31\n");
    let unreadable = |bus: &str| format!("{bus},1,9,7,31\n");
    let error = |bus: &str| format!("{bus},1,1,x,31\n");
    for (rows, status) in [
        (cleared("a") + &cleared("b") + &cleared("c"), 0),
        (held("a") + &cleared("b") + &cleared("c"), 1),
        (cleared("a") + &cleared("b") + &unreadable("c"), 1),
        (error("a") + &held("b") + &cleared("c"), 2),
        (unreadable("a") + &error("b") + &unreadable("c"), 2),
        (cleared("a") + &held("b") + &error("c"), 2),
    ] {
        let (found, all) = verdicts(&rows);
        assert_eq!((found, all.len()), (status, 3), "{rows}");
    }
}

#[test]
fn too_many_rows_are_refused_by_name() {
    let mut rows = String::from("b,0,1,7,31\n");
    for time in 0..4096 {
        rows.push_str(&format!("a,{time},1,7,31\n"));
    }
    rows.push_str("b,1,3,7,31\n");
    let (status, all) = verdicts(&rows);
    let pair = |bus: &str, verdict: &str| (String::from(bus), String::from(verdict));
    assert_eq!(
        (status, &all[..]),
        (1, &[pair("b", "cleared"), pair("a", "held")][..])
    );
    rows.push_str("a,5000,3,7,31\n");
    let (status, all) = verdicts(&rows);
    assert_eq!(
        (status, &all[..]),
        (2, &[pair("b", "cleared"), pair("a", "error")][..])
    );
    let (_, table, _) = told(&["-"], &format!("{HEAD}{rows}"));
    assert!(
        table.contains("\n  a  4097  error, refused 10: more than 4,096 rows"),
        "{table}"
    );
}

#[test]
fn a_file_with_a_line_of_no_bus_tells_no_verdict() {
    let good = "a,1,1,7,31\na,2,3,7,31\n";
    for (rest, message) in [
        (
            ",3,2,7,31\n",
            "standard input:4:1: expected a bus, since the row may be any bus's last",
        ),
        ("\"\",3,2,7,31\n", "standard input:4:2: expected a bus"),
        (
            "\"a\"x,3,2,7,31\n",
            "standard input:4:2: expected nothing behind the closing quote",
        ),
        (
            "a,3,2,7\n",
            "standard input:4:8: expected as many entries as there are names, 5",
        ),
        (
            "a,3,2,7,31,9\n",
            "expected as many entries as there are names, 5, found more",
        ),
        (
            "\na,3,2,7,31\n",
            "standard input:4:1: expected a row, since others follow",
        ),
        (
            "a,3,\"2,7,31\n",
            "standard input:4:5: expected a closing quote",
        ),
    ] {
        let (status, table, errors) = told(&["-"], &format!("{HEAD}{good}{rest}"));
        assert_eq!((status, table.as_str()), (2, ""), "{rest}");
        assert!(errors.contains(message), "{errors}");
    }
    assert_eq!(verdict(&format!("{good}\n\n")).0, 0);
}

#[test]
fn no_rows_clear_nothing() {
    let (status, table, errors) = told(&["-"], HEAD);
    assert_eq!((status, table.as_str()), (2, ""));
    assert_eq!(errors, "standard input: expected rows, found none\n");
    assert_eq!(told(&["-"], "").0, 2);
    assert_eq!(told(&["no/such/file"], "").0, 2);
}

#[test]
fn columns_and_events_by_name() {
    let log = "x;vehicle;at;what;image;fix\n;v1;1;offer;7;31\n;v1;2;deny;7;31\n;v1;3;take;7;31\n";
    let names = [
        "--bus",
        "vehicle",
        "--time",
        "at",
        "--event=what",
        "--base=image",
    ];
    let more = [
        "--patch=fix",
        "-d",
        ";",
        "--events",
        "offer=1, deny=2,take = 3,=x=3",
        "-",
    ];
    let arguments = [&names[..], &more[..]].concat();
    assert_eq!(told(&arguments, log).0, 0);
    // With these texts no others are events.
    let other = log.replace("take", "accepted");
    assert_eq!(told(&arguments, &other).0, 1);
    assert!(told(&arguments, &other).1.contains("unreadable, line 4"));
    let numbered = told(
        &[
            "--no-header",
            "--bus=c0",
            "--time=c1",
            "--event=c2",
            "--base=c3",
            "--patch=c4",
            "-",
        ],
        "a,1,1,7,31\na,2,3,7,31\n",
    );
    assert_eq!(numbered.0, 0);
    // Rows of several buses among each other, and words for events.
    let mixed = "a,1,offered,7,31\nb,1,1,8,31\na,2,refused,7,31\nb,2,3,8,31\na,3,accepted,7,31\n";
    assert_eq!(verdicts(mixed).0, 0);
}

#[test]
fn wrong_command_lines() {
    for (arguments, message) in [
        (&[][..], "expected one file, FILE, found 0"),
        (&["a", "b"], "expected one file, FILE, found 2"),
        (&["--sort", "a"], "there is no option --sort"),
        (
            &["-q", "-f", "csv", "a"],
            "--quiet and --format exclude each other",
        ),
        (
            &["--format=xml", "a"],
            "--format is table or json or csv, found `xml`",
        ),
        (
            &["--events"],
            "--events needs texts and their numbers, such as offered=1,",
        ),
        (
            &["--events=a=1,b=2", "a"],
            "--events has no text for 3, an acceptance",
        ),
        (
            &["--events=a=1,b=3,c=3", "a"],
            "--events has no text for 2, a refusal",
        ),
        (
            &["--events=a=1,b=2,c=4", "a"],
            "--events: expected 1, 2 or 3, found `4`",
        ),
        (
            &["--events=a=1,b=2,a=3", "a"],
            "--events: `a` stands there twice",
        ),
        (
            &["--events=a=1,b=2,=3", "a"],
            "--events needs texts and their numbers, such as",
        ),
        (&["--events=a", "a"], "accepted=3, found `a`"),
        (&["--bus", "car", "-"], "--bus: expected a column"),
        (
            &["--base=patch", "-"],
            "--base and --patch are the same column, `patch`",
        ),
    ] {
        let (status, table, errors) = told(arguments, &format!("{HEAD}a,1,1,7,31\n"));
        assert_eq!((status, table.as_str()), (2, ""), "{arguments:?}");
        assert!(errors.contains(message), "{errors}");
    }
    let twice = "bus,time,event,base,base,patch\na,1,1,7,8,31\n";
    let (status, _, errors) = told(&["-"], twice);
    assert_eq!(status, 2);
    assert!(
        errors.contains("expected a name that no other column has"),
        "{errors}"
    );
}

#[test]
fn help_manual_and_completions() {
    let (status, help, _) = told(&["--help"], "");
    assert_eq!(status, 0);
    for part in [
        "--events TEXT=N",
        "\n  0    every bus is cleared\n",
        "\n  1    some bus is held",
    ] {
        assert!(help.contains(part), "{part}");
    }
    assert_eq!(told(&["-V"], "").1, "mireladle-desk 0.1.0\n");
    assert!(told(&["--man"], "")
        .1
        .starts_with(".TH MIRELADLE\\-DESK 1 "));
    for shell in ["bash", "zsh", "fish"] {
        let (status, text, _) = told(&["--completions", shell], "");
        assert_eq!(status, 0);
        assert!(
            text.contains("mireladle-desk") && text.contains("events"),
            "{text}"
        );
        assert!(
            !text.contains("mireladle-match") && !text.contains("mireladle_match"),
            "{text}"
        );
    }
}

#[test]
fn an_output_that_cannot_be_written_is_no_clearance() {
    let full = std::fs::OpenOptions::new()
        .write(true)
        .open("/dev/full")
        .unwrap();
    let mut command = Command::new(COMMAND);
    let log = format!("{}/desk-cleared.csv", env!("CARGO_TARGET_TMPDIR"));
    std::fs::write(&log, format!("{HEAD}a,1,1,7,31\na,2,3,7,31\n")).unwrap();
    assert_eq!(command.arg(&log).output().unwrap().status.code(), Some(0));
    let output = command.stdout(full).output().unwrap();
    assert_eq!(output.status.code(), Some(2));
    let words = String::from_utf8(output.stderr).unwrap();
    assert!(
        words.starts_with("the output cannot be written: "),
        "{words}"
    );
    let closed = format!("{COMMAND} {log} >&-");
    let closed = Command::new("sh").args(["-c", &closed]).output().unwrap();
    assert_eq!(closed.status.code(), Some(2));
}

#[test]
fn no_name_upsets_a_terminal() {
    let rows = format!("{HEAD}a\u{1B}[2J,1,1,7,31\n");
    let (_, table, _) = told(&["-"], &rows);
    assert!(!table.contains('\u{1B}'), "{table:?}");
    let (_, colored, _) = told(&["--color=always", "-"], &format!("{HEAD}a,1,1,7,31\n"));
    assert!(
        colored.contains("\u{1B}[1;31mheld, no refusal\u{1B}[0m"),
        "{colored:?}"
    );
    // The green of a bus that is cleared is no other's, whatever it is called.
    let (_, green, _) = told(
        &["--color=always", "-"],
        &format!("{HEAD}cleared,1,1,7,31\n"),
    );
    assert!(!green.contains("\u{1B}[1;32m"), "{green:?}");
}

/// A log of many buses among each other: each verdict is that of the bus's rows alone, and none is
/// left out.
#[test]
fn many_buses() {
    let mut chance = Chance(26);
    let logs: Vec<Vec<Row>> = (0..300).map(|_| chance.log()).collect();
    let mut left: Vec<(usize, std::collections::VecDeque<Row>)> = Vec::new();
    for (bus, log) in logs.iter().enumerate() {
        if !log.is_empty() {
            left.push((bus, log.iter().copied().collect()));
        }
    }
    let (mut rows, mut order, mut time) = (String::new(), Vec::new(), 0);
    while !left.is_empty() {
        let at = chance.below(left.len() as u64) as usize;
        let (bus, log) = &mut left[at];
        let [_, event, base, patch] = log.pop_front().unwrap();
        rows.push_str(&format!("{bus},{time},{event},{base},{patch}\n"));
        if !order.contains(bus) {
            order.push(*bus);
        }
        if log.is_empty() {
            left.remove(at);
        }
        time += chance.below(2);
    }
    let (status, all) = verdicts(&rows);
    let expected: Vec<(String, String)> = order
        .iter()
        .map(|bus| {
            let word = match by_hand(&logs[*bus]) {
                Verdict::Cleared => "cleared",
                Verdict::Held { .. } => "held",
                Verdict::Unreadable => "unreadable",
            };
            (bus.to_string(), String::from(word))
        })
        .collect();
    assert_eq!(all, expected);
    assert_eq!(status, 1);
}
