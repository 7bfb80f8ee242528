//! The command on files as controllers give them: many columns with text in them, several buses, rows
//! among each other or out of order, and too many of them. What it tells is read back.

#![allow(clippy::restriction)]

use std::io::Write;
use std::path::Path;
use std::process::{Command, Stdio};

const COMMAND: &str = env!("CARGO_BIN_EXE_mireladle-match");

fn file(name: &str, content: impl AsRef<[u8]>) -> String {
    let path = Path::new(env!("CARGO_TARGET_TMPDIR")).join(name);
    std::fs::write(&path, content).unwrap();
    path.into_os_string().into_string().unwrap()
}

/// Exit status, output and messages.
fn run(arguments: &[&str]) -> (i32, String, String) {
    run_on(arguments, b"")
}

fn run_on(arguments: &[&str], input: &[u8]) -> (i32, String, String) {
    let mut child = Command::new(COMMAND)
        .args(arguments)
        .stdin(Stdio::piped())
        .stdout(Stdio::piped())
        .stderr(Stdio::piped())
        .spawn()
        .unwrap();
    // One that has seen enough does not read on.
    let _ = child.stdin.take().unwrap().write_all(input);
    let output = child.wait_with_output().unwrap();
    let text = |bytes: Vec<u8>| String::from_utf8(bytes).unwrap();
    let messages = text(output.stderr).replace(env!("CARGO_TARGET_TMPDIR"), "");
    (output.status.code().unwrap(), text(output.stdout), messages)
}

/// Two buses among each other, in 12 columns of which the query names three.
const LOG: &str = "\
time,bus,depot,controller,driver,event,base,patch,voltage,note,lat,lon
2026-03-01 08:00:00,B17,North,C1,\"O'Neil, Pat\",offered,7,31,24.5,\"ok, \"\"fine\"\"\",53.1,
2026-03-01 08:00:05,B18,North,C1,Zo\u{EB},offered,7,31,24.4,,53.1,-1.2
2026-03-01 08:01:00,B17,North,C1,x,refused,7,31,,\"over
two lines\",53.1,-1.2
2026-03-01 08:02:00,B17,North,C1,x,refused,7,31,24.5,a \"quote\" inside,53.1,-1.2
2026-03-01 08:02:30,B18,North,C1,x,heartbeat,,,,,,
2026-03-01 08:03:00,B17,North,C1,x,accepted,7,31,24.5,\u{1B}[31mred,53.1,-1.2
2026-03-01 08:04:00,B18,North,C1,x,refused,7,31,24.4,,53.1,-1.2
";

const QUERY: &str = "\
pattern: O R{2} C
O: event = 'offered'
R: event = 'refused'
C: event = 'accepted' AND time <= PREV(time, 3) + 600
event: offered=1, refused=2, accepted=3, *=0
measures: COUNT(R), LAST(C.time) AS accepted
";

#[test]
fn buses_among_each_other_are_found_each_on_its_own() {
    let (query, log) = (file("buses.txt", QUERY), file("buses.csv", LOG));
    let json = "{\"partition\":{\"bus\":\"B17\"},\"match\":1,\"first_line\":2,\"first_row\":0,\
                \"rows\":4,\"labels\":\"ORRC\",\"measures\":{\"COUNT(R)\":2,\"accepted\":1772352180}}\n";
    let found = run(&[
        "-p",
        "bus",
        "--order-by",
        "time",
        "-f",
        "json",
        &query,
        &log,
    ]);
    assert_eq!(found, (0, String::from(json), String::new()));
    let csv = "bus,match,first_line,first_row,rows,labels,COUNT(R),accepted\n\
               B17,1,2,0,4,ORRC,2,1772352180\n";
    let found = run(&["--partition-by=bus", "-fcsv", &query, &log]);
    assert_eq!(found, (0, String::from(csv), String::new()));
    // Of more than 8 columns the table shows those that are asked for.
    let table = "\
bus=B17: 1 match in 5 steps

match  first row  rows  COUNT(R)    accepted  labels
    1          0     4         2  1772352180  ORRC

row  line                 time  bus     event  match:label
  0     2  2026-03-01 08:00:00  B17   offered  1:O
  1     4  2026-03-01 08:01:00  B17   refused  1:R
  2     6  2026-03-01 08:02:00  B17   refused  1:R
  3     8  2026-03-01 08:03:00  B17  accepted  1:C

1 match in 1 of 2 partitions
";
    let found = run(&["-p", "bus", &query, &log]);
    assert_eq!(found, (0, String::from(table), String::new()));
    // As one partition there is no match, and the status says so.
    let (status, printed, _) = run(&["-f", "json", &query, &log]);
    assert_eq!((status, printed.as_str()), (1, ""));
    // From a pipe, and with the clauses in the query.
    let sql = format!("PARTITION BY bus ORDER BY time\n{QUERY}");
    let found = run_on(&["-e", &sql, "-f", "json"], LOG.as_bytes());
    assert_eq!(found, (0, String::from(json), String::new()));
}

#[test]
fn each_row_of_a_match_is_told_as_it_stands() {
    let (query, log) = (file("rows.txt", QUERY), file("rows.csv", LOG));
    let (status, csv, _) = run(&["-p", "bus", "--rows", "-f", "csv", &query, &log]);
    let expected = "\
match,label,line,row,time,bus,depot,controller,driver,event,base,patch,voltage,note,lat,lon
1,O,2,0,2026-03-01 08:00:00,B17,North,C1,\"O'Neil, Pat\",offered,7,31,24.5,\"ok, \"\"fine\"\"\",53.1,
1,R,4,1,2026-03-01 08:01:00,B17,North,C1,x,refused,7,31,,\"over
two lines\",53.1,-1.2
1,R,6,2,2026-03-01 08:02:00,B17,North,C1,x,refused,7,31,24.5,\"a \"\"quote\"\" inside\",53.1,-1.2
1,C,8,3,2026-03-01 08:03:00,B17,North,C1,x,accepted,7,31,24.5,\u{1B}[31mred,53.1,-1.2
";
    assert_eq!((status, csv.as_str()), (0, expected));
    let (_, json, _) = run(&["-p", "bus", "--rows", "-f", "json", &query, &log]);
    let last = json.lines().last().unwrap();
    let expected =
        "{\"match\":1,\"label\":\"C\",\"line\":8,\"row\":3,\"time\":\"2026-03-01 08:03:00\",";
    assert!(last.starts_with(expected), "{last}");
    let expected = "\"voltage\":24.5,\"note\":\"\\u001b[31mred\",\"lat\":53.1,\"lon\":-1.2}";
    assert!(last.ends_with(expected), "{last}");
    let (_, table, _) = run(&["-p", "bus", "--rows", &query, &log]);
    let line = "    1     8    3  2026-03-01 08:03:00  B17  accepted  C\n";
    assert!(table.contains(line), "{table}");
}

/// What README shows of examples/buses.sql is what the command does.
#[test]
fn the_readme_is_true() {
    let examples = concat!(env!("CARGO_MANIFEST_DIR"), "/../examples");
    let readme = include_str!("../../README.md");
    let files = [
        &format!("{examples}/buses.sql"),
        &format!("{examples}/buses.csv"),
    ];
    let query = std::fs::read_to_string(files[0]).unwrap();
    assert!(readme.contains(&format!("```sql\n{query}```")), "{query}");
    let (status, table, message) = run(&[files[0], files[1]]);
    assert_eq!((status, message.as_str()), (0, ""));
    assert!(readme.contains(&format!("```text\n{table}```")), "{table}");
    let (_, json, _) = run(&["--format", "json", files[0], files[1]]);
    let parts = json
        .replace("\"first_line\"", "\n \"first_line\"")
        .replace("\"measures\"", "\n \"measures\"");
    assert!(readme.contains(&format!("```text\n{parts}```")), "{parts}");
}

/// Names of the file that are those of the answer too get a number behind them.
#[test]
fn every_name_of_an_answer_differs() {
    let log = file("names.csv", "match,rows,label\nx,1,2\n");
    let text = "pattern: A\nA: rows = 1\nmeasures: SUM(label) AS rows, COUNT(*) AS labels";
    let (_, csv, _) = run(&["-p", "match", "-f", "csv", "-e", text, &log]);
    let head = "match,match_2,first_line,first_row,rows,labels,rows_2,labels_2\n";
    assert_eq!(csv, format!("{head}x,1,2,0,1,A,2,1\n"));
    let (_, csv, _) = run(&["--rows", "-f", "csv", "-e", text, &log]);
    assert_eq!(
        csv,
        "match,label,line,row,match_2,rows,label_2\n1,A,2,0,x,1,2\n"
    );
}

#[test]
fn counts_and_silence() {
    let (query, log) = (file("counts.txt", QUERY), file("counts.csv", LOG));
    let none = String::new;
    assert_eq!(
        run(&["-p", "bus", "-c", &query, &log]),
        (0, String::from("1\n"), none())
    );
    assert_eq!(
        run(&["--count", &query, &log]),
        (1, String::from("0\n"), none())
    );
    assert_eq!(run(&["-p", "bus", "-q", &query, &log]), (0, none(), none()));
    assert_eq!(run(&["-q", &query, &log]), (1, none(), none()));
    // At the first match it is enough: what is wrong behind it is not read.
    let wrong = format!("a\n1\n{}x\n", "2\n".repeat(9));
    let text = [
        "-e",
        "pattern: A",
        "-e",
        "A: a = 1",
        "-q",
        "-p",
        "a",
        "--grouped",
    ];
    assert_eq!(run_on(&text, wrong.as_bytes()), (0, none(), none()));
}

#[test]
fn rows_out_of_order_are_told_or_sorted() {
    let log = file(
        "order.csv",
        "bus,time,a\n1,10,1\n2,5,1\n1,9,2\n2,6,2\n1,9,3\n",
    );
    let text = "pattern: A B C?\nA: a = 2\nB: a > 0\nC: true\nmeasures: FIRST(a), LAST(a)";
    let arguments = [
        "-p",
        "bus",
        "--order-by",
        "time",
        "-f",
        "csv",
        "-e",
        text,
        &log,
    ];
    let (status, _, message) = run(&arguments);
    let expected = "/order.csv:4:3: expected rows in the order of `time`, and so nothing below \
                    that of line 2 (--sort sorts them), found `9`\n    1,9,2\n      ^\n";
    assert_eq!((status, message.as_str()), (2, expected));
    let (status, csv, _) = run(&[&arguments[..], &["--sort"]].concat());
    let head = "bus,match,first_line,first_row,rows,labels,FIRST(a),LAST(a)\n";
    // Equal times keep their order, and a row tells the line where it stands.
    assert_eq!((status, csv), (0, format!("{head}1,1,4,0,3,ABC,2,1\n")));
    let log = file("order-text.csv", "time,a\nnoon,1\n");
    let (status, _, message) = run(&["--order-by", "time", "-e", text, &log]);
    let expected = "/order-text.csv:2:1: expected a whole number, a date or a time to order the \
                    rows by, found `noon`\n    noon,1\n    ^\n";
    assert_eq!((status, message.as_str()), (2, expected));
}

/// Partition 1 has one row too many: it is refused by name, and the others go on.
#[test]
fn a_partition_with_too_many_rows_is_refused_by_name() {
    let mut log = String::from("bus,day,a\n");
    for row in 0..4097 {
        log.push_str(&format!("1,7,{row}\n2,7,{row}\n"));
    }
    log.truncate(log.len() - "2,7,4096\n".len());
    let log = file("many.csv", log);
    let text = ["-e", "pattern: A", "-e", "A: a = 5", "-f", "csv"];
    let (status, csv, message) = run(&[&text[..], &["-p", "bus,day", &log]].concat());
    let expected = "refused 10: bus=1, day=7 of /many.csv has 4,097 rows, and a search takes at \
                    most 4,096; part it further, by --partition-by bus,day,COLUMN, such as a day, \
                    or search a part of the file\n";
    assert_eq!((status, message.as_str()), (2, expected));
    assert_eq!(
        csv,
        "bus,day,match,first_line,first_row,rows,labels\n2,7,1,13,5,1,A\n"
    );
    // A pipe that never ends is not read on for rows that are refused anyway.
    let line = format!("(echo a; yes 1) | '{COMMAND}' -e 'pattern: A' -e 'A: a = 1'");
    let output = Command::new("bash").args(["-c", &line]).output().unwrap();
    let message = String::from_utf8_lossy(&output.stderr);
    let expected = "refused 10: standard input has more than 4,096 rows";
    assert!(message.starts_with(expected), "{message}");
    assert_eq!(output.status.code(), Some(2));
}

#[test]
fn a_grouped_file_is_answered_as_it_comes() {
    let text = [
        "-e",
        "pattern: A",
        "-e",
        "A: a > 0",
        "-f",
        "csv",
        "-p",
        "bus",
        "--grouped",
    ];
    let head = "bus,match,first_line,first_row,rows,labels\n";
    let found = run_on(&text, b"bus,a\n1,1\n1,0\n2,3\n\n");
    let expected = format!("{head}1,1,2,0,1,A\n2,1,4,0,1,A\n");
    assert_eq!(found, (0, expected, String::new()));
    let (status, csv, message) = run_on(&text, b"bus,a\n1,1\n2,3\n1,0\n");
    let expected = "standard input:4:1: expected rows of one partition together, as --grouped \
                    says, found `1` once more\n    1,0\n    ^\n";
    assert_eq!((status, message.as_str()), (2, expected));
    assert_eq!(csv, format!("{head}1,1,2,0,1,A\n"));
}

/// A file so large that it is read twice gives what a pipe gives, which is read once.
#[test]
fn a_large_file_gives_the_same_as_a_pipe() {
    let note = "x".repeat(900);
    let mut log = String::from("bus,a,note\n");
    let mut seed: u64 = 7;
    for row in 0..36_000_u64 {
        seed = seed.wrapping_mul(6_364_136_223_846_793_005).wrapping_add(1);
        // Two in three rows stand with their own; the others are among each other.
        let bus = if row % 3 == 0 { seed >> 59 } else { row / 100 };
        log.push_str(&format!("{bus},{},{note}\n", (seed >> 40) % 4));
    }
    log.push_str("\n\n");
    assert!(log.len() > 32_000_000);
    let path = file("large.csv", &log);
    let text = [
        "-e",
        "pattern: A B+",
        "-e",
        "A: a = 1",
        "-e",
        "B: a > PREV(a)",
        "-f",
        "csv",
    ];
    let by_file = run(&[&text[..], &["-p", "bus", &path]].concat());
    let by_pipe = run_on(&[&text[..], &["-p", "bus", "-"]].concat(), log.as_bytes());
    assert!(
        by_file.0 == 0 && by_file.1.lines().count() > 1000,
        "{}",
        by_file.2
    );
    assert_eq!(by_file, by_pipe);
    std::fs::remove_file(path).unwrap();
}

#[test]
fn delimiters_and_headers() {
    let text = [
        "-e",
        "pattern: A B",
        "-e",
        "A: c1 = 1",
        "-e",
        "B: c1 = 2",
        "-f",
        "csv",
    ];
    let expected = "match,first_line,first_row,rows,labels\n1,1,0,2,AB\n";
    for (option, rows) in [
        (&["--no-header"][..], "x,1\ny,2\n"),
        (&["--no-header", "-t"], "x y\t1\r\ny\t 2 \r\n"),
        (&["--no-header", "-d;"], "\"x;y\";1\n;2"),
        (
            &["--no-header", "--delimiter", "\\t"],
            "\"x\ty\"\t1\ny\t2\n",
        ),
    ] {
        let found = run_on(&[&text[..], option].concat(), rows.as_bytes());
        assert_eq!(found, (0, String::from(expected), String::new()), "{rows}");
    }
    let told = |option: &[&str], rows: &[u8]| {
        let (status, _, message) = run_on(&[&text[..], option].concat(), rows);
        assert_eq!(status, 2, "{message}");
        message.lines().next().unwrap().to_owned()
    };
    assert_eq!(
        told(&[], b"a;b\n1;2\n"),
        "standard input:1:1: expected commas between the names (--delimiter ';' if ';' parts them), \
         found `a;b`"
    );
    assert_eq!(
        told(&[], b"1,2\n3,4\n"),
        "standard input:1:1: expected the names of the columns, which begin with letters \
         (--no-header if there are none), found `1`"
    );
    assert_eq!(
        told(&[], b"a,b\n1,2,3\n"),
        "standard input:2:5: expected as many entries as there are names, 2, found more"
    );
    assert_eq!(
        told(&[], b"a,b\n1,2\n\n1,2\n"),
        "standard input:3:1: expected a row, since others follow, found an empty line"
    );
    assert_eq!(
        told(&[], b""),
        "standard input:1:1: expected a first line with the names of the columns, found an empty file"
    );
    assert_eq!(
        told(&[], b"\xFF\xFEa\0,\0b\0\n\0"),
        "standard input:1:1: expected text in UTF-8, found UTF-16: save the file as CSV in UTF-8"
    );
    assert_eq!(
        told(&[], b"a\0,b\n"),
        "standard input:1:1: expected the names of the columns, found the byte 0x00: this is no CSV file"
    );
    assert_eq!(
        told(&["-p", "bus"], b"a,b\n1,2\n"),
        "--partition-by: expected a column (c0 or a, c1 or b), found `bus`"
    );
    assert_eq!(
        told(&[], b"a,b\n1,\"2\n3,4\n"),
        "standard input:2:3: expected a closing quote, found the end of the file"
    );
    // Names and cells that nobody asks for may be in another encoding; one that is asked for may not.
    let latin = run_on(
        &["-e", "pattern: A\nA: b = 2", "-c"],
        b"gr\xF6\xDFe,b\n\xE4,2\n",
    );
    assert_eq!(latin, (0, String::from("1\n"), String::new()));
    assert_eq!(
        told(&["-p", "gr\u{F6}\u{DF}e"], b"a,gr\xF6\xDFe\n1,2\n"),
        "standard input:1:3: expected text in UTF-8, found the byte 0xF6"
    );
    // Names that nobody asks for may stand twice; one that is asked for may not.
    let twice = run_on(&["-e", "pattern: A\nA: b = 2", "-c"], b"a,,b,a,\n1,,2,3,\n");
    assert_eq!(twice, (0, String::from("1\n"), String::new()));
    let (status, _, message) = run_on(&["-e", "pattern: A\nA: a = 2"], b"a,b,a\n1,2,3\n");
    let expected = "standard input:1:5: expected a name that no other column has, found `a`\n";
    assert!(status == 2 && message.starts_with(expected), "{message}");
}

#[test]
fn a_cell_that_is_no_number_is_told_with_what_to_do() {
    let told = |text: &str, rows: &str| {
        let (status, _, message) = run_on(&["-e", "pattern: A", "-e", text], rows.as_bytes());
        assert_eq!(status, 2);
        message.lines().next().unwrap().to_owned()
    };
    let number = "a whole number from -2147483648 to 2147483647";
    assert_eq!(
        told("A: a = 1", "b,a\n1,on\n"),
        format!(
            "standard input:2:3: expected {number}, found `on`; a column of texts needs codes, so \
             write a line such as `a: 'on'=1` into the query"
        )
    );
    assert_eq!(
        told("A: a = 'on'\na: on=1", "a\non\noff\n"),
        format!(
            "standard input:3:1: expected {number}, found `off`; add 'off'=N to the codes of `a` in \
             the query, or *=N for all other texts"
        )
    );
    assert_eq!(
        told("A: a = 1", "a,b\n,1\n"),
        format!(
            "standard input:2:1: expected {number}, found nothing; an empty cell is no number: fill \
             it, or leave the row out before the search"
        )
    );
    assert_eq!(
        told("A: a = 1", "a\n2039-01-01\n"),
        "standard input:2:1: expected a date from 1901-12-14 to 2038-01-18, whose seconds fit into \
         32 bits, found `2039-01-01`"
    );
    assert_eq!(
        told("A: a = 1", "a\n\"1\" x\n"),
        "standard input:2:2: expected nothing behind the closing quote, found `1`"
    );
}

#[test]
fn warnings_are_told_beside_the_answer() {
    let text = [
        "-e",
        "pattern: A B",
        "-e",
        "A: a = 1",
        "-e",
        "C: a = 2",
        "-c",
    ];
    let (status, printed, message) = run_on(&text, b"a\n1\n5\n");
    let expected =
        "-e:1:12: warning: B has no DEFINE, so it holds at every row (`B: true` says so)\n\
                    -e:3:1: warning: the pattern has no C, so its DEFINE has no effect\n";
    assert_eq!(
        (status, printed.as_str(), message.as_str()),
        (0, "1\n", expected)
    );
    let (_, _, message) = run_on(&[&text[..], &["--no-warnings"]].concat(), b"a\n1\n5\n");
    assert_eq!(message, "");
}

/// A search that stops and one that is refused: the worse of the two is the status.
#[test]
fn the_worst_status_counts() {
    let mut log = String::from("bus,a\n1,1\n1,2\n2,1\n");
    let text = [
        "-e",
        "pattern: A",
        "-e",
        "A: a = 1",
        "-p",
        "bus",
        "--steps",
        "1",
        "-c",
    ];
    let (status, _, message) = run_on(&text, log.as_bytes());
    let why = "stopped since --steps allows no more";
    let expected = format!("bus=1: {why}\nbus=2: {why}\n");
    assert_eq!((status, message), (3, expected));
    log.push_str(&"3,1\n".repeat(4097));
    let (status, ..) = run_on(&text, log.as_bytes());
    assert_eq!(status, 2);
}

/// Random rows of random partitions, among each other: the command finds in each what the library
/// finds in its rows alone.
#[test]
fn random_partitions_are_searched_as_the_library_does() {
    use mireladle::{text, Query, Rows};
    let mut seed: u64 = 3;
    let mut random = move |below: u64| {
        seed = seed
            .wrapping_mul(6_364_136_223_846_793_005)
            .wrapping_add(1_442_695_040_888_963_407);
        (seed >> 33) % below
    };
    let patterns = [
        "A+ B",
        "(A | B)* C",
        "A{2,3}? B?",
        "^ A B",
        "C A* $",
        "A () B | C",
    ];
    let skips = ["past last row", "to next row"];
    let mut found = 0;
    for case in 0..80 {
        let (pattern, skip) = (patterns[random(6) as usize], skips[random(2) as usize]);
        let query = format!(
            "pattern: {pattern}\nA: b >= PREV(b)\nB: b < PREV(b), a <> {}\nC: a = NEXT(b) + -1\n\
             skip: {skip}\nmeasures: SUM(A.b), COUNT(*), AVG(a)",
            random(4)
        );
        let mut log = String::from("note,a,bus,b\n");
        let mut rows: Vec<(u64, Vec<i32>, Vec<u64>)> = Vec::new();
        for line in 2..2 + random(120) {
            let (bus, a, b) = (random(5), random(4) as i32, random(4) as i32 - 1);
            log.push_str(&format!("\"x,{bus}\",{a},{bus},{b}\n"));
            match rows.iter_mut().find(|(known, ..)| *known == bus) {
                Some((_, entries, lines)) => {
                    entries.extend([a, b]);
                    lines.push(line);
                }
                None => rows.push((bus, vec![a, b], vec![line])),
            }
        }
        let names = ["note", "a", "bus", "b"].map(String::from);
        let read = text::read_with(&query, &names).unwrap();
        let search = Query::from_bytes(read.builder.to_bytes()).unwrap();
        let mut expected = format!(
            "bus,match,first_line,first_row,rows,labels,{}\n",
            read.titles.join(",")
        );
        for (bus, entries, lines) in &rows {
            for it in &search.search(Rows::new(entries, 2)).unwrap() {
                let line = lines[it.first_row()];
                expected.push_str(&format!(
                    "{bus},{},{line},{},{},{}",
                    it.number(),
                    it.first_row(),
                    it.len(),
                    it.labels()
                ));
                for measure in it.measures() {
                    expected.push_str(&format!(
                        ",{}",
                        measure.map_or(String::new(), |it| it.to_string())
                    ));
                }
                expected.push('\n');
                found += 1;
            }
        }
        let (_, printed, message) = run_on(
            &["-p", "bus", "-f", "csv", "--no-warnings", "-e", &query],
            log.as_bytes(),
        );
        assert_eq!(
            (printed, message),
            (expected, String::new()),
            "{case}\n{query}\n{log}"
        );
    }
    assert!(found > 300, "{found}");
}
