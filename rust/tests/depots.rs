//! The depot-by-month table: the crate's counts against a count in plain Rust over each partition's
//! own report; what is refused, stopped or gets no number; and the command on the example of two
//! depots, with the picture.

#![allow(clippy::restriction)]

use std::collections::HashMap;
use std::path::Path;
use std::process::Command;

use mireladle::{col, lent, Depots, Ending, Error, Listed, Query, Rows, Skip};

const COMMAND: &str = env!("CARGO_BIN_EXE_mireladle-match");
const ROOT: &str = concat!(env!("CARGO_MANIFEST_DIR"), "/..");
const NORTH: [u64; 12] = [41, 38, 44, 19, 17, 22, 20, 18, 35, 37, 40, 39];

/// depot, month, event: rows with event 1, then one with event 2.
fn query(skip: Skip) -> Query {
    let query = Query::builder(3).pattern("A+ B?").skip(skip);
    let query = query
        .define('A', [col(2).eq(1)])
        .define('B', [col(2).eq(2)]);
    query.build().unwrap()
}

/// Random numbers from 0 to below a count.
struct Random(u64);

impl Random {
    fn below(&mut self, count: u64) -> i32 {
        self.0 = self
            .0
            .wrapping_mul(6_364_136_223_846_793_005)
            .wrapping_add(1);
        ((self.0 >> 33) % count) as i32
    }
}

/// The cell of a row; none is the one outside.
fn cell(row: &[i32]) -> Option<(u8, u8)> {
    let inside = (0..=63).contains(&row[0]) && (1..=12).contains(&row[1]);
    inside.then_some((row[0] as u8, row[1] as u8))
}

/// The buffers are measured with the pattern's factor too.
#[test]
fn rounds_that_may_take_no_row_are_counted() {
    let query = Query::builder(3)
        .pattern("(A*)* B")
        .define('A', [col(2).eq(1)]);
    let query = query.define('B', [col(2).eq(2)]).build().unwrap();
    assert_eq!(query.factor(), 2);
    let mut depots = Depots::new(0, 1);
    let taken = depots.partition(&query, Rows::new(&[3, 4, 1, 3, 4, 1, 3, 4, 2], 3));
    assert_eq!(
        taken.map(|it| (it.ending, it.matches)),
        Ok((Ending::Done, 1))
    );
    assert_eq!(depots.cell(3, 4), Some(1));
}

#[test]
fn counts_and_list_are_those_of_the_reports() {
    let mut random = Random(4);
    let queries = [Skip::PastLastRow, Skip::ToNextRow, Skip::ToLast('B')].map(query);
    let (mut stopped, mut outside_seen, mut refused) = (0, 0, 0);
    for round in 0..30 {
        let (mut depots, mut counts, mut list) = (Depots::new(0, 1), HashMap::new(), Vec::new());
        for number in 1..=40 {
            let query = &queries[random.below(3) as usize];
            let mut entries = Vec::new();
            for _ in 0..random.below(30) {
                entries.extend([random.below(68) - 2, random.below(15) - 1, random.below(4)]);
            }
            if random.below(10) == 0 {
                entries.push(0);
            }
            let rows = Rows::new(&entries, 3);
            let taken = depots.partition(query, rows);
            match query.search(rows) {
                Ok(report) => {
                    let taken = taken.unwrap();
                    let told = (taken.ending, taken.matches, taken.steps);
                    assert_eq!(told, (report.ending(), report.len() as u64, report.steps()));
                    if report.ending() == Ending::Done {
                        for found in &report {
                            let row = rows.get(found.first_row()).unwrap();
                            *counts.entry(cell(row)).or_insert(0) += 1;
                        }
                    } else {
                        stopped += 1;
                        list.push(Listed {
                            partition: number,
                            answer: 15,
                        });
                    }
                }
                Err(error) => {
                    refused += 1;
                    assert_eq!((taken, error), (Err(error), Error::WrongRows));
                    list.push(Listed {
                        partition: number,
                        answer: 10,
                    });
                }
            }
            assert_eq!(depots.partitions(), u64::from(number));
        }
        let count = |cell| counts.get(&cell).copied().unwrap_or(0);
        for depot in 0..64 {
            for month in 1..=12 {
                assert_eq!(
                    depots.cell(depot, month),
                    Some(count(Some((depot, month)))),
                    "{round}"
                );
            }
        }
        outside_seen += count(None);
        assert_eq!(depots.outside(), count(None));
        assert_eq!(depots.matches(), counts.values().sum::<u64>());
        assert_eq!(depots.listed().collect::<Vec<_>>(), list);
        assert_eq!(
            (depots.cell(64, 1), depots.cell(0, 0), depots.cell(0, 13)),
            (None, None, None)
        );
    }
    assert!(
        stopped > 20 && refused > 20 && outside_seen > 100,
        "the inputs miss a case"
    );
}

#[test]
fn a_column_that_is_not_there_is_answer_3_and_other_columns_take_no_number() {
    let query = query(Skip::PastLastRow);
    for (depot, month) in [(3, 1), (0, 3), (u8::MAX, 0)] {
        let mut depots = Depots::new(depot, month);
        let rows = Rows::new(&[1, 1, 1], 3);
        assert_eq!(depots.partition(&query, rows), Err(Error::WrongField));
        assert_eq!(
            depots.partition(&query, Rows::new(&[], 3)),
            Err(Error::WrongField)
        );
        let other = depots.partition(&query, Rows::new(&[1, 1], 2));
        assert_eq!(other, Err(Error::ColumnCount { query: 3, rows: 2 }));
        let list = [1, 2].map(|partition| Listed {
            partition,
            answer: 3,
        });
        assert_eq!(depots.listed().collect::<Vec<_>>(), list);
        assert_eq!((depots.partitions(), depots.matches()), (2, 0));
    }
    // Both may be one column.
    let mut depots = Depots::new(1, 1);
    depots.partition(&query, Rows::new(&[0, 5, 1], 3)).unwrap();
    assert_eq!(depots.cell(5, 5), Some(1));
}

#[test]
fn a_65_536th_partition_is_answer_20_and_changes_nothing() {
    let query = query(Skip::PastLastRow);
    let (mut depots, rows) = (Depots::new(0, 1), Rows::new(&[7, 3, 1], 3));
    for _ in 0..65_535 {
        depots.partition(&query, rows).unwrap();
    }
    for rows in [rows, Rows::new(&[7], 3)] {
        assert_eq!(depots.partition(&query, rows), Err(Error::NoNumber));
    }
    let counted = (depots.cell(7, 3), depots.matches(), depots.partitions());
    assert_eq!(counted, (Some(65_535), 65_535, 65_535));
    assert_eq!(depots.listed().len(), 0);
}

/// A list that is full: 20 behind the search, no number, and the next one that is done gets it.
#[test]
fn an_entry_that_does_not_fit_takes_no_number() {
    let query = query(Skip::PastLastRow);
    let mut state = [9; lent::DEPOTS_LENGTH + 1];
    assert_eq!(
        lent::depots_begin(&mut state[..lent::DEPOTS_LENGTH - 1], 0, 1),
        20
    );
    assert_eq!(state, [9; lent::DEPOTS_LENGTH + 1]);
    assert_eq!(lent::depots_begin(&mut state, 0, 1), 0);
    let (mut list, mut numbers, rows) = ([8; 3], [0; 3], [7, 3, 1, 8, 4, 9]);
    let (mut notes, mut trail) = ([0; 9], [0; 72]);
    let mut take = |labels: &mut [u8]| {
        let (query, notes, trail) = (query.as_bytes(), &mut notes, &mut trail);
        let (numbers, list) = (&mut numbers, &mut list);
        let taken = lent::depots_partition(
            &mut state, list, query, &rows, notes, trail, numbers, labels,
        );
        let counts = [768, 769, 770].map(|at| state[at]);
        (
            taken.answer,
            taken.matches,
            state[7 * 12 + 2],
            counts,
            *list,
        )
    };
    // No room for the label is 13; the last number of an odd list stays.
    assert_eq!(take(&mut []), (13, 0, 0, [0, 1, 2], [1, 13, 8]));
    assert_eq!(take(&mut []), (20, 0, 0, [0, 1, 2], [1, 13, 8]));
    assert_eq!(take(&mut [0; 2]), (0, 1, 1, [0, 2, 2], [1, 13, 8]));
    assert_eq!(state[lent::DEPOTS_LENGTH], 9);
}

fn file(name: &str, content: &str) -> String {
    let path = Path::new(env!("CARGO_TARGET_TMPDIR")).join(name);
    std::fs::write(&path, content).unwrap();
    path.into_os_string().into_string().unwrap()
}

/// Exit status, output and messages.
fn run(arguments: &[&str]) -> (i32, String, String) {
    let output = Command::new(COMMAND).args(arguments).output().unwrap();
    let text = |bytes: Vec<u8>| String::from_utf8(bytes).unwrap();
    let messages = text(output.stderr).replace(env!("CARGO_TARGET_TMPDIR"), "");
    (output.status.code().unwrap(), text(output.stdout), messages)
}

fn example(options: &[&str]) -> String {
    let files = ["depots.sql", "depots.csv"].map(|name| format!("{ROOT}/examples/{name}"));
    let files = files.each_ref().map(String::as_str);
    let (status, printed, messages) =
        run(&[&["--depots", "depot,month"], options, &files].concat());
    assert_eq!((status, messages.as_str()), (0, ""));
    printed
}

#[test]
fn the_example_gives_what_was_counted_by_hand() {
    let table = "\
depot  Jan  Feb  Mar  Apr  May  Jun  Jul  Aug  Sep  Oct  Nov  Dec  all
North   41   38   44   19   17   22   20   18   35   37   40   39  370
South    7    6    9    4    3    5    4    2    8    6    9    7   70

outside: 3 matches (depot not 0 to 63, or month not 1 to 12)
443 matches in 19 partitions
";
    assert_eq!(example(&[]), table);
    let readme = std::fs::read_to_string(format!("{ROOT}/README.md")).unwrap();
    assert!(readme.contains(table), "README shows another table");
    let csv = example(&["-f", "csv"]);
    let lines: Vec<&str> = csv.lines().collect();
    assert_eq!(lines[0], "depot,name,1,2,3,4,5,6,7,8,9,10,11,12,all");
    let north = NORTH.map(|count| count.to_string()).join(",");
    assert_eq!(lines[1], format!("0,North,{north},370"));
    assert_eq!((lines[3], lines.len()), ("outside,,,,,,,,,,,,,,3", 4));
    let south: Vec<&str> = lines[2].split(',').collect();
    assert!(south[2..14]
        .iter()
        .all(|count| count.parse::<u64>().unwrap() <= 9));
    let json = example(&["-f", "json"]);
    let depots = format!(
        "{{\"depots\":[{{\"depot\":0,\"name\":\"North\",\"months\":[{north}]}},\
         {{\"depot\":1,\"name\":\"South\",\"months\":[7,6,9,4,3,5,4,2,8,6,9,7]}}],\
         \"outside\":3,\"matches\":443,\"partitions\":19,\"not_counted\":[],\"without_number\":0}}\n"
    );
    assert_eq!(json, depots);
}

/// The picture of the README is the one that the command draws.
#[test]
fn the_picture_is_the_one_that_is_kept() {
    let drawn = file("depots.svg", "");
    example(&["--svg", &drawn]);
    let drawn = std::fs::read_to_string(drawn).unwrap();
    let kept = std::fs::read_to_string(format!("{ROOT}/docs/depots.svg")).unwrap();
    assert!(drawn == kept, "docs/depots.svg is another picture");
    for count in NORTH {
        assert!(drawn.contains(&format!(">{count}</text>")), "{count}");
    }
}

#[test]
fn the_log_of_the_example_is_made_again() {
    let output = Command::new("python3")
        .arg(format!("{ROOT}/examples/make-depots"))
        .output();
    let kept = std::fs::read(format!("{ROOT}/examples/depots.csv")).unwrap();
    assert!(output.unwrap().stdout == kept);
}

#[test]
fn refused_and_stopped_partitions_are_named_and_not_counted() {
    let mut log = String::from("bus,depot,month,event\nb<1>,5,1,2\nc,5,13,3\nc,5,1,3\n");
    log.push_str(&"d,5,1,3\n".repeat(4097));
    let log = file("listed.csv", &log);
    let text = "pattern: A | B B\nA: event = 2\nB: event = 3\nskip: to last B\n";
    let (query, picture) = (file("listed.txt", text), file("listed.svg", ""));
    let by = ["-p", "bus", "--depots", "depot,month"];
    let asked = |more: &[&str]| run(&[&by, more, &[&query, &log]].concat());
    let (status, table, messages) = asked(&["--svg", &picture]);
    assert_eq!(status, 2);
    assert!(
        messages.starts_with("refused 10: bus=d of /listed.csv has 4,097 rows"),
        "{messages}"
    );
    let told = "\
depot  Jan  Feb  Mar  Apr  May  Jun  Jul  Aug  Sep  Oct  Nov  Dec  all

outside: 1 match (depot not 0 to 63, or month not 1 to 12)
1 match in 1 of 3 partitions

not counted, since refused or stopped:
number  partition  answer
     1   bus=b<1>      15  stopped since there is no row to skip to behind a match
     3      bus=d      10  refused: the entries are not whole rows, or there are more than 4,096 rows
";
    assert_eq!(table, told);
    let picture = std::fs::read_to_string(picture).unwrap();
    for part in [
        "bus=b&lt;1&gt;: answer 15<",
        "bus=d: answer 10<",
        "no depot has a match",
    ] {
        assert!(picture.contains(part), "{part}");
    }
    let (status, json, _) = asked(&["-f", "json"]);
    let expected = "{\"depots\":[],\"outside\":1,\"matches\":1,\"partitions\":3,\"not_counted\":[\
                    {\"number\":1,\"partition\":{\"bus\":\"b<1>\"},\"answer\":15},\
                    {\"number\":3,\"partition\":{\"bus\":\"d\"},\"answer\":10}],\
                    \"without_number\":0}\n";
    assert_eq!((status, json.as_str()), (2, expected));
    let (status, csv, messages) = asked(&["-f", "csv"]);
    let head = "depot,name,1,2,3,4,5,6,7,8,9,10,11,12,all\noutside,,,,,,,,,,,,,,1\n";
    assert_eq!((status, csv.as_str()), (2, head));
    assert!(
        messages.contains("not counted: partition 1, bus=b<1>: stopped since"),
        "{messages}"
    );
}

#[test]
fn wrong_options_are_told() {
    let (query, log) = (
        file("o.txt", "pattern: A\n"),
        file("o.csv", "depot,month\n1,1\n"),
    );
    for (options, expected) in [
        (
            &["--depots", "depot"][..],
            "--depots needs two columns, DEPOT,MONTH, found `depot`",
        ),
        (
            &["--svg", "x.svg"],
            "--svg needs --depots, the table that it draws",
        ),
        (
            &["--depots", "depot,month", "-c"],
            "--depots and --count exclude each other",
        ),
        (
            &["--depots", "depot,month", "--steps", "5"],
            "--depots and --steps exclude each other: the library counts, without an allowance of \
             steps",
        ),
        (
            &["--depots", "depot,moth"],
            "--depots: expected a column (c0 or depot, c1 or month), found `moth`",
        ),
    ] {
        let (status, _, messages) = run(&[options, &[&query, &log]].concat());
        let first = messages.lines().next().unwrap_or("").to_owned();
        assert_eq!((status, first.as_str()), (2, expected), "{options:?}");
    }
    // The query names no column, and one partition is enough; a status of 1 says that none matches.
    let (status, table, _) = run(&["--no-warnings", "--depots", "depot,month", &query, &log]);
    assert_eq!(
        (
            status,
            table.lines().nth(1).unwrap().split_whitespace().nth(1)
        ),
        (0, Some("1"))
    );
    let unwritable = format!("{}/none/x.svg", env!("CARGO_TARGET_TMPDIR"));
    let (status, _, messages) = run(&[
        "--depots",
        "depot,month",
        "--svg",
        &unwritable,
        &query,
        &log,
    ]);
    assert_eq!(status, 2);
    assert!(messages.contains("/none/x.svg: No such file"), "{messages}");
}
