//! Tests of the reader of query text: what it reads, byte by byte, and the place and words of every fault.

use crate::col;

use super::*;
use crate::{Comparison, Measure};

fn names() -> Vec<String> {
    ["time", "event", "base number"].map(String::from).to_vec()
}

const COLUMNS: &str = "a column (c0 or time, c1 or event, c2 or \"base number\")";

fn builder(text: &str) -> QueryBuilder {
    read_with(text, &names()).unwrap().builder
}

/// The fault of a text with a pattern line in front.
fn fault(text: &str) -> String {
    read_with(&format!("pattern: A\n{text}"), &names())
        .unwrap_err()
        .to_string()
}

fn defined(columns: u8, text: &str, comparisons: &[Comparison]) {
    let expected = Query::builder(columns)
        .pattern("A")
        .define('A', comparisons.iter().copied());
    assert_eq!(
        builder(&format!("pattern: A\nA: {text}")),
        expected,
        "{text}"
    );
}

#[test]
fn w1_is_read_into_its_bytes() {
    let text = "# W1\npattern: A+ B\nA: c0 > PREV(c0)\nB: price < PREV(price)  # falls\n\n\
                skip: past last row\nmeasures: COUNT(A), LAST(B.price)\n";
    let read = read_with(text, &[String::from("price")]).unwrap();
    let expected = Query::builder(1)
        .pattern("A+ B")
        .define('A', [col(0).gt(col(0).prev(1))])
        .define('B', [col(0).lt(col(0).prev(1))])
        .measure(Measure::count().of('A'))
        .measure(Measure::last(0).of('B'));
    assert_eq!(read.builder.to_bytes(), expected.to_bytes());
    assert_eq!(read.titles, ["COUNT(A)", "LAST(B.price)"]);
    let part = |line, text: &str| {
        Some(Part {
            line,
            column: 1,
            text: String::from(text),
        })
    };
    assert_eq!(read.parts.pattern, part(2, "pattern: A+ B"));
    assert_eq!(
        (read.parts.defined_again, read.skip),
        (None, Skip::PastLastRow)
    );
    assert_eq!(read.parts.skip, part(6, "skip: past last row"));
    assert_eq!(
        read.parts.measures,
        part(7, "measures: COUNT(A), LAST(B.price)")
    );
}

/// The same query by SQL's clauses: in capitals, in small letters, and in one line.
#[test]
fn w1_in_the_spelling_of_sql() {
    let ours = "pattern: A+ B\nA: price > PREV(price)\nB: price < PREV(price), event <> -2\n\
                skip: to next row\nmeasures: COUNT(A) AS n, LAST(B.price) as \"last one\"\n";
    let sql = "MEASURES COUNT(A.*) AS n,\n  FINAL LAST(B.price) AS \"last one\" -- comment\n\
               ONE ROW PER MATCH\nAFTER MATCH SKIP TO\n NEXT ROW\n\
               PATTERN (\n  A+ # rises\n  B\n)\n\
               DEFINE A AS A.price > PREV(A.price),\n\
               B AS price < PREV(price)\n AND B.event <> - 2";
    let names = ["event", "price"].map(String::from);
    let expected = read_with(ours, &names).unwrap();
    assert_eq!(expected.titles, ["n", "last one"]);
    let lower = sql.to_lowercase();
    let one_line = sql
        .replace("-- comment", "")
        .replace("# rises", "")
        .replace('\n', " ");
    let whole = format!("match_recognize (partition by c0 order by price asc\n{sql})\n;");
    for text in [sql, &lower, &one_line, &whole] {
        let read = read_with(text, &names).unwrap();
        assert_eq!(
            read.builder.to_bytes(),
            expected.builder.to_bytes(),
            "{text}"
        );
        assert_eq!(read.titles, expected.titles);
        assert_eq!(
            read.pattern().split_whitespace().collect::<Vec<_>>(),
            ["A+", "B"]
        );
        assert_eq!(read.warnings, []);
        let partition = if text == whole { &["event"][..] } else { &[] };
        assert_eq!(read.partition_by, partition);
        assert_eq!(read.order_by.is_some(), text == whole);
    }
}

/// A pattern over several lines tells the place of its fault.
#[test]
fn a_pattern_in_parentheses_keeps_its_places() {
    let wrong = |text: &str| {
        let read = read_with(text, &names()).unwrap();
        let (_, fault) = read.wrong_pattern().unwrap();
        assert_eq!(read.build().unwrap_err(), fault);
        (fault.line, fault.column, fault.found)
    };
    let star = String::from("`*`");
    assert_eq!(wrong("PATTERN (\n A\n  B**\n)"), (3, 5, star.clone()));
    assert_eq!(wrong("pattern (a** # (\n)"), (1, 12, star));
    let end = String::from("the end of the pattern");
    assert_eq!(wrong("PATTERN ( A |\n # B\n )"), (1, 14, end.clone()));
    assert_eq!(wrong("PATTERN ()\n"), (1, 10, end));
    let open = read_with("PATTERN (A (B)\n", &names()).unwrap_err();
    assert_eq!(
        open.to_string(),
        "2:1: expected a `)` that ends the pattern, found the end of the query"
    );
    assert_eq!(
        read_with("PATTERN A", &names()).unwrap_err().to_string(),
        "1:9: expected `(`, found `A`"
    );
}

#[test]
fn comparisons_of_every_form() {
    defined(1, "c0 = 3", &[col(0).eq(3)]);
    defined(1, "c0<>-3", &[col(0).ne(-3)]);
    defined(1, "c0 != +3", &[col(0).ne(3)]);
    defined(2, "event < time", &[col(1).lt(col(0))]);
    defined(2, "\"base number\" <= c1", &[col(1).le(col(0))]);
    defined(
        2,
        "PREV(c0, 64) >= next(c1 , 0)",
        &[col(0).prev(64).ge(col(1).next(0))],
    );
    defined(2, "c0 > NEXT(c2, 2) + 5", &[col(0).gt(col(1).next(2) + 5)]);
    defined(2, "c0 > c1 - 5", &[col(0).gt(col(1) + -5)]);
    defined(2, "c0 > c1 + -5", &[col(0).gt(col(1) + -5)]);
    defined(2, "c0 > c1 - +5", &[col(0).gt(col(1) + -5)]);
    defined(2, "c0 > c1 - - 5", &[col(0).gt(col(1) + 5)]);
    defined(2, "c0 > c1-2147483648", &[col(0).gt(col(1) + i32::MIN)]);
    defined(1, "c0 = -2147483648", &[col(0).eq(i32::MIN)]);
    defined(1, "time >= '1970-01-02'", &[col(0).ge(86_400)]);
    let three = [
        col(1).eq(3),
        col(2).eq(col(2).prev(1)),
        col(0).le(col(0).next(2) + 5),
    ];
    defined(3, "c1 = 3, c2 = PREV(c2), c0 <= NEXT(c0, 2) + 5", &three);
    defined(
        3,
        "c1 = 3 AND c2 = PREV(c2) and c0 <= NEXT(c0, 2) + 5",
        &three,
    );
    let always = Query::builder(1).pattern("A");
    for text in [
        "A: true",
        "DEFINE A AS TRUE, B AS true",
        "DEFINE a AS True AND TRUE",
    ] {
        assert_eq!(builder(&format!("PATTERN: A\n{text}")), always, "{text}");
    }
    defined(1, "true AND c0 = 3", &[col(0).eq(3)]);
}

#[test]
fn codes_stand_for_texts() {
    let text = "pattern: A\nA: event = 'not read', PREV(event) <> 'refused'\n\
                event: refused=2, 'not read'=-3, \"it's\" = +4, *=0";
    let read = read_with(text, &names()).unwrap();
    let expected = [col(0).eq(-3), col(0).prev(1).ne(2)];
    assert_eq!(
        read.builder,
        Query::builder(1).pattern("A").define('A', expected)
    );
    let codes = read.columns[0].codes.clone().unwrap();
    let code = |text: &str| codes.code(text.as_bytes());
    assert_eq!((code("refused"), code("it's")), (Some(2), Some(4)));
    assert_eq!((code("Refused"), codes.listed(b"Refused")), (Some(0), None));
    let place = "2:12: expected one of the codes 'x', found `'y'`";
    assert_eq!(fault("A: event = 'y'\nevent: x=1"), place);
    assert_eq!(
        fault("A: event = 'refused'"),
        "2:12: expected a number, a date or a time, or else a line with codes for this column, \
         such as `event: 'refused'=1`, found `'refused'`"
    );
    assert_eq!(
        fault("event: x=1, x=2"),
        "2:13: expected a text that has no code yet, found `x`"
    );
    assert_eq!(
        fault("event: x=1\nc1: y=2"),
        "3:1: expected one code table for each column, found `c1`"
    );
    let many = |count| {
        (0..count)
            .map(|at| format!("t{at}={at}"))
            .collect::<Vec<_>>()
    };
    let text = format!(
        "pattern: A\nA: event = 't4095'\nevent: {}",
        many(4096).join(",")
    );
    let read = read_with(&text, &names()).unwrap();
    assert_eq!(
        read.builder,
        Query::builder(1)
            .pattern("A")
            .define('A', [col(0).eq(4095)])
    );
    let more = fault(&format!("event: {}", many(4097).join(",")));
    assert!(
        more.contains("expected at most 4096 codes for one column, found `t4096`"),
        "{more}"
    );
    let tables: Vec<String> = (0..9).map(|at| format!("x{at}: on=1\n")).collect();
    let more = super::read(&tables.concat()).unwrap_err().to_string();
    assert_eq!(
        more,
        "9:1: expected codes for at most 8 columns, found `x8`"
    );
    assert_eq!(
        fault("event: x=one"),
        "2:10: expected a whole number from -2147483648 to 2147483647, found `one`"
    );
}

#[test]
fn columns_that_are_not_named_are_left_out() {
    let names: Vec<String> = (0..30).map(|at| format!("col{at}")).collect();
    let text = "pattern: A\nA: col29 = PREV(col7)\nmeasures: LAST(A.c7), SUM(col11)";
    let read = read_with(text, &names).unwrap();
    let columns: Vec<_> = read.columns.iter().map(|column| column.index).collect();
    assert_eq!(columns, [Some(7), Some(11), Some(29)]);
    let expected = Query::builder(3)
        .pattern("A")
        .define('A', [col(2).eq(col(0).prev(1))])
        .measure(Measure::last(0).of('A'))
        .measure(Measure::sum(1));
    assert_eq!(read.builder, expected);
    // Without names the text's order counts, and any name is one.
    let read = super::read(text).unwrap();
    let columns: Vec<_> = read.columns.iter().map(|it| it.name.as_str()).collect();
    assert_eq!(columns, ["col29", "col7", "c7", "col11"]);
    let nine = "A: c0=1, c1=1, c2=1, c3=1, c4=1, c5=1, c6=1, c7=1\nB: c8=1";
    let fault = read_with(&format!("pattern: A B\n{nine}"), &names).unwrap_err();
    assert_eq!(
        fault.to_string(),
        "3:4: expected at most 8 different columns in one query, found `c8`"
    );
}

#[test]
fn likely_mistakes_are_warned_of() {
    let warnings = |text: &str| -> Vec<String> {
        let read = read_with(text, &names()).unwrap();
        let told = |it: &Warning| format!("{}:{}: {}", it.line, it.column, it.message);
        read.warnings.iter().map(told).collect()
    };
    assert_eq!(warnings("pattern: A B\nA: c0 = 1\nB: true"), [""; 0]);
    assert_eq!(
        warnings("pattern: A B B\nA: c0 = 1\nC: c0 = 2"),
        [
            "1:12: B has no DEFINE, so it holds at every row (`B: true` says so)",
            "3:1: the pattern has no C, so its DEFINE has no effect"
        ]
    );
}

#[test]
fn lines_stand_in_any_order() {
    let one = builder("measures: SUM(c1)\nskip: to next row\nA: c0 = 1\npattern: A\n");
    let expected = Query::builder(2)
        .pattern("A")
        .define('A', [col(0).eq(1)])
        .skip(Skip::ToNextRow)
        .measure(Measure::sum(1));
    assert_eq!(one, expected);
    assert_eq!(
        builder("  pattern :  A B  \r\n"),
        Query::builder(1).pattern("A B")
    );
    assert_eq!(
        builder("pattern: A\nskip:  To  NEXT row"),
        Query::builder(1).pattern("A").skip(Skip::ToNextRow)
    );
}

#[test]
fn skips_of_every_form() {
    for (text, skip) in [
        ("past last row", Skip::PastLastRow),
        (" Past\tLAST  row ", Skip::PastLastRow),
        ("to next row", Skip::ToNextRow),
        ("to first A", Skip::ToFirst('A')),
        ("TO FIRST Z", Skip::ToFirst('Z')),
        ("to  last B # falls", Skip::ToLast('B')),
        ("To Last A", Skip::ToLast('A')),
    ] {
        for key in ["skip:", "AFTER MATCH SKIP ", " after  Match skip\t"] {
            let read = read_with(&format!("pattern: A\n{key}{text}"), &names()).unwrap();
            let expected = Query::builder(1).pattern("A").skip(skip);
            assert_eq!((read.builder, read.skip), (expected, skip), "{key} {text}");
            assert_eq!(read.parts.skip.unwrap().line, 2, "{key} {text}");
        }
    }
    let none = read_with("pattern: A", &names()).unwrap();
    assert_eq!((none.skip, none.parts.skip), (Skip::PastLastRow, None));
}

/// Of the two lines that can name a letter which the pattern does not have, the skip's comes first.
#[test]
fn the_line_with_a_strange_letter() {
    let line = |text: &str| {
        let read = read_with(text, &names()).unwrap();
        read.strange_letter().map(|part| part.line)
    };
    let text = |skip: &str| format!("pattern: A B\nskip: {skip}\nmeasures: COUNT(C)");
    assert_eq!(line(&text("to last B")), Some(3));
    assert_eq!(line(&text("to next row")), Some(3));
    assert_eq!(line(&text("to first C")), Some(2));
    assert_eq!(line("skip: to last C\npattern: A # C"), Some(1));
    assert_eq!(line("pattern: A\nskip: to last A"), None);
}

#[test]
fn every_line_end_ends_a_line() {
    let text = "# W1\npattern: A # one\nA: c0 = 1\n\nmeasures: COUNT(A)\n";
    let expected = read_with(text, &names()).unwrap();
    for end in ["\r\n", "\r"] {
        assert_eq!(
            read_with(&text.replace('\n', end), &names()),
            Ok(expected.clone()),
            "{end:?}"
        );
    }
    assert_eq!(
        read_with("# W1\rhello\r", &names())
            .unwrap_err()
            .to_string(),
        format!("2:1: expected {KEYS}, found `hello`")
    );
}

#[test]
fn measures_of_every_form() {
    let read = read_with(
        "pattern: A\nmeasures: count(*), COUNT(A.*), Min(A.event), MAX(c0), \
         first(\"base number\"), AVG(A.time) AS mean, avg(c1), COUNT(*)",
        &names(),
    );
    let read = read.unwrap();
    let expected = [
        Measure::count(),
        Measure::count().of('A'),
        Measure::min(1).of('A'),
        Measure::max(0),
        Measure::first(2),
        Measure::avg(0).of('A'),
        Measure::avg(1),
        Measure::count(),
    ];
    let expected = expected
        .into_iter()
        .fold(Query::builder(3).pattern("A"), QueryBuilder::measure);
    assert_eq!(read.builder, expected);
    assert_eq!(
        read.titles,
        [
            "COUNT(*)",
            "COUNT(A)",
            "MIN(A.event)",
            "MAX(time)",
            "FIRST(base number)",
            "mean",
            "AVG(event)",
            "COUNT(*) (2)"
        ]
    );
}

#[test]
fn names_that_are_words_of_the_language_too() {
    let names = ["PREV", "next", "A", "c3", "true", "define"].map(String::from);
    let read = read_with(
        "pattern: A\nA: PREV = next(PREV), A > c3, true = define\nmeasures: LAST(A.A), SUM(A)",
        &names,
    )
    .unwrap();
    let expected = Query::builder(5)
        .pattern("A")
        .define(
            'A',
            [
                col(0).eq(col(0).next(1)),
                col(1).gt(col(2)),
                col(3).eq(col(4)),
            ],
        )
        .measure(Measure::last(1).of('A'))
        .measure(Measure::sum(1));
    assert_eq!(read.builder, expected);
}

#[test]
fn what_the_library_judges_is_left_to_it() {
    for text in [
        "pattern:",
        "pattern: A** \u{E9}",
        "pattern: A\nA: c0=1\nA: c0=2",
        "pattern: A\nmeasures: COUNT(B)",
        "pattern: A\nskip: to first B",
    ] {
        let read = read_with(text, &names()).unwrap();
        let fault = read.build().unwrap_err();
        let last = lines(text).count();
        assert!(fault.line == last && fault.column >= 1, "{text}: {fault}");
    }
}

#[test]
fn a_hash_in_quotes_is_no_comment() {
    let names = [String::from("a#b")];
    let read = read_with("pattern: A # A\nA: \"a#b\" = 1 # \"", &names).unwrap();
    assert_eq!(
        read.builder,
        Query::builder(1).pattern("A").define('A', [col(0).eq(1)])
    );
}

#[test]
fn faults_of_clauses() {
    let sql = |text: &str| read_with(text, &names()).unwrap_err().to_string();
    assert_eq!(
        sql("PATTERN (A)\nDEFINE A AS time > 1,"),
        "3:1: expected a letter A to Z and `AS`, found the end of the query"
    );
    assert_eq!(
        sql("PATTERN (A)\nDEFINE A AS B.time > 1"),
        "2:13: expected A in front of the dot, since a DEFINE sees its own rows, found `B`"
    );
    assert_eq!(
        sql("PATTERN (A)\nPATTERN (B)"),
        "2:1: expected one `PATTERN` only, found `PATTERN`"
    );
    assert_eq!(
        sql("PATTERN (A) DEFINE A AS time = 1 time = 2"),
        format!("1:34: expected {KEYS}, found `time`")
    );
    assert_eq!(
        sql("PATTERN (STRT DOWN+)\nDEFINE DOWN AS time > 1"),
        "2:8: expected a letter A to Z and `AS`, found `DOWN`"
    );
    assert_eq!(
        sql("PATTERN (A) ORDER BY time, event"),
        "1:26: expected one column to order by, found `,`"
    );
}

#[test]
fn faults_of_lines() {
    assert_eq!(
        fault("hello"),
        format!("2:1: expected {KEYS}, found `hello`")
    );
    assert_eq!(
        fault("  ab: c0 = 1"),
        format!("2:3: expected {KEYS}, or {COLUMNS} and its codes, found `ab`")
    );
    assert_eq!(
        fault("a: c0 = 1"),
        format!("2:1: expected {KEYS}, or {COLUMNS} and its codes, found `a`")
    );
    assert_eq!(
        fault(": c0 = 1"),
        format!("2:1: expected {KEYS}, found `:`")
    );
    assert_eq!(
        fault("pattern: B"),
        "2:1: expected one `pattern:` only, found `pattern`"
    );
    assert_eq!(
        fault("skip: to next row\nskip: to next row"),
        "3:1: expected one `skip:` only, found `skip`"
    );
    let missing = read_with("A: c0 = 1\n# pattern: A\n", &names()).unwrap_err();
    assert_eq!(
        missing.to_string(),
        "3:1: expected a `pattern:` line, found the end of the file"
    );
    let long = read_with(&format!("pattern: {}", "A ".repeat(129)), &names()).unwrap_err();
    assert_eq!(
        (long.line, long.column, long.expected.as_str()),
        (1, 10, "a pattern of at most 256 bytes")
    );
    let many = "A: c0 = 1\n".repeat(27);
    assert_eq!(
        fault(&many),
        "28:1: expected at most 26 DEFINE lines, one for each letter, found `A`"
    );
}

#[test]
fn faults_of_skips() {
    let skips = "`past last row`, `to next row`, `to first` or `to last` and a letter";
    let behind_to = "`next row`, or `first` or `last` and a letter";
    for (text, place, expected, found) in [
        ("skip:", "2:6", skips, "the end of the line"),
        ("skip: past", "2:11", "`last`", "the end of the line"),
        ("skip: past next row", "2:12", "`last`", "`next`"),
        ("skip: past last", "2:16", "`row`", "the end of the line"),
        ("skip: past last A", "2:17", "`row`", "`A`"),
        ("skip: after match skip to first A", "2:7", skips, "`after`"),
        ("skip: to", "2:9", behind_to, "the end of the line"),
        ("skip: to A", "2:10", behind_to, "`A`"),
        ("skip: to \"first\" A", "2:10", behind_to, "`first`"),
        ("skip: to next A", "2:15", "`row`", "`A`"),
        (
            "skip: to first",
            "2:15",
            "a letter A to Z",
            "the end of the line",
        ),
        ("skip: to last row", "2:15", "a letter A to Z", "`row`"),
        ("skip: to last a", "2:15", "a letter A to Z", "`a`"),
        ("skip: to last 'A'", "2:15", "a letter A to Z", "`'A'`"),
        ("skip: to first AB", "2:16", "a letter A to Z", "`AB`"),
        ("skip: to first A, B", "2:17", "the end of the line", "`,`"),
        ("skip: to next row A", "2:19", "the end of the line", "`A`"),
    ] {
        let expected = format!("{place}: expected {expected}, found {found}");
        assert_eq!(fault(text), expected, "{text}");
    }
}

#[test]
fn faults_of_comparisons() {
    let columns = COLUMNS;
    assert_eq!(
        fault("A:"),
        format!("2:3: expected {columns}, found the end of the line")
    );
    assert_eq!(
        fault("A: evnt = 1"),
        format!("2:4: expected {columns}, found `evnt`")
    );
    assert_eq!(
        fault("A: c3 = 1"),
        format!("2:4: expected {columns}, found `c3`")
    );
    assert_eq!(
        fault("A: c256 = 1"),
        format!("2:4: expected {columns}, found `c256`")
    );
    assert_eq!(
        fault("A: \"c0\" = 1"),
        format!("2:4: expected {columns}, found `c0`")
    );
    assert_eq!(
        fault("A: \"base number = 1"),
        "2:4: expected a closing quote behind this one, found '\"'"
    );
    assert_eq!(
        fault("A: 3 = c0"),
        format!("2:4: expected {columns}, found `3`")
    );
    assert_eq!(
        fault("A: c0"),
        "2:6: expected one of = <> < <= > >=, BETWEEN or IN, found the end of the line"
    );
    assert_eq!(
        fault("A: c0 == 1"),
        format!("2:8: expected a whole number or {columns}, found `=`")
    );
    assert_eq!(
        fault("A: c0 = "),
        format!("2:8: expected a whole number or {columns}, found the end of the line")
    );
    assert_eq!(
        fault("A: c0 = B.c0"),
        format!("2:9: expected {columns}, found `B`")
    );
    assert_eq!(
        fault("A: FIRST(c0) = 1"),
        "2:4: expected PREV, NEXT or a column, found `FIRST`"
    );
    assert_eq!(
        fault("A: c0 > PREV(c0"),
        "2:16: expected `)`, found the end of the line"
    );
    assert_eq!(
        fault("A: c0 > PREV()"),
        format!("2:14: expected {columns}, found `)`")
    );
    assert_eq!(
        fault("A: c0 > PREV(c0, 65)"),
        "2:18: expected a number of rows from 0 to 64, found `65`"
    );
    assert_eq!(
        fault("A: c0 > PREV(c0, -1)"),
        "2:18: expected a number of rows from 0 to 64, found `-`"
    );
    let number = "a whole number from -2147483648 to 2147483647";
    assert_eq!(
        fault("A: c0 > 2147483648"),
        format!("2:9: expected {number}, found `2147483648`")
    );
    assert_eq!(
        fault("A: c0 > c1 + c2"),
        format!("2:14: expected {number}, found `c2`")
    );
    assert_eq!(
        fault("A: c0 > - -1"),
        format!("2:11: expected {number}, found `-`")
    );
    assert_eq!(
        fault("A: c0 = 'x"),
        "2:9: expected a closing quote behind this one, found '\\''"
    );
    assert_eq!(
        fault("A: c0 = 1,"),
        format!("2:11: expected {columns}, found the end of the line")
    );
    let nine = ["c0 = 1"; 9].join(", ");
    assert_eq!(
        fault(&format!("A: {nine}")),
        "2:68: expected at most 8 comparisons for one letter, found `c0`"
    );
    assert_eq!(
        fault("A: c0 = 1 \u{3BB}; c0"),
        "2:11: expected a comma, AND, OR, or the end of the line, found `\u{3BB}`"
    );
}

#[test]
fn faults_of_joins() {
    let columns = COLUMNS;
    let operator = "one of = <> < <= > >=, BETWEEN or IN";
    for (text, expected) in [
        ("c0 = 1 OR", format!("2:13: expected {columns}, found the end of the line")),
        ("OR c0 = 1", format!("2:4: expected {columns}, found `OR`")),
        ("c0 = 1 OR AND c0 = 2", format!("2:14: expected {columns}, found `AND`")),
        ("c0 = 1 NOT c0 = 2", String::from("2:11: expected a comma, AND, OR, or the end of the line, found `NOT`")),
        ("NOT", format!("2:7: expected {columns}, found the end of the line")),
        ("(c0 = 1", String::from("2:11: expected AND, OR or `)`, found the end of the line")),
        ("(c0 = 1, c1 = 2)", String::from("2:11: expected AND, OR or `)`, found `,`")),
        ("(c0 = 1))", String::from("2:12: expected a comma, AND, OR, or the end of the line, found `)`")),
        ("()", format!("2:5: expected {columns}, found `)`")),
        ("(c0) = 1", format!("2:7: expected {operator}, found `)`")),
        ("c0 NOT = 1", String::from("2:11: expected BETWEEN or IN, found `=`")),
        ("c0 BETWEEN 1", String::from("2:16: expected AND and the upper end of BETWEEN, found the end of the line")),
        ("c0 BETWEEN 1, 2", String::from("2:16: expected AND and the upper end of BETWEEN, found `,`")),
        ("c0 BETWEEN 1 AND", format!("2:20: expected a whole number or {columns}, found the end of the line")),
        ("c0 BETWEEN 1 AND c1 = 2", String::from("2:24: expected a comma, AND, OR, or the end of the line, found `=`")),
        ("c0 IN 1", String::from("2:10: expected `(`, found `1`")),
        ("c0 IN ()", format!("2:11: expected a whole number or {columns}, found `)`")),
        ("c0 IN (1; 2)", String::from("2:12: expected a comma or `)`, found `;`")),
        ("c0 LIKE 'x'", format!("2:7: expected {operator}, found `LIKE`")),
        ("c0 IS NULL", format!("2:7: expected {operator}, since every cell is a number and none is NULL, found `IS`")),
        ("c0 IS NOT NULL", format!("2:7: expected {operator}, since every cell is a number and none is NULL, found `IS`")),
        ("c0 <> null", format!("2:10: expected a whole number or {columns}, since every cell is a number and none is NULL, found `null`")),
    ] {
        assert_eq!(fault(&format!("A: {text}")), expected, "{text}");
    }
    let deep = "(".repeat(32) + "c0 = 1" + &")".repeat(32);
    assert!(read_with(&format!("pattern: A\nA: {deep}"), &names()).is_ok());
    let expected = "at most 32 parentheses and NOTs inside one another";
    assert_eq!(
        fault(&format!("A: ({deep})")),
        format!("2:36: expected {expected}, found `(`")
    );
    let many = format!("A: {}c0 = 1", "NOT ".repeat(100_000));
    assert_eq!(
        fault(&many),
        format!("2:132: expected {expected}, found `NOT`")
    );
}

#[test]
fn faults_of_long_conditions() {
    let eight = |join: &str| [r#"c0 = 1"#; 8].join(join);
    let comparisons = "at most 8 comparisons for one letter";
    for (text, place, found) in [
        (format!("{} OR c1 = 2", eight(" OR ")), "2:84", "`c1`"),
        (format!("({}) AND c1 = 2", eight(" OR ")), "2:87", "`c1`"),
        (String::from("c0 IN (1,2,3,4,5,6,7,8,9)"), "2:27", "`9`"),
        (
            format!("c0 BETWEEN 1 AND 2 OR {}", ["c0 = 1"; 7].join(" OR ")),
            "2:86",
            "`c0`",
        ),
        (
            format!("{} OR c0 BETWEEN 1 AND 2", ["c0 = 1"; 7].join(" OR ")),
            "2:91",
            "`2`",
        ),
    ] {
        let expected = format!("{place}: expected {comparisons}, found {found}");
        assert_eq!(fault(&format!("A: {text}")), expected, "{text}");
    }
    // 15 entries and a NOT fit, and one more does not.
    let joined = eight(" OR ");
    assert!(read_with(&format!("pattern: A\nA: NOT ({joined})"), &names()).is_ok());
    assert_eq!(
        fault(&format!("A: NOT (NOT {joined})")),
        "2:1: expected at most 16 comparisons, ANDs, ORs and NOTs in a DEFINE (`NOT a = b` is as \
         well `a <> b`), found 17 of them"
    );
}

/// A condition of a query as a condition reads.
fn condition(columns: u8, text: &str, expected: impl Into<crate::Condition>) {
    let expected = Query::builder(columns)
        .pattern("A")
        .define('A', [expected.into()]);
    let lines = builder(&format!("pattern: A\nA: {text}"));
    assert_eq!(lines.to_bytes(), expected.to_bytes(), "{text}");
    let sql = builder(&format!("PATTERN (A) DEFINE A AS {text}"));
    assert_eq!(sql, lines, "{text}");
    // In SQL's spelling it goes over line ends, in any capitals.
    let lower = format!(
        "pattern (a) define a as {}",
        text.to_lowercase().replace(' ', "\n")
    );
    if !text.contains('\'') {
        assert_eq!(builder(&lower), lines, "{lower}");
    }
}

#[test]
fn joins_bind_as_in_sql() {
    let (a, b, c) = (col(0).eq(1), col(1).lt(2), col(2).ne(3));
    let [x, y, z] = ["time = 1", "event < 2", "c2 <> 3"];
    condition(3, &format!("{x} OR {y} AND {z}"), a | b & c);
    condition(3, &format!("{x} AND {y} OR {z}"), a & b | c);
    condition(3, &format!("({x} OR {y}) AND {z}"), (a | b) & c);
    condition(3, &format!("{x} OR ({y} OR {z})"), a | (b | c));
    condition(3, &format!("NOT {x} AND {y} OR {z}"), !a & b | c);
    condition(3, &format!("NOT ({x} AND {y}) OR NOT {z}"), !(a & b) | !c);
    condition(
        3,
        &format!("NOT NOT {x} OR NOT (NOT {y}) AND {z}"),
        !!a | !!b & c,
    );
    condition(3, &format!("(({x})) AND ({y} AND {z})"), a & (b & c));
    condition(3, &format!("NOT({x})OR({y})AND NOT({z})"), !a | b & !c);
}

#[test]
fn conjunctions_stay_lists_of_comparisons() {
    let (a, b) = (col(0).ge(1), col(0).le(5));
    for text in [
        "c0 >= 1, c0 <= 5",
        "(c0 >= 1 AND c0 <= 5)",
        "c0 BETWEEN 1 AND 5",
    ] {
        defined(1, text, &[a, b]);
    }
    defined(
        2,
        "c0 BETWEEN 1 AND 5 AND c1 = 2, true",
        &[a, b, col(1).eq(2)],
    );
    defined(1, "c0 NOT IN (7, -8)", &[col(0).ne(7), col(0).ne(-8)]);
    defined(1, "c0 IN (7)", &[col(0).eq(7)]);
    defined(1, "c0 != 7", &[col(0).ne(7)]);
}

/// In a line a comma is an AND that binds last.
#[test]
fn commas_part_whole_conditions() {
    let (a, b, c) = (col(0).eq(1), col(1).eq(2), col(2).eq(3));
    let expected = Query::builder(3).pattern("A").define('A', [(a | b), c | a]);
    let text = "pattern: A\nA: c0 = 1 OR c1 = 2, c2 = 3 OR c0 = 1";
    assert_eq!(builder(text).to_bytes(), expected.to_bytes());
}

#[test]
fn between_and_in() {
    let from = col(0).prev(1).plus(-5);
    condition(1, "time NOT BETWEEN 1 AND 5", col(0).lt(1) | col(0).gt(5));
    condition(
        1,
        "NOT time BETWEEN PREV(time) - 5 AND NEXT(time, 2)",
        !(col(0).ge(from) & col(0).le(col(0).next(2))),
    );
    condition(
        1,
        "PREV(time, 3) BETWEEN 1 AND 5 OR time IN (7, PREV(time), -9)",
        (col(0).prev(3).ge(1) & col(0).prev(3).le(5))
            | (col(0).eq(7) | col(0).eq(col(0).prev(1)) | col(0).eq(-9)),
    );
    condition(2, "NOT time IN (7, 8) AND event NOT IN (1, 2)", {
        !(col(0).eq(7) | col(0).eq(8)) & (col(1).ne(1) & col(1).ne(2))
    });
    // Dates and times count as seconds, as elsewhere.
    condition(
        1,
        "time BETWEEN '00:01' AND '01:00:00' OR time IN ('1970-01-02', 7)",
        (col(0).ge(60) & col(0).le(3600)) | (col(0).eq(86_400) | col(0).eq(7)),
    );
}

#[test]
fn codes_in_conditions() {
    let text = "pattern: A\nA: event IN ('offered', 'refused') AND NOT event = 'not read' OR \
                event NOT BETWEEN 'offered' AND 'refused'\n\
                event: offered=1, refused=2, 'not read'=3, *=0";
    let event = col(0);
    let expected = Query::builder(1).pattern("A").define(
        'A',
        [(event.eq(1) | event.eq(2)) & !event.eq(3) | (event.lt(1) | event.gt(2))],
    );
    assert_eq!(builder(text).to_bytes(), expected.to_bytes());
    assert_eq!(
        fault("A: c0 = 1 OR NOT event IN ('offered', 'reused')\nevent: offered=1, refused=2"),
        "2:39: expected one of the codes 'offered', 'refused', found `'reused'`"
    );
}

#[test]
fn true_and_false() {
    let none = Query::builder(1).pattern("A");
    for text in ["true", "(TRUE)", "true AND (true), true"] {
        assert_eq!(builder(&format!("pattern: A\nA: {text}")), none, "{text}");
    }
    let (yes, no) = (col(0).eq(col(0)), col(0).ne(col(0)));
    condition(1, "FALSE", no);
    condition(1, "NOT TRUE", !yes);
    condition(1, "time = 1 OR TRUE", col(0).eq(1) | yes);
    condition(1, "time = 1 OR (TRUE AND TRUE)", col(0).eq(1) | yes);
    condition(1, "FALSE AND time = 1 AND TRUE", no & col(0).eq(1));
    // A column may have such a name.
    let named = ["true", "not"].map(String::from);
    let read = read_with("pattern: A\nA: true = 1 OR NOT not = 2", &named).unwrap();
    let expected = Query::builder(2)
        .pattern("A")
        .define('A', [col(0).eq(1) | !col(1).eq(2)]);
    assert_eq!(read.builder.to_bytes(), expected.to_bytes());
}

#[test]
fn faults_of_measures() {
    let columns = COLUMNS;
    let measure = "a measure: COUNT, SUM, MIN, MAX, FIRST, LAST or AVG";
    assert_eq!(
        fault("measures:"),
        format!("2:10: expected {measure}, found the end of the line")
    );
    assert_eq!(
        fault("measures: MEDIAN(c0)"),
        format!("2:11: expected {measure}, found `MEDIAN`")
    );
    assert_eq!(
        fault("measures: COUNT"),
        "2:16: expected `(`, found the end of the line"
    );
    assert_eq!(
        fault("measures: COUNT()"),
        "2:17: expected `*` or a letter A to Z, found `)`"
    );
    assert_eq!(
        fault("measures: COUNT(c0)"),
        "2:17: expected `*` or a letter A to Z, found `c0`"
    );
    assert_eq!(
        fault("measures: COUNT(A.c0)"),
        "2:19: expected `*`, found `c0`"
    );
    assert_eq!(
        fault("measures: SUM(A)"),
        format!("2:15: expected {columns}, found `A`")
    );
    assert_eq!(
        fault("measures: SUM(a.c0)"),
        "2:15: expected a letter A to Z in front of the dot, found `a`"
    );
    assert_eq!(
        fault("measures: SUM(A.x)"),
        format!("2:17: expected {columns}, found `x`")
    );
    // An average is of a column, as all but COUNT are.
    assert_eq!(
        fault("measures: AVG(*)"),
        format!("2:15: expected {columns}, found `*`")
    );
    assert_eq!(
        fault("measures: SUM(c0) MIN(c0)"),
        "2:19: expected a comma or the end of the line, found `MIN`"
    );
    let nine = ["COUNT(*)"; 9].join(",");
    assert_eq!(
        fault(&format!("measures: {nine}")),
        "2:83: expected at most 8 measures, found `COUNT`"
    );
}

/// Any text gets a query or a fault inside the text, or right behind it.
#[test]
fn no_text_is_too_odd() {
    let pieces = [
        "pattern:",
        "A:",
        "skip:",
        "measures:",
        "\n",
        " ",
        "c0",
        "event",
        "PREV",
        "(",
        ")",
        ",",
        "=",
        "<",
        ">",
        "1",
        "-",
        "+",
        ".",
        "*",
        "\"",
        "#",
        "AND",
        "COUNT",
        "LAST",
        "\u{E9}",
        "\r",
        "\t",
        "99999999999",
        ":",
        "past last row",
        "to",
        "first",
        "last A",
        "PATTERN (",
        "DEFINE A AS",
        "MEASURES",
        "AS",
        "'",
        "--",
        "AFTER MATCH SKIP",
        "ORDER BY",
        "true",
        "OR",
        "NOT",
        "BETWEEN",
        "IN (",
        "NULL",
    ];
    let mut seed: u64 = 1;
    for _ in 0..40_000 {
        let mut text = String::new();
        for _ in 0..24 {
            seed = seed
                .wrapping_mul(6_364_136_223_846_793_005)
                .wrapping_add(1_442_695_040_888_963_407);
            text.push_str(pieces[(seed >> 33) as usize % pieces.len()]);
        }
        if let Err(fault) = read_with(&text, &names()).and_then(|read| read.build().map(|_| read)) {
            assert!(
                fault.line >= 1 && fault.line <= lines(&text).count() + 1,
                "{text:?}"
            );
            let line = lines(&text).nth(fault.line - 1).unwrap_or("");
            assert!(
                fault.column >= 1 && fault.column <= line.chars().count() + 1,
                "{text:?} {fault}"
            );
            let _ = fault.marked(&text).to_string();
        }
    }
}
