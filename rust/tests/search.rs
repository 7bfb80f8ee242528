//! The safe interface over the linked library: the bench sheet W1 to W12, every refusal by its
//! number, skips to a labelled row, stopped reports, what lent buffers hold afterwards, and damaged
//! queries.

#![allow(clippy::restriction)]

use mireladle::{
    col, lent, Comparison, Ending, Error, Limits, Match, Measure, Query, QueryBuilder, Report,
    Rows, Skip,
};

const X: [i32; 5] = [100, 110, 120, 115, 130];

fn w1() -> QueryBuilder {
    Query::builder(1)
        .pattern("A+ B")
        .define('A', [col(0).gt(col(0).prev(1))])
        .define('B', [col(0).lt(col(0).prev(1))])
        .measure(Measure::count().of('A'))
        .measure(Measure::last(0).of('B'))
}

/// A pattern whose letters have no DEFINE.
fn free(pattern: &str) -> QueryBuilder {
    Query::builder(1).pattern(pattern)
}

/// The same, but `A` holds above 0 alone.
fn above_0(pattern: &str) -> QueryBuilder {
    free(pattern).define('A', [col(0).gt(0)])
}

fn search(query: &QueryBuilder, entries: &[i32]) -> Report {
    query
        .build()
        .unwrap()
        .search(Rows::new(entries, 1))
        .unwrap()
}

/// First row and labels of each match, and the steps.
fn found(query: &QueryBuilder, entries: &[i32]) -> (Vec<(usize, String)>, u64) {
    let report = search(query, entries);
    assert_eq!(report.ending(), Ending::Done);
    (rows_and_labels(&report), report.steps())
}

fn rows_and_labels(report: &Report) -> Vec<(usize, String)> {
    assert_eq!(report.matches().len(), report.len());
    let of_match = |found: Match<'_>| (found.first_row(), found.labels().to_owned());
    report.matches().map(of_match).collect()
}

fn matches(expected: &[(usize, &str)]) -> Vec<(usize, String)> {
    expected
        .iter()
        .map(|(row, labels)| (*row, (*labels).to_owned()))
        .collect()
}

fn places(pattern: &str) -> Result<u64, Error> {
    free(pattern).build().map(|query| query.places())
}

#[test]
fn w1_rises_and_falls() {
    let report = search(&w1(), &X);
    assert_eq!((report.len(), report.steps()), (1, 12));
    let only = report.matches().next().unwrap();
    assert_eq!(
        (only.number(), only.rows(), only.labels()),
        (1, 1..4, "AAB")
    );
    assert_eq!(only.measures().collect::<Vec<_>>(), [Some(2), Some(115)]);
    assert_eq!(w1().build().unwrap().places(), 5);
}

#[test]
fn w2_without_rows() {
    assert_eq!(found(&w1(), &[]), (matches(&[]), 0));
}

#[test]
fn w3_and_w4_empty_matches() {
    assert_eq!(
        found(&above_0("A*"), &[1, 1, 0]),
        (matches(&[(0, "AA"), (2, "")]), 9)
    );
    assert_eq!(
        found(&above_0("A*?"), &[1, 1, 0]),
        (matches(&[(0, ""), (1, ""), (2, "")]), 6)
    );
}

#[test]
fn w5_to_w7_branches_skips_and_anchors() {
    assert_eq!(found(&free("B A | A B"), &[0; 2]).0, matches(&[(0, "BA")]));
    assert_eq!(found(&free("A A"), &[0; 3]), (matches(&[(0, "AA")]), 5));
    let each = free("A A").skip(Skip::ToNextRow);
    assert_eq!(found(&each, &[0; 3]), (matches(&[(0, "AA"), (1, "AA")]), 8));
    assert_eq!(found(&free("A $"), &[0; 2]).0, matches(&[(1, "A")]));
}

#[test]
fn w8_to_w12_places_and_refused_patterns() {
    assert_eq!(places("(A{51}){5}"), Ok(256));
    assert_eq!(places("(A{16}){16}"), Err(Error::TooManyPlaces));
    assert_eq!(places("(A?){3}"), Ok(7));
    assert_eq!(places("(A+)+"), Ok(8));
    assert!(places("((((((((A))))))))").is_ok());
    assert_eq!(places("(((((((((A)))))))))"), Err(Error::TooDeep));
}

/// Places, factor, matches and steps where the rounds of a repetition may take no row.
#[test]
fn a_round_without_a_row_ends_its_repetition() {
    let of = |pattern: &str| {
        let query = free(pattern).build().unwrap();
        (query.places(), query.factor())
    };
    assert_eq!(of("(A*)*"), (4, 2));
    assert_eq!(of("((A*)*)*"), (5, 4));
    assert_eq!(of("(((A*)*)*)*"), (6, 8));
    assert_eq!(places("((((A*)*)*)*)*"), Err(Error::EmptyRepetition));
    assert_eq!(of("(A+)+"), (8, 1));
    assert_eq!(
        found(&above_0("(A*)*"), &[1, 1, 0]),
        (matches(&[(0, "AA"), (2, "")]), 14)
    );
    let each = above_0("(A*)*").skip(Skip::ToNextRow);
    let overlapping = matches(&[(0, "A"), (1, ""), (2, "A")]);
    assert_eq!(found(&each, &[1, 0, 1]), (overlapping, 21));
    assert_eq!(found(&free("(A??)*"), &[0]), (matches(&[(0, "")]), 3));
    assert_eq!(
        found(&above_0("((A*)*)*"), &[1, 0]),
        (matches(&[(0, "A"), (1, "")]), 18)
    );
    assert_eq!(
        found(&above_0("(((A*)*)*)*"), &[1]),
        (matches(&[(0, "A")]), 20)
    );
}

/// The room that the library asks for, and which bit of the notes a failed pair has.
#[test]
fn flags_take_room_in_notes_and_trail() {
    let query = above_0("(A*)*").build().unwrap();
    let rows = [1, 1, 0];
    let room = lent::room(query.as_bytes(), &rows);
    assert_eq!((room.answer, room.places, room.rows), (0, 4, 3));
    assert_eq!((room.factor, room.pairs, room.notes()), (2, 32, 4));
    let run = |notes: &mut [u8], trail: &mut [u32]| {
        let (query, numbers) = (query.as_bytes(), &mut [0; 9]);
        lent::search(query, &rows, notes, trail, numbers, &mut [0; 3]).answer
    };
    let (mut notes, mut trail) = ([255; 5], [9; 33]);
    assert_eq!(run(&mut notes, &mut trail), 0);
    assert_eq!(notes, [0, 0, 48, 0, 255]);
    assert_eq!((&trail[..32], trail[32]), (&[0; 32][..], 9));
    assert_eq!(run(&mut notes[..3], &mut trail), 11);
    assert_eq!(run(&mut notes, &mut trail[..31]), 12);
}

#[test]
fn matches_with_labels_of_their_own() {
    let is = |number| [col(0).eq(number)];
    let query = free("(A | B)+ C")
        .define('A', is(1))
        .define('B', is(2))
        .define('C', is(3));
    let rows = [1, 2, 3, 2, 3, 3, 1, 1, 2, 3];
    let past_last = matches(&[(0, "ABC"), (3, "BC"), (6, "AABC")]);
    assert_eq!(found(&query, &rows).0, past_last);
    let to_next = matches(&[
        (0, "ABC"),
        (1, "BC"),
        (3, "BC"),
        (6, "AABC"),
        (7, "ABC"),
        (8, "BC"),
    ]);
    assert_eq!(found(&query.skip(Skip::ToNextRow), &rows).0, to_next);
}

/// Which letter holds at a row says the row's entry: 1 is A, 2 is B, 3 is C.
fn by_entry(pattern: &str) -> QueryBuilder {
    ('A'..='C')
        .zip(1..)
        .fold(free(pattern), |query, (letter, entry)| {
            query.define(letter, [col(0).eq(entry)])
        })
}

#[test]
fn a_search_goes_on_at_a_labelled_row() {
    let query = by_entry("A B+ C?");
    let entries = [1, 2, 2, 3, 1, 2];
    let all = matches(&[(0, "ABBC"), (4, "AB")]);
    // Each of them goes on at another row of the first match, and finds the same second one.
    for skip in [
        Skip::PastLastRow,
        Skip::ToNextRow,
        Skip::ToFirst('B'),
        Skip::ToLast('B'),
    ] {
        let query = query.clone().skip(skip);
        assert_eq!(query.build().unwrap().skip(), skip);
        assert_eq!(found(&query, &entries).0, all, "{skip:?}");
    }
    // S holds at every row, so that a match can begin inside another.
    let rises = free("S U+").define('U', [col(0).gt(col(0).prev(1))]);
    let entries = [1, 2, 3, 4, 0, 5];
    let first = matches(&[(0, "SUUU"), (1, "SUU"), (2, "SU"), (4, "SU")]);
    let last = matches(&[(0, "SUUU"), (4, "SU")]);
    let steps = |query: &QueryBuilder| found(query, &entries).1;
    let (to_first, to_last) = (
        rises.clone().skip(Skip::ToFirst('U')),
        rises.clone().skip(Skip::ToLast('U')),
    );
    assert_eq!(found(&to_first, &entries).0, first);
    assert_eq!(found(&to_last, &entries).0, last);
    // The first row labelled U is the next row.
    let to_next = rises.skip(Skip::ToNextRow);
    assert_eq!(found(&to_next, &entries).0, first);
    assert_eq!(steps(&to_first), steps(&to_next));
    assert!(steps(&to_last) < steps(&to_first));
}

#[test]
fn an_empty_match_goes_one_row_on_whatever_the_letter() {
    for skip in [Skip::ToFirst('A'), Skip::ToLast('A')] {
        let query = by_entry("(B A)?").skip(skip);
        let expected = matches(&[(0, ""), (1, "BA"), (2, ""), (3, "")]);
        assert_eq!(found(&query, &[1, 2, 1, 2]).0, expected);
        assert_eq!(found(&query, &[]), (matches(&[]), 0));
    }
}

#[test]
fn without_a_row_to_skip_to_a_search_stops() {
    let stopped = |pattern: &str, skip, entries: &[i32]| {
        let report = search(&by_entry(pattern).skip(skip), entries);
        let ended = (report.ending(), rows_and_labels(&report));
        assert!(report.steps() > 0);
        ended
    };
    let no_row = |expected: &[(usize, &str)]| (Ending::NoSkipRow, matches(expected));
    // The letter labels no row of the second match, or its first alone.
    let entries = [1, 2, 1, 3, 1, 2];
    let two = no_row(&[(0, "AB"), (2, "AC")]);
    for skip in [Skip::ToFirst('B'), Skip::ToLast('B')] {
        assert_eq!(stopped("A (B | C)", skip, &entries), two);
    }
    let one = no_row(&[(0, "AB")]);
    for skip in [Skip::ToFirst('A'), Skip::ToLast('A')] {
        assert_eq!(stopped("A (B | C)", skip, &entries), one);
    }
    // Its first row is the match's first although a later row has the letter too.
    let again = [1, 2, 1];
    assert_eq!(
        stopped("A B A", Skip::ToFirst('A'), &again),
        no_row(&[(0, "ABA")])
    );
    assert_eq!(
        stopped("A B A", Skip::ToLast('A'), &again),
        (Ending::Done, matches(&[(0, "ABA")]))
    );
    // Also where no further row is left.
    assert_eq!(stopped("A", Skip::ToLast('A'), &[1]), no_row(&[(0, "A")]));
    let last = no_row(&[(1, "A")]);
    assert_eq!(stopped("A B?", Skip::ToLast('B'), &[2, 1]), last);
}

/// A match that does not fit is not judged by its labels.
#[test]
fn room_is_judged_before_the_row_to_skip_to() {
    let query = by_entry("A (B | C)").skip(Skip::ToLast('B'));
    let query = query.build().unwrap();
    let within = |room: Limits| {
        let report = query.search_within(Rows::new(&[1, 2, 1, 3], 1), room);
        let report = report.unwrap();
        (report.ending(), report.len())
    };
    let room = Limits::default();
    assert_eq!(within(room), (Ending::NoSkipRow, 2));
    assert_eq!(within(room.matches(2).labels(4)), (Ending::NoSkipRow, 2));
    assert_eq!(within(room.matches(1)), (Ending::Stopped, 1));
    assert_eq!(within(room.labels(3)), (Ending::Stopped, 1));
}

#[test]
fn bytes_of_a_skip_that_are_refused() {
    let bytes = |mode: u8, letter: u8| {
        let mut bytes = free("A").to_bytes();
        let end = bytes.len();
        bytes[end - 2..].copy_from_slice(&[mode, letter]);
        Query::from_bytes(bytes).map(|query| query.skip())
    };
    for (mode, letter) in [
        (0, b'A'),
        (1, b'A'),
        (0, 1),
        (1, 0xFF),
        (2, 0),
        (3, 0),
        (2, b'@'),
        (3, b'['),
        (2, b'a'),
        (4, 0),
        (4, b'A'),
        (0xFF, b'A'),
    ] {
        let wrong = Err(Error::WrongField);
        assert_eq!(bytes(mode, letter), wrong, "{mode} {letter}");
    }
    assert_eq!(bytes(2, b'A'), Ok(Skip::ToFirst('A')));
    assert_eq!(bytes(3, b'A'), Ok(Skip::ToLast('A')));
    for mode in [2, 3] {
        assert_eq!(bytes(mode, b'B'), Err(Error::MeasureLetter));
    }
}

#[test]
fn easy_slips() {
    assert_eq!(
        found(&free("A | A B"), &[0; 2]).0,
        matches(&[(0, "A"), (1, "A")])
    );
    let unequal = free("A").define('A', [col(0).ne(col(0).prev(1))]);
    assert_eq!(
        found(&unequal, &[1, 2, 2, 3]).0,
        matches(&[(1, "A"), (3, "A")])
    );
    let sum = free("A").define('A', [col(0).lt(col(0) + 1)]);
    assert_eq!(found(&sum, &[i32::MAX]).0, matches(&[(0, "A")]));
}

#[test]
fn all_measures_over_several_columns() {
    let query = Query::builder(2)
        .pattern("A B? A")
        .define('B', [col(1).lt(0)])
        .measure(Measure::count())
        .measure(Measure::sum(1))
        .measure(Measure::min(1).of('A'))
        .measure(Measure::max(0))
        .measure(Measure::first(0).of('A'))
        .measure(Measure::last(1))
        .measure(Measure::count().of('B'))
        .measure(Measure::sum(0).of('B'));
    let entries = [1, i32::MAX, 2, i32::MAX, 3, 10, 4, -20, 5, 30];
    let report = query
        .build()
        .unwrap()
        .search(Rows::new(&entries, 2))
        .unwrap();
    let all: Vec<Vec<Option<i64>>> = report
        .matches()
        .map(|found| found.measures().collect())
        .collect();
    let first = [
        Some(2),
        Some(4_294_967_294),
        Some(2_147_483_647),
        Some(2),
        Some(1),
        Some(2_147_483_647),
        Some(0),
        None,
    ];
    let second = [
        Some(3),
        Some(20),
        Some(10),
        Some(5),
        Some(3),
        Some(30),
        Some(1),
        Some(4),
    ];
    assert_eq!(all, [first, second]);
}

#[test]
fn every_refusal_by_its_number() {
    let one = || col(0).eq(1);
    let bytes = w1().to_bytes();
    let twice = free("A").define('B', [one()]).define('B', [one()]);
    let refused: [(u64, Result<Query, Error>); 13] = [
        (1, Query::from_bytes(&bytes[..bytes.len() - 1])),
        (2, Query::from_bytes([])),
        (2, Query::builder(1).build()),
        (
            2,
            (0..9)
                .fold(free("A"), |query, _| query.measure(Measure::count()))
                .build(),
        ),
        (3, Query::builder(9).pattern("A").build()),
        (3, free("A").define('A', [] as [Comparison; 0]).build()),
        (3, free("A").measure(Measure::sum(1)).build()),
        (4, free("(((((((((").build()),
        (5, free("A \u{E9}").build()),
        (6, free("((((()*)*)*)*)*").build()),
        (7, free("(A{99}){99}").build()),
        (8, twice.build()),
        (9, free("A").measure(Measure::count().of('B')).build()),
    ];
    for (number, query) in refused {
        assert_eq!(query.map_err(Error::number), Err(Some(number)));
    }
}

/// Where a text is wrong or ends, and what could stand there.
#[test]
fn wrong_patterns_tell_what_was_expected() {
    let begin = "a letter A to Z, `$`, `(`, `^` or a space";
    let behind_a = "`$`, `(`, `*`, `+`, `?`, `^`, `{`, `|`, a space or the end";
    let behind_star = "a letter A to Z, `$`, `(`, `?`, `^`, `|`, a space or the end";
    let in_group = "`$`, `(`, `)`, `*`, `+`, `?`, `^`, `{`, `|` or a space";
    for (text, number, offset, expected) in [
        ("AB", 5, 1, behind_a),
        ("A**", 5, 2, behind_star),
        ("A{30,2", 5, 5, "a digit 3 to 9 or `}`"),
        ("A{3,2", 14, 5, "a digit 0 to 9"),
        ("A{0,0", 5, 4, "a digit 1 to 9 or `}`"),
        ("A{0}", 5, 3, "`,`"),
        ("A{99,98", 5, 6, "`9`"),
        ("(A", 14, 2, in_group),
        ("", 14, 0, begin),
        (" ", 14, 1, begin),
        ("A |", 14, 3, begin),
        ("\u{E9}", 5, 0, begin),
    ] {
        let error = free(text).build().unwrap_err();
        let (Error::NotAPattern {
            offset: at,
            expected: Some(set),
        }
        | Error::PatternEnds {
            offset: at,
            expected: Some(set),
        }) = error
        else {
            panic!("{text:?}: {error:?}");
        };
        assert_eq!((error.number(), at), (Some(number), offset), "{text:?}");
        assert_eq!(set.to_string(), expected, "{text:?}");
        let message = error.to_string();
        assert!(
            message.ends_with(&format!(": expected {expected}")),
            "{message}"
        );
        // Each byte of the set can stand there, and no other.
        let front = &text[..usize::try_from(offset).unwrap()];
        for byte in 0..128_u8 {
            let longer = free(&format!("{front}{}", char::from(byte))).build();
            let wrong = longer.is_err_and(|error| error.number() == Some(5));
            assert_eq!(set.contains(byte), !wrong, "{text:?} {byte}");
        }
        assert_eq!(set.end(), free(front).build().is_ok(), "{text:?}");
    }
    let error = |text: &str| free(text).build().unwrap_err().to_string();
    assert_eq!(
        error("A{0}"),
        "the pattern text is wrong at byte 3, counted from 0: expected `,`"
    );
    assert_eq!(
        error("A{3,2"),
        "the pattern text ends where it could go on to a pattern, behind 5 bytes: \
         expected a digit 0 to 9"
    );
    // The limits hide nothing but what could stand behind 256 bytes.
    let full = "A ".repeat(127) + "A|";
    let ends = Error::PatternEnds {
        offset: 256,
        expected: None,
    };
    assert_eq!(free(&full).build(), Err(ends));
}

#[test]
fn rows_that_are_refused() {
    let query = Query::builder(2).pattern("A").build().unwrap();
    assert_eq!(
        query.search(Rows::new(&[1, 2, 3], 2)),
        Err(Error::WrongRows)
    );
    assert_eq!(
        query.search(Rows::new(&[0; 2 * 4097], 2)),
        Err(Error::WrongRows)
    );
    assert_eq!(
        query
            .search(Rows::new(&[0; 2 * 4096], 2))
            .map(|report| report.len()),
        Ok(4096)
    );
    assert_eq!(
        query.search(Rows::new(&[1, 2], 1)),
        Err(Error::ColumnCount { query: 2, rows: 1 })
    );
    assert_eq!(
        query.search(Rows::new(&[], 0)),
        Err(Error::ColumnCount { query: 2, rows: 0 })
    );
}

#[test]
fn a_report_stops_where_its_room_ends() {
    let query = free("A A?").skip(Skip::ToNextRow).build().unwrap();
    let rows = Rows::new(&[0; 3], 1);
    let within = |room: Limits| {
        let report = query.search_within(rows, room).unwrap();
        let labels: Vec<String> = report
            .matches()
            .map(|found| found.labels().to_owned())
            .collect();
        (report.ending(), labels.join(" "))
    };
    let all = String::from("AA AA A");
    assert_eq!(within(Limits::default()), (Ending::Done, all.clone()));
    assert_eq!(
        within(Limits::default().matches(3).labels(5)),
        (Ending::Done, all)
    );
    assert_eq!(
        within(Limits::default().matches(2)),
        (Ending::Stopped, String::from("AA AA"))
    );
    // The last match would fit, but none is looked for behind one that does not.
    assert_eq!(
        within(Limits::default().labels(3)),
        (Ending::Stopped, String::from("AA"))
    );
    assert_eq!(
        within(Limits::default().matches(0)),
        (Ending::Stopped, String::new())
    );
    let stopped = query
        .search_within(rows, Limits::default().labels(3))
        .unwrap();
    assert!(stopped.steps() > 0 && stopped.steps() < query.search(rows).unwrap().steps());
}

#[test]
fn the_largest_report_fits() {
    let query = free("A*").skip(Skip::ToNextRow).build().unwrap();
    let report = query.search(Rows::new(&[0; 4096], 1)).unwrap();
    assert_eq!((report.len(), report.ending()), (4096, Ending::Done));
    assert_eq!(
        report.matches().map(|found| found.len()).sum::<usize>(),
        8_390_656
    );
}

/// The query of the README whose search to the next row takes longest, and one whose steps come
/// within a hundredth of the bound.
#[test]
fn steps_to_the_next_row_are_bounded() {
    let n: u64 = 400;
    let entries = vec![0; usize::try_from(n).unwrap()];
    let all = |pattern: &str, places: u64| {
        let query = free(pattern).skip(Skip::ToNextRow).build().unwrap();
        let report = query.search(Rows::new(&entries, 1)).unwrap();
        assert_eq!(query.places(), places);
        assert_eq!(report.len(), entries.len());
        assert!(report
            .matches()
            .all(|found| found.rows().end == entries.len()));
        report.steps()
    };
    let bound = |places: u64| places * n * (n + 3) / 2;
    let longest = all("(($|()){99}($|()){27}A)*", 255);
    assert!(longest > bound(255) / 2 && longest <= bound(255));
    let most = all("((()?){99}(()?){99}(()?){55}A)*", 256);
    assert!(most > bound(256) / 100 * 99 && most <= bound(256));
}

/// The same with a first letter before the group, and a skip to the second row of each match.
#[test]
fn steps_to_a_labelled_row_are_bounded() {
    let n: u64 = 200;
    let entries = vec![0; usize::try_from(n).unwrap()];
    let steps = |skip| {
        let query = free("A ((()?){99}(()?){99}(()?){54}B)*").skip(skip);
        let query = query.build().unwrap();
        let report = query.search(Rows::new(&entries, 1)).unwrap();
        assert_eq!(query.places(), 256);
        (report.ending(), report.len(), report.steps())
    };
    // The last match is the last row alone, an A.
    let (ending, matches, to_first) = steps(Skip::ToFirst('B'));
    assert_eq!((ending, matches), (Ending::NoSkipRow, entries.len()));
    let bound = 256 * n * (n + 3) / 2;
    assert!(to_first > bound / 100 * 97 && to_first <= bound);
    // The last row with B is the last row: one match, then that one.
    let (ending, matches, to_last) = steps(Skip::ToLast('B'));
    assert_eq!((ending, matches), (Ending::NoSkipRow, 2));
    assert!(to_last <= 2 * 256 * (n + 1));
}

/// The buffers that W1 is lent, with what they hold before and after a search.
struct Lent {
    notes: Vec<u8>,
    trail: Vec<u32>,
    numbers: [i64; 10],
    labels: [u8; 5],
}

impl Lent {
    fn new(notes: usize, trail: usize) -> Lent {
        Lent {
            notes: vec![0xAA; notes],
            trail: vec![7; trail],
            numbers: [-7; 10],
            labels: *b"?????",
        }
    }

    /// Answer, matches, labels and steps.
    fn search(&mut self, query: &[u8]) -> [u64; 4] {
        let Lent {
            notes,
            trail,
            numbers,
            labels,
        } = self;
        let outcome = lent::search(query, &X, notes, trail, numbers, labels);
        let lent::Outcome {
            answer,
            matches,
            labels,
            steps,
            ..
        } = outcome;
        [answer, matches, labels, steps]
    }
}

#[test]
fn lent_buffers_are_changed_as_promised() {
    let query = w1().to_bytes();
    let room = lent::room(&query, &X);
    let sizes = [room.answer, room.places, room.rows, room.pairs];
    assert_eq!((sizes, room.notes()), ([0, 5, 5, 30], 4));
    let mut lent = Lent::new(6, 33);
    assert_eq!(lent.search(&query), [0, 1, 3, 12]);
    assert_eq!(lent.numbers, [1, 1, 3, 1, 2, 1, 115, -7, -7, -7]);
    assert_eq!(&lent.labels, b"AAB??");
    assert_eq!(lent.trail, [vec![0; 30], vec![7; 3]].concat());
    assert_eq!(lent.notes[3] & 0xC0, 0, "spare bits");
    assert_eq!(lent.notes[4..], [0xAA; 2]);
    // Each step either failed or is a pair of the path found: A, A's fork, A, the fork again, B, END.
    let failed: u32 = lent.notes[..4].iter().map(|byte| byte.count_ones()).sum();
    assert_eq!(failed + 6, 12);
}

/// On 15 the buffers are as on 13, with the match that it stopped behind.
#[test]
fn lent_buffers_where_there_is_no_row_to_skip_to() {
    for skip in [Skip::ToFirst('A'), Skip::ToLast('B')] {
        let mut lent = Lent::new(6, 33);
        let [answer, matches, labels, steps] = lent.search(&w1().skip(skip).to_bytes());
        // The first A is the match's first row; the last B is its last row, from which W1 goes on.
        let done = skip == Skip::ToLast('B');
        assert_eq!((answer, matches, labels), (if done { 0 } else { 15 }, 1, 3));
        assert_eq!(lent.numbers, [1, 1, 3, 1, 2, 1, 115, -7, -7, -7]);
        assert_eq!(&lent.labels, b"AAB??");
        assert_eq!(lent.trail, [vec![0; 30], vec![7; 3]].concat());
        assert_eq!(
            (lent.notes[3] & 0xC0, &lent.notes[4..]),
            (0, &[0xAA; 2][..])
        );
        let failed: u32 = lent.notes[..4].iter().map(|byte| byte.count_ones()).sum();
        assert_eq!(u64::from(failed) + 6, steps);
        // A at row 0, and the second A at row 3: nothing behind the match is looked at.
        assert_eq!(failed, if done { 7 } else { 2 });
    }
}

#[test]
fn refusals_change_no_lent_buffer() {
    let query = w1().to_bytes();
    for (notes, trail, answer) in [(3, 30, 11), (4, 29, 12), (0, 0, 11), (4, 0, 12)] {
        let mut lent = Lent::new(notes, trail);
        assert_eq!(lent.search(&query), [answer, 0, 0, 0]);
        assert!(lent.notes.iter().all(|byte| *byte == 0xAA));
        assert!(lent.trail.iter().all(|number| *number == 7));
        assert_eq!((lent.numbers, &lent.labels), ([-7; 10], b"?????"));
    }
    assert_eq!(lent::room(&[], &X).answer, 2);
    assert_eq!(
        lent::search(&[], &[], &mut [], &mut [], &mut [], &mut []).answer,
        2
    );
}

/// Every query that differs from W1 in one byte, or ends early, is refused or gives a report in good order.
#[test]
fn damaged_queries() {
    let whole = w1().to_bytes();
    for end in 0..whole.len() {
        // The two measures at the end are records that may be missing.
        let accepted = end == whole.len() - 8 || end == whole.len() - 16;
        assert_eq!(
            Query::from_bytes(&whole[..end]).is_ok(),
            accepted,
            "cut at {end}"
        );
    }
    for at in 0..whole.len() {
        for byte in [
            0, 1, 2, 7, 9, 0x28, 0x2A, 0x3F, 0x41, 0x42, 0x5A, 0x5B, 0x7F, 0x80, 0xBF, 0xC0, 0xFF,
        ] {
            let mut bytes = whole.clone();
            bytes[at] = byte;
            let Ok(query) = Query::from_bytes(bytes) else {
                continue;
            };
            if let Ok(report) = query.search(Rows::new(&X, query.columns())) {
                assert_eq!(report.matches().count(), report.len());
                assert!(report
                    .matches()
                    .all(|found| found.measures().len() == query.measures()));
                assert!(report.matches().all(|found| found.rows().end <= X.len()));
            }
        }
    }
}

#[test]
fn queries_and_reports_go_between_threads() {
    fn moves<T: Send + Sync + 'static>(_: &T) {}
    let query = w1().build().unwrap();
    let report = query.search(Rows::new(&X, 1)).unwrap();
    moves(&query);
    moves(&report);
    std::thread::scope(|scope| {
        for _ in 0..4 {
            scope.spawn(|| assert_eq!(query.search(Rows::new(&X, 1)).unwrap(), report));
        }
    });
}
