//! Rows in lots through the Rust crate: every cutting of small tables, and random cuttings of larger
//! ones, against one search of all rows; when a match is handed out; what stays behind a stop; what
//! is refused, and that a refusal changes nothing.

#![allow(clippy::restriction)]

use mireladle::lent::{self, FeedState, Outcome};
use mireladle::{
    col, text, Ahead, Ending, Error, Feed, Limits, Measure, Query, Report, Rows, Skip,
};

/// A match as a tuple: number, first row, labels, measures.
type Found = (usize, usize, String, Vec<Option<i64>>);

fn found(report: &Report) -> Vec<Found> {
    let one = |it: mireladle::Match<'_>| {
        let measures = it.measures().collect();
        (it.number(), it.first_row(), it.labels().into(), measures)
    };
    report.matches().map(one).collect()
}

/// What a feed comes to in the end: all matches, the steps, the ending.
type Whole = (Vec<Found>, u64, Ending);

fn whole(report: &Report) -> Whole {
    (found(report), report.steps(), report.ending())
}

/// Feeds the rows in lots that end at these rows, the last of which is the number of rows.
fn fed(query: &Query, rows: &[i32], ends: &[usize], limits: Limits) -> Whole {
    let columns = usize::from(query.columns());
    let mut feed = Feed::new(query, rows.len() / columns, limits).unwrap();
    let (mut all, mut from) = (Vec::new(), 0);
    let mut stopped = None;
    for end in ends {
        let lot = Rows::new(&rows[from * columns..end * columns], query.columns());
        let report = feed.push(lot).unwrap();
        let waits = report.ending() == Ending::Waiting;
        assert!(stopped.is_none_or(|it| it == report.ending() && report.is_empty()));
        stopped = (!waits).then_some(report.ending());
        assert!(stopped != Some(Ending::Done));
        all.extend(found(&report));
        from = *end;
    }
    let report = feed.finish().unwrap();
    all.extend(found(&report));
    (all, report.steps(), report.ending())
}

fn queries() -> Vec<Query> {
    let patterns = [
        "A+ B",
        "A* B?",
        "A*?",
        "(A|B)* A",
        "^ A* B",
        "(A*)*",
        "(A??)*",
        "A{2,3} | B",
        "()",
        "A B* A",
    ];
    let skips = [
        Skip::PastLastRow,
        Skip::ToNextRow,
        Skip::ToLast('B'),
        Skip::ToFirst('A'),
    ];
    let mut queries = Vec::new();
    for pattern in patterns {
        for skip in skips {
            let query = Query::builder(1)
                .pattern(pattern)
                .define('A', [col(0).ge(col(0).prev(1)) | col(0).eq(0)])
                .define('B', [col(0).ne(2)])
                .skip(skip)
                .measure(Measure::sum(0))
                .measure(Measure::count().of('A'))
                .build();
            // Some have no letter to skip to, or to count.
            queries.extend(query);
        }
    }
    queries
}

/// Every way to cut n rows into lots, some of them behind an empty one.
fn cuttings(n: usize) -> Vec<Vec<usize>> {
    let cut = |bits: u32| {
        let mut ends: Vec<usize> = (0..n).filter(|at| bits >> at & 1 == 1).collect();
        ends.push(n);
        ends
    };
    (0..1 << n).map(cut).collect()
}

#[test]
fn every_cutting_gives_the_one_search() {
    let queries = queries();
    assert!(queries.len() > 25);
    for query in &queries {
        for rows in [
            [0, 1, 2, 1, 0],
            [2, 2, 1, 3, 0],
            [1, 1, 1, 1, 1],
            [3, 2, 1, 0, 2],
        ] {
            let one = query.search(Rows::new(&rows, 1)).unwrap();
            for ends in cuttings(rows.len()) {
                let lots = fed(query, &rows, &ends, Limits::default());
                assert_eq!(lots, whole(&one), "{query:?} {rows:?} {ends:?}");
            }
        }
    }
}

/// Small numbers from a generator that is the same everywhere.
struct Random(u64);

impl Random {
    fn below(&mut self, count: u64) -> u64 {
        self.0 = self
            .0
            .wrapping_mul(6364136223846793005)
            .wrapping_add(1442695040888963407);
        (self.0 >> 33) % count
    }
}

#[test]
fn random_cuttings_within_limits_give_the_one_search_within_them() {
    let mut random = Random(11);
    let queries = queries();
    let mut endings = std::collections::HashMap::new();
    for _ in 0..3000 {
        let query = &queries[random.below(queries.len() as u64) as usize];
        let n = random.below(40) as usize;
        let rows: Vec<i32> = (0..n).map(|_| random.below(4) as i32).collect();
        let mut limits = Limits::default();
        match random.below(4) {
            0 => limits = limits.steps(random.below(120)),
            1 => limits = limits.matches(random.below(8) as usize),
            2 => limits = limits.labels(random.below(20) as usize),
            _ => {}
        }
        let mut ends: Vec<usize> = (0..random.below(6))
            .map(|_| random.below(n as u64 + 1) as usize)
            .collect();
        ends.sort_unstable();
        ends.push(n);
        let one = query.search_within(Rows::new(&rows, 1), limits).unwrap();
        *endings.entry(one.ending()).or_insert(0) += 1;
        let lots = fed(query, &rows, &ends, limits);
        assert_eq!(lots, whole(&one), "{query:?} {rows:?} {ends:?} {limits:?}");
    }
    for ending in [
        Ending::Done,
        Ending::Stopped,
        Ending::NoSkipRow,
        Ending::OutOfSteps,
    ] {
        assert!(endings[&ending] > 20, "{endings:?}");
    }
}

fn rising() -> Query {
    Query::builder(1)
        .pattern("A+ B")
        .define('A', [col(0).gt(col(0).prev(1))])
        .define('B', [col(0).lt(col(0).prev(1))])
        .build()
        .unwrap()
}

#[test]
fn a_match_is_handed_out_with_the_row_that_completes_it() {
    let mut feed = Feed::new(&rising(), 9, Limits::default()).unwrap();
    let mut lots = Vec::new();
    for price in [100, 110, 120, 115, 130, 90, 95] {
        let report = feed.push(Rows::new(&[price], 1)).unwrap();
        assert_eq!(report.ending(), Ending::Waiting);
        lots.push(
            report
                .matches()
                .map(|it| (it.number(), it.rows()))
                .collect::<Vec<_>>(),
        );
    }
    let none = Vec::new;
    assert_eq!(
        lots,
        [
            none(),
            none(),
            none(),
            vec![(1, 1..4)],
            none(),
            vec![(2, 4..6)],
            none()
        ]
    );
    assert_eq!((feed.present(), feed.largest()), (7, 9));
    assert_eq!(feed.rows().entries(), [100, 110, 120, 115, 130, 90, 95]);
    assert_eq!(feed.query(), &rising());
    assert_eq!(feed.finish().unwrap().ending(), Ending::Done);
}

#[test]
fn what_waits_for_a_row_is_handed_out_at_the_end() {
    let query = Query::builder(1).pattern("A+").build().unwrap();
    let mut feed = Feed::new(&query, 3, Limits::default()).unwrap();
    assert!(feed.push(Rows::new(&[5, 6], 1)).unwrap().is_empty());
    // All rows that may come are there, but the end is not declared.
    let report = feed.push(Rows::new(&[7], 1)).unwrap();
    assert_eq!((report.len(), report.ending()), (0, Ending::Waiting));
    let report = feed.finish().unwrap();
    assert_eq!(
        report.matches().map(|it| it.rows()).collect::<Vec<_>>(),
        [0..3]
    );
}

#[test]
fn after_the_end_every_call_is_out_of_order() {
    let mut feed = Feed::new(&rising(), 5, Limits::default()).unwrap();
    feed.push(Rows::new(&[1, 2], 1)).unwrap();
    feed.finish().unwrap();
    assert_eq!(feed.push(Rows::new(&[1], 1)), Err(Error::OutOfOrder));
    assert_eq!(feed.push(Rows::new(&[], 1)), Err(Error::OutOfOrder));
    assert_eq!(feed.finish(), Err(Error::OutOfOrder));
    assert_eq!((feed.present(), feed.rows().entries()), (2, &[1, 2][..]));
    assert_eq!(Error::OutOfOrder.number(), Some(21));
}

#[test]
fn rows_that_are_refused_change_nothing() {
    let query = Query::builder(2).pattern("A A").build().unwrap();
    let mut feed = Feed::new(&query, 3, Limits::default()).unwrap();
    feed.push(Rows::new(&[1, 2], 2)).unwrap();
    let too_many = feed.push(Rows::new(&[0; 6], 2)).unwrap_err();
    assert_eq!(too_many, Error::TooManyRows { rows: 4, most: 3 });
    assert_eq!(
        too_many.to_string(),
        "there are too many rows: 4, and at most 3 are possible"
    );
    assert_eq!(feed.push(Rows::new(&[3], 2)), Err(Error::WrongRows));
    let columns = Error::ColumnCount { query: 2, rows: 1 };
    assert_eq!(feed.push(Rows::new(&[3], 1)), Err(columns));
    assert_eq!((feed.present(), feed.rows().entries()), (1, &[1, 2][..]));
    let report = feed.push(Rows::new(&[3, 4, 5, 6], 2)).unwrap();
    assert_eq!(
        report.matches().map(|it| it.rows()).collect::<Vec<_>>(),
        [0..2]
    );
    assert_eq!(feed.finish().unwrap().ending(), Ending::Done);
}

#[test]
fn the_largest_number_is_4096() {
    let query = Query::builder(1).pattern("A").build().unwrap();
    let refused = Feed::new(&query, 4097, Limits::default()).unwrap_err();
    assert_eq!(
        refused,
        Error::TooManyRows {
            rows: 4097,
            most: 4096
        }
    );
    assert!(Feed::new(&query, usize::MAX, Limits::default()).is_err());
    let mut feed = Feed::new(&query, 4096, Limits::default()).unwrap();
    let report = feed.push(Rows::new(&[0; 4096], 1)).unwrap();
    assert_eq!((report.len(), report.ending()), (4096, Ending::Waiting));
    let further = feed.push(Rows::new(&[0], 1));
    assert_eq!(
        further,
        Err(Error::TooManyRows {
            rows: 4097,
            most: 4096
        })
    );
    assert_eq!(whole(&feed.finish().unwrap()), (vec![], 8192, Ending::Done));
    // No row at all.
    let mut none = Feed::new(&query, 0, Limits::default()).unwrap();
    assert_eq!(
        none.push(Rows::new(&[], 1)).unwrap().ending(),
        Ending::Waiting
    );
    assert_eq!(none.finish().unwrap().ending(), Ending::Done);
}

#[test]
fn behind_a_stop_no_row_is_taken() {
    let query = Query::builder(1).pattern("A").build().unwrap();
    let mut feed = Feed::new(&query, 4, Limits::default().steps(3)).unwrap();
    let report = feed.push(Rows::new(&[7, 8, 9], 1)).unwrap();
    assert_eq!(
        (report.len(), report.steps(), report.ending()),
        (1, 3, Ending::OutOfSteps)
    );
    // However many come.
    let report = feed.push(Rows::new(&[0; 9], 1)).unwrap();
    assert_eq!(
        (report.len(), report.steps(), report.ending()),
        (0, 3, Ending::OutOfSteps)
    );
    assert_eq!((feed.present(), feed.rows().len()), (3, 3));
    for _ in 0..2 {
        assert_eq!(feed.finish().unwrap().ending(), Ending::OutOfSteps);
    }
}

/// What looks ahead in a query of this pattern, whose A has this DEFINE and whose Z looks 9 rows on.
fn ahead(pattern: &str, condition: impl Into<mireladle::Condition>) -> Result<(), Option<Ahead>> {
    let query = Query::builder(1)
        .pattern(pattern)
        .define('Z', [col(0).next(9).gt(0)])
        .define('A', [condition])
        .build()
        .unwrap();
    match Feed::new(&query, 5, Limits::default()) {
        Ok(_) => Ok(()),
        Err(Error::LooksAhead { by }) => Err(by),
        Err(other) => panic!("{other}"),
    }
}

#[test]
fn a_query_that_looks_ahead_is_refused_with_what_does() {
    let now = || col(0).gt(col(0).prev(64));
    let letter = |letter, rows| Err(Some(Ahead::Letter { letter, rows }));
    assert_eq!(ahead("A B", now()), Ok(()));
    assert_eq!(ahead("A B $", now()), Err(Some(Ahead::End { offset: 4 })));
    assert_eq!(
        ahead("A (B|$)??", now()),
        Err(Some(Ahead::End { offset: 5 }))
    );
    assert_eq!(ahead("A", col(0).next(1).gt(0)), letter('A', 1));
    assert_eq!(ahead("A", col(0).gt(col(0).next(64))), letter('A', 64));
    assert_eq!(
        ahead("A", now() & col(0).next(2).gt(col(0).next(3))),
        letter('A', 3)
    );
    assert_eq!(
        ahead("A", now() | !col(0).next(7).eq(1) & now()),
        letter('A', 7)
    );
    assert_eq!(
        ahead("A", now() & !now() | col(0).gt(col(0).next(8))),
        letter('A', 8)
    );
    // A letter that the pattern does not have is not asked for.
    assert_eq!(ahead("B", col(0).next(1).gt(0)), Ok(()));
    assert_eq!(ahead("B Z", now()), letter('Z', 9));
}

#[test]
fn the_text_of_a_query_that_looks_ahead_has_the_place() {
    let text = text::read("pattern: A B\n# ..\nA: c0 > 1\nB: c0 > NEXT(c0, 2)").unwrap();
    let query = text.build().unwrap();
    let error = Feed::new(&query, 5, Limits::default()).unwrap_err();
    assert!(error
        .to_string()
        .ends_with(" could change what was found: B reads 2 rows on"));
    let part = text.part(error).unwrap();
    assert_eq!(
        (part.line, part.column, &*part.text),
        (4, 1, "B: c0 > NEXT(c0, 2)")
    );
    let text = text::read("PATTERN (A $)\nDEFINE A AS c0 > 1").unwrap();
    let error = Feed::new(&text.build().unwrap(), 5, Limits::default()).unwrap_err();
    assert_eq!(text.part(error).unwrap().line, 1);
}

/// The four buffers of calls on lent ones.
#[derive(Clone, PartialEq, Eq, Debug)]
struct Lent(Vec<u8>, Vec<u32>, Vec<i64>, Vec<u8>);

impl Lent {
    fn new(pairs: usize, n: usize) -> Lent {
        Lent(
            vec![0xAA; pairs.div_ceil(8)],
            vec![9; pairs],
            vec![-1; 3 * n],
            vec![b'.'; n],
        )
    }

    fn more(&mut self, feed: &mut FeedState, query: &[u8], rows: &[i32], present: u64) -> Outcome {
        let Lent(notes, trail, numbers, labels) = self;
        lent::more(feed, query, rows, present, notes, trail, numbers, labels)
    }

    fn last(&mut self, feed: &mut FeedState, query: &[u8], rows: &[i32], present: u64) -> Outcome {
        let Lent(notes, trail, numbers, labels) = self;
        lent::last(feed, query, rows, present, notes, trail, numbers, labels)
    }
}

#[test]
fn lent_calls_refuse_by_rank_and_change_nothing() {
    let query = rising();
    let (query, rows) = (query.as_bytes(), [100, 110, 120, 115, 130]);
    let (mut feed, mut lent) = (lent::begin(5, u64::MAX), Lent::new(30, 5));
    assert_eq!(
        (feed.largest, feed.allowance, feed.answer),
        (5, u64::MAX, 23)
    );
    assert_eq!(lent.more(&mut feed, query, &rows, 3).answer, 23);
    let kept = (feed, lent.clone());
    let ahead = Query::builder(1).pattern("A$").build().unwrap();
    // The query, the rows, how many are present; what is refused, and the refusal.
    let calls: [(&[u8], &[i32], u64, u64); 7] = [
        (&query[..9], &rows, 4, 1),
        (ahead.as_bytes(), &rows, 6, 17),
        (query, &rows, 6, 10),
        (query, &rows[..3], 4, 10),
        (query, &rows, 2, 21),
        (query, &rows, 0, 21),
        (query, &rows[..1], 2, 10),
    ];
    for (query, rows, present, refusal) in calls {
        for last in [false, true] {
            let told = match last {
                false => lent.more(&mut feed, query, rows, present),
                true => lent.last(&mut feed, query, rows, present),
            };
            let counts = (told.matches, told.labels, told.steps, told.offset);
            assert_eq!((told.answer, counts), (refusal, (0, 0, 0, 0)));
            assert_eq!((feed, lent.clone()), kept);
        }
    }
    let short = &mut Lent::new(29, 5);
    assert_eq!(short.more(&mut feed, query, &rows, 2).answer, 12);
    short.0.truncate(3);
    assert_eq!(short.more(&mut feed, query, &rows, 2).answer, 11);
    let told = lent.last(&mut feed, query, &rows, 5);
    assert_eq!((told.answer, told.matches, told.steps), (0, 1, 12));
    assert_eq!((&lent.2[..3], &lent.3[..]), (&[1, 1, 3][..], &b"AAB.."[..]));
    assert_eq!(lent.1, [0; 30]);
    let ended = (feed, lent.clone());
    assert_eq!(lent.more(&mut feed, query, &rows, 5).answer, 21);
    assert_eq!(lent.last(&mut feed, query, &rows, 9).answer, 21);
    assert_eq!((feed, lent), ended);
}

#[test]
fn what_lies_behind_the_present_rows_is_not_read() {
    let query = rising();
    let query = query.as_bytes();
    let rows = [100, 110, 120, 115, 130];
    let (mut feed, mut lent) = (lent::begin(5, u64::MAX), Lent::new(30, 5));
    let mut random = Random(3);
    let mut last = None;
    for present in 0..=5 {
        let behind = (present..5 + 3).map(|_| random.below(400) as i32);
        let slice: Vec<i32> = rows[..present].iter().copied().chain(behind).collect();
        last = Some(lent.more(&mut feed, query, &slice, present as u64));
    }
    assert_eq!(last.map(|it| (it.answer, it.matches)), Some((23, 1)));
    let told = lent.last(&mut feed, query, &rows, 5);
    assert_eq!((told.answer, told.steps), (0, 12));
}
