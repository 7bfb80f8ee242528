//! The workloads: queries and rows from fixed seeds. Each is one query over one
//! or more partitions; one run of a workload searches all of them in turn.

use crate::random::Random;
use mireladle::{col, Column, Comparison, Condition, Measure, Query, QueryBuilder, Skip};

const MOST_ROWS: usize = 4096;

pub struct Workload {
    pub name: String,
    pub about: String,
    pub query: Query,
    pub partitions: Vec<Vec<i32>>,
    /// The query is prepared once, before anything is measured.
    pub prepared: bool,
}

impl Workload {
    pub fn new(
        name: &str,
        about: &str,
        query: QueryBuilder,
        partitions: Vec<Vec<i32>>,
    ) -> Workload {
        let query = query.build();
        Workload {
            name: name.to_string(),
            about: about.to_string(),
            query: query.unwrap_or_else(|refusal| panic!("{name}: {refusal}")),
            partitions,
            prepared: false,
        }
    }

    pub fn rows(&self) -> usize {
        let entries: usize = self.partitions.iter().map(Vec::len).sum();
        entries / usize::from(self.query.columns())
    }
}

/// What a user runs, then what is hard on the walk.
pub fn searches() -> Vec<Workload> {
    let mut searches = vec![
        rise_and_fall(),
        rise_and_fall_50(),
        valley(),
        offers(),
        nested(),
        empty_rounds(),
        optional(),
        all_places(),
        overlapping(),
        skip_to_last(),
        small_partitions(
            "partitions",
            "A+ B with two measures on 10,000 partitions of 20 rows",
        ),
        prepared(),
        all_letters(),
        first_unmet(),
        conditions(),
    ];
    searches.retain(|workload| !workload.prepared || cfg!(bench_c));
    searches
}

/// Rows that are fed in lots: attempts that end soon, and one that is open from the first row to the
/// last.
#[cfg(lots)]
pub fn in_lots() -> Vec<Workload> {
    let rising = (0..MOST_ROWS as i32).collect();
    vec![
        Workload {
            name: "lots".to_string(),
            ..rise_and_fall()
        },
        Workload::new(
            "open-lots",
            "the same on 4,096 rows that only rise: one attempt is open over all of them",
            rise_and_fall_query(),
            vec![rising],
        ),
        Workload::new(
            "back-lots",
            "(A A A B | A A A C | A | B)* D with no D: one attempt is open, and goes back over rows",
            pattern(1, "(A A A B | A A A C | A | B)* D")
                .define('A', [col(0).lt(60)])
                .define('B', [col(0).ge(40)])
                .define('C', [col(0).gt(80)])
                .define('D', [col(0).gt(1_000)]),
            vec![nested_rows(MOST_ROWS)],
        ),
    ]
}

/// The same pattern with the rows doubled, three times.
pub fn growth_in_rows() -> Vec<Workload> {
    [512, 1024, 2048, 4096]
        .map(|n| {
            let name = format!("n={n}");
            Workload::new(
                &name,
                "((A|B)+ C?)+ D, no D",
                nested_query(),
                vec![nested_rows(n)],
            )
        })
        .into()
}

/// The same rows with the places of the pattern doubled, four times: P is twice
/// the number of `A?` and 2.
pub fn growth_in_places() -> Vec<Workload> {
    [7, 15, 31, 63, 127]
        .map(|count| {
            let name = format!("P={}", 2 * count + 2);
            let about = format!("A? {count} times, then B, no B");
            Workload::new(&name, &about, optional_then_b(count), vec![vec![1; 1024]])
        })
        .into()
}

#[cfg_attr(not(depots), allow(dead_code))]
/// As many partitions as the depot-by-month table takes, each of 60 rows of depot, month and value.
pub fn depots() -> Workload {
    let mut random = Random::new(4);
    let query = pattern(3, "A+ B")
        .define('A', [col(2).gt(previous(2))])
        .define('B', [col(2).lt(previous(2))]);
    let partition = |_| {
        let mut rows = Vec::with_capacity(180);
        // Some have no depot, and some months are none.
        let (depot, month) = (random.below(66) as i32, random.below(14) as i32);
        for row in 0..60 {
            rows.extend([depot, month + row / 30, random.below(100) as i32]);
        }
        rows
    };
    let partitions = (0..65_535).map(partition).collect();
    let about = "A+ B on 65,535 partitions of 60 rows, counted by depot and month";
    Workload::new("depots", about, query, partitions)
}

/// The longest search to the next row that was found, with half of the rows that
/// there can be: 268 million steps.
pub fn longest() -> Workload {
    Workload::new(
        "longest",
        "(($|()){99}($|()){27}A)* to next row, A free, 2,048 rows: a match from each to the last",
        pattern(1, "(($|()){99}($|()){27}A)*").skip(Skip::ToNextRow),
        vec![vec![1; MOST_ROWS / 2]],
    )
}

fn pattern(columns: u8, text: &str) -> QueryBuilder {
    Query::builder(columns).pattern(text)
}

/// The column at the row before.
fn previous(column: u8) -> Column {
    col(column).prev(1)
}

pub fn rise_and_fall_query() -> QueryBuilder {
    pattern(1, "A+ B")
        .define('A', [col(0).gt(previous(0))])
        .define('B', [col(0).lt(previous(0))])
}

/// Up or down by 1 to 9 from row to row, up with a chance of so many percent.
fn random_walk(seed: u64, n: usize, up: u64) -> Vec<i32> {
    let mut random = Random::new(seed);
    let mut level = 1_000;
    (0..n)
        .map(|_| {
            let change = 1 + random.below(9) as i32;
            level += if random.chance(up) { change } else { -change };
            level
        })
        .collect()
}

fn rise_and_fall() -> Workload {
    Workload::new(
        "rise-and-fall",
        "A+ B, above and below PREV, 4,096 rows of a random walk",
        rise_and_fall_query(),
        vec![random_walk(1, MOST_ROWS, 50)],
    )
}

/// One walk again and again is learnt by the branch predictor; fifty are not.
fn rise_and_fall_50() -> Workload {
    Workload::new(
        "50-walks",
        "the same on 50 different walks",
        rise_and_fall_query(),
        (0..50)
            .map(|seed| random_walk(100 + seed, MOST_ROWS, 50))
            .collect(),
    )
}

fn valley() -> Workload {
    let query = pattern(1, "S D+ U+")
        .define('D', [col(0).lt(previous(0))])
        .define('U', [col(0).gt(previous(0))])
        .measure(Measure::first(0).of('S'))
        .measure(Measure::last(0).of('D'))
        .measure(Measure::last(0).of('U'));
    let walks = (0..20)
        .map(|seed| random_walk(200 + seed, MOST_ROWS, 50))
        .collect();
    Workload::new(
        "valley",
        "S D+ U+, S free, three measures, 20 walks of 4,096 rows",
        query,
        walks,
    )
}

const OFFERED: i32 = 1;
const REFUSED: i32 = 2;
const ACCEPTED: i32 = 3;

/// Event, base, patch: an offer, refusals and an acceptance of the same patch
/// on the same base.
fn offers() -> Workload {
    let same = |event: i32| {
        [
            col(0).eq(event),
            col(1).eq(previous(1)),
            col(2).eq(previous(2)),
        ]
    };
    let query = pattern(3, "O R* C")
        .define('O', [col(0).eq(OFFERED)])
        .define('R', same(REFUSED))
        .define('C', same(ACCEPTED))
        .measure(Measure::count().of('R'))
        .measure(Measure::last(2));
    Workload::new(
        "offers",
        "O R* C on event, base, patch with PREV equalities, 20 logs of 4,096 rows",
        query,
        (0..20)
            .map(|seed| offer_log(300 + seed, MOST_ROWS))
            .collect(),
    )
}

/// Offers with 0 to 4 refusals, most accepted; now and then a row of another
/// base or patch comes in between.
fn offer_log(seed: u64, n: usize) -> Vec<i32> {
    let mut random = Random::new(seed);
    let mut rows = Vec::new();
    while rows.len() < 3 * n {
        let (base, patch) = (random.below(20) as i32, random.below(50) as i32);
        rows.extend([OFFERED, base, patch]);
        for _ in 0..random.below(5) {
            let strange = i32::from(random.chance(5));
            rows.extend([REFUSED, base + strange, patch]);
        }
        if random.chance(80) {
            let strange = i32::from(random.chance(5));
            rows.extend([ACCEPTED, base, patch + strange]);
        }
    }
    rows.truncate(3 * n);
    rows
}

fn nested() -> Workload {
    Workload::new(
        "nested",
        "((A|B)+ C?)+ D with no D, 4,096 rows",
        nested_query(),
        vec![nested_rows(MOST_ROWS)],
    )
}

/// A, B and C overlap, so that there are many ways to fail.
fn nested_query() -> QueryBuilder {
    pattern(1, "((A|B)+ C?)+ D")
        .define('A', [col(0).lt(60)])
        .define('B', [col(0).ge(40)])
        .define('C', [col(0).gt(80)])
        .define('D', [col(0).gt(1_000)])
}

fn nested_rows(n: usize) -> Vec<i32> {
    let mut random = Random::new(400);
    (0..n).map(|_| random.below(100) as i32).collect()
}

/// Repetitions whose rounds may take no row, two of them nested: F is 4. A and B
/// overlap, and C never holds, so that every attempt fails in all its ways.
fn empty_rounds() -> Workload {
    let query = pattern(1, "((A*)* B?)* C")
        .define('A', [col(0).lt(60)])
        .define('B', [col(0).ge(40)])
        .define('C', [col(0).gt(1_000)]);
    Workload::new(
        "empty-rounds",
        "((A*)* B?)* C with no C, F = 4, 4,096 rows",
        query,
        vec![nested_rows(MOST_ROWS)],
    )
}

fn optional() -> Workload {
    let query = pattern(1, "(A?){30} A{30}").define('A', [col(0).eq(1)]);
    Workload::new(
        "optional",
        "(A?){30} A{30} on 30 rows that all are A",
        query,
        vec![vec![1; 30]],
    )
}

/// `A?` so many times, then B; A holds at 1 and B never.
fn optional_then_b(count: usize) -> QueryBuilder {
    let text = match count {
        0..=99 => format!("(A?){{{count}}} B"),
        _ => format!("(A?){{99}} (A?){{{}}} B", count - 99),
    };
    pattern(1, &text)
        .define('A', [col(0).eq(1)])
        .define('B', [col(0).eq(2)])
}

fn all_places() -> Workload {
    Workload::new(
        "256-places",
        "(A?){99} (A?){28} B with no B, P = 256, 4,096 rows: every attempt fails",
        optional_then_b(127),
        vec![vec![1; MOST_ROWS]],
    )
}

fn overlapping() -> Workload {
    let query = rise_and_fall_query()
        .skip(Skip::ToNextRow)
        .measure(Measure::count().of('A'))
        .measure(Measure::sum(0).of('A'));
    Workload::new(
        "overlapping",
        "A+ B to next row, long rises, two measures, 4,096 rows",
        query,
        vec![random_walk(500, MOST_ROWS, 97)],
    )
}

/// Each match of a rise takes all of it that is left, and the next one begins at its
/// fourth row.
fn skip_to_last() -> Workload {
    let query = pattern(1, "A{4} B+ C")
        .define('A', [col(0).gt(previous(0))])
        .define('B', [col(0).gt(previous(0))])
        .define('C', [col(0).lt(previous(0))])
        .skip(Skip::ToLast('A'))
        .measure(Measure::count().of('B'))
        .measure(Measure::sum(0).of('B'));
    Workload::new(
        "skip-to-last",
        "A{4} B+ C to last A, long rises, two measures, 4,096 rows",
        query,
        vec![random_walk(700, MOST_ROWS, 97)],
    )
}

fn small_partitions(name: &str, about: &str) -> Workload {
    let query = rise_and_fall_query()
        .measure(Measure::count().of('A'))
        .measure(Measure::last(0).of('B'));
    Workload::new(
        name,
        about,
        query,
        (0..10_000)
            .map(|seed| random_walk(1_000 + seed, 20, 50))
            .collect(),
    )
}

fn prepared() -> Workload {
    let about =
        "partitions with the query prepared once, before the rounds: only the runs are timed";
    Workload {
        prepared: true,
        ..small_partitions("prepared", about)
    }
}

/// Every letter, each with eight comparisons over eight columns. The first
/// column says which letter holds, and that test stands at a different place in
/// each letter; the others are met by most rows.
fn all_letters() -> Workload {
    let branches: Vec<String> = ('A'..='Z').map(String::from).collect();
    let mut query = pattern(8, &format!("({})+", branches.join("|")));
    for (index, letter) in (0..).zip('A'..='Z') {
        query = query.define(letter, eight_comparisons(index));
    }
    Workload::new(
        "all-letters",
        "(A|B|..|Z)+, 26 letters of 8 comparisons, 8 columns, 4,096 rows",
        query.measure(Measure::min(1)).measure(Measure::max(1)),
        vec![lettered_rows(MOST_ROWS)],
    )
}

fn eight_comparisons(index: i32) -> [Comparison; 8] {
    let mut comparisons = [
        col(1).ge(5),
        col(2).ne(50),
        col(3).le(col(4) + 90),
        col(4).le(col(3) + 90),
        col(5).lt(95),
        col(6).ne(col(7)),
        col(7).gt(1),
        col(1).le(97),
    ];
    comparisons[index as usize % 8] = col(0).eq(index);
    comparisons
}

/// Every letter with eight comparisons again, of which the first is met by the rows of one letter
/// alone and the others by nearly all: a test that does not stop there costs eight times as much.
fn first_unmet() -> Workload {
    let branches: Vec<String> = ('A'..='Z').map(String::from).collect();
    let mut query = pattern(8, &format!("({})+", branches.join("|")));
    for (index, letter) in (0..).zip('A'..='Z') {
        let mut comparisons = eight_comparisons(0);
        comparisons[0] = col(0).eq(index);
        query = query.define(letter, comparisons);
    }
    Workload::new(
        "first-unmet",
        "(A|B|..|Z)+, 26 letters of 8 comparisons, the first unmet at 25 of 26, 4,096 rows",
        query.measure(Measure::min(1)).measure(Measure::max(1)),
        vec![lettered_rows(MOST_ROWS)],
    )
}

/// Letters whose conditions have 8 comparisons joined by AND, OR and NOT, most of which have to be
/// judged to know. D and E hold at few rows.
fn conditions() -> Workload {
    let from_row_before = |column: u8| col(column).gt(previous(column));
    let all_rise = || Condition::all([1, 2, 3, 4].map(from_row_before));
    let query = pattern(8, "(A | B)+ C? (D | E)")
        .define(
            'A',
            [
                (col(0).lt(13) | col(1).lt(20)) & (col(2).gt(30) | col(3).gt(50))
                    | (col(4).ne(previous(4)) & !(col(5).lt(60) | col(6).lt(60) & col(7).ne(7))),
            ],
        )
        .define(
            'B',
            [!(col(0).lt(13) & col(1).lt(80) & col(2).lt(80)) | (all_rise() | col(5).eq(1))],
        )
        .define(
            'C',
            [!Condition::any((0..8).map(|column| col(column).gt(90)))],
        )
        .define(
            'D',
            [Condition::any((0..8).map(|column| col(column).eq(99)))],
        )
        .define(
            'E',
            [(all_rise() | col(5).gt(previous(5)))
                & !(col(6).lt(90) | col(7).lt(80) | col(1).lt(50))],
        );
    Workload::new(
        "conditions",
        "(A | B)+ C? (D | E), 5 letters of 8 comparisons with OR and NOT, 8 columns, 4,096 rows",
        query.measure(Measure::count().of('A')),
        vec![lettered_rows(MOST_ROWS)],
    )
}

fn lettered_rows(n: usize) -> Vec<i32> {
    let mut random = Random::new(600);
    let mut rows = Vec::new();
    for _ in 0..n {
        rows.push(random.below(27) as i32);
        rows.extend((1..8).map(|_| random.below(100) as i32));
    }
    rows
}
