//! AVG, function 7: the sum divided by the count, cut toward zero. All small rows, the rows
//! of one letter, no rows, the smallest and the largest entries over all 4,096 rows, random rows
//! with every skip and with COUNT and SUM beside it, the numbers of a report, and what is refused.

#![allow(clippy::restriction)]

use mireladle::{col, lent, Ending, Error, Measure, Query, QueryBuilder, Report, Rows, Skip};

const MOST_ROWS: usize = 4096;
const SMALLEST: i64 = i32::MIN as i64;
const LARGEST: i64 = i32::MAX as i64;

fn search(query: &QueryBuilder, entries: &[i32]) -> Report {
    let query = query.build().unwrap();
    let report = query.search(Rows::new(entries, query.columns())).unwrap();
    assert_eq!(report.ending(), Ending::Done);
    report
}

/// The measures of each match.
fn measured(query: &QueryBuilder, entries: &[i32]) -> Vec<Vec<Option<i64>>> {
    let report = search(query, entries);
    report.matches().map(|it| it.measures().collect()).collect()
}

/// The average over all rows, of which there is one or more, as one match.
fn average(entries: &[i32]) -> i64 {
    let query = Query::builder(1).pattern("A+").measure(Measure::avg(0));
    let measured = measured(&query, entries);
    let [[Some(average)]] = measured.iter().map(Vec::as_slice).collect::<Vec<_>>()[..] else {
        panic!("{entries:?}: {measured:?}");
    };
    *average
}

/// The same by a division in Rust, which cuts toward zero.
fn divided(entries: &[i32]) -> i64 {
    let sum: i64 = entries.iter().copied().map(i64::from).sum();
    sum / i64::try_from(entries.len()).unwrap()
}

#[test]
fn cut_toward_zero() {
    for (entries, expected) in [
        (&[3, 4][..], 3),
        (&[-3, -4], -3),
        // Less than one, of either sign, is 0.
        (&[1, -2], 0),
        (&[-1, 2], 0),
        (&[0, -1], 0),
        (&[0, 1], 0),
        (&[-1, -1, 0], 0),
        (&[1, 1, 0], 0),
        // Signs that differ, and which of them the sum has.
        (&[-7, 2], -2),
        (&[7, -2], 2),
        (&[5, -10, 0], -1),
        (&[-5, 10, 0], 1),
        // Two thirds are cut off as one third is.
        (&[5, 5, 6], 5),
        (&[5, 6, 6], 5),
        (&[-5, -5, -6], -5),
        (&[-5, -6, -6], -5),
        // Nothing is left to cut.
        (&[6, -10], -2),
        (&[-1, -1, -1], -1),
        (&[4, -4], 0),
        (&[7], 7),
        (&[-7], -7),
        (&[0], 0),
    ] {
        assert_eq!(average(entries), expected, "{entries:?}");
        assert_eq!(divided(entries), expected, "{entries:?}");
    }
}

/// Up to four entries, each from -3 to 3.
#[test]
fn all_small_rows() {
    let mut rows = vec![Vec::new()];
    let (mut tried, mut cut) = (0, 0);
    for length in 1..=4 {
        let longer = rows.iter().flat_map(|front: &Vec<i32>| {
            (-3..=3).map(|entry| {
                let mut rows = front.clone();
                rows.push(entry);
                rows
            })
        });
        rows = longer.collect();
        for entries in &rows {
            let average = average(entries);
            assert_eq!(average, divided(entries), "{entries:?}");
            let mirrored: Vec<i32> = entries.iter().map(|entry| -entry).collect();
            assert_eq!(average, -divided(&mirrored), "{entries:?}");
            let sum: i32 = entries.iter().sum();
            tried += 1;
            cut += usize::from(sum % length != 0);
        }
    }
    assert!(tried == 2_800 && cut > 1_500, "{tried} {cut}");
}

/// Of two columns the first says which letter holds: 1 is A, 2 is B, 3 is C.
fn by_first_column(pattern: &str) -> QueryBuilder {
    let query = Query::builder(2).pattern(pattern);
    ('A'..='C').zip(1..).fold(query, |query, (letter, is)| {
        query.define(letter, [col(0).eq(is)])
    })
}

#[test]
fn over_a_letter_or_all_rows_of_the_match() {
    let query = by_first_column("A B* C?")
        .measure(Measure::avg(1))
        .measure(Measure::avg(1).of('A'))
        .measure(Measure::avg(1).of('B'))
        .measure(Measure::avg(1).of('C'))
        .measure(Measure::avg(0))
        .measure(Measure::avg(0).of('B'))
        .measure(Measure::sum(1).of('B'))
        .measure(Measure::count().of('B'));
    // Three matches: ABBC, A alone, and AC. The rows of another match count in none of them.
    let entries = [1, -10, 2, -3, 2, -4, 3, 100, 1, 7, 1, -1, 3, 0];
    let all = [20, -10, -3, 100, 2, 2, -7, 2].map(Some);
    let alone = [Some(7), Some(7), None, None, Some(1), None, None, Some(0)];
    let without_b = [
        Some(0),
        Some(-1),
        None,
        Some(0),
        Some(2),
        None,
        None,
        Some(0),
    ];
    assert_eq!(measured(&query, &entries), [all, alone, without_b]);
}

#[test]
fn over_no_rows_it_is_null() {
    let measures = |query: QueryBuilder| {
        query
            .measure(Measure::avg(1))
            .measure(Measure::avg(1).of('A'))
            .measure(Measure::count().of('A'))
    };
    let null = vec![None, None, Some(0)];
    // Matches that take no row, among rows whose average is not 0.
    let empty = measures(by_first_column("A*?"));
    assert_eq!(measured(&empty, &[1, 8, 1, 9]), vec![null.clone(); 2]);
    // An average of 0 is not null.
    let some = measures(by_first_column("A*"));
    let rows = [1, 8, 1, -8, 2, 5];
    let zero = vec![Some(0), Some(0), Some(2)];
    assert_eq!(measured(&some, &rows), [zero, null]);
    assert!(measured(&some, &[]).is_empty());
}

#[test]
fn the_smallest_and_the_largest_entries_over_all_rows() {
    let (min, max) = (i32::MIN, i32::MAX);
    let half = MOST_ROWS / 2;
    let of_two = |first: i32, count: usize, rest: i32| {
        let entries = [vec![first; count], vec![rest; MOST_ROWS - count]].concat();
        let found = average(&entries);
        assert_eq!(found, divided(&entries), "{first} {count} {rest}");
        found
    };
    assert_eq!(of_two(min, MOST_ROWS, 0), SMALLEST);
    assert_eq!(of_two(max, MOST_ROWS, 0), LARGEST);
    // Minus a half.
    assert_eq!(of_two(min, half, max), 0);
    assert_eq!(of_two(max, half, min), 0);
    // One row less than half of them, or more: the sum passes 32 bits.
    assert_eq!(of_two(min, half - 1, max), (1 << 20) - 1);
    assert_eq!(of_two(min, half + 1, max), -(1 << 20));
    // One row that differs: the fraction is just below a whole number, or just above.
    assert_eq!(of_two(min, 1, max), LARGEST - (1 << 20));
    assert_eq!(of_two(max, 1, min), SMALLEST + (1 << 20));
    assert_eq!(of_two(min + 1, 1, min), SMALLEST + 1);
    assert_eq!(of_two(max - 1, 1, max), LARGEST - 1);
    for one in [-1, 0, 1] {
        assert_eq!(of_two(one, 1, 0), 0);
        assert_eq!(of_two(min, 1, one), i64::from(one.max(0)) - (1 << 19));
    }
    let signs = Query::builder(1)
        .pattern("(A | B)*")
        .define('A', [col(0).lt(0)])
        .measure(Measure::avg(0).of('A'))
        .measure(Measure::avg(0).of('B'))
        .measure(Measure::sum(0).of('A'))
        .measure(Measure::avg(0));
    let entries = [min, max].repeat(half);
    let sum = SMALLEST * i64::try_from(half).unwrap();
    let expected = [SMALLEST, LARGEST, sum, 0].map(Some);
    assert_eq!(measured(&signs, &entries), [expected]);
}

/// As many measures, columns and rows as there may be.
#[test]
fn eight_averages_of_eight_columns() {
    let of = |row: i32| {
        let most = i32::try_from(MOST_ROWS).unwrap();
        let around_zero = row - most / 2;
        let sign = if row % 2 == 0 { i32::MIN } else { i32::MAX };
        [
            row,
            -row,
            around_zero,
            sign,
            i32::MIN + row,
            i32::MAX - row,
            -1,
            row * row,
        ]
    };
    let entries: Vec<i32> = (0..).take(MOST_ROWS).flat_map(of).collect();
    let query = (0..8).fold(Query::builder(8).pattern("A*"), |query, column| {
        query.measure(Measure::avg(column))
    });
    let expected = (0..8).map(|column| {
        let column: Vec<i32> = entries.iter().copied().skip(column).step_by(8).collect();
        assert_eq!(column.len(), MOST_ROWS);
        Some(divided(&column))
    });
    let expected: Vec<Option<i64>> = expected.collect();
    let some = [2_047, -2_047, 0, 0].map(Some);
    assert_eq!(expected[..4], some);
    assert_eq!(measured(&query, &entries), [expected]);
}

/// A small generator, so that every run has the same rows.
struct Random(u64);

impl Random {
    fn next(&mut self) -> u64 {
        self.0 = self
            .0
            .wrapping_mul(6_364_136_223_846_793_005)
            .wrapping_add(1_442_695_040_888_963_407);
        self.0 >> 33
    }

    fn below(&mut self, most: u64) -> i32 {
        i32::try_from(self.next() % most).unwrap()
    }

    /// Near 0, anywhere, or at either end.
    fn entry(&mut self) -> i32 {
        match self.below(8) {
            0 => i32::MIN + self.below(3),
            1 => i32::MAX - self.below(3),
            2 => self.below(1 << 31),
            3 => -1 - self.below(1 << 31),
            _ => self.below(15) - 7,
        }
    }
}

/// What the random searches came to.
#[derive(Default)]
struct Seen {
    null: usize,
    cut_up: usize,
    cut_down: usize,
    whole: usize,
}

impl Seen {
    fn take(&mut self, sum: i64, count: i64) {
        match (count, sum % count.max(1)) {
            (0, _) => self.null += 1,
            (_, 0) => self.whole += 1,
            (_, rest) if rest < 0 => self.cut_up += 1,
            _ => self.cut_down += 1,
        }
    }
}

/// AVG is SUM by COUNT of the library, and the average of the rows that the report labels.
#[test]
fn beside_sum_and_count_on_random_rows() {
    let mut random = Random(5);
    let mut seen = Seen::default();
    let skips = [
        Skip::PastLastRow,
        Skip::ToNextRow,
        Skip::ToFirst('B'),
        Skip::ToLast('B'),
    ];
    let patterns = [
        "(A | B)+ C?",
        "A* B{,3}",
        "C?? (B | A A)+",
        "A B* C | (B C?)?",
    ];
    for round in 0..600 {
        let pattern = patterns[round % patterns.len()];
        let query = by_first_column(pattern)
            .skip(skips[round / patterns.len() % skips.len()])
            .measure(Measure::count())
            .measure(Measure::sum(1))
            .measure(Measure::avg(1))
            .measure(Measure::count().of('B'))
            .measure(Measure::sum(1).of('B'))
            .measure(Measure::avg(1).of('B'))
            .measure(Measure::min(1))
            .measure(Measure::max(1));
        let n = random.below(40);
        let row = |_| [1 + random.below(3), random.entry()];
        let entries: Vec<i32> = (0..n).flat_map(row).collect();
        let rows = Rows::new(&entries, 2);
        let report = query.build().unwrap().search(rows).unwrap();
        for found in &report {
            let context = format!("{pattern} {entries:?} {found:?}");
            let measures: Vec<Option<i64>> = found.measures().collect();
            for (first, letter) in [(0, None), (3, Some('B'))] {
                let labelled = found.labelled_rows();
                let of_letter =
                    labelled.filter(|(_, label)| letter.map_or(true, |it| it == *label));
                let own: Vec<i64> = of_letter
                    .map(|(row, _)| i64::from(rows.get(row).unwrap()[1]))
                    .collect();
                let count = i64::try_from(own.len()).unwrap();
                let sum: i64 = own.iter().sum();
                let null = own.is_empty();
                let expected = [
                    Some(count),
                    (!null).then_some(sum),
                    (!null).then(|| sum / count),
                ];
                assert_eq!(measures[first..first + 3], expected, "{context}");
                seen.take(sum, count);
            }
            let (average, least, most) = (measures[2], measures[6], measures[7]);
            assert!(least <= average && average <= most, "{context}");
        }
    }
    let Seen {
        null,
        cut_up,
        cut_down,
        whole,
    } = seen;
    let fewest = null.min(cut_up).min(cut_down).min(whole);
    assert!(fewest > 500, "{null} {cut_up} {cut_down} {whole}");
}

/// A measure changes nothing of a search but its own results.
#[test]
fn it_takes_no_step() {
    let query = by_first_column("(A | B)+ C?").skip(Skip::ToNextRow);
    let mut random = Random(6);
    let row = |_| [1 + random.below(3), random.entry()];
    let entries: Vec<i32> = (0..200).flat_map(row).collect();
    let without = search(&query, &entries);
    let with = search(&query.measure(Measure::avg(1).of('A')), &entries);
    assert_eq!((with.len(), with.steps()), (without.len(), without.steps()));
    assert!(with.len() > 50);
    for (with, without) in with.matches().zip(without.matches()) {
        let same = (without.rows(), without.labels());
        assert_eq!((with.rows(), with.labels()), same);
    }
}

/// 1 and the result, or 0 and 0; what lies behind is unchanged.
#[test]
fn the_numbers_of_a_report() {
    let query = by_first_column("A A | B")
        .measure(Measure::avg(1).of('A'))
        .measure(Measure::avg(1).of('B'))
        .to_bytes();
    let rows = [1, -3, 1, -4, 2, 0];
    let room = lent::room(&query, &rows);
    let (mut notes, mut trail) = (vec![0; room.notes() as usize], vec![0; room.pairs as usize]);
    let (mut numbers, mut labels) = ([99; 16], [b'?'; 4]);
    let outcome = lent::search(
        &query,
        &rows,
        &mut notes,
        &mut trail,
        &mut numbers,
        &mut labels,
    );
    assert_eq!((outcome.answer, outcome.matches, outcome.labels), (0, 2, 3));
    let (first, second) = ([1, 0, 2, 1, -3, 0, 0], [2, 2, 1, 0, 0, 1, 0]);
    assert_eq!(numbers[..7], first);
    assert_eq!(numbers[7..14], second);
    assert_eq!((&numbers[14..], &labels), (&[99; 2][..], b"AAB?"));
}

/// The answer to a measure of these bytes, for rows of three columns and a pattern with A.
fn answer(body: [u8; 4]) -> Option<u64> {
    let mut bytes = Query::builder(3)
        .pattern("A")
        .measure(Measure::count())
        .to_bytes();
    let end = bytes.len();
    bytes[end - 4..].copy_from_slice(&body);
    let judged = Query::from_bytes(bytes);
    judged.map_or_else(Error::number, |_| Some(0))
}

#[test]
fn what_is_refused() {
    for function in 0..=u8::MAX {
        let expected = if (1..=7).contains(&function) { 0 } else { 3 };
        assert_eq!(answer([function, 0, 0, 0]), Some(expected), "{function}");
        assert_eq!(answer([function, b'A', 0, 0]), Some(expected), "{function}");
        // A column of its own, which COUNT alone does not have.
        let expected = if function == 1 { 3 } else { expected };
        assert_eq!(answer([function, b'A', 2, 0]), Some(expected), "{function}");
    }
    for column in 3..=u8::MAX {
        assert_eq!(answer([7, b'A', column, 0]), Some(3), "{column}");
    }
    for letter in [1, b'@', b'[', b'a', u8::MAX] {
        assert_eq!(answer([7, letter, 0, 0]), Some(3), "{letter}");
    }
    assert_eq!(answer([7, b'B', 0, 0]), Some(9));
    assert_eq!(answer([7, 0, 0, 1]), Some(3));
    // 3 comes before 9.
    assert_eq!(answer([8, b'B', 0, 0]), Some(3));
    let nine = (0..9).fold(Query::builder(1).pattern("A"), |query, _| {
        query.measure(Measure::avg(0))
    });
    assert_eq!(nine.build(), Err(Error::WrongRecords));
}
