//! The bench sheet of document 01, W1 to W12, run on the engine; with them what
//! the paper says of the lent buffers when a search is done, stopped or refused;
//! the skips to a labelled row of R-2; repetitions whose rounds may take no row, R-3;
//! the average of R-5; and the conditions of R-7.

use super::query::first_entry;
use super::{prepare, refused, room, search};
use crate::random::Random;
use mireladle::lent::{self, Outcome, Room};
use mireladle::{col, Measure, Query, QueryBuilder, Skip};

/// What every index of a buffer holds before a search.
const FILL: u8 = 7;

/// A search with buffers of generous length, and what it left in them.
#[derive(Debug, PartialEq, Eq)]
struct Searched {
    result: Outcome,
    notes: Vec<u8>,
    trail: Vec<u32>,
    numbers: Vec<i64>,
    labels: Vec<u8>,
}

fn searched(query: &[u8], rows: &[i32]) -> Searched {
    searched_with(query, rows, [64, 512, 64, 64])
}

fn searched_with(query: &[u8], rows: &[i32], rooms: [usize; 4]) -> Searched {
    left(rooms, |notes, trail, numbers, labels| {
        search(query, rows, notes, trail, numbers, labels)
    })
}

/// What a search leaves in buffers of these lengths.
fn left(
    rooms: [usize; 4],
    search: impl FnOnce(&mut [u8], &mut [u32], &mut [i64], &mut [u8]) -> Outcome,
) -> Searched {
    let mut notes = vec![FILL; rooms[0]];
    let mut trail = vec![u32::from(FILL); rooms[1]];
    let mut numbers = vec![i64::from(FILL); rooms[2]];
    let mut labels = vec![FILL; rooms[3]];
    let result = search(&mut notes, &mut trail, &mut numbers, &mut labels);
    Searched {
        result,
        notes,
        trail,
        numbers,
        labels,
    }
}

impl Searched {
    /// The matches as first row and labels, of a query without measures.
    fn matches(&self) -> Vec<(i64, &str)> {
        let mut labels = &self.labels[..self.result.labels as usize];
        let numbers = &self.numbers[..3 * self.result.matches as usize];
        numbers
            .chunks(3)
            .map(|one| {
                let (own, later) = labels.split_at(one[2] as usize);
                labels = later;
                (
                    one[1],
                    std::str::from_utf8(own).expect("labels are letters"),
                )
            })
            .collect()
    }

    fn is_untouched(&self) -> bool {
        self.notes.iter().all(|&it| it == FILL)
            && self.trail.iter().all(|&it| it == u32::from(FILL))
            && self.numbers.iter().all(|&it| it == i64::from(FILL))
            && self.labels.iter().all(|&it| it == FILL)
    }
}

fn free(pattern: &str) -> QueryBuilder {
    Query::builder(1).pattern(pattern)
}

/// A is above 0.
fn above_zero(pattern: &str) -> QueryBuilder {
    free(pattern).define('A', [col(0).gt(0)])
}

fn answer(pattern: &str) -> u64 {
    searched(&free(pattern).to_bytes(), &[]).result.answer
}

fn places(pattern: &str) -> u64 {
    room(&free(pattern).to_bytes(), &[]).places
}

const X: [i32; 5] = [100, 110, 120, 115, 130];

fn w1() -> QueryBuilder {
    free("A+ B")
        .define('A', [col(0).gt(col(0).prev(1))])
        .define('B', [col(0).lt(col(0).prev(1))])
        .measure(Measure::count().of('A'))
        .measure(Measure::last(0).of('B'))
}

/// The bytes of W1 as the paper writes them.
const W1_BYTES: &str = "02 00 01 00 01 00 04 00 02 00 41 2B 20 42 \
    0E 00 03 00 41 01 00 00 05 01 00 FF 00 00 00 00 00 00 \
    0E 00 03 00 42 01 00 00 03 01 00 FF 00 00 00 00 00 00 \
    02 00 04 00 00 00 04 00 05 00 01 41 00 00 04 00 05 00 06 42 00 00";

#[test]
fn w1_bytes() {
    let bytes: Vec<u8> = W1_BYTES
        .split_whitespace()
        .map(|byte| u8::from_str_radix(byte, 16).expect("two hexadecimal digits"))
        .collect();
    assert_eq!(w1().to_bytes(), bytes);
}

#[test]
fn w1_rise_and_fall() {
    let query = w1().to_bytes();
    let room = room(&query, &X);
    assert_eq!(
        (room.answer, room.places, room.rows, room.pairs),
        (0, 5, 5, 30)
    );
    let searched = searched(&query, &X);
    assert_eq!(
        searched.result,
        Outcome {
            answer: 0,
            matches: 1,
            labels: 3,
            steps: 12,
            offset: 0
        }
    );
    assert_eq!(searched.numbers[..8], [1, 1, 3, 1, 2, 1, 115, FILL.into()]);
    assert_eq!(searched.labels[..4], *b"AAB\x07");
}

/// The path is A at 1, fork and A at 2, fork and B at 3, END at 4. Failed are A
/// at 0; the second A at 3; and A at 4 with fork, second A and B at 5.
#[test]
fn w1_notes_and_trail() {
    let searched = searched(&w1().to_bytes(), &X);
    let failed = [(0, 0), (3, 2), (4, 0), (5, 1), (5, 2), (5, 3)];
    let mut notes = vec![0; 4];
    for (position, place) in failed {
        let pair: usize = position * 5 + place;
        notes[pair / 8] |= 1 << (pair % 8);
    }
    assert_eq!(searched.notes[..4], notes);
    assert!(searched.notes[4..].iter().all(|&it| it == FILL));
    assert!(searched.trail[..30].iter().all(|&it| it == 0));
    assert!(searched.trail[30..].iter().all(|&it| it == u32::from(FILL)));
}

#[test]
fn w2_no_rows() {
    let searched = searched(&w1().to_bytes(), &[]);
    assert_eq!((searched.result.answer, searched.result.steps), (0, 0));
    assert!(searched.matches().is_empty());
}

#[test]
fn w3_greedy() {
    let query = above_zero("A*");
    let searched = searched(&query.to_bytes(), &[1, 1, 0]);
    assert_eq!(searched.matches(), [(0, "AA"), (2, "")]);
    assert_eq!(searched.result.steps, 9);
}

#[test]
fn w4_reluctant() {
    let query = above_zero("A*?");
    let searched = searched(&query.to_bytes(), &[1, 1, 0]);
    assert_eq!(searched.matches(), [(0, ""), (1, ""), (2, "")]);
    assert_eq!(searched.result.steps, 6);
}

#[test]
fn w5_first_branch() {
    let searched = searched(&free("B A | A B").to_bytes(), &[1, 1]);
    assert_eq!(searched.matches(), [(0, "BA")]);
}

#[test]
fn w6_skip_modes() {
    let past = searched(&free("A A").to_bytes(), &[1, 1, 1]);
    assert_eq!(past.matches(), [(0, "AA")]);
    assert_eq!(past.result.steps, 5);
    let next = searched(&free("A A").skip(Skip::ToNextRow).to_bytes(), &[1, 1, 1]);
    assert_eq!(next.matches(), [(0, "AA"), (1, "AA")]);
    assert_eq!(next.result.steps, 8);
}

#[test]
fn w7_behind_last_row() {
    let searched = searched(&free("A $").to_bytes(), &[1, 1]);
    assert_eq!(searched.matches(), [(1, "A")]);
}

#[test]
fn w8_w9_most_places() {
    assert_eq!(places("(A{51}){5}"), 256);
    assert_eq!(answer("(A{16}){16}"), 7);
}

#[test]
fn w10_w11_repeated() {
    assert_eq!(places("(A*)*"), 4);
    assert_eq!(places("(A?){3}"), 7);
    assert_eq!(places("(A+)+"), 8);
}

#[test]
fn w12_parentheses() {
    let nested = |deep: usize| format!("{}A{}", "(".repeat(deep), ")".repeat(deep));
    assert_eq!(answer(&nested(8)), 0);
    assert_eq!(places(&nested(8)), 2);
    assert_eq!(answer(&nested(9)), 4);
}

/// A report that has no room for the second match keeps the first.
#[test]
fn stopped() {
    let query = free("A");
    let searched = searched_with(&query.to_bytes(), &[1, 1, 1], [1, 8, 5, 9]);
    assert_eq!(
        searched.result,
        Outcome {
            answer: 13,
            matches: 1,
            labels: 1,
            steps: 4,
            offset: 0
        }
    );
    assert_eq!(searched.numbers, [1, 0, 1, FILL.into(), FILL.into()]);
    assert_eq!(searched.labels[..2], [b'A', FILL]);
    assert_eq!((searched.notes[0], &searched.trail[..]), (0, &[0; 8][..]));
}

#[test]
fn refusals() {
    let query = w1().to_bytes();
    let cut = searched(&query[..query.len() - 1], &X);
    assert_eq!(cut.result, refused(1));
    let short_notes = searched_with(&query, &X, [3, 30, 64, 64]);
    assert_eq!(short_notes.result, refused(11));
    let short_trail = searched_with(&query, &X, [4, 29, 64, 64]);
    assert_eq!(short_trail.result, refused(12));
    assert!(cut.is_untouched() && short_notes.is_untouched() && short_trail.is_untouched());
}

/// One query with letters that look back and ahead, prepared once, on rows of all
/// lengths from none to more than it looks at, and on buffers that are too short.
#[test]
fn prepared_runs_are_searches() {
    let near = [col(0).gt(col(0).prev(2)), col(0).lt(col(0).next(1))];
    let queries = [
        w1(),
        w1().define('C', near).skip(Skip::ToNextRow),
        free("(A|B)+ C?").define('A', near),
        free("(A?){30} B"),
        free("(A?){99} B").define('B', near),
        free("((A*)* B?)* C").define('B', near),
        free("(((A?){5}|B)*? C??)*").define('C', near),
    ];
    for query in queries.map(|query| query.to_bytes()) {
        let prepared = prepare(&query).unwrap_or_else(|answer| panic!("answer {answer}"));
        for n in 0..8 {
            let rows: Vec<i32> = (0..n).map(|row| row * row % 7).collect();
            for rooms in [[256, 2048, 64, 64], [256, 2048, 4, 4], [1, 1, 64, 64]] {
                let run = left(rooms, |notes, trail, numbers, labels| {
                    prepared.run(&rows, notes, trail, numbers, labels)
                });
                assert_eq!(run, searched_with(&query, &rows, rooms), "{n} rows");
            }
        }
    }
    assert!(prepare(&free("((((A*)*)*)*)*").to_bytes()).is_err_and(|answer| answer == 6));
}

/// P, F, matches, steps and the bytes of the notes, worked out by hand for the rules'
/// own table (crates/rules, specs/Samples).
#[test]
fn rounds_that_take_no_row() {
    type Case<'a> = (
        QueryBuilder,
        &'a [i32],
        [u64; 2],
        &'a [(i64, &'a str)],
        u64,
        &'a [u8],
    );
    let cases: [Case; 11] = [
        (
            above_zero("(A*)*"),
            &[1, 1, 0],
            [4, 2],
            &[(0, "AA"), (2, "")],
            14,
            &[0, 0, 48, 0],
        ),
        (
            above_zero("(A*)*").skip(Skip::ToNextRow),
            &[1, 0, 1],
            [4, 2],
            &[(0, "A"), (1, ""), (2, "A")],
            21,
            &[0, 48, 0, 48],
        ),
        (free("(A??)*"), &[0], [4, 2], &[(0, "")], 3, &[0, 0]),
        (
            free("(A*?)*? $"),
            &[0, 0],
            [5, 2],
            &[(0, "AA")],
            13,
            &[64, 0, 1, 0],
        ),
        (free("(()*)*"), &[0], [3, 4], &[(0, "")], 3, &[0, 0, 0]),
        (
            above_zero("((A*)*)*"),
            &[1, 0],
            [5, 4],
            &[(0, "A"), (1, "")],
            18,
            &[0, 0, 0, 0, 11, 0, 0, 0],
        ),
        (
            above_zero("(((A*)*)*)*"),
            &[1],
            [6, 8],
            &[(0, "A")],
            20,
            &[0, 0, 0, 0, 0, 0, 0, 0, 0, 0, 139, 0],
        ),
        (
            above_zero("(A?){2,} B"),
            &[1, 1],
            [9, 2],
            &[(0, "AB")],
            13,
            &[0, 0, 0, 65, 0, 80, 5],
        ),
        (
            above_zero("(A*|B)* C"),
            &[0, 0],
            [7, 2],
            &[(0, "C"), (1, "C")],
            12,
            &[64, 0, 16, 0, 0, 0],
        ),
        (
            above_zero("(^ A?)* B"),
            &[1, 0],
            [6, 2],
            &[(0, "AB")],
            8,
            &[0, 64, 0, 0, 0],
        ),
        (
            above_zero("((A|())* B)* $").skip(Skip::ToNextRow),
            &[0, 1],
            [7, 2],
            &[(0, "BB"), (1, "B")],
            24,
            &[64, 0, 16, 64, 21, 0],
        ),
    ];
    for (query, rows, sizes, matches, steps, notes) in cases {
        let query = query.to_bytes();
        let room = room(&query, rows);
        assert_eq!([room.places, room.factor], sizes, "{query:?}");
        let searched = searched(&query, rows);
        assert_eq!(searched.result.answer, 0, "{query:?}");
        assert_eq!(searched.matches(), matches, "{query:?}");
        assert_eq!(searched.result.steps, steps, "{query:?}");
        assert_eq!(searched.notes[..notes.len()], *notes, "{query:?}");
    }
    assert_eq!(answer("((((A*)*)*)*)*"), 6);
    assert_eq!(answer("((((A*)*)*)+ B)*"), 0);
}

/// A pattern with parentheses nested so deep, in which most repetitions have no end.
fn random_pattern(random: &mut Random, deep: usize) -> String {
    let parts = 1 + random.below(3);
    let mut text = String::new();
    for part in 0..parts {
        if part > 0 && random.chance(30) {
            text.push('|');
        }
        match random.below(if deep == 0 { 5 } else { 12 }) {
            0..=2 => text.push(char::from(b'A' + random.below(3) as u8)),
            3 => text.push_str("()"),
            4 => text.push(if random.chance(50) { '^' } else { '$' }),
            _ => text += &format!("({})", random_pattern(random, deep - 1)),
        }
        let quantifiers = ["", "", "*", "*?", "+", "?", "??", "{2,}", "{1,2}"];
        text += quantifiers[random.below(quantifiers.len() as u64) as usize];
        text.push(' ');
    }
    text
}

/// Both engines agree on random patterns, most of which have places with flags.
#[test]
fn random_rounds_as_the_product() {
    let mut random = Random::new(3);
    let mut seen = [0; 4];
    for round in 0..20_000 {
        let text = random_pattern(&mut random, 3);
        let query = above_zero(&text)
            .define('B', [col(0).lt(2)])
            .skip(match round % 3 {
                0 => Skip::ToNextRow,
                _ => Skip::PastLastRow,
            })
            .to_bytes();
        let rows: Vec<i32> = (0..random.below(7))
            .map(|_| random.below(3) as i32)
            .collect();
        let room = room(&query, &rows);
        let product = lent::room(&query, &rows);
        let sizes = |room: Room| (room.answer, room.places, room.factor, room.pairs);
        assert_eq!(sizes(room), sizes(product), "{text}");
        let rooms = [2048, 16_384, 64, 64];
        let found = searched_with(&query, &rows, rooms);
        let expected = left(rooms, |notes, trail, numbers, labels| {
            lent::search(&query, &rows, notes, trail, numbers, labels)
        });
        assert_eq!(found, expected, "{text} on {rows:?}");
        if room.answer == 0 {
            seen[room.factor.trailing_zeros() as usize] += 1;
        }
    }
    // No factor is rare.
    assert!(seen.iter().all(|&count| count > 500), "{seen:?}");
}

/// S is free; U is above the row before.
fn rises(skip: Skip) -> Vec<u8> {
    let query = free("S U+").define('U', [col(0).gt(col(0).prev(1))]);
    query.skip(skip).to_bytes()
}

#[test]
fn skip_to_a_labelled_row() {
    let rows = [1, 2, 3, 4, 0, 5];
    let first = searched(&rises(Skip::ToFirst('U')), &rows);
    let all = [(0, "SUUU"), (1, "SUU"), (2, "SU"), (4, "SU")];
    assert_eq!((first.result.answer, first.matches()), (0, all.to_vec()));
    let last = searched(&rises(Skip::ToLast('U')), &rows);
    let two = [(0, "SUUU"), (4, "SU")];
    assert_eq!((last.result.answer, last.matches()), (0, two.to_vec()));
    assert!(last.result.steps < first.result.steps);
}

/// Empty matches at rows 0, 2 and 3; the letter of the skip is in none of them.
#[test]
fn skip_behind_an_empty_match() {
    for skip in [Skip::ToFirst('A'), Skip::ToLast('A')] {
        let query = free("(B A)?")
            .define('A', [col(0).eq(1)])
            .define('B', [col(0).eq(2)])
            .skip(skip);
        let searched = searched(&query.to_bytes(), &[1, 2, 1, 2]);
        let all = [(0, ""), (1, "BA"), (2, ""), (3, "")];
        assert_eq!(searched.result.answer, 0);
        assert_eq!(searched.matches(), all);
    }
}

/// The letter labels no row of a match, or the row is the match's first: the match
/// is written and is the last, also at the last row.
#[test]
fn no_row_to_skip_to() {
    let stopped = |pattern: &str, skip: Skip, rows: &[i32], matches: &[(i64, &str)]| {
        let query = above_zero(pattern).skip(skip).to_bytes();
        let searched = searched(&query, rows);
        assert_eq!(searched.result.answer, 15, "{pattern}");
        assert_eq!(searched.matches(), matches, "{pattern}");
        let pairs = room(&query, rows).pairs as usize;
        assert!(searched.trail[..pairs].iter().all(|&it| it == 0));
        let notes = pairs.div_ceil(8);
        assert!(searched.notes[notes..].iter().all(|&it| it == FILL));
    };
    stopped("A | B", Skip::ToFirst('A'), &[0, 1], &[(0, "B")]);
    stopped("A | B", Skip::ToLast('B'), &[1, 1], &[(0, "A")]);
    stopped("A B", Skip::ToLast('A'), &[0, 1, 1, 1], &[(1, "AB")]);
    stopped("A B A", Skip::ToFirst('A'), &[1, 1, 1], &[(0, "ABA")]);
    stopped("A", Skip::ToLast('A'), &[0, 1], &[(1, "A")]);
    let twice = [(0, "BA"), (1, "A")];
    stopped("B A | A", Skip::ToLast('A'), &[1, 1], &twice);
    let later = free("A B A").skip(Skip::ToLast('A')).to_bytes();
    assert_eq!(searched(&later, &[1, 1, 1]).result.answer, 0);
}

/// Full rooms come before the row to skip to; a match that just fits does not.
#[test]
fn room_before_the_row_to_skip_to() {
    let query = free("A").skip(Skip::ToFirst('A')).to_bytes();
    let answer = |numbers, labels| {
        let rooms = [1, 8, numbers, labels];
        let result = searched_with(&query, &[1, 1, 1], rooms).result;
        (result.answer, result.matches, result.labels, result.steps)
    };
    assert_eq!(answer(3, 1), (15, 1, 1, 2));
    assert_eq!(answer(2, 1), (13, 0, 0, 2));
    assert_eq!(answer(3, 0), (13, 0, 0, 2));
}

#[test]
fn skips_that_are_refused() {
    let answer = |mode: u8, letter: u8| {
        let mut query = free("A").to_bytes();
        let end = query.len();
        query[end - 2..].copy_from_slice(&[mode, letter]);
        searched(&query, &[]).result.answer
    };
    for letter in [1, b'@', b'A', b'Z', b'[', b'a', 255] {
        assert_eq!((answer(0, letter), answer(1, letter)), (3, 3));
        assert_eq!(answer(4, letter), 3);
    }
    for mode in [2, 3] {
        assert_eq!(
            [0, b'@', b'[', b'a', 255].map(|it| answer(mode, it)),
            [3; 5]
        );
        assert_eq!((answer(mode, b'A'), answer(mode, b'B')), (0, 9));
    }
}

/// Cut toward zero, over all rows of a match or those with a letter; null over none.
#[test]
fn averages() {
    let query = free("A B? B? C")
        .define('B', [col(0).lt(0)])
        .define('C', [col(0).eq(0)])
        .measure(Measure::avg(0))
        .measure(Measure::avg(0).of('B'))
        .to_bytes();
    let measured = |rows: &[i32]| searched(&query, rows).numbers[3..7].to_vec();
    assert_eq!(measured(&[5, -3, -4, 0]), [1, 0, 1, -3]);
    assert_eq!(measured(&[8, -3, 0]), [1, 1, 1, -3]);
    assert_eq!(measured(&[-3, 0]), [1, -1, 0, 0]);
    let refused = |function: u8| {
        let mut query = query.clone();
        let end = query.len();
        query[end - 4] = function;
        searched(&query, &[]).result.answer
    };
    assert_eq!([0, 8, 255].map(refused), [3; 3]);
    assert_eq!([1, 6, 7].map(refused), [0; 3]);
}

/// What a condition comes to at a row by SQL's tables: true, false, or none where it is
/// unknown. Read off the bytes of the list, with a stack.
fn truth(list: &[u8], columns: usize, rows: &[i32], row: usize) -> Option<bool> {
    let n = (rows.len() / columns) as i64;
    let entry = |column: u8, offset: u8| {
        let at = row as i64 + i64::from(offset as i8);
        (0..n)
            .contains(&at)
            .then(|| i64::from(rows[at as usize * columns + usize::from(column)]))
    };
    let compared = |bytes: &[u8]| {
        let number = i32::from_le_bytes([bytes[8], bytes[9], bytes[10], bytes[11]]);
        let left = entry(bytes[0], bytes[1])?;
        let right = match bytes[3] {
            0 => 0,
            _ => entry(bytes[4], bytes[5])?,
        };
        let right = right + i64::from(number);
        Some(match bytes[2] {
            1 => left == right,
            2 => left != right,
            3 => left < right,
            4 => left <= right,
            5 => left > right,
            _ => left >= right,
        })
    };
    let (mut stack, mut at): (Vec<Option<bool>>, usize) = (Vec::new(), 0);
    while at < list.len() {
        let kind = list[at];
        at += 1;
        let result = match kind {
            0 => {
                at += 12;
                compared(&list[at - 12..at])
            }
            3 => stack.pop().unwrap().map(|it| !it),
            _ => match (kind, stack.pop().unwrap(), stack.pop().unwrap()) {
                (1, Some(false), _) | (1, _, Some(false)) => Some(false),
                (1, Some(true), Some(true)) => Some(true),
                (2, Some(true), _) | (2, _, Some(true)) => Some(true),
                (2, Some(false), Some(false)) => Some(false),
                _ => None,
            },
        };
        stack.push(result);
    }
    assert_eq!(stack.len(), 1);
    stack[0]
}

/// A comparison over two columns, up to three rows away.
fn random_comparison(random: &mut Random) -> [u8; 12] {
    let offset = |random: &mut Random| match random.below(2) {
        0 => 0,
        _ => (random.below(7) as i8 - 3) as u8,
    };
    let mut bytes = [0; 12];
    bytes[0] = random.below(2) as u8;
    bytes[1] = offset(random);
    bytes[2] = 1 + random.below(6) as u8;
    if random.chance(50) {
        bytes[3..6].copy_from_slice(&[1, random.below(2) as u8, offset(random)]);
    }
    bytes[8..].copy_from_slice(&(random.below(3) as i32 - 1).to_le_bytes());
    bytes
}

/// The entries of a list of so many comparisons, without NOT.
fn random_joins(random: &mut Random, comparisons: u64) -> Vec<Vec<u8>> {
    if comparisons == 1 {
        return vec![[&[0][..], &random_comparison(random)].concat()];
    }
    let left = 1 + random.below(comparisons - 1);
    let mut entries = random_joins(random, left);
    entries.extend(random_joins(random, comparisons - left));
    entries.push(vec![1 + random.below(2) as u8]);
    entries
}

/// A list of so many comparisons, with NOTs at any place as long as there is room.
fn random_list(random: &mut Random, comparisons: u64) -> Vec<u8> {
    let mut entries = random_joins(random, comparisons);
    while entries.len() < 16 && random.chance(70) {
        let at = 1 + random.below(entries.len() as u64) as usize;
        entries.insert(at, vec![3]);
    }
    entries.concat()
}

/// A query of one letter with this list.
fn listed(list: &[u8]) -> Vec<u8> {
    let (mut left, mut count) = (list, 0);
    while let Some((_, behind)) = first_entry(left) {
        count += 1;
        left = behind;
    }
    listed_as(list, count)
}

fn listed_as(list: &[u8], count: u8) -> Vec<u8> {
    let mut query = Query::builder(2).pattern("A").to_bytes();
    let skip = query.split_off(query.len() - 6);
    query.extend((list.len() as u16 + 2).to_le_bytes());
    query.extend([6, 0, b'A', count]);
    query.extend(list);
    query.extend(skip);
    query
}

/// Conditions of every length on a few rows, where many comparisons are unknown: A is
/// found exactly where its condition is true by SQL's tables.
#[test]
fn conditions_by_three_truths() {
    let mut random = Random::new(7);
    let mut seen = [0; 3];
    for round in 0..4_000 {
        let list = random_list(&mut random, 1 + round % 8);
        let rows: Vec<i32> = (0..2 * (1 + random.below(6)))
            .map(|_| random.below(3) as i32)
            .collect();
        let truths: Vec<Option<bool>> = (0..rows.len() / 2)
            .map(|row| truth(&list, 2, &rows, row))
            .collect();
        for truth in &truths {
            seen[truth.map_or(2, usize::from)] += 1;
        }
        let query = listed(&list);
        let searched = searched(&query, &rows);
        let expected: Vec<i64> = (0..)
            .zip(&truths)
            .filter(|(_, truth)| **truth == Some(true))
            .map(|(row, _)| row)
            .collect();
        let found: Vec<i64> = searched.matches().iter().map(|(row, _)| *row).collect();
        assert_eq!(searched.result.answer, 0, "{list:?}");
        assert_eq!(found, expected, "{list:?} on {rows:?}");
    }
    // No truth is rare.
    assert!(seen.iter().all(|&count| count > 1_000), "{seen:?}");
}

#[test]
fn lists_that_are_refused() {
    let answer = |list: &[u8], count: u8| room(&listed_as(list, count), &[]).answer;
    let one = [0; 3]
        .iter()
        .chain(&[1, 0, 0, 0, 0, 0, 0, 0, 0, 0])
        .copied();
    let one: Vec<u8> = one.collect();
    let lists = |parts: &[&[u8]]| parts.concat();
    assert_eq!(answer(&one, 1), 0);
    assert_eq!(answer(&lists(&[&one, &[3]]), 2), 0);
    assert_eq!(answer(&lists(&[&one, &one, &[1]]), 3), 0);
    let sixteen = lists(&[&one, &[3; 15]]);
    assert_eq!(answer(&sixteen, 16), 0);
    for (list, count) in [
        (vec![], 0),
        (vec![3], 1),
        (vec![1], 1),
        (lists(&[&one, &[1]]), 2),
        (lists(&[&one, &[2], &one]), 3),
        (lists(&[&one, &one]), 2),
        (lists(&[&one, &[4]]), 2),
        (lists(&[&one, &[3]]), 1),
        (lists(&[&one, &[3]]), 3),
        (one[..12].to_vec(), 1),
        (lists(&[&one, &[3; 16]]), 17),
    ] {
        assert_eq!(answer(&list, count), 3, "{list:?}");
    }
    // A column beyond the rows', an operator 7.
    for (at, value) in [(1, 2), (3, 7), (2, 65), (4, 2), (7, 1)] {
        let mut wrong = one.clone();
        wrong[at] = value;
        assert_eq!(answer(&wrong, 1), 3, "{at}");
    }
    // A letter has one DEFINE of either kind.
    let either = |kinds: [bool; 2]| {
        let mut query = Query::builder(1).pattern("A");
        for is_list in kinds {
            query = match is_list {
                true => query.define('A', [!col(0).eq(1)]),
                false => query.define('A', [col(0).eq(1)]),
            };
        }
        room(&query.to_bytes(), &[]).answer
    };
    for kinds in [[true, true], [true, false], [false, true], [false, false]] {
        assert_eq!(either(kinds), 8);
    }
}
