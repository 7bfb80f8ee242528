//! Inputs at the limits that document 01 states, and one beyond each: places,
//! parentheses, text bytes, DEFINEs, comparisons, measures, offsets, rows; and
//! texts that the judgement of texts easily gets wrong. The large searches that go
//! on at a labelled row are from document 02, R-2, those with the factor F from R-3,
//! those with averages from R-5, and records of kind 6 from R-7.

use super::conditions::{self, compare, operator, Entry};
use super::draft::{with_column, with_number, Draft, Room};
use super::texts;
use crate::query::{AND, COMPARE, COMPARISON_BYTES, CONDITION, NOT};

/// All of them. Some are large: 1,048,832 pairs, or 8,390,656 labels.
pub fn all() -> Vec<Draft> {
    [small(), of_large_searches(), of_nested_repetitions()].concat()
}

/// All but the large searches.
pub fn small() -> Vec<Draft> {
    [of_texts(), of_records(), of_offsets(), of_rows()].concat()
}

fn ones(n: usize) -> Vec<i32> {
    vec![1; n]
}

fn in_parentheses(text: &[u8], deep: usize) -> Vec<u8> {
    [&b"(".repeat(deep), text, &b")".repeat(deep)].concat()
}

/// Texts at the limits of places, depth and length, each on three rows.
pub fn of_texts() -> Vec<Draft> {
    limit_texts()
        .into_iter()
        .map(|text| Draft::new(1, &text, ones(3)))
        .collect()
}

pub fn limit_texts() -> Vec<Vec<u8>> {
    let written: [&[u8]; 38] = [
        b"(A{51}){5}",
        b"(A{16}){16}",
        b"A{99} A{99} A{57}",
        b"A{99} A{99} A{58}",
        b"A{,99} A{,28} A",
        b"A{,99} A{,28} A A",
        b"(A{,2}){51}",
        b"(A{,2}){64}",
        b"(A|B){85}",
        b"(A|B){,63} A A A",
        b"(A|B){,63} A A A A",
        b"(A+){85}",
        b"(A+){84,} A",
        b"(A+){84,}",
        b"(){99}",
        b"(){,99}",
        b"(){,99}(){,99}(){,57}",
        b"(){,99}(){,99}(){,58}",
        b"((){99}){99}",
        b"()",
        b"((A?){99}){3,}",
        b"(A*){99}",
        b"(A*){99} (A*){28} A",
        b"(A*){99} (A*){28} A A",
        b"((((((((A{2}){2}){2}){2}){2}){2}){2}){2})",
        b"(((((((A{2}){2}){2}){2}){2}){2}){2})",
        // Repetitions of nothing, three and four in one another, and with 256 places.
        b"(((A*)*)*)*",
        b"((((A*)*)*)*)*",
        b"(((()*)*)*)",
        b"(((()*)*)*)*",
        b"((((A?)*)*)* B)*",
        b"((((A?)*)*)* B?)*",
        b"(((A?)*)*)* (((A?)*)*)*",
        b"((A?){127})*",
        b"((A?){128})*",
        b"(((A?){42})*)* (A{50}){3} B{18}",
        b"((((A?){99})*)*)* A{54}",
        b"((((A?){99})*)*)* A{55}",
    ];
    let mut limit: Vec<Vec<u8>> = written.iter().map(|text| text.to_vec()).collect();
    limit.push(texts::largest());
    for deep in 7..=10 {
        limit.push(in_parentheses(b"A", deep));
        limit.push(in_parentheses(b"", deep));
        limit.push([in_parentheses(b"A", deep), in_parentheses(b"B", deep)].concat());
        limit.push([&b")"[..], &b"(".repeat(deep)].concat());
        limit.push([b"x", in_parentheses(b"A", deep).as_slice()].concat());
    }
    for length in 255..=257 {
        limit.push(b"^".repeat(length));
        limit.push(b" ".repeat(length));
        limit.push([&b" ".repeat(length - 1), &b"A"[..]].concat());
        limit.push([&b"A"[..], &b" ".repeat(length - 1)].concat());
        limit.push([&b"A|".repeat((length - 1) / 2), &b"A"[..]].concat());
        limit.push([&b"x".repeat(length - 9), &b"(".repeat(9)[..]].concat());
    }
    // A tree of about two nodes to a byte, in texts and queries of many lengths.
    for length in (64..=248).step_by(8) {
        limit.push(b"^".repeat(length));
    }
    // Forks with many ways, all but one or two of which are the same.
    limit.push([&b"(("[..], &b"()|".repeat(81), b"()){85}){3}"].concat());
    limit.push([&b"("[..], &b"()|".repeat(81), b"A){99}"].concat());
    limit.push([&b"(A"[..], &b"|()".repeat(81), b"){99}"].concat());
    limit
}

/// Counts of DEFINEs, comparisons, measures and columns.
fn of_records() -> Vec<Draft> {
    let mut drafts = Vec::new();
    for count in [0, 25, 26] {
        drafts.push(with_defines(count));
    }
    drafts.push(with_defines(26).define(b'A', &[with_number(0, 0, 1, 1)]));
    for count in [0, 1, 8, 9] {
        let comparisons = vec![with_number(0, 0, 6, 1); count];
        drafts.push(Draft::new(1, b"A+ B", ones(4)).define(b'A', &comparisons));
    }
    for count in [7, 8, 9] {
        let mut draft = Draft::new(1, b"A+ B?", ones(4));
        for measure in 0..count {
            draft = draft.measure(1 + measure % 7, b'A' + measure % 2, 0);
        }
        drafts.push(draft);
    }
    for columns in 0..=9u8 {
        let rows = (0..4 * i32::from(columns.max(1))).collect();
        drafts.push(Draft::new(columns, b"A+", rows).measure(2, b'A', columns.saturating_sub(1)));
    }
    drafts.push(with_most_records());
    drafts.push(with_most_conditions());
    drafts.extend([0, 25, 26, 27].map(with_conditions));
    let lists = conditions::long_lists().into_iter().step_by(40);
    drafts.extend(lists.map(|list| conditions::with_entries(&list, 2)));
    drafts
}

/// The same as `with_most_records` with each of its DEFINEs as a record of kind 6: 8
/// comparisons joined by AND.
pub fn with_most_conditions() -> Draft {
    let mut draft = with_most_records();
    for at in draft.defines() {
        let body = &draft.records[at].1;
        let comparisons = body[2..].chunks(COMPARISON_BYTES);
        let entry = |bytes: &[u8]| [&[COMPARE][..], bytes].concat();
        let mut entries: Vec<Entry> = comparisons.map(entry).collect();
        let joined = entries.len() - 1;
        entries.extend(vec![operator(AND); joined]);
        draft.records[at] = (CONDITION, conditions::body(body[0], &entries));
    }
    draft
}

/// So many records of kind 6, each a comparison that holds where it is not met.
fn with_conditions(count: u8) -> Draft {
    let draft = Draft::new(1, b"(A|B|Y|Z)+", vec![2, 0, 25, 1, 7]);
    (0..count).fold(draft, |draft, index| {
        let unequal = compare(with_number(0, 0, 2, index.into()));
        draft.condition(b'A' + index % 26, &[unequal, operator(NOT)])
    })
}

/// The most of all: 256 bytes of text, 26 DEFINEs of 8 comparisons, 8 measures and
/// 8 columns. Column 0 says which letter holds; the other comparisons hold where
/// they read exactly what they should, up to 64 rows to either side.
pub fn with_most_records() -> Draft {
    let letters: Vec<String> = (b'A'..=b'Z').map(|it| char::from(it).to_string()).collect();
    let mut text = format!("({})+", letters.join("|")).into_bytes();
    text.resize(256, b' ');
    let entry = |row: i32, column: i32| match column {
        0 => row % 26,
        _ => 1_000 * row + column,
    };
    let rows = (0..160).flat_map(|row| (0..8).map(move |column| entry(row, column)));
    let mut draft = Draft::new(8, &text, rows.collect());
    let offsets = [-64, 64, -1, 1, 0, 63, -63];
    for index in 0..26 {
        let mut comparisons = vec![with_number(0, 0, 1, index.into())];
        for (column, offset) in (1..8).zip(offsets) {
            let more = entry(offset.into(), column.into()) - entry(0, 7);
            comparisons.push(with_column((column, offset), 1, (7, 0), more));
        }
        draft = draft.define(b'A' + index, &comparisons);
    }
    (0..8).fold(draft, |draft, column| {
        draft.measure(7 - column % 6, b'Z' - column, column)
    })
}

fn with_defines(count: u8) -> Draft {
    let draft = Draft::new(1, b"(A|B|Y|Z)+", vec![2, 0, 25, 1, 7]);
    (0..count).fold(draft, |draft, index| {
        draft.define(b'A' + index, &[with_number(0, 0, 1, index.into())])
    })
}

/// Every offset from -65 to 65, left, right and on both sides, on rows on both
/// sides of it.
fn of_offsets() -> Vec<Draft> {
    let mut drafts = Vec::new();
    for offset in -65..=65i8 {
        for n in [1, 64, 65, 66] {
            let rows: Vec<i32> = (0..n).collect();
            let left = with_number(0, offset, 2, 1_000);
            let right = with_column((0, 0), 2, (0, offset), 1_000);
            drafts.push(Draft::new(1, b"A", rows.clone()).define(b'A', &[left]));
            drafts.push(Draft::new(1, b"A", rows).define(b'A', &[right]));
        }
        drafts.push(on_both_sides(offset));
    }
    drafts
}

/// Letters of one and of two comparisons that read the last of 8 columns so many
/// rows back and ahead, and hold where they read exactly those entries.
fn on_both_sides(offset: i8) -> Draft {
    let ahead = 8 * i32::from(offset);
    let both = with_column((7, offset), 1, (7, -offset), 2 * ahead);
    let left = with_column((7, offset), 1, (0, 0), ahead + 7);
    let right = with_column((0, 0), 1, (7, -offset), ahead - 7);
    Draft::new(8, b"(A B)+", (0..8 * 132).collect())
        .define(b'A', &[both])
        .define(b'B', &[left, right])
}

/// Numbers of rows, and rows that are not whole.
fn of_rows() -> Vec<Draft> {
    let mut drafts = Vec::new();
    for columns in [1u8, 2, 8] {
        for n in [0, 1, 4095, 4096, 4097] {
            let whole = n * usize::from(columns);
            drafts.push(Draft::new(columns, b"A", ones(whole)).measure(1, b'A', 0));
            drafts.push(Draft::new(columns, b"A", ones(whole + 1)));
        }
    }
    drafts
}

/// The largest searches: pairs, matches with eight measures, labels. None is
/// refused.
pub fn of_large_searches() -> Vec<Draft> {
    let mut drafts = vec![
        Draft::new(1, b"(A{51}){5}", ones(4096)),
        Draft::new(1, b"(A|A){83,} B B", ones(4096)).define(b'B', &[with_number(0, 0, 1, 0)]),
        Draft::new(1, b"(A*){99} (A*){27} A A $", ones(4096)),
        Draft::new(1, b"A*", ones(4096)),
        Draft::new(1, b"A*", ones(4096)).to_next_row(),
    ];
    let extremes = (0..4096).map(|row| if row % 2 == 0 { i32::MAX } else { i32::MIN });
    let mut measured = Draft::new(1, b"A", extremes.collect());
    for function in [1, 2, 3, 4, 5, 6, 7, 2] {
        measured = measured.measure(function, b'A', 0);
    }
    drafts.push(measured);
    for extreme in [i32::MAX, i32::MIN] {
        let sum = Draft::new(1, b"A+", vec![extreme; 4096]).measure(2, 0, 0);
        drafts.push(sum);
    }
    let mut stopped = Draft::new(1, b"A*", ones(4096)).to_next_row();
    stopped.labels = Room::OneShort;
    drafts.push(stopped);
    drafts.extend(to_labelled_rows());
    drafts.extend(averages());
    drafts
}

/// Large searches with the factor F: 1,048,832 pairs by F, and long walks of which each
/// round takes a row or ends the repetition.
pub fn of_nested_repetitions() -> Vec<Draft> {
    let never = with_number(0, 0, 1, 0);
    vec![
        Draft::new(1, b"(((A?)*)*)* B", ones(2_000)).define(b'B', &[never]),
        Draft::new(1, b"((A??)*? B?)*?", ones(1_000)).to_next_row(),
        Draft::new(1, b"((((A?){14})*)*)*", ones(4_096)),
    ]
}

/// Matches of 4,096 rows with sums at both ends, one beside them, and 2,048 below 0.
fn averages() -> Vec<Draft> {
    let all_but_one = |all, one| [vec![all; 4095], vec![one]].concat();
    let both = [[i32::MIN, i32::MAX]; 2048].concat();
    let rows = [
        vec![i32::MIN; 4096],
        vec![i32::MAX; 4096],
        all_but_one(i32::MIN, i32::MIN + 1),
        all_but_one(i32::MAX, i32::MAX - 1),
        both,
    ];
    let averaged = |rows| {
        Draft::new(1, b"A*", rows)
            .measure(7, 0, 0)
            .measure(7, b'A', 0)
    };
    rows.into_iter().map(averaged).collect()
}

/// Matches that go on one row further each, up to the last row; one match, whose
/// last row is the next start; and matches of which the last is a 15, with room
/// for it and without.
fn to_labelled_rows() -> Vec<Draft> {
    let mut drafts = vec![
        Draft::new(1, b"A B*", ones(4096)).to_first(b'B'),
        Draft::new(1, b"A B C*", ones(4096)).to_last(b'B'),
        Draft::new(1, b"A+ B", ones(4096)).to_last(b'B'),
        stuck_at_last_row(4096),
    ];
    for room in [Room::OneShort, Room::OneMore] {
        let mut beside = stuck_at_last_row(4096);
        beside.numbers = room;
        drafts.push(beside);
    }
    drafts
}

/// `A B` at each row but the last, each match going on at its B; and at the last
/// row C alone, so that the B labels no row there.
pub fn stuck_at_last_row(n: usize) -> Draft {
    Draft::new(1, b"A B | C", ones(n)).to_last(b'B')
}
