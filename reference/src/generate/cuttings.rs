//! Tables cut into lots (document 02, R-11): queries that do not look ahead, every cutting
//! of small tables, random cuttings with calls among them that are refused (fewer rows,
//! too many, a slice that is too short or not whole), and calls after the end.

use super::conditions;
use super::draft::{self, Draft, Input, Numbers, Room, Size};
use super::mix;
use super::random::Random;
use super::texts;
use crate::pattern;
use crate::query::{COMPARE, CONDITION, DEFINE, TEXT};
use crate::search;

/// One call: how many rows are present, how many entries the slice has, and whether it
/// declares the end.
#[derive(Clone, Copy, Debug, PartialEq, Eq)]
pub struct Call {
    pub present: u64,
    pub entries: usize,
    pub last: bool,
}

/// A search in lots. The input's rows are all that the slice will ever hold.
#[derive(Clone, Debug, PartialEq, Eq)]
pub struct Cut {
    pub input: Input,
    pub largest: u64,
    pub calls: Vec<Call>,
}

/// Changes all offsets of a draft's comparisons.
pub fn change_offsets(draft: &mut Draft, change: impl Fn(i8) -> i8) {
    let changed = |bytes: &mut [u8]| {
        bytes[1] = change(bytes[1] as i8) as u8;
        if bytes[3] == 1 {
            bytes[5] = change(bytes[5] as i8) as u8;
        }
    };
    for at in draft.defines() {
        let (kind, body) = &mut draft.records[at];
        match *kind {
            DEFINE => body[2..].chunks_exact_mut(12).for_each(changed),
            _ => {
                let mut entries = conditions::entries_of(body);
                let compared = entries.iter_mut().filter(|entry| entry[0] == COMPARE);
                compared.for_each(|entry| changed(&mut entry[1..]));
                *body = conditions::body(body[0], &entries);
            }
        }
    }
}

/// Without `$` and without a look at later rows. Some go on at labelled rows more than
/// once, and some have repetitions of nothing.
pub fn suited(random: &mut Random, size: &Size) -> Draft {
    let mut draft = loop {
        let draft = match random.below(12) {
            0..=2 => mix::adversarial(random, size),
            3 => mix::jumping(random, size),
            4 => nested(random, size),
            _ => mix::lively(random, size),
        };
        let text = draft.place_of(TEXT).map(|at| &draft.records[at].1);
        if text.is_some_and(|text| !text.contains(&b'$')) {
            break draft;
        }
    };
    change_offsets(&mut draft, |offset| -offset.abs());
    draft
}

/// A nest of up to three repetitions of nothing, on a row or more.
fn nested(random: &mut Random, size: &Size) -> Draft {
    let pairs = size.pairs.max(FEWEST_PAIRS);
    loop {
        let deep = 1 + random.below(3);
        let body = texts::nested(random, deep);
        let text = random.pick(&[body.clone(), [&body[..], b" B"].concat()]);
        let Ok(tree) = pattern::judge(&text) else {
            continue;
        };
        let most_rows = pairs / (tree.count_with_end() as usize * tree.factor());
        if most_rows > 2 {
            let n = 1 + random.below(size.rows.min(most_rows - 1));
            return draft::with_text(random, size, Numbers::Low, &text, n);
        }
    }
}

/// What a nest needs to show something.
const FEWEST_PAIRS: usize = 600;

/// The input of a draft in lots: notes and trail are measured by the largest n, numbers
/// and labels by the whole table in one run.
pub fn with_largest(draft: &Draft, largest: u64, rooms: [Room; 4]) -> Input {
    let [_, _, numbers, labels] = draft.needs();
    let query = draft.query();
    let places = search::room(&query, &[]).1;
    let rows = largest.min(5_000) as usize;
    let (notes, trail) = search::working_room(places, rows, search::factor(&query));
    let needs = [notes, trail, numbers, labels];
    let length = |at: usize| rooms[at].length(needs[at]);
    draft.with_lengths([length(0), length(1), length(2), length(3)])
}

pub fn whole(present: usize, entries: usize, last: bool) -> Call {
    Call {
        present: present as u64,
        entries,
        last,
    }
}

/// Every cutting of a draft's table: any choice of the counts from 0 to n, each once, and
/// the last call, with rows or none of its own; by its number below 2 to the n+1. The
/// slice holds the whole table.
pub fn every_cutting(draft: &Draft) -> impl Iterator<Item = Cut> {
    let columns = usize::from(draft.columns());
    let (n, entries) = (draft.rows.len() / columns, draft.rows.len());
    let draft = draft.clone();
    (0..1usize << (n + 1)).map(move |chosen| {
        let counts = (0..=n).filter(|present| chosen >> present & 1 == 1);
        let mut calls: Vec<Call> = counts.map(|it| whole(it, entries, false)).collect();
        calls.push(whole(n, entries, true));
        let largest = (n + chosen % 3) as u64;
        Cut {
            input: with_largest(&draft, largest, [Room::Exact; 4]),
            largest,
            calls,
        }
    })
}

/// A random cutting of a draft's table, of which the last rows may never be present.
pub fn cut(random: &mut Random, draft: &Draft) -> Cut {
    let columns = usize::from(draft.columns()).max(1);
    let all = draft.rows.len() / columns;
    let n = all - random.pick(&[0, 0, 0, 1, 2]).min(all);
    let largest = (n + random.pick(&[0, 0, 1, 3, all])) as u64;
    let mut calls = Vec::new();
    let mut present = random.pick(&[0, 0, 1, n]).min(n);
    let most_calls = match random.chance(15) {
        true => 2 * n,
        false => 3 + random.below(10),
    };
    while present < n && calls.len() < most_calls {
        push(random, &mut calls, present, all, columns, largest);
        present = match random.below(4) {
            0 => present,
            1 => present + 1 + random.below(n - present),
            _ => present + 1,
        };
    }
    if random.chance(40) {
        push(random, &mut calls, n, all, columns, largest);
    }
    if random.chance(95) {
        calls.push(whole(n, all * columns, true));
    }
    for _ in 0..random.pick(&[0, 0, 1, 2]) {
        let present = random.below(all + 2);
        calls.push(whole(present, all * columns, random.chance(50)));
    }
    let report = |random: &mut Random| {
        let part = Room::Part(random.below(100));
        let mostly_enough = [Room::Exact, Room::Exact, Room::More(7), Room::OneMore];
        match random.chance(70) {
            true => random.pick(&mostly_enough),
            false => random.pick(&[Room::OneShort, part]),
        }
    };
    let rooms = [
        random.pick(&[Room::Exact, Room::OneMore]),
        random.pick(&[Room::Exact, Room::OneMore]),
        report(random),
        report(random),
    ];
    Cut {
        input: with_largest(draft, largest, rooms),
        largest,
        calls,
    }
}

/// A call with this count; before it, at times, one that is refused.
fn push(
    random: &mut Random,
    calls: &mut Vec<Call>,
    present: usize,
    all: usize,
    columns: usize,
    largest: u64,
) {
    let last = random.chance(30);
    match random.below(12) {
        0 if present > 0 => {
            let fewer = present - 1 - random.below(present);
            calls.push(whole(fewer, all * columns, last));
        }
        1 => calls.push(whole(largest as usize + 1, all * columns, last)),
        2 if present > 0 => {
            let held = random.below(present);
            calls.push(whole(present, held * columns, last));
        }
        3 if columns > 1 && all > 0 => {
            calls.push(whole(present, all * columns - 1, last));
        }
        4 => calls.push(Call {
            present: random.pick(&[4_097, 1 << 32, u64::MAX, u64::MAX / 2]),
            entries: all * columns,
            last,
        }),
        _ => {}
    }
    let held = match random.below(3) {
        0 => present,
        1 => present + random.below(all - present + 1),
        _ => all,
    };
    calls.push(whole(present, held * columns, false));
}

/// Fewer rows than the largest table of the size may have, as each call takes its time.
pub const SHORT: Size = Size {
    rows: 8,
    columns: 3,
    pairs: 200,
};

/// Patterns whose attempts stay open over many rows, and go back over one row or over several.
const OPEN: [&[u8]; 14] = [
    b"A+ B",
    b"(A|B)* C",
    b"(A B|A C)* D",
    b"(A A A B|A A A C|A)* D",
    b"(A{5} B|A{4} C|A|B)+ D",
    b"((A|B)+ C?)+ D",
    b"A* A* (B|A)* C",
    b"(A+? B|A)* D",
    b"^ (A|B|C)* D",
    b"((A*)* B?)* D",
    b"((A|B)*)* (C|D)",
    b"(A?? B??)* C D",
    b"(A|(B|C A){2,7})* D",
    b"((A B)* (A C)*)* B D",
];

/// A search in lots, mostly of a row or two, whose attempts stay open over many rows: A holds at
/// most of them and B at many, C at few and D at very few. Some have an allowance of steps.
pub fn open(random: &mut Random, most_rows: usize) -> Cut {
    let n = 8 + random.below(most_rows - 8);
    let (rare, seldom) = (random.pick(&[0, 1, 4, 15]), random.pick(&[2, 10, 30]));
    let rows = (0..n).map(|_| match random.below(100) {
        it if it < rare => 9,
        it if it < rare + seldom => 7,
        it => random.pick(&[1, 1, 1, if it < 60 { 5 } else { 1 }]),
    });
    let rows: Vec<i32> = rows.collect();
    let mut draft = Draft::new(1, random.pick(&OPEN), rows)
        .define(b'A', &[draft::with_number(0, 0, 3, 6)])
        .define(b'B', &[draft::with_number(0, 0, 6, 5)])
        .define(b'C', &[draft::with_number(0, 0, 6, 7)])
        .define(b'D', &[draft::with_number(0, 0, 1, 9)]);
    let letters = draft.letters();
    draft.defines().into_iter().rev().for_each(|at| {
        if !letters.contains(&draft.records[at].1[0]) {
            draft.records.remove(at);
        }
    });
    let draft = match random.below(3) {
        0 => draft.to_next_row(),
        _ => draft,
    };
    let step = random.pick(&[1, 1, 1, 2, 5]);
    let mut calls: Vec<Call> = (0..n).step_by(step).map(|it| whole(it, n, false)).collect();
    if random.chance(30) {
        calls.push(whole(n, n, false));
    }
    calls.push(whole(n, n, true));
    let largest = (n + random.pick(&[0, 0, 3, 40])) as u64;
    let mut input = with_largest(&draft, largest, [Room::Exact; 4]);
    if random.chance(15) {
        input.allowance = Some(random.below(20 * n) as u64);
    }
    Cut {
        input,
        largest,
        calls,
    }
}

/// A random search in lots; some look ahead, or are refused for something else.
pub fn random(random: &mut Random, size: &Size, number: usize) -> Cut {
    let mut draft = match number % 16 {
        13 => mix::accepted(random, size, Numbers::Low),
        14 => {
            let answer = random.pick(&[1, 2, 3, 4, 5, 6, 7, 8, 9, 14]);
            let mut draft = suited(random, size);
            super::damage::damage(random, &mut draft, answer);
            draft
        }
        _ => suited(random, size),
    };
    draft::widen_rooms(random, &mut draft);
    let mut cut = cut(random, &draft);
    match number % 16 {
        12 => match random.below(3) {
            0 => cut.largest = random.pick(&[4_097, 1 << 32, u64::MAX]),
            1 => cut.input.notes = cut.input.notes.saturating_sub(1),
            _ => cut.input.trail = cut.input.trail.saturating_sub(1),
        },
        at if at % 3 == 0 => {
            let steps = super::allowances::steps_of(&draft.finish());
            cut.input.allowance = Some(match random.chance(15) {
                true => random.pick(&[0, steps, steps + 1, u64::MAX - 1, 1 << 32]),
                false => random.below(steps as usize + 1) as u64,
            });
        }
        _ => {}
    }
    cut
}

/// Patterns without `$` in which the order of ways tells, with empty matches and `^`.
pub const TEXTS: [&[u8]; 20] = [
    b"A B",
    b"A | A B",
    b"A* B",
    b"A*? B",
    b"A+ B+",
    b"(A | B)+ A",
    b"(A B?)+",
    b"A?? B?? A??",
    b"(A+)+ B",
    b"^ A* B",
    b"(^ A)* ^ B",
    b"A*?",
    b"() | A",
    b"(() | A){,2} B",
    b"(A?){3} B",
    b"A{2} | B{2}",
    b"(A*)* B",
    b"(A??)*? B",
    b"((A?)*|B)* A",
    b"(^|A)* B",
];

/// One record of each sort that looks ahead, in a letter of the pattern or not, and a
/// `$` that is never reached; with the answer.
pub fn looking_ahead() -> Vec<(Draft, u8)> {
    use super::conditions::{compare, operator};
    use super::draft::{with_column, with_number};
    let rows = || vec![1, 1, 1];
    let plain = |text: &[u8]| Draft::new(1, text, rows());
    let left = with_number(0, 1, 1, 1);
    let right = with_column((0, 0), 1, (0, 1), 0);
    let back = with_column((0, -1), 1, (0, 0), 0);
    let mut drafts = Vec::new();
    for comparison in [left, right] {
        for letter in [b'A', b'B'] {
            let answer = if letter == b'A' { 17 } else { 23 };
            let define = plain(b"A+").define(letter, &[back, comparison]);
            let list = [compare(back), compare(comparison), operator(3), operator(2)];
            let condition = plain(b"A+").condition(letter, &list);
            drafts.extend([(define, answer), (condition, answer)]);
        }
    }
    for text in [&b"A $"[..], b"A (B | ($)?)", b"A | $", b"(A $){0,1} B"] {
        drafts.push((plain(text), 17));
    }
    drafts.push((plain(b"A ^ B"), 23));
    drafts
}

/// The kind of records that a test may want to look at.
pub fn has_conditions(draft: &Draft) -> bool {
    draft.records.iter().any(|record| record.0 == CONDITION)
}

/// Texts of up to so many bytes that do not look ahead and are not refused.
pub fn every_text(longest: usize) -> impl Iterator<Item = Vec<u8>> {
    texts::every_text(b"AB |()*?^", longest).filter(|text| crate::pattern::judge(text).is_ok())
}
