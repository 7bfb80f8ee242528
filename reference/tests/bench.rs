//! The bench sheet of document 01, W1 to W12 with every number it gives, its
//! query in bytes, and the examples that stand in the text of the document.

mod common;

use common::*;
use reference::generate::draft::{with_column, with_number, Draft, Input};
use reference::generate::stdin;
use reference::pattern;
use reference::program::program;
use reference::search::{self, Outcome};

const X: [i32; 5] = [100, 110, 120, 115, 130];

fn w1_on(rows: &[i32]) -> Draft {
    let prev = |operator| with_column((0, 0), operator, (0, -1), 0);
    Draft::new(1, b"A+ B", rows.to_vec())
        .define(b'A', &[prev(5)])
        .define(b'B', &[prev(3)])
}

#[test]
fn w1() {
    let draft = w1_on(&X);
    assert_eq!(search::room(&draft.query(), &X), (0, 5, 5));
    assert_eq!(matches(&draft), [found(1, "AAB")]);
    assert_eq!(steps(&draft), 12);
}

#[test]
fn w1_by_hand() {
    // Places: 0 A, 1 fork, 2 A, 3 B, 4 END. Failed: (0,0); from row 4 on the
    // start pair passes to (1,5), whose ways (2,5) and (3,5) fail, so all four
    // do. From row 1: A at 1, A at 2, then (1,3): (2,3) fails since 115 is below
    // 120, B passes there. Steps: 1, then 7, then 4.
    let called = call(&w1_on(&X).finish());
    let mut failed = Vec::new();
    for position in 0..=5 {
        for place in 0..5 {
            let bit = position * 5 + place;
            if called.notes[bit / 8] >> (bit % 8) & 1 == 1 {
                failed.push((place, position));
            }
        }
    }
    assert_eq!(failed, [(0, 0), (2, 3), (0, 4), (1, 5), (2, 5), (3, 5)]);
    assert_eq!(called.trail, [0; 30]);
    assert_eq!(called.notes.len(), 4);
    assert_eq!(called.notes[3] >> 6, 0);
    assert_eq!(called.numbers, [1, 1, 3]);
}

#[test]
fn w2() {
    let called = call(&w1_on(&[]).finish());
    let outcome = Outcome {
        answer: 0,
        matches: 0,
        labels: 0,
        steps: 0,
        offset: 0,
    };
    assert_eq!(called.outcome, outcome);
    assert_eq!((called.notes, called.trail), (vec![0], vec![0; 5]));
}

#[test]
fn w3() {
    let draft = above(Draft::new(1, b"A*", vec![1, 1, 0]), b'A', 0);
    assert_eq!(matches(&draft), [found(0, "AA"), found(2, "")]);
    assert_eq!(steps(&draft), 9);
    assert_eq!(call(&draft.finish()).numbers, [1, 0, 2, 2, 2, 0]);
}

#[test]
fn w4() {
    let draft = above(Draft::new(1, b"A*?", vec![1, 1, 0]), b'A', 0);
    assert_eq!(matches(&draft), [found(0, ""), found(1, ""), found(2, "")]);
    assert_eq!(steps(&draft), 6);
}

#[test]
fn w5() {
    assert_eq!(matches(&free(b"B A | A B", 2)), [found(0, "BA")]);
}

#[test]
fn w6() {
    let past = free(b"A A", 3);
    assert_eq!(matches(&past), [found(0, "AA")]);
    assert_eq!(steps(&past), 5);
    let next = past.to_next_row();
    assert_eq!(matches(&next), [found(0, "AA"), found(1, "AA")]);
    assert_eq!(steps(&next), 8);
}

#[test]
fn w7() {
    assert_eq!(matches(&free(b"A $", 2)), [found(1, "A")]);
}

#[test]
fn w8_and_w9() {
    assert_eq!(answer_of_text(b"(A{51}){5}"), 0);
    assert_eq!(places_of(b"(A{51}){5}"), 256);
    assert_eq!(answer_of_text(b"(A{16}){16}"), 7);
    let tree = pattern::read(b"(A{16}){16}").expect("W9 is in the language");
    assert_eq!(tree.count_with_end(), 257);
}

#[test]
fn w10_and_w11() {
    // By document 02, R-3.
    assert_eq!(answer_of_text(b"(A*)*"), 0);
    assert_eq!(places_of(b"(A*)*"), 4);
    assert_eq!(
        pattern::read(b"(A*)*").expect("in the language").factor(),
        2
    );
    assert_eq!(answer_of_text(b"(A?){3}"), 0);
    assert_eq!(places_of(b"(A?){3}"), 7);
    assert_eq!(places_of(b"(A+)+"), 8);
}

#[test]
fn w12() {
    let deep = |count| [&b"(".repeat(count)[..], b"A", &b")".repeat(count)].concat();
    assert_eq!(answer_of_text(&deep(8)), 0);
    assert_eq!(answer_of_text(&deep(9)), 4);
}

const W1_BYTES: &str = "02 00 01 00 01 00 04 00 02 00 41 2B 20 42 \
    0E 00 03 00 41 01 00 00 05 01 00 FF 00 00 00 00 00 00 \
    0E 00 03 00 42 01 00 00 03 01 00 FF 00 00 00 00 00 00 \
    02 00 04 00 00 00 04 00 05 00 01 41 00 00 04 00 05 00 06 42 00 00";

fn w1_bytes() -> Vec<u8> {
    let byte = |word| u8::from_str_radix(word, 16).expect("hexadecimal");
    W1_BYTES.split_whitespace().map(byte).collect()
}

#[test]
fn w1_with_measures_in_bytes() {
    let query = w1_bytes();
    let written = w1_on(&X).measure(1, b'A', 0).measure(6, b'B', 0);
    assert_eq!(query, written.query());
    let called = call(&Input {
        query,
        rows: X.to_vec(),
        notes: 5,
        trail: 31,
        numbers: 9,
        labels: 5,
        allowance: None,
    });
    let outcome = Outcome {
        answer: 0,
        matches: 1,
        labels: 3,
        steps: 12,
        offset: 0,
    };
    assert_eq!(called.outcome, outcome);
    assert_eq!(called.numbers, [1, 1, 3, 1, 2, 1, 115, 7, 7]);
    assert_eq!(called.labels, *b"AAB\x07\x07");
    assert_eq!((called.trail[29], called.trail[30]), (0, 7));
    assert_eq!(called.notes[4], 7);
}

#[test]
fn w1_printed() {
    let printed = program(&stdin::whole(&w1_bytes(), &X));
    assert_eq!(printed, b"matches 1 steps 12\n1 1 3 AAB 2 115\n");
}

#[test]
fn texts_named_in_the_language() {
    let same = |one: &[u8], other: &[u8]| {
        assert!(pattern::read(one).is_some());
        assert_eq!(pattern::read(one), pattern::read(other));
    };
    same(b"( )", b"()");
    same(b"A ?", b"A?");
    same(b"A{,3}", b"A{0,3}");
    for text in ["A**", "A? ?", "AB", "{,}", "A{,}"] {
        assert_eq!(answer_of_text(text.as_bytes()), 5, "{text}");
    }
    assert_eq!(answer_of_text(b"A |"), 14);
}

#[test]
fn easy_slips() {
    // The preferred match, not the longest.
    assert_eq!(
        matches(&free(b"A | A B", 2)),
        [found(0, "A"), found(1, "A")]
    );
    // "Unequal" does not hold where PREV has no row, nor where NEXT has none.
    for (offset, rows) in [(-1, 1), (1, 0)] {
        let unequal = with_number(0, offset, 2, 0);
        let draft = free(b"A", 2).define(b'A', &[unequal]);
        assert_eq!(matches(&draft), [found(rows, "A")]);
    }
    // Under mode 1 each start keeps its match.
    let draft = free(b"A+ B", 3).to_next_row();
    assert_eq!(matches(&draft), [found(0, "AAB"), found(1, "AB")]);
}

#[test]
fn sums_are_exact() {
    let (most, least) = (i32::MAX, i32::MIN);
    let meets = |left: i32, operator: u8, number: i32, right: i32| {
        let comparison = with_column((0, 0), operator, (1, 0), number);
        let draft = Draft::new(2, b"A", vec![left, right]).define(b'A', &[comparison]);
        matches(&draft).len() == 1
    };
    assert!(meets(most, 3, most, most));
    assert!(meets(-2, 2, most, most));
    assert!(meets(0, 5, least, least));
    assert!(meets(0, 2, least, least));
    assert!(meets(-1, 1, most, least));
    let sum = |number: i32| {
        let draft = Draft::new(1, b"A+", vec![number; 4096]).measure(2, 0, 0);
        call(&draft.finish()).numbers[4]
    };
    assert_eq!(sum(most), i64::from(most) * 4096);
    assert_eq!(sum(least), -(1 << 43));
}

#[test]
fn measures() {
    let rows = vec![5, 50, -3, 30, 9, 90, 4, 40];
    let mut draft = Draft::new(2, b"A B A C?", rows);
    for function in 1..=6 {
        draft = draft.measure(function, b'A', u8::from(function > 1));
    }
    let called = call(&draft.clone().measure(1, 0, 0).measure(2, 0, 0).finish());
    let expected = [
        1, 0, 4, 1, 2, 1, 140, 1, 50, 1, 90, 1, 50, 1, 90, 1, 4, 1, 15,
    ];
    assert_eq!(called.numbers, expected);
    // No rows with the letter: COUNT is 0, the others are null.
    let mut none = Draft::new(1, b"A | B", vec![1]);
    for function in 1..=6 {
        none = none.measure(function, b'B', 0);
    }
    let called = call(&none.finish());
    let expected = [1, 0, 1, 1, 0, 0, 0, 0, 0, 0, 0, 0, 0, 0, 0];
    assert_eq!(called.numbers, expected);
    let printed = program(&stdin::of_input(&none.finish()));
    assert_eq!(
        printed,
        b"matches 1 steps 3\n1 0 1 A 0 null null null null null\n"
    );
}

#[test]
fn places_as_written() {
    use reference::places::{unroll, Place};
    let laid = |text: &[u8]| unroll(&pattern::judge(text).expect("not refused"));
    let letter = |letter, next: usize| Place::Letter {
        letter,
        next: next.into(),
    };
    let fork = |ways: &[usize]| Place::Fork {
        ways: ways.iter().map(|&way| way.into()).collect(),
    };
    assert_eq!(laid(b"()"), [Place::End]);
    assert_eq!(
        laid(b"A+"),
        [letter(b'A', 1), fork(&[2, 3]), letter(b'A', 1), Place::End]
    );
    let bounded = [
        letter(b'A', 1),
        fork(&[5, 2]),
        letter(b'A', 3),
        fork(&[5, 4]),
        letter(b'A', 5),
        Place::End,
    ];
    assert_eq!(laid(b"A{1,3}?"), bounded);
    let branches = [
        fork(&[1, 4, 3]),
        letter(b'A', 2),
        Place::First { next: 4.into() },
        Place::Last { next: 4.into() },
        letter(b'B', 5),
        Place::End,
    ];
    assert_eq!(laid(b"(A ^ | () | $) B"), branches);
    assert_eq!(
        laid(b"(){,3} A"),
        [
            fork(&[1, 3]),
            fork(&[2, 3]),
            fork(&[3, 3]),
            letter(b'A', 4),
            Place::End
        ]
    );
}
