//! The traps found in document 01, points 1 to 16 of the list of open points,
//! and the sizes that the list gives for document 01.

mod common;

use common::*;
use reference::generate::draft::{define_body, with_column, with_number, Draft, Room, Tail};
use reference::generate::stdin;
use reference::pattern;
use reference::places::{unroll, Place, Way};
use reference::program::program;
use reference::query::{DEFINE, MEASURE, SHAPE, SKIP, TEXT};
use reference::search;

fn answer(draft: &Draft) -> u8 {
    search::room(&draft.query(), &draft.rows).0
}

fn simple() -> Draft {
    free(b"A", 2)
}

#[test]
fn point_1_over_the_whole_query() {
    let mut draft = Draft::new(9, b"(((((((((", vec![1, 2]).measure(8, b'Z', 0);
    assert_eq!(answer(&draft), 3);
    draft.records.push((6, vec![]));
    assert_eq!(answer(&draft), 2);
    draft.tail = Tail::Stray(vec![0]);
    assert_eq!(answer(&draft), 1);
    let measure = Draft::new(1, b"(((((((((", vec![1]).measure(1, 0, 1);
    assert_eq!(answer(&measure), 3);
    let pairs = Draft::new(2, b"(A{16}){16}", vec![1])
        .define(b'Q', &[with_number(0, 0, 1, 0)])
        .define(b'Q', &[with_number(0, 0, 1, 0)])
        .measure(1, b'B', 0);
    assert_eq!(answer(&pairs), 7);
}

#[test]
fn point_1_each_next_answer() {
    // One cause after another is taken away; the answer climbs each time.
    let one = [with_number(0, 0, 1, 0)];
    let mut draft = Draft::new(2, b"(((^*)*)*)* (A{99}){99} )", vec![1])
        .define(b'Q', &one)
        .define(b'Q', &one)
        .measure(1, b'B', 0);
    draft.notes = Room::Nothing;
    draft.trail = Room::Nothing;
    assert_eq!(answer(&draft), 5);
    *draft.body_mut(TEXT).unwrap() = b"(((^*)*)*)* (A{99}){99}".to_vec();
    assert_eq!(answer(&draft), 6);
    *draft.body_mut(TEXT).unwrap() = b"((^*)*)* (A{99}){99}".to_vec();
    assert_eq!(answer(&draft), 7);
    *draft.body_mut(TEXT).unwrap() = b"(A?) (A{9}){9}".to_vec();
    assert_eq!(answer(&draft), 8);
    draft.records.remove(2);
    assert_eq!(answer(&draft), 9);
    draft.records.pop();
    assert_eq!(answer(&draft), 10);
    draft.rows = vec![1, 1];
    assert_eq!(call(&draft.finish()).outcome.answer, 11);
    draft.notes = Room::Exact;
    assert_eq!(call(&draft.finish()).outcome.answer, 12);
    draft.trail = Room::Exact;
    assert_eq!(call(&draft.finish()).outcome.answer, 0);
}

#[test]
fn point_2_kinds() {
    assert_eq!(search::room(b"", &[]).0, 2);
    for kind in [0, 6, 0x0101, 0x0201, 65_535] {
        let mut draft = simple();
        draft.records[0].0 = kind;
        assert_eq!(answer(&draft), 2, "{kind}");
    }
    for bytes in 1..4 {
        assert_eq!(search::room(&vec![0; bytes], &[]).0, 1);
    }
    assert_eq!(search::room(&[0, 0, 1, 0], &[]).0, 2);
}

#[test]
fn point_3_fields() {
    let measured = |columns: u8, function, column| {
        answer(&Draft::new(columns, b"A", vec![]).measure(function, 0, column))
    };
    assert_eq!(measured(2, 2, 1), 0);
    assert_eq!(measured(2, 2, 2), 3);
    assert_eq!(measured(2, 1, 1), 3);
    assert_eq!(measured(1, 0, 0), 3);
    assert_eq!(measured(1, 8, 0), 3);
    let compared = |bytes: [u8; 12]| {
        // Q is not in the pattern; its fields are checked all the same.
        answer(&Draft::new(2, b"A", vec![]).define(b'Q', &[bytes]))
    };
    let number = with_number(1, -64, 6, i32::MIN);
    let column = with_column((1, 64), 1, (1, -64), i32::MAX);
    assert_eq!((compared(number), compared(column)), (0, 0));
    let changed = |from: [u8; 12], at: usize, to: u8| {
        let mut bytes = from;
        bytes[at] = to;
        compared(bytes)
    };
    for (at, to) in [
        (0, 2),
        (1, 65),
        (1, 191),
        (2, 0),
        (2, 7),
        (3, 2),
        (6, 1),
        (7, 1),
    ] {
        assert_eq!(changed(number, at, to), 3);
        assert_eq!(changed(column, at, to), 3);
    }
    assert_eq!((changed(number, 4, 1), changed(number, 5, 1)), (3, 3));
    assert_eq!((changed(column, 4, 2), changed(column, 5, 65)), (3, 3));
    assert_eq!((changed(column, 4, 0), changed(column, 5, 64)), (0, 0));
}

#[test]
fn point_3_defines_outside_the_pattern_count() {
    let one = [with_number(0, 0, 1, 9)];
    let twice = simple().define(b'Q', &one).define(b'Q', &one);
    assert_eq!(answer(&twice), 8);
    let every = |count: u8| (0..count).fold(simple(), |draft, at| draft.define(b'A' + at, &one));
    assert_eq!(answer(&every(26)), 0);
    assert_eq!(answer(&every(26).define(b'A', &one)), 2);
    // A DEFINE outside the pattern has no effect.
    assert_eq!(matches(&simple().define(b'Q', &one)), matches(&simple()));
}

#[test]
fn point_4_signed_raw_count() {
    let deep = |count: usize| [&b")"[..], &b"(".repeat(count)].concat();
    assert_eq!(answer_of_text(&deep(9)), 5);
    assert_eq!(answer_of_text(&deep(10)), 4);
    assert_eq!(answer_of_text(b"x((((((((("), 4);
    assert_eq!(answer_of_text(b"((((((((()))))))))"), 4);
    assert_eq!(answer_of_text(b"(((((((())))))))(((((((())))))))"), 0);
}

#[test]
fn point_5_spaces() {
    for text in ["A\t", "A\u{a0}", "A\n"] {
        assert_eq!(answer_of_text(text.as_bytes()), 5, "{text:?}");
    }
    for text in ["", " ", "      "] {
        assert_eq!(answer_of_text(text.as_bytes()), 14, "{text:?}");
    }
    for text in [" A", "A ", "  ( A  |B ) * ", "A   B", "A  {2}", " ^  $ "] {
        assert_eq!(answer_of_text(text.as_bytes()), 0, "{text:?}");
    }
}

#[test]
fn point_6_quantifiers() {
    let inside = [
        "A ??", "A??", "A{2}?", "A{0,}", "A{0,5}", "A{,1}", "A{99}", "A{1,99}", "A{5,5}", "A{,5}?",
        "A{10,}?", "A*?", "A+?", "A {2}?", "A ?B", "A?B?", "A{2}B", "A*B", "(A)B(C)D",
    ];
    for text in inside {
        assert_eq!(answer_of_text(text.as_bytes()), 0, "{text}");
    }
    let outside = [
        "A? ?", "A???", "A{2} ?", "A{0}", "A{0,0}", "A{,0}", "A{00}", "A{07}", "A{100}", "A{1,0}",
        "A{5,4}", "A{}", "A{ 2}", "A{2 }", "A{2, 3}", "A{2,,3}", "A{a}", "A2}", "{2}", "?", "A|*",
        "(*)", "()()**", "A{1}{1}", "A*+", "A*{2}", "A{00,1}", "A{1,01}", "A{,}?", "A* ?",
    ];
    for text in outside {
        assert_eq!(answer_of_text(text.as_bytes()), 5, "{text}");
    }
    let places = |text: &[u8]| unroll(&pattern::read(text).unwrap());
    assert_eq!(places(b"A{3}?"), places(b"A{3}"));
    assert_eq!(places(b"A{3,3}?"), places(b"A A A"));
}

#[test]
fn point_7_anchors_and_six_before_seven() {
    for text in ["^?", "(){99}", "()?", "${2}", "^{,3}", "()??", "(()){5}"] {
        assert_eq!(answer_of_text(text.as_bytes()), 0, "{text}");
    }
    for text in ["^*", "$+", "(){3,}", "()*", "(A|())+", "(A* B?)*?"] {
        assert_eq!(answer_of_text(text.as_bytes()), 0, "{text}");
    }
    // Four repetitions of nothing in one another, and more than 256 places.
    let both = b"(((((A?){99}){3,})*)*)*";
    assert_eq!(answer_of_text(both), 6);
    let both = pattern::read(both).unwrap();
    assert!(both.nesting() == 4 && both.count_with_end() > 256);
    assert_eq!(answer_of_text(b"((A?){99}){3,}"), 7);
}

#[test]
fn point_8_the_empty_pattern() {
    let draft = free(b"()", 4);
    assert_eq!(search::room(&draft.query(), &draft.rows), (0, 1, 4));
    let empty: Vec<(i64, String)> = (0..4).map(|row| found(row, "")).collect();
    assert_eq!(matches(&draft), empty);
    assert_eq!(steps(&draft), 4);
    let called = call(&draft.finish());
    assert_eq!((called.notes, called.trail), (vec![0], vec![0; 5]));
}

#[test]
fn point_9_one_fork_of_many_ways() {
    let places = unroll(&pattern::read(b"A|B|C|D").unwrap());
    let ways = [1, 2, 3, 4].map(Way::To).to_vec();
    assert_eq!(places[0], Place::Fork { ways });
    assert_eq!(places.len(), 6);
}

#[test]
fn point_10_ways_to_one_pair() {
    for text in [&b"()? B"[..], b"(()|()) B", b"()?? B"] {
        let draft = above(free(text, 1), b'B', 1);
        assert_eq!(steps(&draft), 2);
        let (plain, _, _) = call_plain(&draft.finish(), 100).unwrap();
        assert_eq!(plain.steps, 3);
    }
}

#[test]
fn point_11_leaving_goes_behind_the_factor() {
    let draft = above(free(b"A{,2} B", 1), b'A', 1);
    assert_eq!(steps(&draft), 4);
    let longer = above(free(b"A{,9} B", 1), b'A', 1);
    assert_eq!(steps(&longer), 4);
}

#[test]
fn point_12_a_start_that_has_failed() {
    let draft = above(free(b"A* B", 3), b'B', 1);
    // All pairs but those of END fail in the first attempt.
    assert_eq!(steps(&draft), 12);
    assert_eq!(call(&draft.finish()).notes, [0b0111_0111, 0b0111_0111]);
}

#[test]
fn point_13_behind_the_last_row() {
    for n in 0..4 {
        let draft = free(b"$", n);
        assert_eq!(matches(&draft), []);
        assert_eq!(steps(&draft), n as u64);
    }
    assert_eq!(matches(&free(b"^", 3)), [found(0, "")]);
    assert_eq!(matches(&free(b"^", 0)), []);
}

#[test]
fn point_14_rooms() {
    let answers = |draft: &Draft, numbers: usize, labels: usize| {
        let mut input = draft.finish();
        (input.numbers, input.labels) = (numbers, labels);
        let called = call(&input);
        (
            called.outcome.answer,
            called.outcome.matches,
            called.outcome.labels,
        )
    };
    let none = above(free(b"A", 3), b'A', 1);
    assert_eq!(answers(&none, 0, 0), (0, 0, 0));
    let empty = free(b"()", 2);
    assert_eq!(answers(&empty, 6, 0), (0, 2, 0));
    assert_eq!(answers(&empty, 5, 0), (13, 1, 0));
    assert_eq!(answers(&empty, 0, 0), (13, 0, 0));
    let two = free(b"A A", 5);
    assert_eq!(answers(&two, 6, 4), (0, 2, 4));
    assert_eq!(answers(&two, 6, 3), (13, 1, 2));
    assert_eq!(answers(&two, 5, 4), (13, 1, 2));
    assert_eq!(answers(&two, 3, 2), (13, 1, 2));
    assert_eq!(answers(&two, 3, 1), (13, 0, 0));
}

#[test]
fn point_14_no_later_smaller_match() {
    // Rows 0 and 1 do not fit the one label; row 2 alone would.
    let draft = Draft::new(1, b"A A | B", vec![1, 1, 0]).define(b'A', &[with_number(0, 0, 1, 1)]);
    let mut input = draft.finish();
    input.labels = 1;
    let called = call(&input);
    assert_eq!(called.outcome.answer, 13);
    assert_eq!((called.outcome.matches, called.outcome.labels), (0, 0));
    assert_eq!(called.outcome.steps, 4);
    assert_eq!((called.numbers, called.labels), (vec![7; 6], vec![7]));
    // The rest of the search is not walked: nothing has failed.
    assert_eq!(called.notes, [0; 3]);
}

#[test]
fn point_15_copies_written_out() {
    let same = [
        (&b"(A?){3}"[..], &b"A? A? A?"[..]),
        (b"(A|()){2}", b"(A|()) (A|())"),
        (b"(A|()){,2}", b"((A|()) (A|())?)?"),
        (b"(A|()){1,3}?", b"(A|()) ((A|()) (A|())??)??"),
        (b"(A B?){2,}", b"(A B?) (A B?) (A B?)*"),
        (b"A{2,}?", b"A A A*?"),
        (b"A+", b"A A*"),
    ];
    for (one, other) in same {
        let places = |text: &[u8]| unroll(&pattern::read(text).unwrap());
        assert_eq!(places(one), places(other));
    }
}

#[test]
fn point_16_program() {
    let w = |length: u16, rest: &[u8]| program(&[&length.to_le_bytes()[..], rest].concat());
    assert_eq!(program(b""), b"refused 1\n");
    assert_eq!(program(&[5]), b"refused 1\n");
    assert_eq!(program(&[255]), b"refused 1\n");
    assert_eq!(w(4097, b""), b"too large\n");
    assert_eq!(w(4096, b""), b"refused 1\n");
    assert_eq!(w(1, b""), b"refused 1\n");
    assert_eq!(w(0, b""), b"refused 2\n");
    assert_eq!(w(0, &vec![0; 32_768]), b"refused 2\n");
    assert_eq!(w(0, &vec![0; 32_769]), b"too large\n");
    assert_eq!(w(1, &vec![0; 32_769]), b"refused 1\n");
    assert_eq!(w(1, &vec![0; 32_770]), b"too large\n");
}

#[test]
fn point_16_ranks() {
    let with_tail = |draft: &Draft, tail: usize| {
        let mut bytes = stdin::whole(&draft.query(), &draft.rows);
        bytes.extend(vec![0; tail]);
        program(&bytes)
    };
    let stranger = free(b"A", 1).measure(2, b'B', 0);
    assert_eq!(with_tail(&stranger, 1), b"refused 9\n");
    assert_eq!(with_tail(&free(b"A", 1), 3), b"refused 10\n");
    assert_eq!(
        with_tail(&free(b"A", 1), 4),
        b"matches 2 steps 4\n1 0 1 A\n2 1 1 A\n"
    );
    let large = |n, tail| with_tail(&free(b"(A{50}){4} A{49}", n), tail);
    assert!(large(63, 0).starts_with(b"matches 0 steps "));
    assert_eq!(large(64, 0), b"too large\n");
    assert_eq!(large(64, 1), b"refused 10\n");
    assert_eq!(with_tail(&free(b"A", 4097), 0), b"refused 10\n");
    assert_eq!(
        with_tail(&free(b"A", 4096), 0)
            .split(|&b| b == b'\n')
            .next(),
        Some(&b"stopped 2730 steps 5462"[..])
    );
}

#[test]
fn program_lines() {
    let draft = above(Draft::new(1, b"A*", vec![1, 1, 0]), b'A', 0).measure(6, b'A', 0);
    let printed = program(&stdin::of_input(&draft.finish()));
    assert_eq!(printed, b"matches 2 steps 9\n1 0 2 AA 1\n2 2 0 - null\n");
    assert_eq!(
        program(&stdin::of_input(&free(b"A", 0).finish())),
        b"matches 0 steps 0\n"
    );
    for long in stdin::long() {
        let printed = program(&long);
        assert_eq!(printed.last(), Some(&b'\n'));
    }
    let labels = |n| program(&stdin::of_input(&free(b"A*", n).to_next_row().finish()));
    assert!(labels(361).starts_with(b"matches 361 "));
    assert!(labels(362).starts_with(b"stopped "));
}

#[test]
fn sizes() {
    let ways = [&b"(("[..], &b"()|".repeat(81), b"()){85}){3}"].concat();
    let places = unroll(&pattern::judge(&ways).unwrap());
    let count: usize = places
        .iter()
        .map(|place| match place {
            Place::Fork { ways } => ways.len(),
            _ => 0,
        })
        .sum();
    assert_eq!((places.len(), count), (256, 20_910));
    let largest = reference::generate::texts::largest();
    assert_eq!(largest.len(), 256);
    assert_eq!(answer_of_text(&largest), 7);
    let count = pattern::read(&largest).unwrap().count_with_end();
    assert!((65.7..65.9).contains(&(count as f64).log2()));
    assert_eq!(answer_of_text(&b"^".repeat(256)), 7);
    assert_eq!(answer_of_text(&b"^".repeat(255)), 0);
    assert_eq!(places_of(&[&b"A|".repeat(127)[..], b"A"].concat()), 130);
}

#[test]
fn the_longest_accepted_query() {
    let comparisons = [with_number(0, 0, 6, 0); 8];
    let mut draft = Draft::new(1, &[&b"A"[..], &b" ".repeat(255)].concat(), vec![1]);
    for letter in b'A'..=b'Z' {
        draft.add_define(define_body(letter, &comparisons));
    }
    for _ in 0..8 {
        draft = draft.measure(6, b'A', 0);
    }
    assert_eq!(draft.query().len(), 2_988);
    assert_eq!(answer(&draft), 0);
    let count = |kind| draft.places_of(kind).len();
    assert_eq!(
        [SHAPE, TEXT, DEFINE, SKIP, MEASURE].map(count),
        [1, 1, 26, 1, 8]
    );
}

#[test]
fn the_largest_searches() {
    let mut measured = free(b"A", 4096);
    for _ in 0..8 {
        measured = measured.measure(2, b'A', 0);
    }
    let input = measured.finish();
    assert_eq!((input.numbers, input.labels), (77_824, 4_096));
    assert_eq!(call(&input).outcome.matches, 4_096);
    let every = free(b"A*", 4096).to_next_row();
    assert_eq!(every.finish().labels, 8_390_656);
    let deep = free(b"(A{51}){5}", 4096).finish();
    assert_eq!(deep.trail, 1_048_832);
    // One path through all rows, three pairs for most of them.
    let path = free(b"(A|()){,42} (A|B|C|D|E|F)* $", 4096).finish();
    assert_eq!(call(&path).outcome.matches, 1);
}
