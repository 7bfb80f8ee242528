//! Document 02, R-2, skip to a labelled row: the skip record with its answers 3 and
//! 9, the next start, answer 15, that 13 comes first, what is printed, and searches
//! worked out by hand with their steps and notes.

mod common;

use common::*;
use reference::generate::draft::{with_number, Draft, Room};
use reference::generate::stdin;
use reference::program::program;
use reference::query::{self, Skip, SKIP};
use reference::search::{self, next_start, Outcome};

fn answer(draft: &Draft) -> u8 {
    search::room(&draft.query(), &draft.rows).0
}

fn ends_with(draft: &Draft) -> (u8, u64, u64, u64) {
    let outcome = call(&draft.finish()).outcome;
    (
        outcome.answer,
        outcome.matches,
        outcome.labels,
        outcome.steps,
    )
}

#[test]
fn the_record_in_bytes() {
    let query = free(b"A+ B", 0).to_last(b'B').query();
    assert_eq!(query[query.len() - 6..], [2, 0, 4, 0, 3, 0x42]);
    let skip = |draft: Draft| query::read(&draft.query()).map(|query| query.skip);
    assert_eq!(skip(free(b"A", 0)), Ok(Skip::PastLastRow));
    assert_eq!(skip(free(b"A", 0).to_next_row()), Ok(Skip::ToNextRow));
    assert_eq!(skip(free(b"A", 0).to_first(b'A')), Ok(Skip::ToFirst(b'A')));
    assert_eq!(skip(free(b"A", 0).to_last(b'Z')), Ok(Skip::ToLast(b'Z')));
}

#[test]
fn every_record() {
    for mode in 0..=255 {
        for letter in 0..=255 {
            let expected = match (mode, letter) {
                (0 | 1, 0) => 0,
                (2 | 3, b'A' | b'B') => 0,
                (2 | 3, b'C'..=b'Z') => 9,
                _ => 3,
            };
            let draft = free(b"A+ B", 2).with_skip(mode, letter);
            assert_eq!(answer(&draft), expected, "{mode} {letter}");
        }
    }
    for body in [vec![], vec![2], vec![2, b'A', 0], vec![3, b'B', b'B']] {
        let mut draft = free(b"A+ B", 2);
        *draft.body_mut(SKIP).unwrap() = body;
        assert_eq!(answer(&draft), 3);
    }
}

#[test]
fn the_letter_is_looked_for_in_the_pattern() {
    // Any letter of it will do, also one that can label no row; a DEFINE is not
    // enough, nor is a measure.
    assert_eq!(answer(&free(b"(A B?){2} | C", 1).to_first(b'C')), 0);
    let held = [with_number(0, 0, 1, 1)];
    assert_eq!(answer(&free(b"A", 1).define(b'B', &held).to_first(b'B')), 9);
    assert_eq!(answer(&free(b"A", 1).measure(1, b'A', 0).to_last(b'B')), 9);
    for text in [&b"()"[..], b"^ $", b"()?"] {
        assert_eq!(answer(&free(text, 1).to_first(b'A')), 9);
    }
    // Under the modes 0 and 1 no letter is asked for.
    assert_eq!(answer(&free(b"()", 1).to_next_row()), 0);
}

#[test]
fn ranks() {
    let one = [with_number(0, 0, 1, 0)];
    let mut draft = Draft::new(2, b"A{99} A{99} A{99}", vec![1])
        .define(b'Q', &one)
        .define(b'Q', &one)
        .to_last(b'a');
    assert_eq!(answer(&draft), 3);
    draft = draft.to_last(b'B');
    assert_eq!(answer(&draft), 7);
    draft.records[1].1 = b"A{99}".to_vec();
    assert_eq!(answer(&draft), 8);
    draft.records.remove(2);
    assert_eq!(answer(&draft), 9);
    draft = draft.to_last(b'A');
    assert_eq!(answer(&draft), 10);
    // A text that could go on comes before the letter that it might still get.
    assert_eq!(answer(&free(b"A |", 1).to_first(b'B')), 14);
}

#[test]
fn next_starts() {
    let first = |labels: &[u8]| next_start(Skip::ToFirst(b'B'), 10, labels);
    let last = |labels: &[u8]| next_start(Skip::ToLast(b'B'), 10, labels);
    // Labels, to the first B, to the last B.
    let table: [(&[u8], Option<usize>, Option<usize>); 9] = [
        (b"", Some(11), Some(11)),
        (b"A", None, None),
        (b"B", None, None),
        (b"AAA", None, None),
        (b"AB", Some(11), Some(11)),
        (b"ABAB", Some(11), Some(13)),
        (b"BAA", None, None),
        (b"BAB", None, Some(12)),
        (b"AABBA", Some(12), Some(13)),
    ];
    for (labels, to_first, to_last) in table {
        assert_eq!((first(labels), last(labels)), (to_first, to_last));
    }
    assert_eq!(next_start(Skip::PastLastRow, 10, b"BAB"), Some(13));
    assert_eq!(next_start(Skip::ToNextRow, 10, b"BAB"), Some(11));
    assert_eq!(next_start(Skip::PastLastRow, 10, b""), Some(11));
    assert_eq!(next_start(Skip::ToNextRow, 10, b""), Some(11));
}

/// Places of `A B+`: 0 A, 1 B, 2 fork, 3 B, 4 END.
#[test]
fn to_the_first_by_hand() {
    // From row 0: A, B, then fork and B for rows 2 and 3, the fork at 4, B failing
    // there, END: 9 steps. From row 1, where the first B is: A, B, fork, B, fork, END,
    // since (3,4) has failed: 6. From row 2: A, B, fork, END: 4. From row 3: A, and B
    // failing behind the rows: 2.
    let draft = free(b"A B+", 4).to_first(b'B');
    let rows = [found(0, "ABBB"), found(1, "ABB"), found(2, "AB")];
    assert_eq!(matches(&draft), rows);
    assert_eq!(ends_with(&draft), (0, 3, 9, 21));
    // Failed: (0,3), (1,4) and (3,4), bits 15, 21 and 23.
    assert_eq!(call(&draft.finish()).notes, [0, 0x80, 0xA0, 0]);
}

#[test]
fn to_the_last_by_hand() {
    // From row 0 as above; from row 3, where the last B is: A, and B failing.
    let draft = free(b"A B+", 4).to_last(b'B');
    assert_eq!(matches(&draft), [found(0, "ABBB")]);
    assert_eq!(ends_with(&draft), (0, 1, 4, 11));
}

#[test]
fn the_labelled_row_is_the_first() {
    // The match is written, and the notes hold what failed by then: (3,4), bit 23.
    for draft in [
        free(b"A B+", 4).to_first(b'A'),
        free(b"A B+", 4).to_last(b'A'),
    ] {
        let called = call(&draft.finish());
        let outcome = Outcome {
            answer: 15,
            matches: 1,
            labels: 4,
            steps: 9,
            offset: 0,
        };
        assert_eq!(called.outcome, outcome);
        assert_eq!(called.numbers, [1, 0, 4]);
        assert_eq!(called.labels, *b"ABBB");
        assert_eq!(called.notes, [0, 0, 0x80, 0]);
        assert_eq!(called.trail, [0; 25]);
    }
}

#[test]
fn the_letter_labels_no_row() {
    // B is in the pattern but not in the match. No further start is there, and 15
    // is given all the same.
    for draft in [
        free(b"A | B", 1).to_first(b'B'),
        free(b"A | B", 1).to_last(b'B'),
    ] {
        assert_eq!(ends_with(&draft), (15, 1, 1, 3));
    }
    // Matches behind it are not looked for.
    assert_eq!(ends_with(&free(b"A | B", 9).to_last(b'B')), (15, 1, 1, 3));
}

#[test]
fn the_last_row_of_several() {
    // A labels the first row too, but the last A is row 2.
    let draft = free(b"A B A", 4).to_last(b'A');
    assert_eq!(matches(&draft), [found(0, "ABA")]);
    // A, B, A, END; from row 2 A and B, and A failing behind the rows; from row 3 A,
    // and B failing.
    assert_eq!(ends_with(&draft), (0, 1, 3, 9));
    assert_eq!(ends_with(&free(b"A B A", 4).to_first(b'A')), (15, 1, 3, 4));
    let longer = free(b"A B A", 5).to_last(b'A');
    assert_eq!(matches(&longer), [found(0, "ABA"), found(2, "ABA")]);
}

#[test]
fn after_an_empty_match_one_row_on() {
    // W4 has empty matches alone: the same in all modes.
    let w4 = above(Draft::new(1, b"A*?", vec![1, 1, 0]), b'A', 0);
    for draft in w4.in_every_mode() {
        assert_eq!(ends_with(&draft), (0, 3, 0, 6));
    }
    // W3 goes on at the last A, row 1, where the A is the first row: 7 and 4 steps.
    let w3 = above(Draft::new(1, b"A*", vec![1, 1, 0]), b'A', 0);
    let last = w3.clone().to_last(b'A');
    assert_eq!(matches(&last), [found(0, "AA"), found(1, "A")]);
    assert_eq!(ends_with(&last), (15, 2, 3, 11));
    assert_eq!(ends_with(&w3.to_first(b'A')), (15, 1, 2, 7));
    // An empty match, then one with rows, then none: B alone is at row 1.
    let mixed = Draft::new(1, b"(B C)?", vec![0, 2, 3]);
    let mixed = mixed
        .define(b'B', &[with_number(0, 0, 1, 2)])
        .define(b'C', &[with_number(0, 0, 1, 3)])
        .to_first(b'C');
    let rows = [found(0, ""), found(1, "BC"), found(2, "")];
    assert_eq!(matches(&mixed), rows);
}

#[test]
fn w1_at_a_labelled_row() {
    // W1 finds AAB at rows 1 to 3 in 8 steps, the failing start at row 0 among them.
    // To the last A, row 2: A, fork, B: 115 is below 120, so (2,3) has failed, and
    // END at 4. From there A is the first row: a 15.
    let prev = |operator| reference::generate::draft::with_column((0, 0), operator, (0, -1), 0);
    let w1 = Draft::new(1, b"A+ B", vec![100, 110, 120, 115, 130])
        .define(b'A', &[prev(5)])
        .define(b'B', &[prev(3)]);
    let last = w1.clone().to_last(b'A');
    assert_eq!(matches(&last), [found(1, "AAB"), found(2, "AB")]);
    assert_eq!(ends_with(&last), (15, 2, 5, 12));
    assert_eq!(ends_with(&w1.clone().to_first(b'A')), (15, 1, 3, 8));
    // To B, row 3: that start fails in one step, and row 4 takes 4 as in W1.
    assert_eq!(ends_with(&w1.clone().to_first(b'B')), (0, 1, 3, 13));
    assert_eq!(ends_with(&w1.to_last(b'B')), (0, 1, 3, 13));
}

#[test]
fn thirteen_comes_first() {
    let draft = free(b"A", 1).to_first(b'A');
    let ends = |numbers, labels| {
        let mut input = draft.finish();
        (input.numbers, input.labels) = (numbers, labels);
        let called = call(&input);
        (
            called.outcome.answer,
            called.outcome.matches,
            called.numbers,
        )
    };
    assert_eq!(ends(3, 1), (15, 1, vec![1, 0, 1]));
    assert_eq!(ends(2, 1), (13, 0, vec![7, 7]));
    assert_eq!(ends(3, 0), (13, 0, vec![7, 7, 7]));
    assert_eq!(ends(0, 0), (13, 0, vec![]));
    // The steps are the same, as the unfitting match's search counts.
    let mut stopped = above(Draft::new(1, b"A*", vec![1, 1, 0]), b'A', 0).to_last(b'A');
    assert_eq!(ends_with(&stopped), (15, 2, 3, 11));
    stopped.labels = Room::OneShort;
    assert_eq!(ends_with(&stopped), (13, 1, 2, 11));
}

#[test]
fn printed_as_for_thirteen() {
    let printed = |draft: &Draft| program(&stdin::of_input(&draft.finish()));
    let stuck = free(b"A | B", 3).to_first(b'B').measure(1, b'B', 0);
    assert_eq!(printed(&stuck), b"stopped 1 steps 3\n1 0 1 A 0\n");
    let done = free(b"A B+", 4).to_last(b'B');
    assert_eq!(printed(&done), b"matches 1 steps 11\n1 0 4 ABBB\n");
    assert_eq!(printed(&free(b"A", 1).to_first(b'B')), b"refused 9\n");
    assert_eq!(printed(&free(b"A", 1).to_first(b'a')), b"refused 3\n");
    let with_letter = free(b"A", 1).with_skip(1, b'A');
    assert_eq!(printed(&with_letter), b"refused 3\n");
}

/// Places: A, a fork, 248 forks whose two ways are one, the next letter, END. Each
/// start s but the first takes A, 249 forks and the letter at each row behind it, and
/// at the end one fork and END, as what lies behind that fork has failed by then.
#[test]
fn the_bound_is_near() {
    let forks = "(()?){99} (()?){99} (()?){50}";
    let n = 40;
    let first = format!("A ({forks} B)*");
    let first = free(first.as_bytes(), n).to_first(b'B');
    let starts = (1..n).map(|start| 1 + 250 * (n - start - 1) + 2);
    let by_hand = 1 + 250 * n + 1 + starts.sum::<usize>();
    assert_eq!(by_hand, 195_369);
    let (_, places, _) = search::room(&first.query(), &first.rows);
    assert_eq!(places, 252);
    // At the last row A is alone, and no B is there to go on at.
    assert_eq!(ends_with(&first), (15, 40, 820, 195_369));
    let most = places * n * (n + 3) / 2;
    assert_eq!(most, 216_720);
    // The same with one letter more before the repetition, to the last row with it.
    let last = format!("A B ({forks} C)*");
    let last = free(last.as_bytes(), n).to_last(b'B');
    let (answer, matches, _, steps) = ends_with(&last);
    assert_eq!((answer, matches), (0, 39));
    assert!((150_000..=253 * 860).contains(&steps), "{steps}");
    // Without rows nothing is entered, and the bound is 0.
    assert_eq!(ends_with(&free(b"A", 0).to_first(b'A')), (0, 0, 0, 0));
}
