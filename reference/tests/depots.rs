//! Document 02, R-4, the depot-by-month table: sequences worked out by hand, what gets no
//! number and what it leaves, the rank of a named column outside the shape, the last
//! number; and for listed and random sequences that the table told from the reports is
//! the one counted up match by match from searches of the partitions alone.

mod common;

use common::*;
use reference::depots::{self, Report, Reports, LISTED, OUTSIDE, PARTITIONS, WORDS};
use reference::generate::draft::{Draft, Input};
use reference::generate::partitions::{self, Sequence, Sort, SORTS};
use reference::generate::Random;
use reference::search::{self, Outcome};
use std::collections::BTreeMap;

/// What every number of a list holds before the first call.
const UNUSED: u32 = 77;

/// A table and its list, as calls leave them.
struct Kept {
    reports: Reports,
    state: Vec<u64>,
    list: Vec<u32>,
}

impl Kept {
    fn new(depot: u64, month: u64, list: usize) -> Kept {
        let mut kept = Kept {
            reports: Reports::new(depot, month),
            state: vec![9; WORDS + 1],
            list: vec![UNUSED; list],
        };
        assert_eq!(depots::begin(&mut kept.state, depot, month), 0);
        kept
    }

    fn of(sequence: &Sequence) -> Kept {
        let mut kept = Kept::new(sequence.depot, sequence.month, sequence.list);
        kept.reports.all = sequence.before.clone();
        kept.reports.write(&mut kept.state, &mut kept.list);
        kept
    }

    /// The outcome, and whether the four buffers are as a search by itself leaves them,
    /// and as they were.
    fn take(&mut self, input: &Input) -> (Outcome, bool, bool) {
        let mut notes = vec![FILL; input.notes];
        let mut trail = vec![u32::from(FILL); input.trail];
        let mut numbers = vec![i64::from(FILL); input.numbers];
        let mut labels = vec![FILL; input.labels];
        let outcome = self.reports.take(
            self.list.len(),
            &input.query,
            &input.rows,
            (&mut notes, &mut trail, &mut numbers, &mut labels),
        );
        self.reports.write(&mut self.state, &mut self.list);
        let own = call(input);
        let searched = (&notes, &trail, &numbers, &labels)
            == (&own.notes, &own.trail, &own.numbers, &own.labels);
        let as_filled = notes.iter().chain(&labels).all(|&it| it == FILL)
            && trail.iter().all(|&it| it == u32::from(FILL))
            && numbers.iter().all(|&it| it == i64::from(FILL));
        assert_eq!(self.state[WORDS], 9);
        (outcome, searched, as_filled)
    }

    fn answers(&mut self, sorts: &[Sort]) -> Vec<u8> {
        let answer = |sort: &Sort| self.take(&sort.input()).0.answer;
        sorts.iter().map(answer).collect()
    }

    /// The cells that are not 0.
    fn counted(&self) -> Vec<(usize, u64)> {
        let cells = self.state[..=OUTSIDE].iter().copied().enumerate();
        cells.filter(|&(_, count)| count > 0).collect()
    }
}

fn cell(depot: usize, month: usize) -> usize {
    12 * depot + month - 1
}

#[test]
fn each_sort_ends_as_named() {
    let mut kept = Kept::new(0, 1, 40);
    let answers = kept.answers(&SORTS);
    assert_eq!(answers, [0, 0, 0, 1, 5, 10, 14, 3, 13, 15]);
    let counted = [(cell(1, 2), 1), (cell(3, 4), 1), (cell(5, 6), 1)];
    assert_eq!(kept.counted(), counted);
    let entries = [4, 1, 5, 5, 6, 10, 7, 14, 8, 3, 9, 13, 10, 15];
    assert_eq!(kept.list[..14], entries);
    assert_eq!(kept.list[14..], [UNUSED; 26]);
    assert_eq!(kept.state[PARTITIONS..WORDS], [10, 14, 0, 1]);
}

/// `A B?` on five rows: the first row counts, not the last; out in one way or both is one
/// outside.
#[test]
fn by_first_row() {
    let rows = vec![63, 12, 0, 1, 64, 1, 5, 5, 7, 13];
    let input = Draft::new(2, b"A B?", rows.clone()).finish();
    let mut kept = Kept::new(0, 1, 0);
    assert_eq!(kept.take(&input).0.matches, 3);
    assert_eq!(kept.counted(), [(cell(63, 12), 1), (OUTSIDE, 2)]);
    // By the other column first: 12, 63 and 1, 64 and 13, 7.
    let mut kept = Kept::new(1, 0, 0);
    kept.take(&input);
    assert_eq!(kept.counted(), [(cell(13, 7), 1), (OUTSIDE, 2)]);
    // Both by one column: depot and month 63, 64 and 7.
    let mut kept = Kept::new(0, 0, 0);
    kept.take(&input);
    assert_eq!(kept.counted(), [(cell(7, 7), 1), (OUTSIDE, 2)]);
    // To next row each row is a first one; all empty, the same.
    for (text, mode) in [(&b"A B?"[..], 1), (b"A*?", 0)] {
        let input = Draft::new(2, text, rows.clone())
            .with_skip(mode, 0)
            .finish();
        let mut kept = Kept::new(0, 1, 0);
        assert_eq!(kept.take(&input).0.matches, 5);
        let inside = [(cell(0, 1), 1), (cell(5, 5), 1), (cell(63, 12), 1)];
        assert_eq!(kept.counted()[..3], inside);
        assert_eq!(kept.counted()[3..], [(OUTSIDE, 2)]);
    }
}

#[test]
fn places() {
    assert_eq!((WORDS, OUTSIDE, PARTITIONS, LISTED), (773, 768, 769, 770));
    let mut seen = vec![0; OUTSIDE + 1];
    for depot in -3..70 {
        for month in -3..20 {
            seen[depots::place(depot, month)] += 1;
        }
    }
    assert!(seen[..OUTSIDE].iter().all(|&count| count == 1));
    assert_eq!(seen[OUTSIDE], 73 * 23 - 768);
}

/// An entry that does not fit: 20 and zeros, no number, and the buffers as its own answer
/// leaves them; what is done goes on.
#[test]
fn full_list() {
    for length in [0, 1] {
        let mut kept = Kept::new(0, 1, length);
        kept.take(&Sort::Done.input());
        let (state, list) = (kept.state.clone(), kept.list.clone());
        for sort in SORTS {
            let (outcome, searched, as_filled) = kept.take(&sort.input());
            let own = call(&sort.input()).outcome;
            if own.answer == 0 && sort != Sort::Narrow {
                assert_eq!(outcome, own);
                assert_eq!(kept.state[PARTITIONS], 2);
                kept = Kept::new(0, 1, length);
                kept.take(&Sort::Done.input());
                continue;
            }
            assert_eq!(
                (outcome.answer, outcome.matches, outcome.labels),
                (20, 0, 0)
            );
            assert_eq!((outcome.steps, outcome.offset), (0, 0));
            assert_eq!((&kept.state, &kept.list), (&state, &list));
            assert_eq!(searched, sort != Sort::Narrow, "{sort:?}");
            let stopped = [Sort::Stopped, Sort::Stuck].contains(&sort);
            assert_eq!(as_filled, !stopped);
        }
    }
    // The number that a 20 did not take goes to the next one; the last of an odd list
    // stays unused.
    let mut kept = Kept::new(0, 1, 3);
    let sorts = [
        Sort::Cut,
        Sort::Stopped,
        Sort::Done,
        Sort::Cut,
        Sort::NoRows,
    ];
    assert_eq!(kept.answers(&sorts), [1, 20, 0, 20, 0]);
    assert_eq!(kept.list, [1, 1, UNUSED]);
    assert_eq!(kept.state[PARTITIONS..=LISTED], [3, 2]);
}

#[test]
fn last_number() {
    let before = |times| Report {
        times,
        answer: 0,
        firsts: vec![(1, 2); 4_096],
    };
    let mut kept = Kept::new(0, 1, 9);
    kept.reports.all = vec![before(65_534)];
    assert_eq!(kept.answers(&[Sort::Cut]), [1]);
    assert_eq!(kept.list[..2], [65_535, 1]);
    for sort in SORTS {
        let (outcome, _, as_filled) = kept.take(&sort.input());
        assert_eq!((outcome.answer, outcome.matches, outcome.steps), (20, 0, 0));
        assert!(as_filled);
    }
    assert_eq!(kept.state[PARTITIONS..=LISTED], [65_535, 2]);
    // The largest that a cell can be.
    kept.reports.all = vec![before(65_535)];
    assert_eq!(kept.reports.cells()[cell(1, 2)], 268_431_360);
}

/// 3 behind 1 and 2, before all others; also without rows.
#[test]
fn column_outside() {
    let draft = Draft::new(2, b"A", vec![1, 2]);
    let mut texts = vec![(draft.finish(), 3)];
    texts.push((Draft::new(2, b"A", Vec::new()).finish(), 3));
    for text in [
        &b"((((((((("[..],
        b"A)",
        b"(A",
        b"((((A*)*)*)*)*",
        b"(A{16}){17}",
    ] {
        texts.push((Draft::new(2, text, vec![1, 2, 3]).finish(), 3));
    }
    texts.push((draft.clone().measure(1, b'B', 0).finish(), 3));
    texts.push((draft.with_lengths([0; 4]), 3));
    let mut cut = draft.finish();
    cut.query.pop();
    texts.push((cut, 1));
    let mut missing = draft.clone();
    missing.records.pop();
    texts.push((missing.finish(), 2));
    for (depot, month) in [
        (2, 0),
        (0, 2),
        (2, 2),
        (8, 0),
        (0, u64::MAX),
        (256, 1),
        (1, 1 << 32),
    ] {
        for (input, answer) in &texts {
            let mut kept = Kept::new(depot, month, 2);
            let (outcome, _, as_filled) = kept.take(input);
            assert_eq!((outcome.answer, outcome.offset), (*answer, 0));
            assert!(as_filled);
            assert_eq!(kept.list, [1, u32::from(*answer)]);
        }
    }
    // The same in the shape.
    let mut kept = Kept::new(1, 1, 40);
    let answers: Vec<u8> = texts.iter().map(|it| kept.take(&it.0).0.answer).collect();
    assert_eq!(answers, [0, 0, 4, 5, 14, 6, 7, 9, 11, 1, 2]);
}

#[test]
fn short_state() {
    for length in [0, 1, WORDS - 1] {
        let mut state = vec![9; length];
        assert_eq!(depots::begin(&mut state, 1, 2), 20);
        assert_eq!(state, vec![9; length]);
    }
    let mut state = vec![9; WORDS];
    assert_eq!(depots::begin(&mut state, 7, u64::MAX), 0);
    assert!(state[..WORDS - 2].iter().all(|&word| word == 0));
    assert_eq!(state[WORDS - 2..], [7, u64::MAX]);
}

/// Counts up word by word what searches of the partitions alone say.
struct CountedUp {
    state: Vec<u64>,
    list: Vec<u32>,
}

impl CountedUp {
    fn take(&mut self, depot: u64, month: u64, input: &Input) -> u8 {
        if self.state[PARTITIONS] == 65_535 {
            return 20;
        }
        let columns = search::accept(&input.query, &[]).map(|it| it.query.columns);
        let shape = reference::query::read(&input.query).map_or(8, |it| it.columns as u64);
        let own = call(input);
        let outside = depot >= shape || month >= shape;
        let answer = match own.outcome.answer {
            answer @ 1..=2 => answer,
            _ if outside => 3,
            answer => answer,
        };
        let used = self.state[LISTED] as usize;
        match answer {
            0 => {
                let columns = columns.expect("a query that is not refused");
                for (first, _) in found_in(input, &own) {
                    let entry = |column: u64| input.rows[first * columns + column as usize];
                    let cell = match (entry(depot), entry(month)) {
                        (depot @ 0..=63, month @ 1..=12) => cell(depot as usize, month as usize),
                        _ => OUTSIDE,
                    };
                    self.state[cell] += 1;
                }
            }
            _ if used + 2 > self.list.len() => return 20,
            _ => {
                self.list[used] = self.state[PARTITIONS] as u32 + 1;
                self.list[used + 1] = answer.into();
                self.state[LISTED] += 2;
            }
        }
        self.state[PARTITIONS] += 1;
        answer
    }
}

/// First row and rows taken of each match.
fn found_in(input: &Input, called: &Called) -> Vec<(usize, usize)> {
    let accepted = search::accept(&input.query, &input.rows).expect("accepted");
    let per_match = accepted.numbers_per_match();
    let written = called.numbers.chunks(per_match);
    written
        .take(called.outcome.matches as usize)
        .map(|one| (one[1] as usize, one[2] as usize))
        .collect()
}

/// How often each answer was given.
fn check(sequences: impl Iterator<Item = Sequence>) -> BTreeMap<u8, usize> {
    let mut answers = BTreeMap::new();
    for sequence in sequences.filter(|it| it.state >= WORDS) {
        let mut kept = Kept::of(&sequence);
        let mut counted = CountedUp {
            state: kept.state.clone(),
            list: kept.list.clone(),
        };
        for input in &sequence.partitions {
            let (outcome, _, _) = kept.take(input);
            let answer = counted.take(sequence.depot, sequence.month, input);
            assert_eq!(outcome.answer, answer, "{sequence:?}");
            assert_eq!(kept.state, counted.state, "{sequence:?}");
            assert_eq!(kept.list, counted.list, "{sequence:?}");
            *answers.entry(answer).or_insert(0) += 1;
        }
    }
    answers
}

#[test]
fn listed_sequences() {
    let answers = check(partitions::every_cell());
    assert_eq!(answers, BTreeMap::from([(0, 69 * 16 + 144)]));
    let answers = check(partitions::every_sequence());
    for answer in [0, 1, 3, 5, 10, 13, 14, 15, 20] {
        assert!(
            answers.get(&answer).is_some_and(|&count| count > 300),
            "{answers:?}"
        );
    }
    let answers = check(partitions::about_the_last());
    for answer in [0, 1, 3, 5, 10, 13, 14, 15, 20] {
        assert!(
            answers.get(&answer).is_some_and(|&count| count > 30),
            "{answers:?}"
        );
    }
}

#[test]
fn random_sequences() {
    let mut random = Random::new(71);
    let made = (0..5_000).map(|number| partitions::random(&mut random, number));
    let answers = check(made);
    for answer in (0..=15).chain([20]) {
        assert!(
            answers.get(&answer).is_some_and(|&count| count > 15),
            "{answers:?}"
        );
    }
    for answer in [0, 3, 13, 15, 20] {
        assert!(
            answers.get(&answer).is_some_and(|&count| count > 200),
            "{answers:?}"
        );
    }
}

/// All numbers taken by calls.
#[test]
fn up_to_the_last() {
    let answers = check([partitions::up_to_the_last()].into_iter());
    assert_eq!(answers, BTreeMap::from([(0, 65_533), (1, 2), (20, 2)]));
}
