//! Document 02, R-13, an allowance of steps: answer 16 and what it leaves, worked out
//! by hand; that 13 and 15 come first where they do, and refusals always. And what
//! R-13 states of all searches, for every allowance of many small ones and some of
//! larger ones: each is compared with the log of the walk, cut before the first entry
//! too many, with the run that has one step more, with the search that has no
//! allowance, and with plain backtracking.

mod common;

use common::*;
use reference::generate::allowances;
use reference::generate::draft::{self, with_column, with_number, Draft, Input, Numbers, Room};
use reference::generate::draft::{MIDDLE, SMALL};
use reference::generate::{mix, Random};
use reference::log::{Event, Log};
use reference::query::Skip;
use reference::search::{self, Accepted, Outcome, DONE, SPENT, STOPPED, STUCK};
use reference::walk::Pair;
use std::collections::BTreeSet;

fn within(draft: &Draft, allowance: u64) -> Called {
    call(&draft.finish().within(allowance))
}

fn answer(draft: &Draft, allowance: u64) -> u8 {
    within(draft, allowance).outcome.answer
}

/// Answer, matches, labels and steps.
fn ends_with(draft: &Draft, allowance: u64) -> (u8, u64, u64, u64) {
    let outcome = within(draft, allowance).outcome;
    (
        outcome.answer,
        outcome.matches,
        outcome.labels,
        outcome.steps,
    )
}

/// The pairs noted as failed by a search of a draft.
fn noted_of(draft: &Draft, called: &Called) -> BTreeSet<Pair> {
    let accepted = search::accept(&draft.query(), &draft.rows).expect("accepted");
    noted(&called.notes, &accepted, accepted.n())
}

/// Pairs written as (place, position).
fn pairs(of: &[(usize, usize)]) -> Vec<Pair> {
    let pair = |&(place, position): &(usize, usize)| Pair::new(place, position);
    of.iter().map(pair).collect()
}

/// W1 of the bench sheet, with COUNT(A).
fn w1() -> Draft {
    let prev = |operator| with_column((0, 0), operator, (0, -1), 0);
    Draft::new(1, b"A+ B", vec![100, 110, 120, 115, 130])
        .define(b'A', &[prev(5)])
        .define(b'B', &[prev(3)])
        .measure(1, b'A', 0)
}

/// Places: 0 A, 1 fork, 2 A, 3 B, 4 END. The entries in order, as (place, position):
///  1 (0,0) fails at once, as row 0 has no row before it;
///  2 (0,1) 110 is above 100; 3 (1,2); 4 (2,2) 120 is above 110; 5 (1,3);
///  6 (2,3) fails at once, as 115 is not above 120; 7 (3,3) 115 is below 120;
///  8 (4,4) END, the match of rows 1 to 3;
///  9 (0,4) 130 is above 115; 10 (1,5); 11 (2,5) fails at once behind the rows; 12 (3,5)
///    too, and so do (1,5) and (0,4), which have no way left.
/// An allowance of k lets the first k of them in, and all failures before the next.
#[test]
fn w1_within_every_allowance() {
    let path = [(0, 1), (1, 2), (2, 2), (1, 3), (3, 3)];
    type Row<'a> = (u64, &'a [(usize, usize)], &'a [(usize, usize)]);
    // Allowance, pairs noted, pairs open.
    let table: [Row; 12] = [
        (0, &[], &[]),
        (1, &[(0, 0)], &[]),
        (2, &[(0, 0)], &path[..1]),
        (3, &[(0, 0)], &path[..2]),
        (4, &[(0, 0)], &path[..3]),
        (5, &[(0, 0)], &path[..4]),
        (6, &[(0, 0), (2, 3)], &path[..4]),
        (7, &[(0, 0), (2, 3)], &path),
        (8, &[(0, 0), (2, 3)], &[]),
        (9, &[(0, 0), (2, 3)], &[(0, 4)]),
        (10, &[(0, 0), (2, 3)], &[(0, 4), (1, 5)]),
        (11, &[(0, 0), (2, 3), (2, 5)], &[(0, 4), (1, 5)]),
    ];
    for (allowance, failed, open) in table {
        let called = within(&w1(), allowance);
        let found = u64::from(allowance >= 8);
        let outcome = Outcome {
            answer: 16,
            matches: found,
            labels: 3 * found,
            steps: allowance,
            offset: 0,
        };
        assert_eq!(called.outcome, outcome);
        let failed: BTreeSet<Pair> = pairs(failed).into_iter().collect();
        assert_eq!(noted_of(&w1(), &called), failed, "{allowance}");
        assert_eq!(called.open, pairs(open), "{allowance}");
        assert_eq!(called.trail, [0; 30]);
        // The match takes five numbers and three labels; before it nothing is written.
        let (numbers, labels) = match found {
            0 => ([7; 5], [7; 3]),
            _ => ([1, 1, 3, 1, 2], *b"AAB"),
        };
        assert_eq!(called.numbers, numbers);
        assert_eq!(called.labels, labels);
    }
    // Twelve steps are exactly enough, and more change nothing.
    let whole = call(&w1().finish());
    assert_eq!((whole.outcome.answer, whole.outcome.steps), (0, 12));
    for allowance in [12, 13, 2 * 5 * 6, 1 << 32, 1 << 63, u64::MAX] {
        assert_eq!(within(&w1(), allowance), whole);
    }
}

/// Without rows no attempt begins, so that nothing could pass even an allowance of 0.
#[test]
fn without_rows() {
    for text in [&b"A+ B"[..], b"()", b"^", b"A*?"] {
        for draft in [free(text, 0), free(text, 0).to_next_row()] {
            for allowance in [0, 1, u64::MAX] {
                let called = within(&draft, allowance);
                assert_eq!(called, call(&draft.finish()));
                let outcome = called.outcome;
                assert_eq!((outcome.answer, outcome.steps), (0, 0));
                assert!(called.notes.iter().all(|&byte| byte == 0));
            }
        }
    }
}

/// With a row there is a first attempt, and its first pair cannot have failed.
#[test]
fn nothing_allowed() {
    for text in [&b"A+ B"[..], b"()", b"$", b"A*?", b"(){,3}"] {
        for n in [1, 2, 5] {
            let draft = free(text, n);
            for draft in draft.in_every_mode() {
                let called = within(&draft, 0);
                assert_eq!(ends_with(&draft, 0), (16, 0, 0, 0));
                assert!(called.notes.iter().all(|&byte| byte == 0));
                assert!(called.trail.iter().all(|&number| number == 0));
                assert!(called.numbers.iter().all(|&number| number == 7));
                assert!(called.labels.iter().all(|&label| label == 7));
                assert_eq!(called.open, []);
            }
        }
    }
}

/// `()` enters END once for each start: k steps are k matches.
#[test]
fn one_step_for_each_match() {
    let draft = free(b"()", 4);
    for k in 0..4 {
        assert_eq!(ends_with(&draft, k), (16, k, 0, k));
        assert_eq!(within(&draft, k).open, []);
    }
    assert_eq!(ends_with(&draft, 4), (0, 4, 0, 4));
    // W4: the fork and END for each start; between the two the fork is open.
    let w4 = above(Draft::new(1, b"A*?", vec![1, 1, 0]), b'A', 0);
    let ends: Vec<(u8, u64)> = (0..=7)
        .map(|k| within(&w4, k).outcome)
        .map(|outcome| (outcome.answer, outcome.matches))
        .collect();
    let expected = [(16, 0), (16, 0), (16, 1), (16, 1), (16, 2), (16, 2)];
    assert_eq!(ends[..6], expected);
    assert_eq!(ends[6..], [(0, 3), (0, 3)]);
    assert_eq!(within(&w4, 3).open, pairs(&[(0, 1)]));
}

/// `A* B`, A free, B at no row, three rows: all twelve pairs but those of END fail in
/// the first attempt, so the two other starts enter nothing. Places: 0 fork, 1 A, 2 B,
/// 3 END. Entries: (0,0) (1,0) (0,1) (1,1) (0,2) (1,2) (0,3), then 8 (1,3), 9 (2,3),
/// 10 (2,2), 11 (2,1), 12 (2,0), each of which fails at once.
#[test]
fn what_is_not_entered_is_not_counted() {
    let draft = above(free(b"A* B", 3), b'B', 1);
    assert_eq!(ends_with(&draft, 12), (0, 0, 0, 12));
    // With (2,3) the fork (0,3) fails as well, and with it (1,2).
    let ninth = within(&draft, 9);
    let failed = pairs(&[(1, 3), (2, 3), (0, 3), (1, 2)]);
    assert_eq!(noted_of(&draft, &ninth), failed.into_iter().collect());
    let open = pairs(&[(0, 0), (1, 0), (0, 1), (1, 1), (0, 2)]);
    assert_eq!((ninth.outcome.answer, ninth.open), (16, open));
    // One short of the end: all have failed but (0,0) and (2,0), and (0,0) is open.
    let eleventh = within(&draft, 11);
    assert_eq!(ends_with(&draft, 11), (16, 0, 0, 11));
    assert_eq!(eleventh.open, pairs(&[(0, 0)]));
    assert_eq!(noted_of(&draft, &eleventh).len(), 10);
    // A fork of two ways to one pair: `()? B` takes (0,0) and (1,0) and tries (1,0)
    // again, which has failed by then.
    let twice = above(free(b"()? B", 1), b'B', 1);
    assert_eq!(ends_with(&twice, 1), (16, 0, 0, 1));
    assert_eq!(ends_with(&twice, 2), (0, 0, 0, 2));
}

/// W1's match is found with step 8. If it does not fit, that step is a 13, whatever is
/// left; one step less, and the search has not come so far.
#[test]
fn thirteen_comes_first() {
    for (numbers, labels) in [(4, 3), (5, 2), (0, 0)] {
        let mut input = w1().finish();
        (input.numbers, input.labels) = (numbers, labels);
        let ends = |allowance| {
            let called = call(&input.within(allowance));
            let outcome = called.outcome;
            assert_eq!((outcome.matches, outcome.labels), (0, 0));
            assert!(called.numbers.iter().all(|&number| number == 7));
            assert!(called.labels.iter().all(|&label| label == 7));
            (outcome.answer, outcome.steps)
        };
        assert_eq!(ends(7), (16, 7));
        for allowance in [8, 9, 12, u64::MAX] {
            assert_eq!(ends(allowance), (13, 8));
        }
    }
    // `A` on three rows with room for one match: two steps each, the second does not fit.
    let mut draft = free(b"A", 3);
    draft.numbers = Room::Part(40);
    assert_eq!(ends_with(&draft, 2), (16, 1, 1, 2));
    assert_eq!(ends_with(&draft, 3), (16, 1, 1, 3));
    assert_eq!(ends_with(&draft, 4), (13, 1, 1, 4));
}

/// W1 to the first A, which is the match's first row: a 15 with step 8.
#[test]
fn fifteen_comes_first() {
    let stuck = w1().to_first(b'A');
    assert_eq!(ends_with(&stuck, 7), (16, 0, 0, 7));
    for allowance in [8, 9, u64::MAX] {
        assert_eq!(ends_with(&stuck, allowance), (15, 1, 3, 8));
    }
    // To B, row 3: that start takes one step and fails, where W1 goes on at row 4.
    let labelled = w1().to_last(b'B');
    assert_eq!(ends_with(&labelled, 8), (16, 1, 3, 8));
    assert_eq!(ends_with(&labelled, 12), (16, 1, 3, 12));
    assert_eq!(ends_with(&labelled, 13), (0, 1, 3, 13));
    // All three at one entry: 13 before 15 before 16.
    let mut both = stuck;
    both.labels = Room::OneShort;
    assert_eq!(ends_with(&both, 7), (16, 0, 0, 7));
    assert_eq!(ends_with(&both, 8), (13, 0, 0, 8));
}

/// The allowance is one for all attempts together.
#[test]
fn over_all_attempts() {
    // `A A` on 5 rows, mode 1: A, A, END at rows 0 to 3, then A, and A behind the rows.
    let draft = free(b"A A", 5).to_next_row();
    assert_eq!(ends_with(&draft, u64::MAX), (0, 4, 8, 14));
    for allowance in 0..14 {
        let found = (allowance / 3).min(4);
        assert_eq!(
            ends_with(&draft, allowance),
            (16, found, 2 * found, allowance)
        );
        let open = match allowance {
            13 => 1,
            _ => allowance % 3,
        };
        assert_eq!(within(&draft, allowance).open.len() as u64, open);
    }
}

/// `A*` free on n rows in mode 1: n + 1 forks, n letters that pass and one behind the
/// rows, and END; from each later start s on n - s + 1 forks, n - s letters and END, as
/// the letter behind the rows has failed. In all n * n + 3 * n + 1, for 6 rows 55. P is
/// 3, so 2P(n+1) is 42: enough in mode 0 alone.
#[test]
fn twice_the_pairs_is_enough_in_mode_0_alone() {
    let every = free(b"A*", 6).to_next_row();
    assert_eq!(ends_with(&every, 55), (0, 6, 21, 55));
    assert_eq!(ends_with(&every, 54), (16, 5, 20, 54));
    // 15, 12 and 10 steps for the first three starts; 5 of the fourth's 8.
    assert_eq!(ends_with(&every, 42), (16, 3, 15, 42));
    let past = free(b"A*", 6);
    assert_eq!(ends_with(&past, 42), (0, 1, 6, 15));
}

/// 1 to 12 and 14 rank before everything, with an allowance of 0 as with any other.
#[test]
fn refusals_come_first() {
    let held = [with_number(0, 0, 1, 1)];
    let short = |notes, trail| {
        let mut draft = free(b"A", 3);
        (draft.notes, draft.trail) = (notes, trail);
        draft
    };
    let refused = [
        (3, free(b"A", 3).with_skip(9, 0)),
        (4, free(b"(((((((((", 3)),
        (5, free(b"A)", 3)),
        (6, free(b"((((A*)*)*)*)*", 3)),
        (7, free(b"(A{99}){99}", 3)),
        (8, free(b"A", 3).define(b'A', &held).define(b'A', &held)),
        (9, free(b"A", 3).measure(1, b'B', 0)),
        (10, Draft::new(2, b"A", vec![1])),
        (11, short(Room::OneShort, Room::Nothing)),
        (12, short(Room::Exact, Room::OneShort)),
        (14, free(b"A |", 3)),
    ];
    for (expected, draft) in refused {
        let whole = call(&draft.finish());
        assert_eq!(whole.outcome.answer, expected);
        for allowance in [0, 1, u64::MAX] {
            assert_eq!(within(&draft, allowance), whole);
        }
    }
    let mut cut = free(b"A", 3).finish();
    cut.query.pop();
    assert_eq!(call(&cut.within(0)).outcome.answer, 1);
    cut.query.clear();
    assert_eq!(call(&cut.within(0)).outcome.answer, 2);
}

/// What lies beyond the working room and the report is unchanged, as for 13.
#[test]
fn longer_buffers() {
    let mut input = w1().finish();
    input.notes += 2;
    input.trail += 2;
    input.numbers += 2;
    input.labels += 2;
    let called = call(&input.within(9));
    // Bits 0 and 17 for (0,0) and (2,3).
    assert_eq!(called.notes, [1, 0, 2, 0, 7, 7]);
    assert_eq!(called.trail, [&[0; 30][..], &[7, 7]].concat());
    assert_eq!(called.numbers, [1, 1, 3, 1, 2, 7, 7]);
    assert_eq!(called.labels, *b"AAB\x07\x07");
}

/// What a search within an allowance has done, by the log of the whole walk.
#[derive(Default)]
struct Cut {
    answer: u8,
    steps: u64,
    matches: u64,
    on_paths: u64,
    failed: BTreeSet<Pair>,
    open: Vec<Pair>,
}

impl Cut {
    fn new(log: &Log, allowance: u64) -> Cut {
        let end = log.events_within(allowance);
        let mut cut = Cut {
            answer: end.map_or(log.answer, |_| SPENT),
            ..Cut::default()
        };
        for event in &log.events[..end.unwrap_or(log.events.len())] {
            cut.follow(event);
        }
        cut
    }

    /// The open pairs lie one upon another: the last entered is the first to fail, and
    /// when END is entered they are the path.
    fn follow(&mut self, event: &Event) {
        match event {
            Event::Begins(_) => assert_eq!(self.open, []),
            Event::Meets(pair) => assert!(self.failed.contains(pair)),
            Event::Enters(pair) => {
                self.steps += 1;
                self.open.push(*pair);
            }
            Event::Fails(pair) => {
                assert_eq!(self.open.pop(), Some(*pair));
                self.failed.insert(*pair);
            }
            Event::Writes(path) | Event::Drops(path) => {
                assert_eq!(&self.open, path);
                self.open.clear();
                self.on_paths += path.len() as u64;
                self.matches += u64::from(matches!(event, Event::Writes(_)));
            }
        }
    }
}

/// A search with the runs that it is compared with.
struct Compared<'a> {
    input: &'a Input,
    accepted: Accepted,
    whole: Called,
    log: Log,
    /// The report of plain backtracking: its matches, numbers and labels, if it ends.
    plain: Option<(u64, Vec<i64>, Vec<u8>)>,
}

impl<'a> Compared<'a> {
    /// None if the search is refused or too large for a log.
    fn new(input: &'a Input) -> Option<Compared<'a>> {
        let log = allowances::log_of(input)?;
        let accepted = search::accept(&input.query, &input.rows).ok()?;
        let plain = call_plain(input, 20_000);
        Some(Compared {
            input,
            accepted,
            whole: call(input),
            log,
            plain: plain.map(|(outcome, numbers, labels)| (outcome.matches, numbers, labels)),
        })
    }

    /// All that is stated of one run.
    fn check(&self, allowance: u64) -> Called {
        let called = call(&self.input.within(allowance));
        let cut = Cut::new(&self.log, allowance);
        let outcome = called.outcome;
        assert_eq!(outcome.answer, cut.answer);
        assert_eq!(outcome.steps, cut.steps);
        assert_eq!(outcome.matches, cut.matches);
        assert_eq!(called.open, cut.open);
        assert_eq!(called.pairs_on_paths, cut.on_paths);
        let n = self.accepted.n();
        assert_eq!(noted(&called.notes, &self.accepted, n), cut.failed);
        let counted = cut.failed.len() + cut.open.len();
        assert_eq!(outcome.steps, counted as u64 + called.pairs_on_paths);
        if allowance >= self.whole.outcome.steps {
            assert_eq!(called, self.whole);
            return called;
        }
        assert_eq!((outcome.answer, outcome.steps), (SPENT, allowance));
        self.check_buffers(&called);
        called
    }

    /// The report is the beginning of that without an allowance, and of plain
    /// backtracking's; all else in the buffers is as for 13.
    fn check_buffers(&self, called: &Called) {
        let whole = (&self.whole.numbers[..], &self.whole.labels[..]);
        self.begins(called, whole);
        assert!(called.outcome.matches <= self.whole.outcome.matches);
        if let Some((matches, numbers, labels)) = &self.plain {
            assert!(called.outcome.matches <= *matches);
            self.begins(called, (numbers, labels));
        }
        let pairs = self.accepted.ground().pairs();
        assert!(called.trail[..pairs].iter().all(|&number| number == 0));
        assert_eq!(called.trail[pairs..], self.whole.trail[pairs..]);
        let notes = pairs.div_ceil(8);
        assert_eq!(called.notes[notes..], self.whole.notes[notes..]);
        if !pairs.is_multiple_of(8) {
            assert_eq!(called.notes[notes - 1] >> (pairs % 8), 0);
        }
    }

    /// What is written equals the front of a report, and nothing is written behind it.
    fn begins(&self, called: &Called, (numbers, labels): (&[i64], &[u8])) {
        let written = called.outcome.matches as usize * self.accepted.numbers_per_match();
        assert_eq!(called.numbers[..written], numbers[..written]);
        assert!(called.numbers[written..].iter().all(|&it| it == 7));
        let labelled = called.outcome.labels as usize;
        assert_eq!(called.labels[..labelled], labels[..labelled]);
        assert!(called.labels[labelled..].iter().all(|&it| it == FILL));
    }

    /// Every allowance up to one more than enough; each run begins with the matches of
    /// the one before.
    fn check_every(&self) {
        let mut before = self.check(0);
        for allowance in 1..=self.whole.outcome.steps + 1 {
            let called = self.check(allowance);
            assert!(before.outcome.matches <= called.outcome.matches);
            if before.outcome.answer == SPENT {
                self.begins(&before, (&called.numbers, &called.labels));
            }
            before = called;
        }
    }

    /// 2P(n+1) steps are enough in mode 0, and the bound of the others is there.
    fn check_bound(&self) {
        let places = (self.accepted.places.len() * self.accepted.factor()) as u64;
        let n = self.accepted.n() as u64;
        if self.accepted.query.skip == Skip::PastLastRow {
            assert_eq!(self.check(2 * places * (n + 1)), self.whole);
        }
        assert_eq!(self.check(self.accepted.most_steps()), self.whole);
    }
}

/// Checks every allowance of an input; the answer without one, if it was walked.
fn check_every(input: &Input) -> Option<u8> {
    let compared = Compared::new(input)?;
    compared.check_every();
    compared.check_bound();
    Some(compared.whole.outcome.answer)
}

#[test]
fn every_allowance_of_random_small_inputs() {
    let mut random = Random::new(31);
    let mut ended = [0; 16];
    for number in 0..4_000 {
        let input = mix::input(&mut random, &SMALL, number);
        if let Some(answer) = check_every(&input) {
            ended[usize::from(answer)] += 1;
        }
    }
    for answer in [DONE, STOPPED, STUCK] {
        assert!(ended[usize::from(answer)] > 100, "{ended:?}");
    }
}

#[test]
fn every_allowance_of_every_small_input() {
    let mut count = 0;
    for input in mix::every_small_input(b"AB |()*?$", 4, 2) {
        count += usize::from(check_every(&input).is_some());
    }
    assert!(count > 5_000, "{count}");
}

#[test]
fn every_allowance_in_every_report_room() {
    let mut random = Random::new(32);
    let mut ended = [0; 16];
    for _ in 0..150 {
        let draft = draft::accepted(&mut random, &SMALL, Numbers::Low);
        for input in draft.with_critical_rooms() {
            if let Some(answer) = check_every(&input) {
                ended[usize::from(answer)] += 1;
            }
        }
    }
    for answer in [DONE, STOPPED, STUCK] {
        assert!(ended[usize::from(answer)] > 100, "{ended:?}");
    }
}

#[test]
fn some_allowances_of_middle_inputs() {
    let mut random = Random::new(33);
    let mut checked = [0; 17];
    for number in 0..800 {
        let input = mix::input(&mut random, &MIDDLE, number);
        let Some(compared) = Compared::new(&input) else {
            continue;
        };
        for allowance in allowances::telling(&mut random, &input) {
            let answer = compared.check(allowance).outcome.answer;
            checked[usize::from(answer)] += 1;
        }
        compared.check_bound();
    }
    for answer in [DONE, STOPPED, STUCK, SPENT] {
        assert!(checked[usize::from(answer)] > 100, "{checked:?}");
    }
}

/// Plain backtracking has no allowance: it ends where the walk without one does, or in a
/// report that goes on behind the one that was stopped.
#[test]
fn plain_backtracking_goes_on() {
    let draft = w1();
    let (plain, numbers, labels) = call_plain(&draft.finish().within(8), 1_000).expect("short");
    assert_eq!((plain.answer, plain.matches), (0, 1));
    assert_eq!((numbers, labels), (vec![1, 1, 3, 1, 2], b"AAB".to_vec()));
    assert_eq!(answer(&draft, 7), 16);
}
