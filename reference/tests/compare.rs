//! The counted walk against other ways to the same result: plain backtracking
//! over the places, plain backtracking over the tree, the counted walk by calls
//! of itself, and the sets of rows that say whether some reading exists. And
//! what document 01 states of the four buffers after each call, the bounds of the
//! steps, and where document 02, R-2, lets the search go on or end, as the report
//! shows it.

mod common;

use common::*;
use reference::generate::draft::{self, Draft, Input, Numbers, Room, LARGE, MIDDLE, SMALL};
use reference::generate::{limits, mix, Random};
use reference::letters::Held;
use reference::pattern::{Branch, Factor, Pattern, Primary};
use reference::query::Skip;
use reference::readings;
use reference::search::{self, Accepted, DONE, STOPPED, STUCK};
use reference::walk::{Attempt, Counted, Ground, Pair, Plain};

/// What is stated of every call. Returns the call for further questions.
fn check(input: &Input) -> Called {
    let called = call(input);
    let outcome = called.outcome;
    if !search::was_walked(outcome.answer) {
        check_refused(&called);
        return called;
    }
    let accepted = search::accept(&input.query, &input.rows).expect("answer 0, 13 or 15");
    let pairs = accepted.ground().pairs();
    check_working_room(&called, pairs);
    check_report_room(&called, &accepted);
    let failed: u64 = called.notes[..pairs.div_ceil(8)]
        .iter()
        .map(|byte| u64::from(byte.count_ones()))
        .sum();
    assert_eq!(outcome.steps, failed + called.pairs_on_paths);
    check_bound(&accepted, outcome.steps);
    if accepted.n() <= MIDDLE.rows {
        check_starts(&called, &accepted);
    }
    called
}

/// In mode 0 at most 2P(n+1) steps; in modes 1 to 3 at most Pn(n+3)/2, which is a
/// whole number since n or n+3 is even.
fn check_bound(accepted: &Accepted, steps: u64) {
    let places = (accepted.places.len() * accepted.factor()) as u64;
    let n = accepted.n() as u64;
    match accepted.query.skip {
        Skip::PastLastRow => assert!(steps <= 2 * places * (n + 1)),
        _ => assert!(2 * steps <= places * n * (n + 3)),
    }
    assert!(steps <= accepted.most_steps());
}

/// The rows of a match with the letter, numbered as in the table.
fn labelled(letter: u8, first: usize, labels: &[u8]) -> Vec<usize> {
    (0..labels.len())
        .filter(|&index| labels[index] == letter)
        .map(|index| first + index)
        .collect()
}

/// Where the search goes on after a match, said anew from the papers; None for 15.
fn goes_on(skip: Skip, first: usize, labels: &[u8]) -> Option<usize> {
    let to = match skip {
        _ if labels.is_empty() => Some(first + 1),
        Skip::PastLastRow => Some(first + labels.len()),
        Skip::ToNextRow => Some(first + 1),
        Skip::ToFirst(letter) => labelled(letter, first, labels).first().copied(),
        Skip::ToLast(letter) => labelled(letter, first, labels).last().copied(),
    };
    to.filter(|&row| row != first)
}

/// From each match written to the next, no start in between has a reading; and the
/// answer is 15 exactly if the last match written has no row to go on at.
fn check_starts(called: &Called, accepted: &Accepted) {
    let has_reading =
        |&start: &usize| !readings::ends_from(&accepted.pattern, &accepted.held, start).is_empty();
    let n = accepted.n();
    let matches = called.outcome.matches as usize;
    let mut labels = called.labels.as_slice();
    let mut start = Some(0);
    for written in called
        .numbers
        .chunks(accepted.numbers_per_match())
        .take(matches)
    {
        let from = start.expect("no match is written behind a 15");
        let (first, taken) = (written[1] as usize, written[2] as usize);
        assert_eq!((from..n).find(has_reading), Some(first));
        let (own, later) = labels.split_at(taken);
        labels = later;
        start = goes_on(accepted.query.skip, first, own);
    }
    let answer = match start.map(|start| (start..n).find(has_reading)) {
        None => STUCK,
        Some(Some(_)) => STOPPED,
        Some(None) => DONE,
    };
    assert_eq!(called.outcome.answer, answer);
}

fn unchanged<T: PartialEq + From<u8>>(buffer: &[T]) -> bool {
    buffer.iter().all(|item| *item == T::from(FILL))
}

fn check_refused(called: &Called) {
    let outcome = called.outcome;
    assert!(outcome.answer == 14 || (1..=12).contains(&outcome.answer));
    assert_eq!((outcome.matches, outcome.labels, outcome.steps), (0, 0, 0));
    assert!(unchanged(&called.notes) && unchanged(&called.trail));
    assert!(unchanged(&called.numbers) && unchanged(&called.labels));
}

fn check_working_room(called: &Called, pairs: usize) {
    let (notes, beyond) = called.notes.split_at(pairs.div_ceil(8));
    assert!(unchanged(beyond));
    if !pairs.is_multiple_of(8) {
        assert_eq!(notes[notes.len() - 1] >> (pairs % 8), 0);
    }
    assert!(called.trail[..pairs].iter().all(|&number| number == 0));
    assert!(unchanged(&called.trail[pairs..]));
}

fn check_report_room(called: &Called, accepted: &Accepted) {
    let per_match = accepted.numbers_per_match();
    let written = called.outcome.matches as usize * per_match;
    let labels = called.outcome.labels as usize;
    assert!(unchanged(&called.numbers[written..]));
    assert!(unchanged(&called.labels[labels..]));
    let taken: i64 = called.numbers[..written]
        .chunks(per_match)
        .map(|one| one[2])
        .sum();
    assert_eq!(taken, labels as i64);
}

/// Plain backtracking agrees, if it comes to an end.
fn check_plain(input: &Input, called: &Called, patience: u64) -> bool {
    let Some((outcome, numbers, labels)) = call_plain(input, patience) else {
        return false;
    };
    let counts = |it: search::Outcome| (it.answer, it.matches, it.labels);
    assert_eq!(counts(outcome), counts(called.outcome));
    assert_eq!(numbers, called.numbers);
    assert_eq!(labels, called.labels);
    assert!(called.outcome.steps <= outcome.steps);
    true
}

#[test]
fn random_small_inputs() {
    let mut random = Random::new(1);
    let mut answers = [0; 16];
    let mut ended = 0;
    for number in 0..60_000 {
        let input = mix::input(&mut random, &SMALL, number);
        let called = check(&input);
        answers[usize::from(called.outcome.answer)] += 1;
        ended += usize::from(check_plain(&input, &called, 100_000));
    }
    assert!(answers.iter().all(|&count| count > 300), "{answers:?}");
    assert!(ended > 59_000, "{ended}");
}

#[test]
fn random_middle_inputs() {
    let mut random = Random::new(2);
    let mut ended = 0;
    for number in 0..6_000 {
        let input = mix::input(&mut random, &MIDDLE, number);
        let called = check(&input);
        ended += usize::from(check_plain(&input, &called, 20_000));
    }
    assert!(ended > 5_000, "{ended}");
}

#[test]
fn random_large_inputs() {
    let mut random = Random::new(12);
    for number in 0..600 {
        let input = mix::input(&mut random, &LARGE, number);
        let called = check(&input);
        check_plain(&input, &called, 20_000);
    }
}

#[test]
fn critical_rooms() {
    let mut random = Random::new(3);
    let mut answers = [0; 16];
    for _ in 0..2_000 {
        let draft = draft::accepted(&mut random, &SMALL, Numbers::Low);
        for input in draft.with_critical_rooms() {
            let called = check(&input);
            answers[usize::from(called.outcome.answer)] += 1;
            check_plain(&input, &called, 100_000);
        }
    }
    for answer in [0, 11, 12, 13, 15] {
        assert!(answers[answer] > 1_000, "{answers:?}");
    }
}

#[test]
fn every_small_input() {
    let mut count = 0;
    for input in mix::every_small_input(b"AB |()*?$", 5, 2) {
        let called = check(&input);
        assert!(check_plain(&input, &called, 10_000));
        count += 1;
    }
    assert!(count > 20_000, "{count}");
}

#[test]
fn every_word_of_labels() {
    let texts: [&[u8]; 6] = [b"(A|B|C)*", b"A+ B", b"A B+", b"A B* C", b"A B | ()", b"A"];
    let mut answers = [0; 16];
    for input in mix::every_word(&texts, 4) {
        let called = check(&input);
        answers[usize::from(called.outcome.answer)] += 1;
        assert!(check_plain(&input, &called, 10_000));
    }
    for answer in [0, 9, 13, 15] {
        assert!(answers[answer] > 1_000, "{answers:?}");
    }
    assert_eq!(answers.iter().sum::<usize>(), 6 * 8 * (341 + 4 * 85));
}

#[test]
fn inputs_at_the_limits() {
    let mut answers = [0; 16];
    for draft in limits::all() {
        let called = check(&draft.finish());
        answers[usize::from(called.outcome.answer)] += 1;
    }
    for answer in [0, 2, 3, 4, 5, 6, 7, 10, 13, 14, 15] {
        assert!(answers[answer] > 0, "{answers:?}");
    }
}

#[test]
fn small_limits_in_every_room() {
    for draft in limits::of_texts() {
        for input in draft.with_critical_rooms() {
            check(&input);
        }
    }
}

/// The counted walk by calls of itself, as the document words it.
struct Calls<'a> {
    ground: Ground<'a>,
    failed: Vec<bool>,
    steps: u64,
}

impl Calls<'_> {
    /// Tries a pair; the path from it to END if it succeeds.
    fn try_pair(&mut self, pair: Pair) -> Option<Vec<Pair>> {
        if self.failed[self.ground.number(pair)] {
            return None;
        }
        self.steps += 1;
        if self.ground.is_end(pair) {
            return Some(vec![pair]);
        }
        let mut turn = 0;
        while let Some(next) = self.ground.tried(pair, turn) {
            if let Some(mut path) = self.try_pair(next) {
                path.insert(0, pair);
                return Some(path);
            }
            turn += 1;
        }
        let number = self.ground.number(pair);
        self.failed[number] = true;
        None
    }
}

/// Plain backtracking over the tree: no places are laid. What is left to do is
/// a call `then`, which says whether all the rest succeeds.
struct Tree<'a> {
    held: &'a Held,
}

type Then<'t> = &'t mut dyn FnMut(usize, &mut Vec<u8>) -> bool;

impl Tree<'_> {
    fn pattern(&self, tree: &Pattern, at: usize, labels: &mut Vec<u8>, then: Then) -> bool {
        let branch = |branch: &Branch| self.sequence(&branch.factors, at, labels, then);
        tree.branches.iter().any(branch)
    }

    fn sequence(&self, factors: &[Factor], at: usize, labels: &mut Vec<u8>, then: Then) -> bool {
        let Some((first, rest)) = factors.split_first() else {
            return then(at, labels);
        };
        self.factor(first, 0, at, labels, &mut |at, labels| {
            self.sequence(rest, at, labels, then)
        })
    }

    /// A factor of which some copies are done.
    fn factor(
        &self,
        factor: &Factor,
        done: u32,
        at: usize,
        labels: &mut Vec<u8>,
        then: Then,
    ) -> bool {
        // In the unbounded part a round without a row ends the repetition.
        let unbounded = factor.quantifier.high.is_none() && done >= factor.quantifier.low;
        let copy = |labels: &mut Vec<u8>, then: Then| {
            self.primary(
                &factor.primary,
                at,
                labels,
                &mut |behind, labels| match unbounded && behind == at {
                    true => then(behind, labels),
                    false => self.factor(factor, done + 1, behind, labels, then),
                },
            )
        };
        if done < factor.quantifier.low {
            return copy(labels, then);
        }
        if factor.quantifier.high == Some(done) {
            return then(at, labels);
        }
        match factor.quantifier.reluctant {
            true => then(at, labels) || copy(labels, then),
            false => copy(labels, then) || then(at, labels),
        }
    }

    fn primary(&self, primary: &Primary, at: usize, labels: &mut Vec<u8>, then: Then) -> bool {
        let n = self.held.row_count();
        match primary {
            Primary::Letter(letter) => {
                if at == n || !self.held.holds(*letter, at) {
                    return false;
                }
                labels.push(*letter);
                let found = then(at + 1, labels);
                if !found {
                    labels.pop();
                }
                found
            }
            Primary::First => at == 0 && then(at, labels),
            Primary::Last => at == n && then(at, labels),
            Primary::Empty => then(at, labels),
            Primary::Group(inner) => self.pattern(inner, at, labels, then),
        }
    }

    fn preferred(&self, tree: &Pattern, start: usize) -> Option<Vec<u8>> {
        let mut labels = Vec::new();
        self.pattern(tree, start, &mut labels, &mut |_, _| true)
            .then_some(labels)
    }
}

/// Each start by each way: the attempt with fresh notes, with the notes of all
/// earlier starts, by calls, by the tree, by plain backtracking and by sets.
fn compare_attempts(accepted: &Accepted) {
    let ground = accepted.ground();
    let mut counted = Counted::new(ground, None);
    let mut calls = Calls {
        ground,
        failed: vec![false; ground.pairs()],
        steps: 0,
    };
    let tree = Tree {
        held: &accepted.held,
    };
    for start in 0..accepted.n() {
        let path = match counted.attempt(start) {
            Attempt::Match(path) => Some(path),
            _ => None,
        };
        assert_eq!(path, calls.try_pair(Pair::new(0, start)));
        assert_eq!(counted.steps(), calls.steps);
        assert_eq!(counted.failed(), calls.failed);
        let labels = path
            .as_ref()
            .map(|path| search::labels_on(&accepted.places, path));
        assert_eq!(labels, tree.preferred(&accepted.pattern, start));
        let ends = readings::ends_from(&accepted.pattern, &accepted.held, start);
        match &labels {
            Some(labels) => assert!(ends.contains(&(start + labels.len()))),
            None => assert!(ends.is_empty()),
        }
        let plain = match Plain::new(ground, 100_000).attempt(start) {
            Attempt::GaveUp => continue,
            Attempt::Match(path) => Some(path),
            Attempt::NoMatch => None,
            Attempt::Unfinished(_) => panic!("plain backtracking has no allowance"),
        };
        assert_eq!(path, plain);
    }
    check_failed_pairs(accepted, counted.failed());
}

/// A failed pair fails by plain backtracking too; none that succeeds is noted.
fn check_failed_pairs(accepted: &Accepted, failed: &[bool]) {
    let ground = accepted.ground();
    let mut of_pairs = 0;
    for pair in every_pair(accepted, accepted.n()) {
        if failed[ground.number(pair)] {
            of_pairs += 1;
            let attempt = Plain::new(ground, 100_000).attempt_from(pair);
            assert!(!matches!(attempt, Attempt::Match(_)));
        }
    }
    assert_eq!(of_pairs, failed.iter().filter(|failed| **failed).count());
}

#[test]
fn attempts_of_random_small_inputs() {
    let mut random = Random::new(4);
    for number in 0..20_000 {
        let draft = match number % 5 {
            0 => mix::adversarial(&mut random, &SMALL),
            _ => draft::accepted(&mut random, &SMALL, Numbers::Low),
        };
        let accepted = search::accept(&draft.query(), &draft.rows).expect("accepted");
        compare_attempts(&accepted);
    }
}

#[test]
fn attempts_of_every_small_input() {
    for input in mix::every_small_input(b"AB|(^)+?", 5, 2) {
        let accepted = search::accept(&input.query, &input.rows).expect("accepted");
        // The attempts are the same in all modes.
        if accepted.query.skip == Skip::PastLastRow {
            compare_attempts(&accepted);
        }
    }
}

#[test]
fn plain_backtracking_gives_up() {
    let draft = above(free(b"(A?){30} A{30} B", 30), b'B', 1);
    let input = draft.finish();
    assert_eq!(call_plain(&input, 1_000_000), None);
    assert_eq!(check(&input).outcome.matches, 0);
}

#[test]
fn long_paths_need_no_deep_calls() {
    // A quarter of a million pairs on one path. Leaving is tried first, so that
    // plain backtracking never has to come back through the options.
    let text = [&b"("[..], &b"()?".repeat(60), b"A)*? $"].concat();
    let input = Draft::new(1, &text, vec![1; 4096]).finish();
    let called = check(&input);
    assert_eq!(called.outcome.matches, 1);
    assert!(called.pairs_on_paths > 250_000);
    let (plain, _, _) = call_plain(&input, 10_000_000).expect("a straight path");
    assert_eq!(plain.matches, 1);
}

#[test]
fn rooms_that_are_one_short_stop_the_last_match() {
    let mut draft = free(b"A", 10);
    draft.numbers = Room::OneShort;
    let called = check(&draft.finish());
    assert_eq!((called.outcome.answer, called.outcome.matches), (13, 9));
    assert_eq!(called.outcome.steps, 20);
}
