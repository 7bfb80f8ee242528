//! Document 02, R-11, rows in lots: cases worked out by hand, odd calls, and for every
//! cutting of small tables and many random ones that each call leaves what a search from
//! scratch over the rows present has done when it first asks for another one, and that
//! all calls together are the search of the whole table in one run.

mod common;

use common::*;
use reference::generate::cuttings::{self, every_cutting, Call, Cut, SHORT};
use reference::generate::draft::{with_column, with_number, Draft, Input, MIDDLE, SMALL};
use reference::generate::{mix, Random, Room};
use reference::log::{Event, Log};
use reference::lots::{Feed, Lot, AHEAD, BACKWARDS, WAITS, WITHOUT};
use reference::places::Place;
use reference::query;
use reference::search::{self, Accepted, Outcome, DONE, SPENT, STOPPED, STUCK};
use reference::walk::Pair;
use std::collections::BTreeSet;

/// The buffers through all calls.
#[derive(Clone, Debug, PartialEq)]
struct Lent {
    notes: Vec<u8>,
    trail: Vec<u32>,
    numbers: Vec<i64>,
    labels: Vec<u8>,
}

impl Lent {
    fn new(input: &Input) -> Lent {
        Lent {
            notes: vec![FILL; input.notes],
            trail: vec![FILL.into(); input.trail],
            numbers: vec![FILL.into(); input.numbers],
            labels: vec![FILL; input.labels],
        }
    }
}

fn begin(cut: &Cut) -> Feed {
    Feed::begin(cut.largest, cut.input.allowance.unwrap_or(WITHOUT))
}

/// One call; rows that are not present are as wrong as they may be.
fn call_lot(feed: &mut Feed, cut: &Cut, call: &Call, lent: &mut Lent) -> Outcome {
    let columns = query::read(&cut.input.query).map_or(1, |query| query.columns);
    let mut rows = cut.input.rows[..call.entries].to_vec();
    let present = (call.present.min(5_000) as usize * columns).min(rows.len());
    rows[present..].fill(i32::MIN);
    feed.call(
        Lot {
            query: &cut.input.query,
            rows: &rows,
            present: call.present,
            last: call.last,
        },
        (
            &mut lent.notes,
            &mut lent.trail,
            &mut lent.numbers,
            &mut lent.labels,
        ),
    )
}

/// What a search over the rows present has done when it first asks for another row, or
/// when it ends: answer, steps, failed pairs, matches, labels, pairs on paths, open pairs.
struct Done {
    answer: u8,
    steps: u64,
    failed: BTreeSet<Pair>,
    matches: u64,
    labels: Vec<u8>,
    on_paths: u64,
    open: BTreeSet<Pair>,
}

/// From the log of the search of the rows present as if they were all.
fn from_scratch(accepted: &Accepted, input: &Input, last: bool) -> Done {
    let n = accepted.n();
    let log = Log::new(accepted, input.numbers, input.labels).expect("few pairs");
    let asks = |event: &Event| match event {
        Event::Enters(pair) => {
            let is_letter = matches!(accepted.places[pair.place], Place::Letter { .. });
            is_letter && pair.position == n && !last
        }
        _ => false,
    };
    // Up to and with the entry that asks for a row.
    let waits = log.events.iter().position(asks).map(|at| at + 1);
    let spent = input.allowance.and_then(|most| log.events_within(most));
    let (end, answer) = match (waits, spent) {
        (Some(waits), Some(spent)) if spent < waits => (spent, SPENT),
        (Some(waits), _) => (waits, WAITS),
        (None, Some(spent)) => (spent, SPENT),
        (None, None) if log.answer == DONE && !last => (log.events.len(), WAITS),
        (None, None) => (log.events.len(), log.answer),
    };
    let mut done = Done {
        answer,
        steps: 0,
        failed: BTreeSet::new(),
        matches: 0,
        labels: Vec::new(),
        on_paths: 0,
        open: BTreeSet::new(),
    };
    for event in &log.events[..end] {
        match event {
            Event::Enters(pair) => {
                done.steps += 1;
                done.open.insert(*pair);
            }
            Event::Fails(pair) => {
                done.open.remove(pair);
                done.failed.insert(*pair);
            }
            Event::Writes(path) => {
                done.matches += 1;
                done.labels
                    .extend(search::labels_on(&accepted.places, path));
                done.on_paths += path.len() as u64;
                done.open.clear();
            }
            Event::Drops(path) => {
                done.on_paths += path.len() as u64;
                done.open.clear();
            }
            Event::Begins(_) | Event::Meets(_) => {}
        }
    }
    done
}

/// The refusal of a call by the papers' order, apart from those after the end; each is
/// judged for itself and the first in the order is taken.
fn refusal(cut: &Cut, call: &Call, before: u64) -> Option<u8> {
    let query = &cut.input.query;
    let answer = search::room(query, &[]).0;
    if answer != 0 {
        return Some(answer);
    }
    let accepted = search::accept(query, &[]).expect("no rows are whole rows");
    let columns = accepted.query.columns;
    let letters = accepted.pattern.letters();
    let ahead = accepted.query.defines.iter().any(|define| {
        let offsets = define.comparisons().into_iter().flat_map(|it| {
            let right = it.right.map_or(0, |right| right.offset);
            [it.left.offset, right]
        });
        letters.contains(&define.letter) && offsets.max() > Some(0)
    });
    if ahead || accepted.query.text.contains(&b'$') {
        return Some(AHEAD);
    }
    let slice = (call.entries / columns) as u64;
    let named = cut.largest > 4_096 || call.present > cut.largest;
    if named || call.present > slice || call.entries % columns != 0 {
        return Some(10);
    }
    let pairs = accepted.places.len() * (cut.largest as usize + 1) * accepted.factor();
    match () {
        () if cut.input.notes * 8 < pairs => Some(11),
        () if cut.input.trail < pairs => Some(12),
        () if call.present < before => Some(BACKWARDS),
        () => None,
    }
}

/// All calls of a cutting, each checked. The answers.
fn check(cut: &Cut) -> Vec<u8> {
    let mut feed = begin(cut);
    let mut lent = Lent::new(&cut.input);
    let (mut before, mut ended): (u64, Option<Outcome>) = (0, None);
    let mut answers = Vec::new();
    for call in &cut.calls {
        let as_it_was = lent.clone();
        let outcome = call_lot(&mut feed, cut, call, &mut lent);
        answers.push(outcome.answer);
        let zeros = |answer| Outcome::refused(&cut.input.query, answer);
        match (ended, refusal(cut, call, before)) {
            (Some(end), _) if end.answer == DONE => assert_eq!(outcome, zeros(BACKWARDS)),
            (Some(end), _) => assert_eq!(outcome, end),
            (None, Some(answer)) => assert_eq!(outcome, zeros(answer), "{cut:?} {call:?}"),
            (None, None) => {
                before = call.present;
                check_walked(cut, call, outcome, &feed, &lent);
                ended = (outcome.answer != WAITS).then_some(outcome);
                continue;
            }
        }
        assert_eq!(lent, as_it_was, "a refusal changes nothing");
    }
    if let Some(end) = ended {
        check_whole(cut, before, end, &lent);
    }
    answers
}

/// A call that was not refused, against the search from scratch.
fn check_walked(cut: &Cut, call: &Call, outcome: Outcome, feed: &Feed, lent: &Lent) {
    let columns = query::read(&cut.input.query).expect("accepted").columns;
    let rows = &cut.input.rows[..call.present as usize * columns];
    let accepted = search::accept(&cut.input.query, rows).expect("accepted");
    let done = from_scratch(&accepted, &cut.input, call.last);
    assert_eq!(outcome.answer, done.answer, "{cut:?} {call:?}");
    assert_eq!(outcome.steps, done.steps, "{cut:?} {call:?}");
    assert_eq!(
        (outcome.matches, outcome.labels, outcome.offset),
        (done.matches, done.labels.len() as u64, 0)
    );
    assert_eq!(lent.labels[..done.labels.len()], done.labels[..]);
    let largest = cut.largest as usize;
    let pairs = accepted.places.len() * (largest + 1) * accepted.factor();
    assert_eq!(noted(&lent.notes, &accepted, largest), done.failed);
    let spare = pairs..pairs.next_multiple_of(8);
    assert!(spare
        .into_iter()
        .all(|bit| lent.notes[bit / 8] >> (bit % 8) & 1 == 0));
    assert!(lent.notes[pairs.div_ceil(8)..]
        .iter()
        .all(|&byte| byte == FILL));
    assert!(lent.trail[pairs..]
        .iter()
        .all(|&number| number == FILL.into()));
    let free = outcome.answer == WAITS;
    assert!(free || lent.trail[..pairs].iter().all(|&number| number == 0));
    // Demand 3's sum, with the open pairs.
    let open: BTreeSet<Pair> = feed.open().into_iter().collect();
    assert_eq!(open, done.open);
    assert_eq!(
        outcome.steps,
        done.failed.len() as u64 + done.on_paths + open.len() as u64
    );
}

/// By the end the report and steps of the whole table in one run. A search that stops before
/// the end is declared has asked for no other row than those present.
fn check_whole(cut: &Cut, n: u64, end: Outcome, lent: &Lent) {
    let columns = query::read(&cut.input.query).expect("accepted").columns;
    let one = call(&Input {
        rows: cut.input.rows[..n as usize * columns].to_vec(),
        ..cut.input.clone()
    });
    assert_eq!((end, &lent.numbers), (one.outcome, &one.numbers), "{cut:?}");
    assert_eq!(lent.labels, one.labels);
}

/// W1: A above PREV, B below PREV, on 100, 110, 120, 115, 130.
fn w1() -> Draft {
    let prev = |operator| with_column((0, 0), operator, (0, -1), 0);
    Draft::new(1, b"A+ B", vec![100, 110, 120, 115, 130])
        .define(b'A', &[prev(5)])
        .define(b'B', &[prev(3)])
}

fn lot(present: u64, last: bool) -> Call {
    Call {
        present,
        entries: 5,
        last,
    }
}

/// Answers, matches and steps of calls with these counts; a count behind 100 is the last.
fn told(draft: &Draft, allowance: Option<u64>, counts: &[u64]) -> Vec<(u8, u64, u64)> {
    let largest = (draft.rows.len()) as u64;
    let mut input = cuttings::with_largest(draft, largest, [Room::Exact; 4]);
    input.allowance = allowance;
    let calls = counts.iter().map(|&count| Call {
        entries: draft.rows.len(),
        ..lot(count % 100, count >= 100)
    });
    let cut = Cut {
        input,
        largest,
        calls: calls.collect(),
    };
    check(&cut);
    let mut feed = begin(&cut);
    let mut lent = Lent::new(&cut.input);
    let outcomes = cut.calls.iter().map(|call| {
        let outcome = call_lot(&mut feed, &cut, call, &mut lent);
        (outcome.answer, outcome.matches, outcome.steps)
    });
    outcomes.collect()
}

/// Places: 0 A, 1 fork, 2 A, 3 B, 4 END. Row 0: A is entered and fails (step 1). Row 1: A,
/// the fork, A at row 2, the fork at 3, A at 3 fails, B at 3, END at 4.
#[test]
fn w1_row_by_row() {
    let calls = [0, 1, 2, 3, 4, 5, 105];
    let expected = [
        (23, 0, 0),
        // A at 0 fails; the attempt at row 1 waits.
        (23, 0, 1),
        // A at 1, fork and A at 2, which waits.
        (23, 0, 4),
        // Fork and A at 3, which waits.
        (23, 0, 6),
        // A at 3 fails; B at 3, END; the attempt at row 4 waits.
        (23, 1, 8),
        // A at 4, fork and A at 5, which waits.
        (23, 1, 11),
        // A fails, B at 5 is entered and fails.
        (0, 1, 12),
    ];
    assert_eq!(told(&w1(), None, &calls), expected);
    assert_eq!(told(&w1(), None, &[105]), [(0, 1, 12)]);
    assert_eq!(told(&w1(), None, &[4, 105]), [(23, 1, 8), (0, 1, 12)]);
    assert_eq!(
        told(&w1(), None, &[3, 3, 3, 104]),
        [(23, 0, 6), (23, 0, 6), (23, 0, 6), (0, 1, 8)]
    );
}

/// Waiting comes before the allowance, and the entry that waits may be the last allowed.
#[test]
fn w1_within_allowances() {
    assert_eq!(told(&w1(), Some(8), &[4]), [(23, 1, 8)]);
    assert_eq!(told(&w1(), Some(8), &[4, 104]), [(23, 1, 8), (0, 1, 8)]);
    assert_eq!(
        told(&w1(), Some(8), &[4, 5, 105]),
        [(23, 1, 8), (16, 1, 8), (16, 1, 8)]
    );
    assert_eq!(told(&w1(), Some(6), &[3, 4]), [(23, 0, 6), (16, 0, 6)]);
    assert_eq!(told(&w1(), Some(7), &[3, 4]), [(23, 0, 6), (16, 0, 7)]);
    assert_eq!(told(&w1(), Some(5), &[3, 4]), [(16, 0, 5), (16, 0, 5)]);
    assert_eq!(
        told(&w1(), Some(0), &[0, 1, 2]),
        [(23, 0, 0), (16, 0, 0), (16, 0, 0)]
    );
    assert_eq!(told(&w1(), Some(0), &[100]), [(0, 0, 0)]);
    assert_eq!(told(&w1(), Some(12), &[105]), [(0, 1, 12)]);
}

/// Forks, `^` and END do not wait; letters without DEFINE do.
#[test]
fn what_waits() {
    let free = |text: &[u8]| Draft::new(1, text, vec![1; 3]);
    // Fork, END: an empty match for each row present, at once.
    assert_eq!(
        told(&free(b"A*?"), None, &[0, 1, 3, 103]),
        [(23, 0, 0), (23, 1, 2), (23, 3, 6), (0, 3, 6)]
    );
    // Fork, A, fork, A at 1, which waits.
    assert_eq!(
        told(&free(b"A*"), None, &[1, 2, 102]),
        [(23, 0, 4), (23, 0, 6), (0, 1, 7)]
    );
    // `^` behind A is entered at the absent row, fails there and is noted.
    let draft = free(b"A ^ B | A");
    // Fork, A, ^ at 1 fails, A fails, A, END.
    assert_eq!(told(&draft, None, &[1]), [(23, 1, 5)]);
    // The pair of the first place and the absent row 1 has failed already, as `(^ A)*`
    // came there; the attempt at row 1 waits all the same.
    let draft = Draft::new(1, b"(^ A)* ^ B", vec![1; 2]).define(b'B', &[with_number(0, 0, 1, 9)]);
    let [one, two, three] = told(&draft, None, &[1, 2, 102])[..] else {
        panic!();
    };
    assert_eq!((one.0, two.0, three.0), (23, 23, 0));
    assert_eq!(two.2, three.2);
}

#[test]
fn the_end() {
    let draft = || Draft::new(1, b"A", vec![1; 4]);
    // After 0 each call is 21; only the last call gives 0.
    let calls = [4, 104, 4, 104, 100, 99];
    let expected = [
        (23, 4, 8),
        (0, 4, 8),
        (21, 0, 0),
        (21, 0, 0),
        (21, 0, 0),
        (21, 0, 0),
    ];
    assert_eq!(told(&draft(), None, &calls), expected);
    // 13 stays, also to a last call and to counts that would be refused.
    let mut input = cuttings::with_largest(&draft(), 4, [Room::Exact; 4]);
    input.labels = 2;
    let calls = [1, 3, 4, 104, 0, 99, 100].map(|count| lot_of(count, 4));
    let cut = Cut {
        input,
        largest: 4,
        calls: calls.to_vec(),
    };
    assert_eq!(check(&cut), [23, 13, 13, 13, 13, 13, 13]);
    // 15 in the call that reaches END, though no row is left.
    let stuck = Draft::new(1, b"A B | C", vec![1; 2]).to_last(b'B');
    assert_eq!(
        told(&stuck, None, &[2, 102, 2]),
        [(23, 1, 7), (15, 2, 9), (15, 2, 9)]
    );
}

fn lot_of(count: u64, entries: usize) -> Call {
    Call {
        present: count % 100,
        entries,
        last: count >= 100,
    }
}

/// A refused last call does not declare the end, and "before" is that of the last call that
/// was not refused.
#[test]
fn refused_calls() {
    let of = |calls: &[Call]| {
        let draft = Draft::new(1, b"A", vec![1; 4]);
        check(&Cut {
            input: cuttings::with_largest(&draft, 3, [Room::Exact; 4]),
            largest: 3,
            calls: calls.to_vec(),
        })
    };
    let call = |present, entries, last| Call {
        present,
        entries,
        last,
    };
    assert_eq!(of(&[call(4, 4, false), call(2, 4, false)]), [10, 23]);
    assert_eq!(
        of(&[call(4, 4, true), call(2, 2, true), call(2, 2, true)]),
        [10, 0, 21]
    );
    assert_eq!(
        of(&[call(2, 2, false), call(1, 2, false), call(1, 2, true)]),
        [23, 21, 21]
    );
    // Fewer than before, and more than the slice holds.
    assert_eq!(
        of(&[call(3, 3, false), call(2, 1, false), call(2, 2, false)]),
        [23, 10, 21]
    );
    assert_eq!(
        of(&[call(3, 3, false), call(3, 2, true), call(3, 4, true)]),
        [23, 10, 0]
    );
    assert_eq!(
        of(&[call(u64::MAX, 4, false), call(1 << 32, 4, true)]),
        [10, 10]
    );
}

#[test]
fn ranks() {
    let two = Draft::new(2, b"A", vec![1; 6]);
    let with = |draft: &Draft, largest: u64, calls: &[Call], change: fn(&mut Input)| {
        let mut input = cuttings::with_largest(draft, largest, [Room::Exact; 4]);
        change(&mut input);
        check(&Cut {
            input,
            largest,
            calls: calls.to_vec(),
        })
    };
    let call = |present, entries| Call {
        present,
        entries,
        last: false,
    };
    // Not whole rows; nothing in the way; 11 before 12 before 21.
    assert_eq!(with(&two, 3, &[call(1, 5), call(1, 4)], |_| {}), [10, 23]);
    assert_eq!(with(&two, 4_096, &[call(1, 6)], |_| {}), [23]);
    assert_eq!(
        with(&two, 4_097, &[call(1, 6), call(0, 0)], |_| {}),
        [10, 10]
    );
    assert_eq!(with(&two, u64::MAX, &[call(1, 6)], |_| {}), [10]);
    assert_eq!(with(&two, 3, &[call(1, 6)], |input| input.notes -= 1), [11]);
    assert_eq!(with(&two, 3, &[call(1, 6)], |input| input.trail -= 1), [12]);
    let both = |input: &mut Input| {
        input.notes = 0;
        input.trail = 0;
    };
    assert_eq!(with(&two, 3, &[call(1, 6), call(4, 6)], both), [11, 10]);
    // 17 comes behind 9 and before 10.
    for (draft, answer) in cuttings::looking_ahead() {
        let calls = [lot_of(1, 3), lot_of(4, 3)];
        let second = if answer == AHEAD { AHEAD } else { 10 };
        assert_eq!(
            with(&draft, 3, &calls, |_| {}),
            [answer, second],
            "{draft:?}"
        );
        let stranger = draft.clone().measure(1, b'Y', 0);
        assert_eq!(with(&stranger, 9_999, &calls[..1], |_| {}), [9]);
        assert_eq!(with(&draft, 9_999, &calls[..1], |_| {}), [second]);
    }
    let cut_text = Draft::new(1, b"A (", vec![1]);
    assert_eq!(with(&cut_text, 9_999, &[call(3, 1)], |_| {}), [14]);
}

#[test]
fn every_cutting_of_small_tables() {
    let mut answers = [0; 24];
    for text in cuttings::TEXTS {
        for bits in (0..256).step_by(5) {
            let rows: Vec<i32> = (0..8).map(|at| bits >> at & 1).collect();
            let draft = Draft::new(2, text, rows)
                .define(b'A', &[with_number(0, 0, 1, 1)])
                .define(b'B', &[with_number(1, 0, 1, 1)])
                .measure(2, 0, 0);
            let draft = draft.with_skip((bits % 2) as u8, 0);
            for cut in every_cutting(&draft) {
                let told = check(&cut);
                told.iter().for_each(|&it| answers[usize::from(it)] += 1);
            }
        }
    }
    assert!(answers[23] > 20_000 && answers[0] > 20_000, "{answers:?}");
}

/// Every allowance, and every report room, of some of them.
#[test]
fn every_cutting_within_allowances_and_rooms() {
    let mut answers = [0; 24];
    for text in [&b"A* B"[..], b"A | A B", b"(A B?)+", b"(^ A)* ^ B"] {
        for bits in 0..64 {
            let rows: Vec<i32> = (0..6).map(|at| bits >> at & 1).collect();
            let draft = Draft::new(2, text, rows)
                .define(b'A', &[with_number(0, 0, 1, 1)])
                .define(b'B', &[with_number(1, 0, 1, 1)])
                .to_last(b'B');
            for cut in every_cutting(&draft) {
                for allowance in 0..14 {
                    let mut within = cut.clone();
                    within.input.allowance = Some(allowance);
                    let told = check(&within);
                    told.iter().for_each(|&it| answers[usize::from(it)] += 1);
                }
                for less in 1..=3 {
                    let mut short = cut.clone();
                    short.input.labels = short.input.labels.saturating_sub(less);
                    let told = check(&short);
                    told.iter().for_each(|&it| answers[usize::from(it)] += 1);
                }
            }
        }
    }
    let often = [DONE, STOPPED, STUCK, SPENT, WAITS];
    assert!(
        often.iter().all(|&it| answers[usize::from(it)] > 1_000),
        "{answers:?}"
    );
}

#[test]
fn random_cuttings() {
    let mut random = Random::new(71);
    let mut answers = [0; 24];
    let mut refused = 0;
    for number in 0..12_000 {
        let size = match number % 40 {
            39 => MIDDLE,
            _ => SHORT,
        };
        let cut = cuttings::random(&mut random, &size, number);
        let told = check(&cut);
        refused += usize::from(told.contains(&10) || told.contains(&21));
        told.iter().for_each(|&it| answers[usize::from(it)] += 1);
    }
    for answer in [
        0, 1, 2, 3, 4, 5, 6, 7, 8, 9, 10, 11, 12, 13, 14, 15, 16, 17, 21, 23,
    ] {
        assert!(answers[answer] > 20, "{answer}: {answers:?}");
    }
    assert!(refused > 2_000, "{refused}");
}

/// On 23 and 16 the report holds the first matches of plain backtracking on the rows
/// present.
#[test]
fn the_first_matches_of_plain_backtracking() {
    let mut random = Random::new(72);
    let mut told = 0;
    for _ in 0..3_000 {
        let draft = cuttings::suited(&mut random, &SMALL);
        let columns = usize::from(draft.columns());
        let n = draft.rows.len() / columns;
        let present = random.below(n + 1);
        let input = cuttings::with_largest(&draft, n as u64, [Room::Exact; 4]);
        let cut = Cut {
            largest: n as u64,
            calls: vec![Call {
                present: present as u64,
                entries: draft.rows.len(),
                last: false,
            }],
            input: input.clone(),
        };
        let mut lent = Lent::new(&input);
        let outcome = call_lot(&mut begin(&cut), &cut, &cut.calls[0], &mut lent);
        if outcome.answer != WAITS {
            continue;
        }
        let plain = Input {
            rows: input.rows[..present * columns].to_vec(),
            numbers: input.numbers + 100,
            labels: input.labels + 100,
            ..input.clone()
        };
        let Some((of_plain, numbers, labels)) = call_plain(&plain, 100_000) else {
            continue;
        };
        let accepted = search::accept(&input.query, &[]).expect("accepted");
        let written = outcome.matches as usize * accepted.numbers_per_match();
        assert!(of_plain.matches >= outcome.matches);
        assert_eq!(numbers[..written], lent.numbers[..written]);
        let labelled = outcome.labels as usize;
        assert_eq!(labels[..labelled], lent.labels[..labelled]);
        told += usize::from(outcome.matches > 0);
    }
    assert!(told > 500, "{told}");
}

/// The generators hold what they are said to hold.
#[test]
fn suited_drafts() {
    let mut random = Random::new(73);
    let mut conditions = 0;
    for _ in 0..500 {
        let draft = cuttings::suited(&mut random, &SMALL);
        let (answer, ..) = search::room(&draft.query(), &draft.rows);
        assert_eq!(answer, 0);
        conditions += usize::from(cuttings::has_conditions(&draft));
    }
    assert!(conditions > 50);
    // Of inputs of all sorts many look ahead.
    let ahead = (0..500).filter(|&number| {
        let input = mix::input(&mut random, &SMALL, number);
        let cut = Cut {
            largest: 6,
            calls: vec![lot_of(0, 0)],
            input,
        };
        check(&cut) == [AHEAD]
    });
    assert!(ahead.count() > 100);
}
