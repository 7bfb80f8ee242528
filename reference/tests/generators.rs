//! The generators: each damage brings the answer it is meant for, of two the
//! lower one, and the streams hold what they are said to hold.

mod common;

use common::*;
use reference::cases;
use reference::generate::allowances::{self, Point, POINTS};
use reference::generate::damage::{damage, damage_twice};
use reference::generate::draft::{self, Draft, Numbers, Room, MIDDLE, SMALL};
use reference::generate::scramble::{every_byte, scrambled};
use reference::generate::{averages, beginnings, limits, mix, stdin, texts, Random};
use reference::pattern;
use reference::program::program;
use reference::query::{Function, Measure, Skip, MEASURE, SKIP};
use reference::search::{self, DONE, SPENT, STOPPED, STUCK};
use std::collections::{BTreeMap, BTreeSet};

#[test]
fn one_damage_brings_its_answer() {
    for (seed, size) in [(1, SMALL), (2, MIDDLE)] {
        let mut random = Random::new(seed);
        for answer in 1..=15 {
            let mut done = 0;
            while done < 400 {
                let mut draft = draft::accepted(&mut random, &size, Numbers::Low);
                let before = draft.clone();
                if damage(&mut random, &mut draft, answer) {
                    let called = call(&draft.finish());
                    assert_eq!(called.outcome.answer, answer, "{before:?}\n{draft:?}");
                    done += 1;
                }
            }
        }
    }
}

#[test]
fn two_damages_bring_the_lower_answer() {
    let mut random = Random::new(3);
    for low in 1..=13 {
        for high in low..=13 {
            let mut done = 0;
            while done < 60 {
                let mut draft = draft::accepted(&mut random, &SMALL, Numbers::Low);
                if damage_twice(&mut random, &mut draft, [high, low]) {
                    let called = call(&draft.finish());
                    assert_eq!(called.outcome.answer, low, "{high}: {draft:?}");
                    done += 1;
                }
            }
        }
    }
}

/// 15 comes last of all.
#[test]
fn no_row_to_go_on_at_and_another_damage() {
    let mut random = Random::new(12);
    for other in 1..=15 {
        let mut done = 0;
        while done < 60 {
            let mut draft = draft::accepted(&mut random, &SMALL, Numbers::Low);
            if damage_twice(&mut random, &mut draft, [15, other]) {
                let outcome = call(&draft.finish()).outcome;
                assert_eq!(outcome.answer, other, "{draft:?}");
                done += 1;
            }
        }
    }
}

/// 14 stands where 5 does: behind 4 and before 6.
#[test]
fn a_text_that_could_go_on_and_another_damage() {
    let mut random = Random::new(11);
    for other in (1..=13).filter(|&other| other != 5) {
        let mut done = 0;
        while done < 60 {
            let mut draft = draft::accepted(&mut random, &SMALL, Numbers::Low);
            if damage_twice(&mut random, &mut draft, [14, other]) {
                let outcome = call(&draft.finish()).outcome;
                let lower = if other < 5 { other } else { 14 };
                assert_eq!(outcome.answer, lower, "{other}: {draft:?}");
                assert!(lower == 14 || outcome.offset == 0);
                done += 1;
            }
        }
    }
}

/// What a search to a labelled row meets, match by match.
#[derive(Default, Debug)]
struct Met {
    empty: usize,
    no_row: usize,
    first_row: usize,
    several: usize,
    goes_on: usize,
}

impl Met {
    fn meet(&mut self, skip: Skip, labels: &[u8]) {
        let Some(letter) = skip.letter() else {
            return;
        };
        let count = labels.iter().filter(|&&label| label == letter).count();
        self.empty += usize::from(labels.is_empty());
        self.no_row += usize::from(!labels.is_empty() && count == 0);
        self.first_row += usize::from(labels.first() == Some(&letter));
        self.several += usize::from(count > 1);
        let next = search::next_start(skip, 0, labels);
        self.goes_on += usize::from(!labels.is_empty() && next.is_some());
    }
}

/// All four modes are drawn, and of the modes 2 and 3 each sort of match.
#[test]
fn random_skips_of_all_sorts() {
    let mut random = Random::new(13);
    let mut modes = [0; 4];
    let mut met = Met::default();
    let mut many = 0;
    for _ in 0..10_000 {
        let draft = draft::accepted(&mut random, &SMALL, Numbers::Low);
        let input = draft.finish();
        let skip = search::accept(&input.query, &input.rows)
            .expect("accepted")
            .query
            .skip;
        modes[match skip {
            Skip::PastLastRow => 0,
            Skip::ToNextRow => 1,
            Skip::ToFirst(_) => 2,
            Skip::ToLast(_) => 3,
        }] += 1;
        let found = matches(&draft);
        for (_, labels) in &found {
            met.meet(skip, labels.as_bytes());
        }
        many += usize::from(skip.letter().is_some() && found.len() > 2);
    }
    assert!(modes.iter().all(|&count| count > 2_000), "{modes:?}");
    let counts = [
        met.empty,
        met.no_row,
        met.first_row,
        met.several,
        met.goes_on,
        many,
    ];
    assert!(counts.iter().all(|&count| count > 150), "{met:?}, {many}");
}

/// In most of the drafts made for it a search goes on at a labelled row.
#[test]
fn jumping_drafts_jump() {
    let mut random = Random::new(15);
    let (mut jumping, mut far, mut stuck) = (0, 0, 0);
    for _ in 0..400 {
        let draft = mix::jumping(&mut random, &MIDDLE);
        let input = draft.finish();
        let accepted = search::accept(&input.query, &input.rows).expect("accepted");
        let count = draft.matches_with_rows();
        let labelled = accepted.query.skip.letter().is_some();
        jumping += usize::from(labelled && count > 2);
        far += usize::from(labelled && count > 9);
        stuck += usize::from(call(&input).outcome.answer == STUCK);
    }
    assert!(
        jumping > 300 && far > 40 && stuck > 40,
        "{jumping} {far} {stuck}"
    );
}

/// Answers 3 and 9 come from the skip record too, in each of the ways there are.
#[test]
fn damaged_skips_of_all_sorts() {
    let mut random = Random::new(14);
    let mut seen = BTreeSet::new();
    for number in 0..6_000 {
        let answer = [3, 9][number % 2];
        let mut draft = draft::accepted(&mut random, &SMALL, Numbers::Low);
        damage(&mut random, &mut draft, answer);
        let at = draft.place_of(SKIP).expect("a skip record");
        let letters = draft.letters();
        seen.insert(match draft.records[at].1[..] {
            [0 | 1, 0] => "right, without a letter",
            [0 | 1, b'A'..=b'Z'] => "a letter that is not asked for",
            [0 | 1, _] => "another reserved byte",
            [2 | 3, letter @ b'A'..=b'Z'] if letters.contains(&letter) => "right, with a letter",
            [2 | 3, b'A'..=b'Z'] => "a stranger",
            [2 | 3, 0] => "no letter",
            [2 | 3, _] => "another byte in the letter's place",
            [_, _] => "no such mode",
            _ => "no such length",
        });
    }
    assert_eq!(seen.len(), 9, "{seen:?}");
}

#[test]
fn small_inputs_are_small() {
    let mut random = Random::new(4);
    for number in 0..5_000 {
        let input = mix::input(&mut random, &SMALL, number);
        let (answer, places, n) = search::room(&input.query, &input.rows);
        if answer == 0 {
            assert!(n <= 6 && places * (n + 1) * search::factor(&input.query) <= 120);
        }
    }
}

#[test]
fn standard_inputs_of_all_sorts() {
    let mut random = Random::new(5);
    let mut heads = BTreeSet::new();
    let mut long = 0;
    for number in 0..3_000 {
        let input = stdin::input(&mut random, number);
        long += usize::from(input.len() >= 200);
        let printed = String::from_utf8(program(&input)).expect("plain text");
        let line = printed.lines().next().expect("a line");
        let head = match line.starts_with("refused") {
            true => line,
            false => line.split(' ').next().expect("a word"),
        };
        heads.insert(head.to_string());
    }
    for answer in (1..=10).chain([14]) {
        assert!(heads.contains(&format!("refused {answer}")), "{heads:?}");
    }
    for head in ["matches", "stopped", "too"] {
        assert!(heads.contains(head), "{heads:?}");
    }
    assert!(long < 300, "{long}");
}

#[test]
fn the_same_seed_gives_the_same_inputs() {
    let stream = || {
        let mut random = Random::new(9);
        let inputs = (0..200).map(|number| mix::input(&mut random, &SMALL, number));
        inputs.collect::<Vec<_>>()
    };
    assert_eq!(stream(), stream());
}

#[test]
fn texts_of_a_wanted_number_of_places() {
    let near = (0..=65).flat_map(|power| [(1u128 << power) - 1, 1 << power, (1 << power) + 1]);
    for places in near.filter(|&places| places > 0) {
        let text = texts::with_places(places).expect("short enough");
        let tree = pattern::read(&text).expect("in the language");
        assert_eq!(tree.count_with_end(), places);
        assert_eq!(tree.nesting(), 0);
    }
    assert_eq!(texts::with_places(0), None);
    assert_eq!(texts::with_places(1 << 70), None);
}

#[test]
fn scrambled_queries_are_refused_in_many_ways_or_accepted() {
    let mut random = Random::new(6);
    let mut answers = [0; 15];
    for _ in 0..20_000 {
        let draft = draft::accepted(&mut random, &SMALL, Numbers::Low);
        let query = scrambled(&mut random, &draft.query());
        answers[usize::from(search::room(&query, &draft.rows).0)] += 1;
    }
    for answer in [0, 1, 2, 3, 5, 8, 9, 10, 14] {
        assert!(answers[answer] > 20, "{answers:?}");
    }
}

#[test]
fn every_byte_at_every_value() {
    let query = Draft::new(1, b"A", Vec::new()).query();
    let made: BTreeSet<Vec<u8>> = every_byte(query.clone()).collect();
    // The query itself, and all that differ from it in one byte.
    assert_eq!(made.len(), 1 + 255 * query.len());
    assert!(made.contains(&query));
}

#[test]
fn the_largest_searches_are_accepted() {
    let mut places = BTreeSet::new();
    for draft in limits::of_large_searches() {
        let (answer, p, n) = search::room(&draft.query(), &draft.rows);
        assert_eq!((answer, n), (0, 4096));
        places.insert(p);
    }
    assert!(places.contains(&256));
    let most = limits::with_most_records();
    assert_eq!(search::room(&most.query(), &most.rows).0, 0);
    assert_eq!(most.needs()[3], 32);
}

#[test]
fn every_beginning_with_a_byte_changed() {
    let mut random = Random::new(10);
    let mut answers = [0; 15];
    for _ in 0..100 {
        let good = beginnings::good(&mut random);
        assert!(pattern::read(&good).is_some());
        let made: Vec<Vec<u8>> = beginnings::with_a_byte_changed(good.clone()).collect();
        // Each beginning, and as many changes as it has bytes times those of the list.
        let (count, bytes) = (good.len() + 1, good.len() * (good.len() + 1) / 2);
        assert_eq!(made.len(), count + bytes * beginnings::CHANGED.len());
        assert!((0..count).all(|length| made.contains(&good[..length].to_vec())));
        for text in made {
            answers[usize::from(answer_of_text(&text))] += 1;
        }
    }
    for answer in [0, 5, 14] {
        assert!(answers[answer] > 500, "{answers:?}");
    }
    assert!(answers[6] > 50, "{answers:?}");
}

/// The answers with their offsets that braces bring, by how many bytes before the end.
#[test]
fn braces_of_all_sorts() {
    let made: BTreeSet<Vec<u8>> = beginnings::braces().collect();
    for text in [
        "A{30,2", "A{3,2", "A{0}", "A{99,98", "A{,0", "A{07", "A{100",
    ] {
        assert!(made.contains(text.as_bytes()), "{text}");
    }
    let mut before_the_end = [0; 6];
    let mut answers = [0; 15];
    for text in made {
        let answer = answer_of_text(&text);
        answers[usize::from(answer)] += 1;
        if answer == 5 {
            before_the_end[text.len() - 1 - pattern::offset(&text) as usize] += 1;
        }
    }
    assert!(answers[0] > 4_000 && answers[14] > 4_000, "{answers:?}");
    assert!(
        before_the_end.iter().all(|&count| count > 30),
        "{before_the_end:?}"
    );
}

/// Both sides of each limit: 8 and 9 deep, 256 and 257 bytes.
#[test]
fn texts_deep_and_long() {
    let mut answers = [[0; 15]; 2];
    for text in beginnings::deep_and_long() {
        let answer = answer_of_text(&text);
        answers[usize::from(text.len() >= 256)][usize::from(answer)] += 1;
        assert_eq!(answer == 3, text.len() == 257);
    }
    for answer in [0, 4, 5, 6, 7, 14] {
        assert!(answers.iter().all(|by| by[answer] > 3), "{answers:?}");
    }
}

/// How many pairs are noted as failed; the spare bits are 0.
fn bits(called: &Called, pairs: usize) -> u32 {
    let notes = &called.notes[..pairs.div_ceil(8)];
    notes.iter().map(|byte| byte.count_ones()).sum()
}

/// Each point is what it is said to be, as the runs before, at and behind it show.
#[test]
fn allowances_at_points() {
    let mut random = Random::new(16);
    let mut seen = BTreeSet::new();
    for number in 0..2_000 {
        let input = mix::input(&mut random, &SMALL, number);
        let Some(log) = allowances::log_of(&input) else {
            continue;
        };
        let (_, places, n) = search::room(&input.query, &input.rows);
        let run = |allowance| call(&input.within(allowance));
        let pairs = places * (n + 1) * search::factor(&input.query);
        let noted = |called: &Called| bits(called, pairs);
        for (point, at) in allowances::points(&log) {
            seen.insert(point);
            let (called, before) = (run(at), run(at.saturating_sub(1)));
            assert!(at <= log.steps());
            match point {
                Point::BeforeAttempt => {
                    assert_eq!((called.outcome.answer, called.open), (SPENT, vec![]));
                }
                Point::InFirstEntry => assert_eq!(before.open, []),
                Point::BeforeEnd => {
                    let (found, next) = (called.pairs_on_paths, run(at + 1).pairs_on_paths);
                    assert_eq!(next, found + called.open.len() as u64 + 1);
                }
                Point::AtEnd => {
                    assert_eq!(called.outcome.matches, before.outcome.matches + 1);
                }
                Point::AtUnfit => {
                    assert_eq!(before.outcome.answer, SPENT);
                    assert_eq!(called.outcome.answer, STOPPED);
                }
                Point::AtFailure => assert!(noted(&called) > noted(&before)),
                Point::BesideFailed => assert!(noted(&called) > 0),
                Point::BesideAttempt => assert_eq!(called.open, []),
            }
        }
    }
    assert_eq!(seen, BTreeSet::from(POINTS));
}

/// The choices of allowances hold what they are said to hold.
#[test]
fn chosen_allowances() {
    let mut random = Random::new(17);
    let mut ends = [0; 17];
    for number in 0..1_000 {
        let input = mix::input(&mut random, &SMALL, number);
        let steps = allowances::steps_of(&input);
        let every = allowances::every(&mut random, &input);
        assert!((0..=steps + 1).all(|allowance| every.contains(&allowance)));
        let telling = allowances::telling(&mut random, &input);
        let some = allowances::some(&mut random, &input);
        let extremes = [0, steps.saturating_sub(1), steps, steps + 1, u64::MAX];
        for chosen in [&every, &telling, &some] {
            assert!(extremes.iter().all(|extreme| chosen.contains(extreme)));
            // Enough for the search, but its low 31 bits are at most the steps.
            let wide = |&allowance: &u64| allowance > steps + 1 && allowance << 33 >> 33 <= steps;
            assert!(chosen.iter().any(wide), "{chosen:?}");
        }
        let points = allowances::log_of(&input).map_or(vec![], |log| allowances::points(&log));
        for sort in POINTS {
            let mut of_sort = points.iter().filter(|point| point.0 == sort).peekable();
            let none = of_sort.peek().is_none();
            assert!(none || of_sort.any(|point| telling.contains(&point.1)));
        }
        for allowance in every {
            let outcome = call(&input.within(allowance)).outcome;
            ends[usize::from(outcome.answer)] += 1;
        }
    }
    for answer in [DONE, STOPPED, STUCK, SPENT] {
        assert!(ends[usize::from(answer)] > 200, "{ends:?}");
    }
}

/// In many searches 13 or 15 comes with the last step, and 16 with one less.
#[test]
fn other_stops_compete_with_the_allowance() {
    let mut random = Random::new(18);
    let mut competing = [0; 17];
    for _ in 0..300 {
        let draft = mix::jumping(&mut random, &SMALL);
        for input in draft.with_critical_rooms() {
            let steps = allowances::steps_of(&input);
            if steps > 0 {
                let answer = |allowance| call(&input.within(allowance)).outcome.answer;
                assert_eq!(answer(steps - 1), SPENT);
                competing[usize::from(answer(steps))] += 1;
            }
        }
    }
    for answer in [DONE, STOPPED, STUCK] {
        assert!(competing[usize::from(answer)] > 300, "{competing:?}");
    }
}

/// Cases for the checker: stopped halfway, just before the end, and not at all.
#[test]
fn cases_within_an_allowance() {
    let mut random = Random::new(19);
    for number in 0..60 {
        let case = cases::within_case(&mut random, number);
        let [matches, _, steps, _] = case.counts;
        let spent = case.answer == u64::from(SPENT);
        assert_eq!(spent, number % 3 < 2);
        assert_eq!(case.allowance, Some(steps));
        assert!(spent || matches > 0);
    }
}

/// Every function is drawn about as often as another.
#[test]
fn random_measures_of_all_functions() {
    let mut random = Random::new(20);
    let mut functions = [0; 8];
    let mut strangers = [0; 8];
    for _ in 0..6_000 {
        let mut draft = draft::accepted(&mut random, &SMALL, Numbers::Low);
        for at in draft.places_of(MEASURE) {
            functions[usize::from(draft.records[at].1[0])] += 1;
        }
        let before = draft.records.len();
        damage(&mut random, &mut draft, 9);
        if draft.records.len() > before {
            strangers[usize::from(draft.records[before].1[0])] += 1;
        }
    }
    assert_eq!((functions[0], strangers[0]), (0, 0));
    assert!(
        functions[1..].iter().all(|&count| count > 700),
        "{functions:?}"
    );
    assert!(
        strangers[1..].iter().all(|&count| count > 150),
        "{strangers:?}"
    );
}

/// Functions 0, 8 and 255 are tried as refused, and no function that there is.
#[test]
fn damaged_functions() {
    let mut random = Random::new(21);
    let mut seen = BTreeSet::new();
    for _ in 0..6_000 {
        let mut draft = draft::accepted(&mut random, &SMALL, Numbers::Low).measure(1, 0, 0);
        damage(&mut random, &mut draft, 3);
        for at in draft.places_of(MEASURE) {
            seen.extend(draft.records[at].1.first().copied());
        }
    }
    assert_eq!(seen, BTreeSet::from([0, 1, 2, 3, 4, 5, 6, 7, 8, 255]));
}

/// What an average is taken of, in words.
fn sorts(measure: &Measure, rows: &[i32], columns: usize, labels: &[u8]) -> Vec<&'static str> {
    let own = |at: &usize| measure.letter.is_none_or(|letter| letter == labels[*at]);
    let entries: Vec<i64> = (0..labels.len())
        .filter(own)
        .map(|at| i64::from(rows[at * columns + measure.column]))
        .collect();
    let (sum, count) = (entries.iter().sum::<i64>(), entries.len() as i64);
    if count == 0 {
        return vec!["no rows"];
    }
    let over = (sum % count).abs();
    let mixed = entries.iter().any(|&it| it < 0) && entries.iter().any(|&it| it > 0);
    let end = |it: &i64| *it == i64::from(i32::MIN) || *it == i64::from(i32::MAX);
    let table = [
        ("a sum of 0 of several", sum == 0 && count > 1),
        ("a multiple", over == 0 && sum != 0 && count > 1),
        ("one above a multiple, above 0", over == 1 && sum > count),
        (
            "one below a multiple, above 0",
            over == count - 1 && sum > count,
        ),
        (
            "one above a multiple, below 0",
            over == count - 1 && sum < -count,
        ),
        ("one below a multiple, below 0", over == 1 && sum < -count),
        ("cut to 0 from above", sum > 0 && sum < count),
        ("cut to 0 from below", sum < 0 && sum > -count),
        ("a half", over * 2 == count),
        ("more than a half", over * 2 > count),
        ("mixed signs", mixed),
        ("entries at the ends", entries.iter().all(end)),
        ("beyond 32 bits, below 0", sum < i64::from(i32::MIN)),
        ("beyond 32 bits, above 0", sum > i64::from(i32::MAX)),
        ("some rows of the match", count < labels.len() as i64),
    ];
    let met = table.into_iter().filter(|(_, is)| *is);
    met.map(|(name, _)| name).collect()
}

/// The drafts made for averages have all that may go wrong in one.
#[test]
fn averages_of_all_sorts() {
    let mut random = Random::new(22);
    let mut met: BTreeMap<&str, usize> = BTreeMap::new();
    for _ in 0..3_000 {
        let mut draft = averages::draft(&mut random, &SMALL);
        (draft.numbers, draft.labels) = (Room::Exact, Room::Exact);
        let accepted = search::accept(&draft.query(), &draft.rows).expect("accepted");
        let (columns, measures) = (accepted.query.columns, accepted.query.measures);
        for (first, labels) in matches(&draft) {
            let rows = &draft.rows[first as usize * columns..];
            for measure in measures.iter().filter(|it| it.function == Function::Avg) {
                for sort in sorts(measure, rows, columns, labels.as_bytes()) {
                    *met.entry(sort).or_default() += 1;
                }
            }
        }
    }
    assert_eq!(met.len(), 16, "{met:?}");
    assert!(met.values().all(|&count| count > 100), "{met:?}");
}

#[test]
fn entries_with_a_sum() {
    let mut random = Random::new(23);
    let (least, greatest) = (i64::from(i32::MIN), i64::from(i32::MAX));
    for count in [1, 2, 3, 7, 4096] {
        let ends = [count * least, count * greatest];
        for sum in [
            0,
            1,
            -1,
            least,
            greatest,
            ends[0],
            ends[1],
            ends[0] + 1,
            ends[1] - 1,
        ] {
            let entries = averages::with_sum(&mut random, count as usize, sum);
            assert_eq!(entries.len(), count as usize);
            assert_eq!(entries.into_iter().map(i64::from).sum::<i64>(), sum);
        }
    }
}

/// The cases for the checker hold averages that are told, and null ones.
#[test]
fn cases_with_averages() {
    let mut random = Random::new(24);
    let (mut told, mut null) = (0, 0);
    for number in 0..200 {
        let case = cases::search_case(&mut random, number);
        let Ok(accepted) = search::accept(&case.query, &case.rows) else {
            continue;
        };
        let per_match = accepted.numbers_per_match();
        for written in case.numbers.chunks(per_match).take(case.counts[0] as usize) {
            let measures = accepted.query.measures.iter().zip(written[3..].chunks(2));
            for (_, result) in measures.filter(|(it, _)| it.function == Function::Avg) {
                told += result[0];
                null += 1 - result[0];
            }
        }
    }
    assert!(told > 20 && null > 5, "{told} {null}");
}
