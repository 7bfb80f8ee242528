//! The comparison itself, with the reference in the place of the product: it
//! agrees with itself, faults put on it are found, and what is found shrinks.

use super::*;
use crate::case::Call;
use reference::generate::allowances::{self, Point, POINTS};
use reference::generate::{texts, Random};
use reference::pattern;
use reference::query::Skip;
use reference::search;
use std::collections::BTreeMap;

#[test]
fn the_reference_agrees_with_itself() {
    for stream in &STREAMS {
        let mut cases = (stream.cases)(7).take(300);
        assert!(cases.all(|case| case.agrees(&Reference)), "{}", stream.name);
    }
}

/// The bounds of the papers, 2P(n+1) in mode 0 and Pn(n+3)/2 in modes 1 to 3.
#[test]
fn the_steps_keep_to_the_bounds() {
    let mut walked = [0; 4];
    for stream in &STREAMS {
        let cases = (stream.cases)(8).take(600);
        for case in cases.filter(|case| case.call == Call::Search) {
            let (returned, _) = case.expected();
            let Ok(accepted) = search::accept(&case.input.query, &case.input.rows) else {
                continue;
            };
            assert!(returned[3] <= accepted.most_steps(), "{}", stream.name);
            walked[match accepted.query.skip {
                Skip::PastLastRow => 0,
                Skip::ToNextRow => 1,
                Skip::ToFirst(_) => 2,
                Skip::ToLast(_) => 3,
            }] += 1;
        }
    }
    assert!(walked.iter().all(|&count| count > 200), "{walked:?}");
}

/// The listed words of labels hold every way in which a search to a labelled row ends.
#[test]
fn the_listed_words_end_in_each_way() {
    let labelled = STREAMS.iter().find(|stream| stream.name == "labelled");
    let mut answers = [0; 16];
    for case in (labelled.expect("a stream of that name").cases)(1) {
        let (returned, _) = case.expected();
        answers[returned[0] as usize] += 1;
    }
    let ends = [0, 9, 13, 15];
    assert!(ends.iter().all(|&at| answers[at] > 5_000), "{answers:?}");
    // 26 patterns, 8 skips, 341 tables, 85 of them in four more rooms.
    assert_eq!(answers.iter().sum::<usize>(), 26 * 8 * (341 + 4 * 85));
    assert_eq!(ends.map(|at| answers[at]).iter().sum::<usize>(), 141_648);
}

/// The streams of allowances hold each way to end, and those that take every allowance
/// or choose them end at each sort of point.
#[test]
fn the_allowances_end_in_each_way() {
    let mut answers = [0; 17];
    let mut points: BTreeMap<Point, usize> = BTreeMap::new();
    let within = |stream: &&Stream| stream.name.starts_with("within");
    for stream in STREAMS.iter().filter(within) {
        for case in (stream.cases)(9).take(4_000) {
            assert!(case.input.allowance.is_some());
            let (returned, _) = case.expected();
            answers[returned[0] as usize] += 1;
            let log = allowances::log_of(&case.input);
            let found = log.map_or(Vec::new(), |log| allowances::points(&log));
            for (point, at) in found {
                let here = case.input.allowance == Some(at);
                *points.entry(point).or_default() += usize::from(here);
            }
        }
    }
    // Refusals of all sorts among them.
    assert!(answers.iter().all(|&count| count > 20), "{answers:?}");
    for answer in [0, 13, 15, 16] {
        assert!(answers[answer] > 700, "{answers:?}");
    }
    let often = |point| points.get(point).is_some_and(|&count| count > 150);
    assert!(POINTS.iter().all(often), "{points:?}");
}

/// The streams of searches in lots hold each answer that a call can have, and each way to
/// go on behind one.
#[test]
fn the_lots_end_in_each_way() {
    let mut answers = [0; 24];
    let mut stays = 0;
    let lots = |stream: &&Stream| stream.name.starts_with("lots");
    for stream in STREAMS.iter().filter(lots) {
        for case in (stream.cases)(10).take(6_000) {
            let Call::Lots(lots) = &case.call else {
                panic!("{}", stream.name);
            };
            let told = in_lots::told(lots, &case.input);
            told.iter().for_each(|&it| answers[it as usize] += 1);
            let ends = |two: &&[u64]| [13, 15, 16].contains(&two[0]);
            stays += told.windows(2).filter(ends).count();
        }
    }
    let known = (0..=17).chain([21, 23]);
    assert!(known.clone().all(|it| answers[it] > 50), "{answers:?}");
    assert_eq!(
        known.map(|it| answers[it]).sum::<usize>(),
        answers.iter().sum()
    );
    for answer in [0, 10, 11, 12, 13, 15, 16, 17, 21, 23] {
        assert!(answers[answer] > 500, "{answers:?}");
    }
    assert!(stays > 2_000, "{stays}");
}

/// Of all faults one in eight: `compare` itself puts every one of them on the product, and
/// `compare --itself --fault` on the reference.
#[test]
fn faults_are_found_and_shrunk() {
    for fault in faults::all().step_by(8) {
        let faulty = Faulty::new(&Reference, fault);
        let Some(found) = find(&faulty, fault) else {
            panic!("{} is not found", fault.name);
        };
        let small = shrink::shrink_within(&faulty, &found.case, SHRINKING);
        assert!(!small.agrees(&faulty), "{}", fault.name);
        assert!(small.input.query.len() <= found.case.input.query.len());
        assert!(small.input.rows.len() <= found.case.input.rows.len());
        let text = readable::difference(&faulty, &small);
        assert!(text.contains("  * "), "{}: {text}", fault.name);
    }
}

/// Faults that the two reports of one query tell apart, by their stream alone.
#[test]
fn derived_reports_find_faults() {
    let derived = STREAMS.iter().find(|stream| stream.name == "derived");
    let derived = derived.expect("a stream of that name");
    for name in ["label", "labels-reversed", "last-match", "numbers-behind"] {
        let fault = faults::all().find(|fault| fault.name == name);
        let faulty = Faulty::new(&Reference, fault.expect("a fault of that name"));
        let mut cases = (derived.cases)(1).take(2_000);
        assert!(cases.any(|case| !case.agrees(&faulty)), "{name}");
    }
}

#[test]
fn a_large_case_becomes_small() {
    let fault = faults::all().find(|fault| fault.name == "greedy");
    let faulty = Faulty::new(&Reference, fault.expect("a fault of that name"));
    let middle = STREAMS.iter().find(|stream| stream.name == "middle");
    let middle = middle.expect("a stream of that name");
    let large = (0..)
        .flat_map(|seed| (middle.cases)(seed).take(20))
        .find(|case| case.input.rows.len() > 100 && !case.agrees(&faulty))
        .expect("a large case");
    let small = shrink::shrink(&faulty, &large);
    assert_eq!(small.call, Call::Search);
    assert!(
        small.input.rows.len() <= 2,
        "{}",
        readable::describe(&small)
    );
    assert!(
        small.input.query.len() <= 30,
        "{}",
        readable::describe(&small)
    );
}

#[test]
fn streams_are_named_once() {
    let mut names: Vec<&str> = STREAMS.iter().map(|stream| stream.name).collect();
    names.extend(faults::all().map(|fault| fault.name));
    names.sort_unstable();
    let count = names.len();
    names.dedup();
    assert_eq!(names.len(), count);
}

/// The texts put in place are all there are, and the reference judges each of them.
#[test]
fn every_text_in_place() {
    let mut run = Run {
        product: &Reference,
        show: false,
        counts: Counts {
            passed: 0,
            failed: 0,
        },
    };
    let mut random = Random::new(1);
    for length in 0..=4 {
        let mut answers = [0; 15];
        let all = texts::every_text(every::ALPHABET, length);
        for text in all.filter(|text| text.len() == length) {
            answers[usize::from(pattern::judge(&text).err().unwrap_or(0))] += 1;
        }
        assert_eq!(run.texts_of(length, &mut random), answers);
    }
    assert_eq!((run.counts.passed, run.counts.failed), (54_241, 0));
}

#[test]
fn a_fault_is_found_in_place() {
    let fault = faults::all().find(|fault| fault.name == "offset-far");
    let faulty = Faulty::new(&Reference, fault.expect("a fault of that name"));
    let mut run = Run {
        product: &faulty,
        show: false,
        counts: Counts {
            passed: 0,
            failed: 0,
        },
    };
    run.texts(1, 1);
    // Of the empty text and those of one byte only `A`, `B` and `^` are in the language.
    assert_eq!((run.counts.passed, run.counts.failed), (3, 13));
}
