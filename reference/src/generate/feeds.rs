//! Feeds that no call wrote (document 02, R-11): such as a search in lots has left, with a
//! few words changed, and such as hold anything. Nothing is said of what a call with one of
//! them answers, but that it answers and keeps to what it was lent.

use super::cuttings::{self, Cut, SHORT};
use super::draft::Size;
use super::random::Random;
use crate::lots::{Feed, Lot, ANSWER, WAITS, WITHOUT, WORDS};

/// A search in lots, a feed, and behind how many of the calls it takes the place of the
/// search's own.
pub fn any(random: &mut Random, number: usize) -> (Cut, [u64; WORDS], usize) {
    let size = match number % 10 {
        9 => Size {
            pairs: 800,
            rows: 30,
            ..SHORT
        },
        _ => SHORT,
    };
    let turn = random.below(12);
    let mut cut = cuttings::random(random, &size, turn);
    let lengths = [
        &mut cut.input.notes,
        &mut cut.input.trail,
        &mut cut.input.numbers,
        &mut cut.input.labels,
    ];
    for length in lengths {
        if random.chance(5) {
            *length = random.below(*length + 4);
        }
    }
    let count = random.below(cut.calls.len() + 1);
    for call in &mut cut.calls {
        call.last &= random.chance(50);
    }
    let mut words = left_by(&cut, count);
    if random.chance(80) {
        words[ANSWER] = WAITS.into();
    }
    let about = [
        cut.input.trail as u64,
        cut.input.rows.len() as u64,
        cut.largest,
    ];
    for _ in 0..random.pick(&[0, 1, 1, 1, 1, 2, 2, 4]) {
        let word = &mut words[random.below(WORDS)];
        *word = changed(random, *word, about);
    }
    if number % 16 == 15 {
        words = std::array::from_fn(|_| random.draw());
    }
    (cut, words, count)
}

/// The feed behind so many calls.
fn left_by(cut: &Cut, count: usize) -> [u64; WORDS] {
    let input = &cut.input;
    let mut feed = Feed::begin(cut.largest, input.allowance.unwrap_or(WITHOUT));
    let mut notes = vec![0; input.notes];
    let mut trail = vec![0; input.trail];
    let mut numbers = vec![0; input.numbers];
    let mut labels = vec![0; input.labels];
    for call in &cut.calls[..count] {
        let lot = Lot {
            query: &input.query,
            rows: &input.rows[..call.entries],
            present: call.present,
            last: call.last,
        };
        feed.call(lot, (&mut notes, &mut trail, &mut numbers, &mut labels));
    }
    feed.words()
}

/// A number near the word or near one of the others, small, or at an end of its bits.
fn changed(random: &mut Random, word: u64, about: [u64; 3]) -> u64 {
    let near = random.pick(&[word, about[0], about[1], about[2], 0, 24]);
    match random.below(8) {
        0 => random.draw(),
        1 => random.pick(&[u64::MAX, 1 << 63, 1 << 32, u32::MAX.into(), 4_096, 4_097]),
        2 => random.below(300) as u64,
        _ => near.wrapping_add(random.below(5) as u64).wrapping_sub(2),
    }
}
