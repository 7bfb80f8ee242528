//! A search in lots (document 02, R-11) by the product and by the reference, call by call:
//! after each call what it returned, all buffers and the feed are compared, up to the first
//! difference. Rows that are not yet present hold other numbers at each call. What the
//! papers and the header leave free is taken over from the product: at 23 the trail as far
//! as pairs go, and of a search that ended where it would go on. By its end a search has
//! the result, the report and the notes of the product's own search of all rows in one run.
//! A feed that no call wrote gets an answer, left free; then what lies outside of what may
//! be written is compared alone.

use crate::case::{Ran, CALLS};
use crate::engine::{Asked, Engine, Reference};
use crate::lent::{Guarded, Kept, Lent};
use reference::generate::cuttings::Call;
use reference::generate::{Input, Random};
use reference::lots::{Feed, LARGEST, OPENED, ROW, WAITS, WITHOUT, WORDS};
use reference::query;
use reference::search;
use std::sync::atomic::Ordering;

/// What is named first, and the calls.
#[derive(Clone, Debug, PartialEq, Eq)]
pub struct Lots {
    pub largest: u64,
    pub calls: Vec<Call>,
    /// What the feed holds instead, and behind how many calls.
    pub words: Option<([u64; WORDS], usize)>,
}

/// The calls of a search in lots by both.
pub fn in_lots(product: &dyn Engine, lots: &Lots, input: &Input, noise: u64) -> [Ran; 2] {
    let random = &mut Random::new(noise);
    let mut lent = Lent::new(input, random.draw());
    lent.feed = Some(Kept {
        words: Guarded::new(random, WORDS),
        largest: lots.largest,
    });
    if lots.words.is_some() {
        return with_any_feed(product, lots, input, lent, random);
    }
    let mut both = [(); 2].map(|()| ([0; 6], lent.clone()));
    product.name(&mut both[0].1);
    Reference.name(&mut both[1].1);
    let mut feeds = [(); 2].map(|()| feed_of(lots, input));
    let mut end = None;
    for call in &lots.calls {
        if both[0] != both[1] {
            return both;
        }
        let rows = rows_at(random, input, call, feeds[1].present());
        let words = Guarded::holding(random, both[1].1.feed());
        for (_, lent) in &mut both {
            lent.rows = rows.clone();
            if let Some(feed) = &mut lent.feed {
                feed.words = words.clone();
            }
        }
        let asked = asked(call);
        let going_on = feeds[1].ended().is_none();
        CALLS.fetch_add(1, Ordering::Relaxed);
        both[0].0 = product.lot(&mut both[0].1, &mut feeds[0], asked);
        both[1].0 = Reference.lot(&mut both[1].1, &mut feeds[1], asked);
        take_over(&mut both, &feeds[1], going_on);
        if going_on && feeds[1].ended().is_some() {
            let n = rows_by_the_end(&feeds[1], call.last);
            end = Some((both[0].0, n));
        }
    }
    match (end, both[0] == both[1]) {
        (Some((returned, n)), true) => {
            let [(_, own), _] = both;
            in_one_run(product, (returned, own), lent, input, n)
        }
        _ => both,
    }
}

/// The answers of the reference.
#[cfg(test)]
pub fn told(lots: &Lots, input: &Input) -> Vec<u64> {
    let random = &mut Random::new(0);
    let mut lent = Lent::new(input, 0);
    lent.feed = Some(Kept {
        words: Guarded::new(random, WORDS),
        largest: lots.largest,
    });
    Reference.name(&mut lent);
    let mut feed = feed_of(lots, input);
    let tell = |call: &Call| {
        lent.rows = rows_at(random, input, call, feed.present());
        Reference.lot(&mut lent, &mut feed, asked(call))[0]
    };
    lots.calls.iter().map(tell).collect()
}

fn feed_of(lots: &Lots, input: &Input) -> Feed {
    Feed::begin(lots.largest, input.allowance.unwrap_or(WITHOUT))
}

fn asked(call: &Call) -> Asked {
    Asked {
        present: call.present,
        last: call.last,
    }
}

/// The slice that a call is lent. Rows that are present now or were before are those of the
/// input; the others are anything, half of it such as rows are.
fn rows_at(random: &mut Random, input: &Input, call: &Call, before: u64) -> Guarded<i32> {
    let columns = query::read(&input.query).map_or(1, |query| query.columns);
    let mut rows = input.rows[..call.entries.min(input.rows.len())].to_vec();
    let present = call.present.max(before).min(rows.len() as u64) as usize * columns;
    for entry in rows.iter_mut().skip(present) {
        *entry = match random.chance(50) {
            true => random.between(-1, 3) as i32,
            false => random.draw() as i32,
        };
    }
    Guarded::holding(random, &rows)
}

/// Takes over what the product may leave as it likes.
fn take_over(both: &mut [Ran; 2], feed: &Feed, going_on: bool) {
    let [(_, own), (returned, expected)] = both;
    if returned[0] == u64::from(WAITS) {
        let pairs = feed.failed().len();
        let free = &own.trail.items()[..pairs];
        expected.trail.items_mut()[..pairs].copy_from_slice(free);
    }
    if going_on && feed.ended().is_some() {
        for word in [ROW, OPENED] {
            expected.feed_mut()[word] = own.feed()[word];
        }
    }
}

/// The rows of the whole table, if it has so many: those present where the end is declared;
/// a search that stops before that has never asked for a later one, so it may be all that
/// were named.
fn rows_by_the_end(feed: &Feed, last: bool) -> u64 {
    match last {
        true => feed.present(),
        false => feed.words()[LARGEST],
    }
}

/// What the product made of all calls, and the same with what it makes of up to so many rows
/// in one run.
fn in_one_run(product: &dyn Engine, own: Ran, mut lent: Lent, input: &Input, n: u64) -> [Ran; 2] {
    let Ok(accepted) = search::accept(&input.query, &[]) else {
        return [own.clone(), own];
    };
    let columns = accepted.query.columns;
    let n = (n as usize).min(input.rows.len() / columns);
    lent.rows = Guarded::holding(&mut Random::new(0), &input.rows[..n * columns]);
    lent.allowance = Some(input.allowance.unwrap_or(WITHOUT));
    CALLS.fetch_add(1, Ordering::Relaxed);
    let returned = product.search(&mut lent);
    let mut expected = own.1.clone();
    let (notes, _) = search::working_room(accepted.places.len(), n, accepted.factor());
    expected.notes.items_mut()[..notes].copy_from_slice(&lent.notes.items()[..notes]);
    expected.numbers = lent.numbers;
    expected.labels = lent.labels;
    [own, (returned, expected)]
}

/// Calls of the product, from some call on with a feed that no call wrote, and mostly with
/// another trail too.
fn with_any_feed(
    product: &dyn Engine,
    lots: &Lots,
    input: &Input,
    mut lent: Lent,
    random: &mut Random,
) -> [Ran; 2] {
    let mut feed = feed_of(lots, input);
    product.name(&mut lent);
    let mut both = [(); 2].map(|()| ([0; 6], lent.clone()));
    for (number, call) in lots.calls.iter().enumerate() {
        lent.rows = rows_at(random, input, call, 0);
        if let Some((words, _)) = lots.words.filter(|&(_, behind)| behind == number) {
            lent.feed_mut().copy_from_slice(&words);
            change_trail(random, lent.trail.items_mut());
        }
        let mut own = lent.clone();
        CALLS.fetch_add(1, Ordering::Relaxed);
        let returned = product.lot(&mut own, &mut feed, asked(call));
        let expected = written_as(&lent, &own);
        both = [(returned, own), (returned, expected)];
        if both[0] != both[1] {
            break;
        }
        lent = both[1].1.clone();
    }
    both
}

/// Leaves a trail as it is, changes some numbers a little, or all to any that could be
/// pairs.
fn change_trail(random: &mut Random, trail: &mut [u32]) {
    let most = trail.len() + 2;
    match random.below(4) {
        0 => {}
        1 => trail.fill_with(|| random.below(most) as u32),
        _ => {
            for number in trail.iter_mut().take(12) {
                if random.chance(15) {
                    let near = number.wrapping_add(random.below(5) as u32).wrapping_sub(2);
                    *number = random.pick(&[near, near, 0, u32::MAX]);
                }
            }
        }
    }
}

/// What was lent, with all that may be written as it was left.
fn written_as(lent: &Lent, own: &Lent) -> Lent {
    let mut expected = lent.clone();
    expected
        .notes
        .items_mut()
        .copy_from_slice(own.notes.items());
    expected
        .trail
        .items_mut()
        .copy_from_slice(own.trail.items());
    expected
        .numbers
        .items_mut()
        .copy_from_slice(own.numbers.items());
    expected
        .labels
        .items_mut()
        .copy_from_slice(own.labels.items());
    expected.feed_mut().copy_from_slice(own.feed());
    expected
}
