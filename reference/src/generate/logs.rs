//! Logs for the release desk (document 02, R-14): every small log, and random ones made of
//! runs from an offer to an acceptance, of which the last one is whole or misses by one
//! thing: the acceptance is not the last row, a number differs in one row, the offer is
//! missing, an event is odd.

use super::draft::{Input, Room};
use super::random::Random;
use crate::desk::{self, ACCEPTED, BASE, COLUMNS, EVENT, OFFERED, PATCH, REFUSED};
use crate::search;

/// What a log ends with.
#[derive(Clone, Copy, Debug, PartialEq, Eq, PartialOrd, Ord)]
pub enum Ending {
    Cleared,
    /// A row behind the acceptance.
    NotLast,
    /// One row behind the offer has another base number, or patch number.
    OtherBase,
    OtherPatch,
    /// No offer before the refusals, or another acceptance in its place.
    NoOffer,
    TwoAcceptances,
    NoAcceptance,
    /// An odd event somewhere in the log.
    Odd,
}

pub const ENDINGS: [Ending; 8] = [
    Ending::Cleared,
    Ending::NotLast,
    Ending::OtherBase,
    Ending::OtherPatch,
    Ending::NoOffer,
    Ending::TwoAcceptances,
    Ending::NoAcceptance,
    Ending::Odd,
];

/// Events that there are none of, some of which are 1, 2 or 3 to one who keeps too few
/// of their bits.
const ODD: [i32; 11] = [
    0,
    4,
    -1,
    5,
    257,
    258,
    65_539,
    -2,
    i32::MIN,
    i32::MIN + 1,
    i32::MAX,
];

type Row = [i32; COLUMNS];

/// From an offer to an acceptance, all with the same numbers, at any times.
fn run(random: &mut Random, refusals: usize) -> Vec<Row> {
    let numbers = [(); 2].map(|()| random.pick(&[0, 1, 2, 7, -1, i32::MIN, i32::MAX]));
    let mut events = vec![OFFERED];
    events.extend(vec![REFUSED; refusals]);
    events.push(ACCEPTED);
    let time = |random: &mut Random| random.pick(&[0, 1, 2, 3, -5, i32::MAX, i32::MIN]);
    events
        .into_iter()
        .map(|event| [time(random), event, numbers[0], numbers[1]])
        .collect()
}

fn refusals(random: &mut Random, most: usize) -> usize {
    match random.chance(70) {
        true => random.below(most.min(3) + 1),
        false => random.below(most + 1),
    }
}

/// A log that ends so, of up to about so many rows.
pub fn log(random: &mut Random, ending: Ending, most: usize) -> Vec<i32> {
    let mut rows: Vec<Row> = Vec::new();
    while rows.len() < most && random.chance(50) {
        rows.extend(earlier(random, most));
    }
    let count = refusals(random, most);
    let mut last = run(random, count);
    let behind_offer = 1 + random.below(last.len() - 1);
    match ending {
        Ending::Cleared | Ending::Odd => {}
        Ending::NotLast => {
            let event = random.pick(&[OFFERED, REFUSED, ACCEPTED]);
            let mut row = last[last.len() - 1];
            row[EVENT] = event;
            if random.chance(50) {
                row[BASE] = row[BASE].wrapping_add(1);
            }
            last.push(row);
        }
        Ending::OtherBase | Ending::OtherPatch => {
            let column = if ending == Ending::OtherBase {
                BASE
            } else {
                PATCH
            };
            let other = last[behind_offer][column].wrapping_add(random.pick(&[1, -1, 256]));
            // One row alone, or that one and all behind it.
            let end = match random.chance(50) {
                true => behind_offer + 1,
                false => last.len(),
            };
            for row in &mut last[behind_offer..end] {
                row[column] = other;
            }
        }
        Ending::NoOffer => {
            last.remove(0);
            // With an offer that is not next to it, at times.
            if random.chance(50) {
                rows.clear();
            }
        }
        Ending::TwoAcceptances => last[0][EVENT] = ACCEPTED,
        Ending::NoAcceptance => {
            last.pop();
        }
    }
    rows.extend(last);
    if ending == Ending::Odd {
        let at = random.below(rows.len());
        rows[at][EVENT] = random.pick(&ODD);
    }
    rows.concat()
}

/// A run, whole or cut, or some rows of any sort.
fn earlier(random: &mut Random, most: usize) -> Vec<Row> {
    let count = refusals(random, most);
    let mut rows = run(random, count);
    match random.below(3) {
        0 => {}
        1 => rows.truncate(random.below(rows.len() + 1)),
        _ => {
            for row in &mut rows {
                row[EVENT] = random.pick(&[OFFERED, REFUSED, ACCEPTED]);
                row[BASE] = row[BASE].wrapping_add(random.pick(&[0, 0, 1]));
            }
        }
    }
    rows
}

/// The rooms that the search of a log needs: notes, trail, numbers and labels.
pub fn needs(rows: &[i32]) -> [usize; 4] {
    let (answer, places, n) = search::room(&desk::query(), rows);
    if answer != 0 {
        return [2, 3, 4, 5];
    }
    let (notes, trail) = search::working_room(places, n, 1);
    let (mut numbers, mut labels) = (vec![0; 3], vec![0; n]);
    let outcome = search::search(
        &desk::query(),
        rows,
        &mut vec![0; notes],
        &mut vec![0; trail],
        &mut numbers,
        &mut labels,
    );
    let matches = outcome.matches as usize;
    [notes, trail, 3 * matches, outcome.labels as usize]
}

/// A log in these rooms. The desk takes no query.
pub fn in_rooms(rows: Vec<i32>, rooms: [Room; 4]) -> Input {
    let needs = needs(&rows);
    let length = |at: usize| rooms[at].length(needs[at]);
    Input {
        query: Vec::new(),
        rows,
        notes: length(0),
        trail: length(1),
        numbers: length(2),
        labels: length(3),
        allowance: None,
    }
}

/// A random log, mostly with room enough.
pub fn random(random: &mut Random, number: usize) -> Input {
    let most = match number % 50 {
        49 => 300,
        at if at % 7 == 6 => 60,
        _ => 5,
    };
    let mut rows = log(random, ENDINGS[number % ENDINGS.len()], most);
    let mut rooms = [Room::Exact; 4].map(|exact| random.pick(&[exact, exact, Room::OneMore]));
    match random.below(12) {
        0 => rooms[0] = random.pick(&[Room::OneShort, Room::Nothing]),
        1 => rooms[1] = random.pick(&[Room::OneShort, Room::Nothing]),
        2 => rooms[2] = random.pick(&[Room::OneShort, Room::Nothing]),
        3 => rooms[3] = random.pick(&[Room::OneShort, Room::Nothing]),
        4 => rows.truncate(rows.len() - random.below(rows.len().min(4) + 1)),
        5 if number % 40 == 0 => rows.truncate(0),
        _ => {}
    }
    in_rooms(rows, rooms)
}

/// Every log of up to 3 rows with the events 0 to 4 and numbers 0 and 1, and of 4 rows
/// with the events 1 to 3 and three pairs of numbers; up to two rows in short rooms too.
pub fn every_small() -> impl Iterator<Item = Input> {
    let short = (0..=3u32).flat_map(|n| every(n, 20));
    short.chain(every(4, 9)).flat_map(|rows| {
        let mut rooms = vec![[Room::Exact; 4], [Room::OneMore; 4]];
        if rows.len() <= 2 * COLUMNS {
            for at in 0..4 {
                for room in [Room::OneShort, Room::Nothing] {
                    let mut short = [Room::Exact; 4];
                    short[at] = room;
                    rooms.push(short);
                }
            }
        }
        let in_room = move |room| in_rooms(rows.clone(), room);
        rooms.into_iter().map(in_room).collect::<Vec<_>>()
    })
}

/// All logs of n rows, of so many sorts each: of 9 or 20.
fn every(n: u32, sorts: usize) -> impl Iterator<Item = Vec<i32>> {
    let row = move |time: u32, number: usize| -> Row {
        let (event, numbers) = match sorts {
            9 => (1 + number % 3, [(0, 0), (0, 1), (1, 0)][number / 3]),
            _ => (number % 5, [(0, 0), (0, 1), (1, 0), (1, 1)][number / 5]),
        };
        [time as i32, event as i32, numbers.0, numbers.1]
    };
    (0..sorts.pow(n)).map(move |number| {
        let rows = (0..n).map(|at| row(at, number / sorts.pow(at) % sorts));
        rows.collect::<Vec<_>>().concat()
    })
}

/// Logs at the limits: 4,096 rows in one run, with a match of them all; one more row; and
/// entries that are no whole rows.
pub fn at_limits() -> Vec<Input> {
    let long = |n: usize| {
        let row = |at: usize| match at {
            0 => [0, OFFERED, 5, 6],
            _ if at + 1 == n => [1, ACCEPTED, 5, 6],
            _ => [2, REFUSED, 5, 6],
        };
        (0..n).flat_map(row).collect::<Vec<i32>>()
    };
    let mut logs = vec![long(4_096), long(4_097), long(2), long(3)];
    for more in 1..4 {
        logs.push([long(3), vec![3; more]].concat());
        logs.push(vec![1; more]);
    }
    // A refusal in row 4,095, with other numbers.
    let mut refused = long(4_096);
    let last = refused.len() - COLUMNS;
    refused[last + EVENT] = REFUSED;
    refused[last + BASE] = 9;
    logs.push(refused);
    let rooms = [[Room::Exact; 4], [Room::OneMore; 4]];
    let in_both = |rows: Vec<i32>| rooms.map(|room| in_rooms(rows.clone(), room));
    logs.into_iter().flat_map(in_both).collect()
}
