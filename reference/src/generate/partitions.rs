//! Sequences of partitions for a depot-by-month table (document 02, R-4): every depot and
//! month in and beside the table, every short sequence of sorts of partitions in lists of
//! every length, sequences about the last number, and random ones.

use super::draft::{Draft, Input, Numbers, Room, SMALL};
use super::mix;
use super::random::Random;
use crate::depots::{Report, ENTRY, MOST_PARTITIONS, WORDS};
use crate::query::{MOST_COLUMNS, TO_FIRST};
use crate::search::{self, DONE, MOST_ROWS};

/// A table's named columns, the lengths of its state and list, what was reported to it
/// before, and the partitions that come then.
#[derive(Clone, Debug, PartialEq, Eq)]
pub struct Sequence {
    pub depot: u64,
    pub month: u64,
    pub state: usize,
    pub list: usize,
    pub before: Vec<Report>,
    pub partitions: Vec<Input>,
}

impl Sequence {
    /// With depot and month in the first two columns, and a list that is long enough.
    pub fn new(partitions: Vec<Input>) -> Sequence {
        Sequence {
            depot: 0,
            month: 1,
            state: WORDS,
            list: ENTRY * partitions.len(),
            before: Vec::new(),
            partitions,
        }
    }
}

/// One partition of each depot and month about the table, and of some far outside.
pub fn every_cell() -> impl Iterator<Item = Sequence> {
    let beside = (-2..=66).flat_map(|depot| (-1..=14).map(move |month| (depot, month)));
    let far = FAR.iter().flat_map(|&far| {
        let with = move |near| [(far, near), (near, far), (far, far)];
        [0, 1, 12, 63].into_iter().flat_map(with)
    });
    beside.chain(far).map(|(depot, month)| {
        let rows = vec![depot, month];
        Sequence::new(vec![Draft::new(2, b"A", rows).finish()])
    })
}

/// Entries that are a depot or a month to one who keeps too few of their bits.
const FAR: [i32; 12] = [
    64,
    76,
    128,
    256,
    257,
    268,
    65_536,
    65_537,
    i32::MIN,
    i32::MIN + 1,
    i32::MAX,
    -64,
];

/// How a partition ends.
#[derive(Clone, Copy, Debug, PartialEq, Eq)]
pub enum Sort {
    /// With two matches, in depot 1, month 2, and depot 3, month 4.
    Done,
    /// With an empty match in depot 5, month 6.
    Empty,
    NoRows,
    /// Refused with 1, 5, 10 and 14.
    Cut,
    Wrong,
    NotWhole,
    Ends,
    /// A shape of one column, so that a named one is outside it.
    Narrow,
    /// Stopped with 13 behind one match, and with 15.
    Stopped,
    Stuck,
}

pub const SORTS: [Sort; 10] = [
    Sort::Done,
    Sort::Empty,
    Sort::NoRows,
    Sort::Cut,
    Sort::Wrong,
    Sort::NotWhole,
    Sort::Ends,
    Sort::Narrow,
    Sort::Stopped,
    Sort::Stuck,
];

impl Sort {
    pub fn input(self) -> Input {
        let rows = vec![1, 2, 3, 4];
        let draft = Draft::new(2, b"A", rows.clone());
        match self {
            Sort::Done => draft.measure(1, 0, 0).finish(),
            Sort::Empty => Draft::new(2, b"()", vec![5, 6]).finish(),
            Sort::NoRows => Draft::new(2, b"A", Vec::new()).finish(),
            Sort::Cut => {
                let mut input = draft.finish();
                input.query.pop();
                input
            }
            Sort::Wrong => Draft::new(2, b"A)", rows).finish(),
            Sort::NotWhole => Draft::new(2, b"A", vec![1, 2, 3]).finish(),
            Sort::Ends => Draft::new(2, b"(A", rows).finish(),
            Sort::Narrow => Draft::new(1, b"A", rows).finish(),
            Sort::Stopped => {
                let mut input = draft.finish();
                input.numbers -= 1;
                input
            }
            Sort::Stuck => draft.with_skip(TO_FIRST, b'A').finish(),
        }
    }
}

/// Every sequence of up to 3 sorts; up to two in lists of every length, three in two.
pub fn every_sequence() -> impl Iterator<Item = Sequence> {
    let words = (1..=3usize).flat_map(|length| {
        let count = SORTS.len().pow(length as u32);
        (0..count).map(move |number| {
            let sort = |at: usize| SORTS[number / SORTS.len().pow(at as u32) % SORTS.len()];
            (0..length).map(sort).collect::<Vec<Sort>>()
        })
    });
    words.flat_map(|word| {
        let whole = Sequence::new(word.iter().map(|sort| sort.input()).collect());
        let lengths = match word.len() {
            3 => vec![ENTRY, 2 * ENTRY + 1],
            _ => (0..=whole.list + 1).collect(),
        };
        let in_list = move |list| Sequence {
            list,
            ..whole.clone()
        };
        lengths.into_iter().map(in_list).collect::<Vec<_>>()
    })
}

/// So many partitions that were done, without matches.
fn without_match(times: u64) -> Report {
    Report {
        times,
        answer: DONE,
        firsts: Vec::new(),
    }
}

/// Every two sorts about the last number, with the fullest cells too; and states that are
/// too short or longer than a table needs.
pub fn about_the_last() -> impl Iterator<Item = Sequence> {
    let full = |depot, month| Report {
        times: MOST_PARTITIONS - 2,
        answer: DONE,
        firsts: vec![(depot, month); MOST_ROWS],
    };
    let mut before: Vec<Vec<Report>> = (0..4)
        .map(|left| vec![without_match(MOST_PARTITIONS - left)])
        .collect();
    before.push(vec![full(63, 12)]);
    before.push(vec![full(0, 0)]);
    before.push(vec![full(1, 2), listed(1)]);
    before.push(vec![without_match(MOST_PARTITIONS - 3), listed(2)]);
    let of_sorts = before.into_iter().flat_map(|before| {
        let pairs = SORTS
            .iter()
            .flat_map(|&one| SORTS.map(|other| [one, other]));
        pairs.map(move |[one, other]| {
            let used = before.iter().filter(|report| report.answer != DONE);
            let used = ENTRY * used.map(|report| report.times as usize).sum::<usize>();
            let partitions = [one, other, Sort::Done].map(Sort::input).to_vec();
            Sequence {
                list: used + ENTRY + usize::from(one == other),
                before: before.clone(),
                ..Sequence::new(partitions)
            }
        })
    });
    let lengths = [0, 1, WORDS - 1, WORDS, WORDS + 1, 2 * WORDS];
    let of_lengths = lengths.into_iter().flat_map(|state| {
        COLUMNS.map(|column| Sequence {
            state,
            depot: column,
            ..Sequence::new(vec![Sort::Done.input(), Sort::Cut.input()])
        })
    });
    of_sorts.chain(of_lengths)
}

fn listed(times: u64) -> Report {
    Report {
        times,
        answer: 10,
        firsts: Vec::new(),
    }
}

/// Columns outside every shape, or inside to one who keeps too few of their bits.
const COLUMNS: [u64; 8] = [0, 2, 8, 255, 256, 1 << 32, u64::MAX, i64::MAX as u64];

/// All numbers taken by calls, from the first to two too many.
pub fn up_to_the_last() -> Sequence {
    let sorts = |number: u64| match number {
        7 | 40_000 | MOST_PARTITIONS => Sort::Cut,
        0 | 30_000 => Sort::Done,
        _ => Sort::NoRows,
    };
    let partitions = (0..MOST_PARTITIONS + 2).map(|number| sorts(number).input());
    Sequence {
        list: 3 * ENTRY,
        ..Sequence::new(partitions.collect())
    }
}

/// A random sequence: of one query or of several, some of them refused or stopped.
pub fn random(random: &mut Random, number: usize) -> Sequence {
    let columns = 1 + random.below(MOST_COLUMNS.min(4).into()) as u8;
    let inside = |random: &mut Random| random.below(columns.into()) as u64;
    let (mut depot, mut month) = (inside(random), inside(random));
    match number % 12 {
        0 => depot = random.pick(&COLUMNS),
        1 => month = random.pick(&COLUMNS),
        2 => month = depot,
        _ => {}
    }
    let count = match number % 40 {
        39 => 30,
        _ => 1 + random.below(5),
    };
    let one = draft(random, columns);
    let partitions: Vec<Input> = (0..count)
        .map(|_| partition(random, &one, depot, month))
        .collect();
    let refused = partitions.iter().filter(|input| answer(input) != DONE);
    let needed = ENTRY * refused.count();
    let list = match random.below(8) {
        0 => random.below(3),
        1 => needed.saturating_sub(1 + random.below(3)),
        2 => needed + random.below(5),
        3 => random.below(needed + 1),
        _ => needed + ENTRY,
    };
    let mut sequence = Sequence {
        depot,
        month,
        list,
        state: WORDS + random.pick(&[0, 0, 1, 9]),
        ..Sequence::new(partitions)
    };
    if number % 10 == 9 {
        let listed_before = random.below(3) as u64;
        let taken = MOST_PARTITIONS - random.below(count + 2) as u64;
        sequence.before = vec![without_match(taken - listed_before)];
        if listed_before > 0 {
            sequence.before.push(listed(listed_before));
            sequence.list += ENTRY * listed_before as usize;
        }
    }
    sequence
}

const TEXTS: [&[u8]; 9] = [
    b"A", b"A B", b"A+ B?", b"A*", b"A*?", b"()", b"A | B", b"B* A", b"A? $",
];

/// A query of these columns that is accepted, with rows.
fn draft(random: &mut Random, columns: u8) -> Draft {
    let mut draft = mix::accepted(random, &SMALL, Numbers::Low);
    if random.chance(60) || draft.columns() < columns {
        draft = Draft::new(columns, random.pick(&TEXTS), Vec::new());
        draft = draft.with_skip(random.below(2) as u8, 0);
        for _ in 0..random.below(3) {
            draft = draft.measure(1, 0, 0);
        }
    }
    draft
}

/// The same query on other rows, in rooms that are mostly enough; or another input.
fn partition(random: &mut Random, one: &Draft, depot: u64, month: u64) -> Input {
    if random.chance(25) {
        let number = random.below(1_000);
        return mix::input(random, &SMALL, number);
    }
    let columns = usize::from(one.columns());
    let mut draft = one.clone();
    draft.rows = (0..random.below(6) * columns)
        .map(|_| random.between(0, 2) as i32)
        .collect();
    for row in draft.rows.chunks_mut(columns) {
        if let Some(entry) = row.get_mut(depot as usize) {
            *entry = entry_of(random, 63);
        }
        if let Some(entry) = row.get_mut(month as usize) {
            *entry = entry_of(random, 12);
        }
    }
    match random.below(12) {
        0 => draft.numbers = random.pick(&[Room::OneShort, Room::Nothing]),
        1 => draft.labels = random.pick(&[Room::OneShort, Room::Nothing]),
        2 => draft.notes = Room::OneShort,
        3 => draft.trail = Room::OneShort,
        4 => draft = draft.clone().with_skip(TO_FIRST, b'A'),
        5 => {
            draft.rows.pop();
        }
        _ => {}
    }
    draft.finish()
}

/// Mostly in the table, at times at or beside its end, or far off.
fn entry_of(random: &mut Random, last: i64) -> i32 {
    match random.below(10) {
        0 => random.pick(&FAR),
        1 => random.pick(&[-1, 0, 1, 11, 12, 13, 62, 63, 64]),
        2..=6 => random.between(1, 3) as i32,
        _ => random.between(0, last) as i32,
    }
}

fn answer(input: &Input) -> u8 {
    let outcome = search::search(
        &input.query,
        &input.rows,
        &mut vec![0; input.notes],
        &mut vec![0; input.trail],
        &mut vec![0; input.numbers],
        &mut vec![0; input.labels],
    );
    outcome.answer
}
