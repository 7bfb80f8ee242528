//! The counted walk: notes and trail in the lent buffers, one attempt from each
//! start, every entry counted. The trail is the path of open pairs; a fork's
//! entry also says which way comes next. A letter is tested when it is entered,
//! and one that does not hold is noted without being put on the trail.
//! Place, position and pair go along together, so that no step divides by P.

use super::letters::{Comparison, Rows, Test};
use super::pattern::Pattern;
use super::query::{Query, Skip};
use super::report::Report;
use super::tables::{Number, Place, Sort, Tables, Way, INVERSE, PAIR, WAY};

const BIT: [u8; 8] = [1, 2, 4, 8, 16, 32, 64, 128];

/// How a search ended.
#[derive(Clone, Copy, PartialEq, Eq)]
pub enum Ending {
    Done,
    /// A match did not fit.
    Full,
    /// There is no row to go on at behind the last match written.
    NoSkipRow,
}

/// Searches an accepted query, with notes and trail cut to the length that it
/// needs. Gives how it ended, and the steps.
pub fn search(
    query: &Query,
    pattern: &Pattern,
    rows: Rows,
    notes: &mut [u8],
    trail: &mut [u32],
    report: &mut Report,
) -> (Ending, u64) {
    if pattern.factor > 1 {
        return search_flagged(query, pattern, rows, notes, trail, report);
    }
    match pattern.count {
        0..=16 => search_sized::<u8, 16>(query, pattern, rows, notes, trail, report),
        17..=64 => search_sized::<u8, 64>(query, pattern, rows, notes, trail, report),
        _ => search_sized::<u8, 256>(query, pattern, rows, notes, trail, report),
    }
}

/// The same where places have flags.
#[inline(never)]
fn search_flagged(
    query: &Query,
    pattern: &Pattern,
    rows: Rows,
    notes: &mut [u8],
    trail: &mut [u32],
    report: &mut Report,
) -> (Ending, u64) {
    match pattern.count * pattern.factor {
        0..=64 => search_sized::<u16, 64>(query, pattern, rows, notes, trail, report),
        65..=256 => search_sized::<u16, 256>(query, pattern, rows, notes, trail, report),
        _ => search_sized::<u16, 2048>(query, pattern, rows, notes, trail, report),
    }
}

fn search_sized<I: Number, const N: usize>(
    query: &Query,
    pattern: &Pattern,
    rows: Rows,
    notes: &mut [u8],
    trail: &mut [u32],
    report: &mut Report,
) -> (Ending, u64) {
    let mut tables = Tables::<I, N>::new();
    tables.fill(query, pattern);
    run(query, &tables, rows, notes, trail, report)
}

/// The same by tables that are filled. Inlined, so that no register is needed for
/// tables that lie in the frame.
#[inline(always)]
pub fn run<I: Number, const N: usize>(
    query: &Query,
    tables: &Tables<I, N>,
    rows: Rows,
    notes: &mut [u8],
    trail: &mut [u32],
    report: &mut Report,
) -> (Ending, u64) {
    notes.fill(0);
    // END is never on the trail, so at most P - 1 places at n + 1 positions are, with
    // their flags, and the last n entries are free to say which letter took each row.
    let (path, taken) = trail.split_at_mut(trail.len() - rows.n);
    let mut walk = Walk {
        tables,
        places: tables.count,
        inverse: tables.inverse,
        rows,
        notes,
        trail: path,
        taken,
        steps: 0,
        place: I::default(),
        position: 0,
        pair: 0,
        top: 0,
    };
    let mut ending = Ending::Done;
    let mut start = 0;
    while start < rows.n {
        let mut next = start + 1;
        if walk.attempt(start) {
            let behind = walk.position;
            let taken = &walk.taken[start..behind];
            if !report.append(&rows, &tables.labels, start, taken) {
                ending = Ending::Full;
                break;
            }
            if query.skip != Skip::ToNextRow && behind > start {
                next = match query.skip {
                    Skip::PastLastRow => behind,
                    skip => start + rows_to_letter(skip, &tables.labels, taken),
                };
                if next == start {
                    ending = Ending::NoSkipRow;
                    break;
                }
            }
        }
        start = next;
    }
    let steps = walk.steps;
    // Once for all: entries are left where they are when they are taken back.
    trail.fill(0);
    (ending, steps)
}

/// How many rows behind a match's first row its row to skip to lies, by the places
/// that took its rows; 0 where there is no such row, too.
#[inline(never)]
fn rows_to_letter<const N: usize>(skip: Skip, letters: &[u8; N], taken: &[u32]) -> usize {
    let letter = skip.letter();
    let has_letter = |place: &u32| letters[*place as usize % N] == letter;
    let row = match skip {
        Skip::ToFirst(_) => taken.iter().position(has_letter),
        _ => taken.iter().rposition(has_letter),
    };
    row.unwrap_or(0)
}

struct Walk<'a, I, const N: usize> {
    tables: &'a Tables<I, N>,
    /// P * F and its inverse, as the tables have them.
    places: usize,
    inverse: u64,
    rows: Rows<'a>,
    notes: &'a mut [u8],
    trail: &'a mut [u32],
    /// For each row on the path, the place of the letter that took it.
    taken: &'a mut [u32],
    steps: u64,
    /// The pair that is tried or entered: its place with flags, position and number.
    place: I,
    position: usize,
    pair: usize,
    /// How many pairs are on the trail.
    top: usize,
}

/// What an entered pair comes to at once.
enum Entered {
    End,
    /// It leads to the pair that is now the walk's.
    Leads,
    Fails,
}

impl<I: Number, const N: usize> Walk<'_, I, N> {
    /// One attempt. If it succeeds, the position is the one behind the match.
    #[inline(always)]
    fn attempt(&mut self, start: usize) -> bool {
        self.place = I::default();
        self.position = start;
        self.pair = start * self.places;
        self.top = 0;
        if self.has_failed(self.pair) {
            return false;
        }
        loop {
            let goes_on = match self.enter() {
                Entered::End => return true,
                Entered::Leads => !self.has_failed(self.pair),
                Entered::Fails => false,
            };
            if !goes_on && !self.back() {
                return false;
            }
        }
    }

    /// Enters the walk's pair, which has not failed.
    #[inline(always)]
    fn enter(&mut self) -> Entered {
        self.steps += 1;
        let tables = self.tables;
        let place = &tables.places[self.place.index() % N];
        match place.sort {
            Sort::ForkConstant => self.enter_fork_of_letter(place, Test::Constant),
            Sort::ForkColumn => self.enter_fork_of_letter(place, Test::Column),
            Sort::ForkSeveral => self.enter_fork_of_letter(place, Test::Several),
            Sort::ForkJoined => self.enter_fork_of_letter(place, Test::Joined),
            Sort::ForkFree => self.enter_fork_of_letter(place, Test::Free),
            Sort::Constant => self.enter_letter(place, Test::Constant),
            Sort::Column => self.enter_letter(place, Test::Column),
            Sort::Several => self.enter_letter(place, Test::Several),
            Sort::Joined => self.enter_letter(place, Test::Joined),
            Sort::Free => self.enter_letter(place, Test::Free),
            Sort::Fork => self.enter_fork(place),
            Sort::First => self.enter_anchor(place, 0),
            Sort::Last => self.enter_anchor(place, self.rows.n),
            Sort::End => Entered::End,
        }
    }

    /// Whether the letter holds at the walk's position. Each caller names its
    /// test, so that no test chooses between tests.
    #[inline(always)]
    fn holds(&self, comparison: &Comparison, test: Test) -> bool {
        let (rows, position) = (&self.rows, self.position);
        match test {
            Test::Free => position < rows.n,
            Test::Constant => comparison.constant_is_met(rows, position),
            Test::Column => comparison.column_is_met(rows, position),
            Test::Several => comparison.several_are_met(&self.tables.comparisons, rows, position),
            Test::Joined => comparison.condition_is_true(&self.tables.steps, rows, position),
        }
    }

    #[inline(always)]
    fn enter_letter(&mut self, place: &Place<I>, test: Test) -> Entered {
        if !self.holds(&place.comparison, test) {
            self.note(self.pair);
            return Entered::Fails;
        }
        self.push(self.pair as u32);
        self.take_row(self.place, place);
        Entered::Leads
    }

    /// Enters a fork and the letter behind it, which is its first way. If the
    /// letter has failed or fails, the second way is taken at once.
    #[inline(always)]
    fn enter_fork_of_letter(&mut self, fork: &Place<I>, test: Test) -> Entered {
        let factor = self.tables.factor();
        let letter = self.pair + factor;
        if !self.has_failed(letter) {
            self.steps += 1;
            if self.holds(&fork.comparison, test) {
                self.push(self.pair as u32 | fork.entry);
                self.push(letter as u32);
                self.take_row(I::new(self.place.index() + factor), fork);
                return Entered::Leads;
            }
            self.note(letter);
        }
        let way = self.way(self.pair as u32 | fork.entry);
        self.push(self.pair as u32 | way.entry);
        self.place = way.place;
        self.pair = moved(self.pair, way.step);
        Entered::Leads
    }

    #[inline(always)]
    fn enter_fork(&mut self, fork: &Place<I>) -> Entered {
        self.push(self.pair as u32 | fork.entry);
        self.lead(fork);
        Entered::Leads
    }

    #[inline(always)]
    fn enter_anchor(&mut self, place: &Place<I>, position: usize) -> Entered {
        if self.position != position {
            self.note(self.pair);
            return Entered::Fails;
        }
        self.push(self.pair as u32);
        self.lead(place);
        Entered::Leads
    }

    /// Goes back along the trail to the last pair that has a way left whose pair
    /// has not failed, and notes all behind it as failed. False if there is none.
    #[inline(always)]
    fn back(&mut self) -> bool {
        while self.top > 0 {
            let entry = self.trail[self.top - 1];
            let open = (entry & PAIR) as usize;
            if entry >= WAY {
                let way = self.way(entry);
                let pair = moved(open, way.step);
                if !self.has_failed(pair) {
                    self.trail[self.top - 1] = open as u32 | way.entry;
                    self.place = way.place;
                    self.pair = pair;
                    self.position = ((open as u64 * self.inverse) >> INVERSE) as usize;
                    return true;
                }
                if way.entry != 0 {
                    self.trail[self.top - 1] = open as u32 | way.entry;
                    continue;
                }
            }
            self.top -= 1;
            self.note(open);
        }
        false
    }

    #[inline(always)]
    fn way(&self, entry: u32) -> Way<I> {
        let way = (entry / WAY) as usize;
        if !I::FLAGGED {
            return self.tables.ways[way % N];
        }
        // The flags are the pair's lowest bits, as F is a power of two.
        let factor = self.tables.factor();
        let flags = entry as usize & (factor - 1);
        self.tables.ways[(way * factor + flags) % N]
    }

    #[inline(always)]
    fn push(&mut self, entry: u32) {
        self.trail[self.top] = entry;
        self.top += 1;
    }

    /// Takes the row by a letter, and leads where that does.
    #[inline(always)]
    fn take_row(&mut self, letter: I, place: &Place<I>) {
        self.taken[self.position] = letter.index() as u32;
        self.lead(place);
        self.position += 1;
    }

    #[inline(always)]
    fn lead(&mut self, place: &Place<I>) {
        self.place = place.next;
        self.pair = moved(self.pair, place.step);
    }

    #[inline(always)]
    fn has_failed(&self, pair: usize) -> bool {
        u32::from(self.notes[pair >> 3]) >> (pair & 7) & 1 == 1
    }

    #[inline(always)]
    fn note(&mut self, pair: usize) {
        self.notes[pair >> 3] |= BIT[pair & 7];
    }
}

#[inline(always)]
fn moved(pair: usize, step: i16) -> usize {
    pair.wrapping_add_signed(isize::from(step))
}
