//! The tables that the walk runs on: a record of 32 bytes for each place, the
//! further ways of all forks in one list, and the comparisons of letters that
//! have several. They have a size N, at least P and a power of two, so that a
//! small pattern fills small tables only. They say nothing of the rows, so that
//! the tables of a query serve any number of runs.
//! Where places have flags, a place has a record for each of the F values of
//! its flags, the one with number place * F + flags, N is at least P * F, and a way
//! has as many records. Records of flags that a place does not have stay END.

use super::letters::{self, Comparison, Letter, Step, Test};
use super::pattern::{self, Pattern, MOST_PLACES};
use super::query::Query;

/// A trail's entry is a pair in the low bits. Where the pair is a fork with a
/// way not yet tried, the way's number, which is not 0, stands above the pair.
pub const PAIR: u32 = WAY - 1;
pub const WAY: u32 = 1 << 24;

/// How far a pair times the inverse of P * F is shifted down to give its position.
pub const INVERSE: u32 = 40;

/// The number of a place with its flags, in a width that a record has room for:
/// without flags a byte, so that records are short and F is known to be 1.
pub trait Number: Copy + Default {
    const FLAGGED: bool;
    fn new(number: usize) -> Self;
    fn index(self) -> usize;
}

impl Number for u8 {
    const FLAGGED: bool = false;
    #[inline(always)]
    fn new(number: usize) -> u8 {
        number as u8
    }
    #[inline(always)]
    fn index(self) -> usize {
        usize::from(self)
    }
}

impl Number for u16 {
    const FLAGGED: bool = true;
    #[inline(always)]
    fn new(number: usize) -> u16 {
        number as u16
    }
    #[inline(always)]
    fn index(self) -> usize {
        usize::from(self)
    }
}

/// What a place is. A fork whose first way is a letter behind it has the
/// letter's comparison in its own record, and the two are entered at one go.
#[derive(Clone, Copy, Default, PartialEq, Eq)]
pub enum Sort {
    #[default]
    End,
    Fork,
    First,
    Last,
    Free,
    Constant,
    Column,
    Several,
    Joined,
    ForkFree,
    ForkConstant,
    ForkColumn,
    ForkSeveral,
    ForkJoined,
}

#[derive(Clone, Copy, Default)]
pub struct Place<I> {
    pub comparison: Comparison,
    /// What stands above the pair in the trail's entry.
    pub entry: u32,
    /// What is added to the pair where the place passes or takes its first way.
    pub step: i16,
    /// The place that it then leads to.
    pub next: I,
    pub sort: Sort,
}

/// A way of a fork, other than the first.
#[derive(Clone, Copy, Default)]
pub struct Way<I> {
    /// What stands above the pair in the fork's entry once this way is taken.
    pub entry: u32,
    /// What is added to the fork's pair.
    pub step: i16,
    pub place: I,
}

pub struct Tables<I, const N: usize> {
    pub places: [Place<I>; N],
    /// P * F
    pub count: usize,
    factor: usize,
    /// A little above 2^40 / (P * F): times a pair below 2^24, and shifted down by 40
    /// bits, it gives the pair's position.
    pub inverse: u64,
    /// From number 1 on. All further ways together are fewer than the places: each place
    /// is led into by one fork at most, and each fork leads out to one place at most.
    pub ways: [Way<I>; N],
    ways_used: usize,
    /// The number behind the ways of the fork laid last, whatever its flags.
    ways_end: usize,
    /// The letters of the places, by their own bytes.
    pub labels: [u8; N],
    pub comparisons: Vec<Comparison>,
    /// Of all letters with a condition in postfix.
    pub steps: Vec<Step>,
}

impl<I: Number, const N: usize> Tables<I, N> {
    pub fn new() -> Tables<I, N> {
        Tables {
            places: [Place::default(); N],
            count: 0,
            factor: 1,
            inverse: 0,
            ways: [Way::default(); N],
            ways_used: 1,
            ways_end: 1,
            labels: [0; N],
            comparisons: Vec::new(),
            steps: Vec::new(),
        }
    }

    /// F.
    #[inline(always)]
    pub fn factor(&self) -> usize {
        if I::FLAGGED {
            self.factor
        } else {
            1
        }
    }

    /// Fills new tables. They are filled where they are, as moving them would
    /// take longer than reading a short query. Inlined, with what it calls once, so
    /// that a whole search is one piece although preparing fills tables as well.
    #[inline(always)]
    pub fn fill(&mut self, query: &Query, pattern: &Pattern) {
        self.factor = pattern.factor;
        self.count = pattern.count * self.factor();
        self.inverse = (1 << INVERSE) / self.count as u64 + 1;
        let letters = self.decode_letters(query, pattern.letters);
        let holders = Holders::new::<I>(pattern);
        // From the last to the first, so that a fork finds the letter behind it.
        for at in (0..pattern.count).rev() {
            for flags in 0..holders.values::<I>(at) {
                let spot = Spot {
                    pattern,
                    holders: &holders,
                    at,
                    flags,
                    factor: self.factor(),
                };
                let place = self.place(spot, &letters);
                let number = spot.number(at);
                self.places[number] = self.joined(place, number + self.factor());
            }
            self.ways_used = self.ways_end;
        }
    }

    /// Decodes the letters of the pattern, of which each has a bit in `present`.
    #[inline(always)]
    fn decode_letters(&mut self, query: &Query, present: u32) -> [Letter; 26] {
        let mut letters = [Letter::default(); 26];
        let mut left = present;
        while left != 0 {
            let index = left.trailing_zeros() as usize;
            let define = query.defines[index];
            let list = query.conditions[index];
            letters[index] = match list.is_empty() {
                true => letters::decode(define, query.columns, &mut self.comparisons),
                false => letters::condition(list, query.columns, &mut self.steps),
            };
            left &= left - 1;
        }
        letters
    }

    #[inline(always)]
    fn place(&mut self, spot: Spot, letters: &[Letter; 26]) -> Place<I> {
        let Spot { pattern, at, .. } = spot;
        let place = pattern.places[at];
        let next = usize::from(place.next.wrapping_add(at as u8));
        let into = spot.number((at + 1) % MOST_PLACES);
        match place.sort {
            pattern::END => Place::default(),
            pattern::FIRST => passing(Sort::First, spot.own(), spot.behind::<I>(next)),
            pattern::LAST => passing(Sort::Last, spot.own(), spot.behind::<I>(next)),
            pattern::ONE_WAY => passing(Sort::Fork, spot.own(), spot.behind::<I>(next)),
            pattern::GREEDY => self.fork(spot, into, [spot.behind::<I>(next)].into_iter()),
            pattern::RELUCTANT => self.fork(spot, spot.behind::<I>(next), [into].into_iter()),
            pattern::BRANCHES => {
                let ways = pattern.branches_of(place);
                let target = |&way: &u8| match way {
                    pattern::LEAVE => spot.behind::<I>(next),
                    distance => spot.number(usize::from(distance.wrapping_add(at as u8))),
                };
                self.fork(spot, target(&ways[0]), ways[1..].iter().map(target))
            }
            letter => {
                self.labels[spot.own()] = letter;
                let Letter { test, comparison } = letters[usize::from(letter - b'A')];
                let sort = match test {
                    Test::Free => Sort::Free,
                    Test::Constant => Sort::Constant,
                    Test::Column => Sort::Column,
                    Test::Several => Sort::Several,
                    Test::Joined => Sort::Joined,
                };
                let mut place = passing(sort, spot.own(), spot.behind_row::<I>(next));
                place.step += self.count as i16;
                place.comparison = comparison;
                place
            }
        }
    }

    /// A fork with its first way, and the others in the list of ways, with the flags
    /// of the spot.
    fn fork(&mut self, spot: Spot, first: usize, others: impl Iterator<Item = usize>) -> Place<I> {
        let from = self.ways_used;
        let mut fork = passing(Sort::Fork, spot.own(), first);
        let mut way = from;
        for place in others {
            // The entry before is that of the way before: this one comes next.
            match way == from {
                true => fork.entry = open(from),
                false => self.ways[spot.number(way - 1)].entry = open(way),
            }
            self.ways[spot.number(way)] = Way {
                entry: 0,
                step: step(spot.own(), place),
                place: I::new(place),
            };
            way += 1;
        }
        self.ways_end = way;
        fork
    }

    /// The place with the letter behind it taken in, if it is a fork and the
    /// letter is its first way and not its only one; otherwise as it is.
    fn joined(&self, place: Place<I>, behind: usize) -> Place<I> {
        if place.sort != Sort::Fork || place.next.index() != behind || place.entry == 0 {
            return place;
        }
        let letter = self.places[behind];
        let sort = match letter.sort {
            Sort::Free => Sort::ForkFree,
            Sort::Constant => Sort::ForkConstant,
            Sort::Column => Sort::ForkColumn,
            Sort::Several => Sort::ForkSeveral,
            Sort::Joined => Sort::ForkJoined,
            _ => return place,
        };
        Place {
            sort,
            entry: place.entry,
            step: letter.step + self.factor() as i16,
            ..letter
        }
    }
}

/// Of each place the fork of the innermost repetition whose rounds may take no row and
/// whose copy holds it; MOST_PLACES where there is none. Empty where no place has flags.
struct Holders(Vec<u16>);

impl Holders {
    #[inline(always)]
    fn new<I: Number>(pattern: &Pattern) -> Holders {
        let mut holders = Vec::new();
        if I::FLAGGED {
            holders = vec![MOST_PLACES as u16; MOST_PLACES];
            // An inner fork stands behind an outer one, so that what it writes stays.
            for fork in 0..pattern.count {
                let copy = Pattern::flagged_copy(pattern.places[fork]);
                holders[fork + 1..][..copy].fill(fork as u16);
            }
        }
        Holders(holders)
    }

    fn of(&self, at: usize) -> usize {
        usize::from(self.0[at])
    }

    /// How many values the flags of a place have.
    #[inline(always)]
    fn values<I: Number>(&self, at: usize) -> usize {
        let mut values = 1;
        if I::FLAGGED {
            let mut holder = self.of(at);
            while holder < MOST_PLACES {
                values *= 2;
                holder = self.of(holder);
            }
        }
        values
    }
}

/// A place of the pattern with certain flags.
#[derive(Clone, Copy)]
struct Spot<'a> {
    pattern: &'a Pattern,
    holders: &'a Holders,
    at: usize,
    flags: usize,
    factor: usize,
}

impl Spot<'_> {
    /// The number of a place with these flags.
    #[inline(always)]
    fn number(self, place: usize) -> usize {
        place * self.factor + self.flags
    }

    #[inline(always)]
    fn own(self) -> usize {
        self.number(self.at)
    }

    /// Where a way out of this place to another one leads. If that is the fork whose copy
    /// holds this place, a round ends: where it has taken a row it leads to the fork, which
    /// lacks the flag, and otherwise to where the fork leads out.
    #[inline(always)]
    fn behind<I: Number>(self, next: usize) -> usize {
        if !I::FLAGGED {
            return next;
        }
        let (mut from, mut to) = (self.at, next);
        while self.holders.of(from) == to {
            let flag = self.holders.values::<I>(to);
            if self.flags & flag != 0 {
                return self.number(to) - flag;
            }
            from = to;
            to = usize::from(self.pattern.places[from].next.wrapping_add(from as u8));
        }
        self.number(to)
    }

    /// The same behind a letter that has taken a row: all flags of its place are set.
    #[inline(always)]
    fn behind_row<I: Number>(self, next: usize) -> usize {
        let flags = self.holders.values::<I>(self.at) - 1;
        Spot { flags, ..self }.behind::<I>(next)
    }
}

/// A place that leads to one other at the same position.
fn passing<I: Number>(sort: Sort, at: usize, next: usize) -> Place<I> {
    Place {
        sort,
        next: I::new(next),
        step: step(at, next),
        ..Place::default()
    }
}

fn step(from: usize, to: usize) -> i16 {
    to as i16 - from as i16
}

/// The entry, above the pair, of a fork whose next way has this number.
fn open(way: usize) -> u32 {
    way as u32 * WAY
}
