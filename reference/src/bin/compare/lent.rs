//! What a call is lent: query, rows and the four buffers, each between two guard
//! zones; the allowance it is made with; state and list of a table; and the feed of a
//! search in lots. Zones and buffers are filled with noise beforehand, so that a byte left
//! unwritten, written though it should not be, or read outside of what was lent makes a
//! difference.

use reference::generate::{Input, Random};
use reference::search::Buffers;
use std::fmt::Debug;

/// What can be noise.
pub trait Noise: Copy + PartialEq + Debug {
    fn noise(random: &mut Random) -> Self;
}

macro_rules! noise {
    ($($number:ty),*) => {
        $(impl Noise for $number {
            fn noise(random: &mut Random) -> $number {
                random.draw() as $number
            }
        })*
    };
}

noise!(u8, u32, u64, i32, i64);

/// The fewest items of a zone; up to as many more are added, so that bytes begin
/// at any address.
const ZONE: usize = 16;

/// A buffer between its zones.
#[derive(Clone, PartialEq)]
pub struct Guarded<T> {
    all: Vec<T>,
    front: usize,
    length: usize,
}

impl<T: Noise> Guarded<T> {
    pub fn new(random: &mut Random, length: usize) -> Guarded<T> {
        let front = ZONE + random.below(ZONE);
        let count = front + length + ZONE + random.below(ZONE);
        Guarded {
            all: (0..count).map(|_| T::noise(random)).collect(),
            front,
            length,
        }
    }

    pub fn holding(random: &mut Random, items: &[T]) -> Guarded<T> {
        let mut guarded = Guarded::new(random, items.len());
        guarded.items_mut().copy_from_slice(items);
        guarded
    }

    pub fn len(&self) -> usize {
        self.length
    }

    pub fn items(&self) -> &[T] {
        &self.all[self.front..self.front + self.length]
    }

    pub fn items_mut(&mut self) -> &mut [T] {
        &mut self.all[self.front..self.front + self.length]
    }

    /// The item that stands so far from the first lent one, zones included.
    pub fn at_mut(&mut self, offset: isize) -> &mut T {
        &mut self.all[self.front.strict_add_signed(offset)]
    }

    /// Where the lent items begin. Some buffers without items give no address
    /// at all, as C callers may.
    pub fn pointer(&mut self) -> *mut T {
        if self.length == 0 && self.front.is_multiple_of(2) {
            return std::ptr::null_mut();
        }
        self.all.as_mut_ptr().wrapping_add(self.front)
    }

    /// The first item in which two buffers differ that began alike, in words.
    pub fn difference(&self, name: &str, product: &Guarded<T>) -> Option<String> {
        let differs = |(mine, other): (&T, &T)| mine != other;
        let at = self.all.iter().zip(&product.all).position(differs)?;
        let place = at as i64 - self.front as i64;
        let zone = match usize::try_from(place) {
            Err(_) => ", in front of what was lent",
            Ok(index) if index >= self.length => ", behind what was lent",
            Ok(_) => "",
        };
        let (mine, other) = (self.all[at], product.all[at]);
        Some(format!(
            "{name}[{place}]{zone}: product {other:?}, reference {mine:?}"
        ))
    }
}

/// A depot-by-month table, kept from call to call.
#[derive(Clone, PartialEq)]
pub struct Table {
    pub state: Guarded<u64>,
    pub list: Guarded<u32>,
    /// The columns that it is begun with.
    pub depot: u64,
    pub month: u64,
}

/// The feed of a search in lots, kept from call to call.
#[derive(Clone, PartialEq)]
pub struct Kept {
    pub words: Guarded<u64>,
    /// The largest n that is named first.
    pub largest: u64,
}

/// All that one call is lent, and its allowance, if it is made with one.
#[derive(Clone, PartialEq)]
pub struct Lent {
    pub query: Guarded<u8>,
    pub rows: Guarded<i32>,
    pub notes: Guarded<u8>,
    pub trail: Guarded<u32>,
    pub numbers: Guarded<i64>,
    pub labels: Guarded<u8>,
    pub allowance: Option<u64>,
    pub table: Option<Table>,
    pub feed: Option<Kept>,
}

impl Lent {
    pub fn new(input: &Input, noise: u64) -> Lent {
        let random = &mut Random::new(noise);
        Lent {
            query: Guarded::holding(random, &input.query),
            rows: Guarded::holding(random, &input.rows),
            notes: Guarded::new(random, input.notes),
            trail: Guarded::new(random, input.trail),
            numbers: Guarded::new(random, input.numbers),
            labels: Guarded::new(random, input.labels),
            allowance: input.allowance,
            table: None,
            feed: None,
        }
    }

    /// The words of the feed, none where no feed is lent.
    pub fn feed(&self) -> &[u64] {
        self.feed.as_ref().map_or(&[], |feed| feed.words.items())
    }

    pub fn feed_mut(&mut self) -> &mut [u64] {
        let feed = self.feed.as_mut();
        feed.map_or(&mut [], |feed| feed.words.items_mut())
    }

    /// Query, rows and the four buffers, to be searched.
    pub fn parts(&mut self) -> (&[u8], &[i32], Buffers<'_>) {
        let buffers = (
            self.notes.items_mut(),
            self.trail.items_mut(),
            self.numbers.items_mut(),
            self.labels.items_mut(),
        );
        (self.query.items(), self.rows.items(), buffers)
    }

    /// What differs after a call of the reference from what the product left.
    pub fn differences(&self, product: &Lent) -> Vec<String> {
        let tables = || self.table.as_ref().zip(product.table.as_ref());
        let feeds = self.feed.as_ref().zip(product.feed.as_ref());
        [
            self.query.difference("query", &product.query),
            self.rows.difference("rows", &product.rows),
            self.notes.difference("notes", &product.notes),
            self.trail.difference("trail", &product.trail),
            self.numbers.difference("numbers", &product.numbers),
            self.labels.difference("labels", &product.labels),
            tables().and_then(|(own, other)| own.state.difference("state", &other.state)),
            tables().and_then(|(own, other)| own.list.difference("list", &other.list)),
            feeds.and_then(|(own, other)| own.words.difference("feed", &other.words)),
        ]
        .into_iter()
        .flatten()
        .collect()
    }
}
