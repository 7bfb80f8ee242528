//! One comparison: an input, whether it is searched, within its allowance if it has
//! one, judged for room, a letter of it tested, its rows judged by the release desk,
//! taken into a table behind other partitions, or searched in lots, and the seed of the
//! noise. The product and the reference are lent the same, and what they return and leave
//! has to be the same in every item.
//! Of reports that are derived from one another (document 02, R-9) both are the
//! product's own. Of partitions and of lots all calls are compared, up to the first that
//! differs.

use crate::engine::{Engine, Reference, Six};
use crate::in_lots::{self, Lots};
use crate::lent::{Guarded, Lent, Table};
use reference::depots::Reports;
use reference::derive::{self, Written};
use reference::generate::partitions::Sequence;
use reference::generate::{Input, Random};
use reference::{query, search};
use std::sync::atomic::{AtomicUsize, Ordering};

/// How many calls were begun, for who watches that they come to their end.
pub static CALLS: AtomicUsize = AtomicUsize::new(0);

/// What a call returned, and what was lent to it as it left that.
pub type Ran = (Six, Lent);

#[derive(Clone, Debug, PartialEq, Eq)]
pub enum Call {
    Search,
    Room,
    /// The test of this letter at this row.
    Test {
        letter: u8,
        row: u64,
    },
    /// The release desk, which takes no query.
    Desk,
    /// A search in mode 0, with room for all of mode 1, from which its report is derived.
    Derive,
    /// A partition taken into a depot-by-month table, behind those of the sequence.
    Partition(Box<Sequence>),
    /// A search of the input's rows in lots.
    Lots(Box<Lots>),
}

#[derive(Clone, Debug, PartialEq, Eq)]
pub struct Case {
    pub call: Call,
    pub input: Input,
    pub noise: u64,
}

impl Case {
    /// What a call of the product returns and leaves in all it was lent, and what it
    /// should.
    pub fn both(&self, product: &dyn Engine) -> [Ran; 2] {
        let lent = Lent::new(&self.input, self.noise);
        if self.call == Call::Derive {
            return derived(product, lent);
        }
        if let Call::Partition(sequence) = &self.call {
            return self.in_turn(product, sequence);
        }
        if let Call::Lots(lots) = &self.call {
            return in_lots::in_lots(product, lots, &self.input, self.noise);
        }
        let returned = self.run_on(product, lent.clone());
        [returned, self.run_on(&Reference, lent)]
    }

    /// What a call of the reference returns and leaves.
    #[cfg(test)]
    pub fn expected(&self) -> Ran {
        self.run_on(&Reference, Lent::new(&self.input, self.noise))
    }

    fn run_on(&self, engine: &dyn Engine, mut lent: Lent) -> Ran {
        CALLS.fetch_add(1, Ordering::Relaxed);
        let returned = match &self.call {
            Call::Search | Call::Derive | Call::Partition(_) | Call::Lots(_) => {
                engine.search(&mut lent)
            }
            Call::Room => engine.room(&mut lent),
            Call::Test { letter, row } => engine.test(&mut lent, *letter, *row),
            Call::Desk => engine.desk(&mut lent),
        };
        (returned, lent)
    }

    /// The calls of a sequence and of the case's own input, by both, up to the first that
    /// differs. A table that cannot be begun takes no partition.
    fn in_turn(&self, product: &dyn Engine, sequence: &Sequence) -> [Ran; 2] {
        let random = &mut Random::new(self.noise);
        let mut table = Table {
            state: Guarded::new(random, sequence.state),
            list: Guarded::new(random, sequence.list),
            depot: sequence.depot,
            month: sequence.month,
        };
        let mut lend = |input: &Input, table: &Table| {
            let mut lent = Lent::new(input, random.draw());
            lent.table = Some(table.clone());
            CALLS.fetch_add(1, Ordering::Relaxed);
            [lent.clone(), lent]
        };
        let inputs = || sequence.partitions.iter().chain([&self.input]);
        let mut both = lend(&self.input, &table).map(|lent| ([0; 6], lent));
        both[0].0 = product.begin(&mut both[0].1);
        both[1].0 = Reference.begin(&mut both[1].1);
        if both[0] != both[1] || both[1].0[0] != 0 {
            return both;
        }
        let mut reports = [(); 2].map(|()| Reports {
            depot: sequence.depot,
            month: sequence.month,
            all: sequence.before.clone(),
        });
        if let Some(begun) = &both[1].1.table {
            table = begun.clone();
            reports[1].write(table.state.items_mut(), table.list.items_mut());
        }
        for input in inputs() {
            both = lend(input, &table).map(|lent| ([0; 6], lent));
            both[0].0 = product.partition(&mut both[0].1, &mut reports[0]);
            both[1].0 = Reference.partition(&mut both[1].1, &mut reports[1]);
            if both[0] != both[1] {
                break;
            }
            if let Some(left) = &both[1].1.table {
                table = left.clone();
            }
        }
        both
    }

    pub fn agrees(&self, product: &dyn Engine) -> bool {
        let [returned, expected] = self.both(product);
        returned == expected
    }

    /// What the returned numbers are called.
    pub fn names(&self) -> &'static [&'static str] {
        match &self.call {
            Call::Search | Call::Partition(_) | Call::Lots(_) => {
                &["answer", "matches", "labels", "steps", "offset"]
            }
            Call::Room => &["answer", "P", "n", "pairs", "offset", "F"],
            Call::Test { .. } => &["answer", "holds", "judged", "offset"],
            Call::Desk => &["answer", "verdict", "found", "row"],
            Call::Derive => &["answer", "matches", "labels"],
        }
    }
}

/// The product's search in mode 0, and the same with the report that is derived from its
/// search in mode 1; steps, notes and trail are none of it.
fn derived(product: &dyn Engine, mut lent: Lent) -> [Ran; 2] {
    let mut other = lent.clone();
    let mode_1 = derive::to_next_row(lent.query.items());
    if mode_1.len() == other.query.len() {
        other.query.items_mut().copy_from_slice(&mode_1);
    }
    let mut expected = lent.clone();
    CALLS.fetch_add(2, Ordering::Relaxed);
    let [answer, matches, labels, ..] = product.search(&mut lent);
    let returned = [answer, matches, labels, 0, 0, 0];
    let [answer, matches, labels, ..] = product.search(&mut other);
    let per_match = query::read(lent.query.items()).map_or(3, |it| 3 + 2 * it.measures.len());
    let written = Written {
        numbers: first(other.numbers.items(), matches as usize * per_match),
        labels: first(other.labels.items(), labels as usize),
        matches,
    };
    let mut wanted = [answer, 0, 0, 0, 0, 0];
    if search::was_walked(answer as u8) {
        let taken = derive::past_last_row(&written, per_match);
        wanted[1] = taken.matches;
        wanted[2] = taken.labels.len() as u64;
        expected.numbers.items_mut()[..taken.numbers.len()].copy_from_slice(&taken.numbers);
        expected.labels.items_mut()[..taken.labels.len()].copy_from_slice(&taken.labels);
    }
    expected.notes = lent.notes.clone();
    expected.trail = lent.trail.clone();
    [(returned, lent), (wanted, expected)]
}

/// The first so many items, or all.
fn first<T: Clone>(items: &[T], count: usize) -> Vec<T> {
    items[..count.min(items.len())].to_vec()
}
