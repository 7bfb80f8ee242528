//! "Some reading exists": by the pattern tree and sets of rows, without places,
//! order or search. From document 01, "Places and preferment".
//! A set of positions at which a reading may begin is carried through the tree
//! to the set of positions at which one may end.

use crate::letters::Held;
use crate::pattern::{Branch, Factor, Pattern, Primary};
use std::collections::BTreeSet;

pub type Positions = BTreeSet<usize>;

/// Where the readings end that begin at a start; with none there is no match.
pub fn ends_from(pattern: &Pattern, held: &Held, start: usize) -> Positions {
    ends(pattern, held, &Positions::from([start]))
}

fn ends(pattern: &Pattern, held: &Held, from: &Positions) -> Positions {
    pattern
        .branches
        .iter()
        .flat_map(|branch| branch_ends(branch, held, from))
        .collect()
}

fn branch_ends(branch: &Branch, held: &Held, from: &Positions) -> Positions {
    branch.factors.iter().fold(from.clone(), |reached, factor| {
        factor_ends(factor, held, &reached)
    })
}

/// The least number of times, then further times until the upper bound is
/// reached or nothing new is.
fn factor_ends(factor: &Factor, held: &Held, from: &Positions) -> Positions {
    let mut last = from.clone();
    for _ in 0..factor.quantifier.low {
        last = primary_ends(&factor.primary, held, &last);
    }
    let mut all = last.clone();
    let mut times = factor.quantifier.low;
    while factor.quantifier.high != Some(times) && !last.is_empty() {
        last = primary_ends(&factor.primary, held, &last);
        if last.is_subset(&all) {
            break;
        }
        all.extend(&last);
        times += 1;
    }
    all
}

fn primary_ends(primary: &Primary, held: &Held, from: &Positions) -> Positions {
    let n = held.row_count();
    match primary {
        Primary::Letter(letter) => from
            .iter()
            .filter(|&&row| row < n && held.holds(*letter, row))
            .map(|row| row + 1)
            .collect(),
        Primary::First => from.iter().copied().filter(|&at| at == 0).collect(),
        Primary::Last => from.iter().copied().filter(|&at| at == n).collect(),
        Primary::Empty => from.clone(),
        Primary::Group(inner) => ends(inner, held, from),
    }
}
