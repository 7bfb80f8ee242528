//! One report from the other (document 02, R-9): the matches of mode 0 taken from the
//! report of the same query in mode 1, on the bytes of that report alone.

use crate::query::{self, SKIP, TO_NEXT_ROW};

/// Numbers and labels of whole matches.
#[derive(Clone, Debug, PartialEq, Eq)]
pub struct Written {
    pub numbers: Vec<i64>,
    pub labels: Vec<u8>,
    pub matches: u64,
}

/// Takes the first match, then each time the next one that starts behind the last row of
/// the one taken, or behind the start row of an empty one; and numbers them anew. Ends
/// where a match is not whole.
pub fn past_last_row(to_next_row: &Written, numbers_per_match: usize) -> Written {
    let mut taken = Written {
        numbers: Vec::new(),
        labels: Vec::new(),
        matches: 0,
    };
    // The first row that the next match may start at.
    let mut free = 0;
    let mut labels = to_next_row.labels.as_slice();
    for one in to_next_row.numbers.chunks_exact(numbers_per_match) {
        let (first, rows) = (one[1], one[2]);
        let Some((own, later)) = labels.split_at_checked(rows as usize) else {
            break;
        };
        labels = later;
        if first < free {
            continue;
        }
        taken.matches += 1;
        taken.numbers.push(taken.matches as i64);
        taken.numbers.extend(&one[1..]);
        taken.labels.extend(own);
        free = match rows {
            0 => first + 1,
            _ => first + rows,
        };
    }
    taken
}

/// The same query in mode 1, where its records are whole.
pub fn to_next_row(bytes: &[u8]) -> Vec<u8> {
    let mut changed = Vec::new();
    for record in query::records(bytes).unwrap_or_default() {
        changed.extend((record.body.len() as u16).to_le_bytes());
        changed.extend(record.kind.to_le_bytes());
        match record.kind {
            SKIP => changed.extend([TO_NEXT_ROW, 0]),
            _ => changed.extend(record.body),
        }
    }
    changed
}
