//! Cases with the results of the reference: inputs of the search, of the
//! pattern's answers and of the program, small enough to be run inside a proof
//! checker as well. Every lent buffer is filled with 7 before the call.

use crate::generate::draft::{Input, SMALL};
use crate::generate::{allowances, mix, stdin, texts, Random};
use crate::{pattern, program, search};

/// A search: what goes in, and the result and all four buffers afterwards.
pub struct SearchCase {
    pub query: Vec<u8>,
    pub rows: Vec<i32>,
    pub allowance: Option<u64>,
    /// Lengths of notes, trail, numbers and labels.
    pub lengths: [usize; 4],
    pub answer: u64,
    /// Matches, labels, steps and offset.
    pub counts: [u64; 4],
    pub notes: Vec<u8>,
    pub trail: Vec<u32>,
    pub numbers: Vec<i64>,
    pub labels: Vec<u8>,
}

/// A pattern's text with its answer, 4 to 7, 14 or 0, its offset, and P, 0 where
/// it is refused.
pub struct TextCase {
    pub text: Vec<u8>,
    pub answer: u64,
    pub offset: u64,
    pub places: u64,
}

/// A standard input and what is printed for it.
pub struct ProgramCase {
    pub stdin: Vec<u8>,
    pub printed: Vec<u8>,
}

pub fn search_case(random: &mut Random, number: usize) -> SearchCase {
    searched(mix::input(random, &SMALL, number))
}

/// A search with a match that is stopped halfway, one entry before its end, or not
/// at all by an allowance of exactly its steps: in turn by the number.
pub fn within_case(random: &mut Random, number: usize) -> SearchCase {
    loop {
        let input = mix::lively(random, &SMALL).finish();
        let steps = allowances::steps_of(&input);
        let whole = searched(input.within(steps));
        if whole.counts[0] > 0 && steps > 4 {
            let allowance = [steps / 2, steps - 1, steps][number % 3];
            return searched(input.within(allowance));
        }
    }
}

fn searched(input: Input) -> SearchCase {
    let mut notes = vec![7; input.notes];
    let mut trail = vec![7; input.trail];
    let mut numbers = vec![7; input.numbers];
    let mut labels = vec![7; input.labels];
    let outcome = search::search_within(
        &input.query,
        &input.rows,
        input.allowance,
        (&mut notes, &mut trail, &mut numbers, &mut labels),
    );
    SearchCase {
        lengths: [input.notes, input.trail, input.numbers, input.labels],
        query: input.query,
        rows: input.rows,
        allowance: input.allowance,
        answer: outcome.answer.into(),
        counts: [
            outcome.matches,
            outcome.labels,
            outcome.steps,
            outcome.offset,
        ],
        notes,
        trail,
        numbers,
        labels,
    }
}

pub fn text_case(random: &mut Random) -> TextCase {
    let text = texts::any(random);
    let (answer, places) = match pattern::judge(&text) {
        Ok(tree) => (0, tree.count_with_end() as u64),
        Err(answer) => (answer.into(), 0),
    };
    let offset = match answer {
        5 | 14 => pattern::offset(&text),
        _ => 0,
    };
    TextCase {
        text,
        answer,
        offset,
        places,
    }
}

pub fn program_case(random: &mut Random, number: usize) -> ProgramCase {
    let stdin = stdin::input(random, number);
    let printed = program::program(&stdin);
    ProgramCase { stdin, printed }
}
