//! Programs that do one thing wrong: the inputs made for comparing programs have
//! to tell each apart from the reference.

use reference::generate::{stdin, Random};
use reference::program::{
    program, LABEL_BYTES, LONGEST_QUERY, MOST_PAIRS, MOST_ROW_BYTES, REPORT_NUMBERS,
};
use reference::search::{self, DONE, STUCK};

type Fault = fn(&[u8]) -> Vec<u8>;

const FAULTS: [(&str, Fault); 14] = [
    ("reads a byte too little", |stdin| {
        program(start(stdin, 2 + LONGEST_QUERY + MOST_ROW_BYTES))
    }),
    ("refuses before it counts row bytes", |stdin| {
        program(start(stdin, rows_at(stdin) + MOST_ROW_BYTES))
    }),
    ("row bytes that are no multiple of 4 before 9", |stdin| {
        let cut = !(stdin.len() - rows_at(stdin)).is_multiple_of(4);
        with(
            stdin,
            "refused 9",
            if cut { "refused 10" } else { "refused 9" },
        )
    }),
    ("searches whole numbers with bytes behind them", |stdin| {
        let more = (stdin.len() - rows_at(stdin)) % 4;
        program(start(stdin, stdin.len() - more))
    }),
    ("16,000 pairs are too large", |stdin| match pairs(stdin) {
        MOST_PAIRS => b"too large\n".to_vec(),
        _ => program(stdin),
    }),
    ("pairs without the factor F", |stdin| {
        match pairs(stdin) > MOST_PAIRS && pairs(stdin) / factor(stdin) <= MOST_PAIRS {
            true => b"matches 0 steps 0\n".to_vec(),
            false => program(stdin),
        }
    }),
    ("pairs with a factor of 8", |stdin| {
        match pairs(stdin) / factor(stdin).max(1) * 8 > MOST_PAIRS {
            true => b"too large\n".to_vec(),
            false => program(stdin),
        }
    }),
    ("more than 16,000 pairs before a refusal", |stdin| {
        let cut = !(stdin.len() - rows_at(stdin)).is_multiple_of(4);
        match pairs(stdin) {
            count if count > MOST_PAIRS && cut => b"too large\n".to_vec(),
            _ => program(stdin),
        }
    }),
    ("stopped as done", |stdin| with(stdin, "stopped", "matches")),
    ("15 as done", |stdin| match answer(stdin) {
        STUCK => with(stdin, "stopped", "matches"),
        _ => program(stdin),
    }),
    ("15 as a refusal", |stdin| match answer(stdin) {
        STUCK => b"refused 15\n".to_vec(),
        _ => program(stdin),
    }),
    ("15 without its match", |stdin| match answer(stdin) {
        STUCK => without_last_line(program(stdin)),
        _ => program(stdin),
    }),
    ("null as 0", |stdin| with(stdin, "null", "0")),
    ("no mark for no labels", |stdin| with(stdin, " -\n", " \n")),
];

#[test]
fn a_program_with_a_fault_is_told_apart() {
    let mut random = Random::new(6);
    let mut inputs = stdin::long();
    inputs.extend(stdin::at_limits());
    for number in 0..1_000 {
        inputs.push(stdin::input(&mut random, number));
        inputs.push(stdin::middle(&mut random, number));
    }
    for (name, fault) in FAULTS {
        let found = inputs.iter().any(|stdin| fault(stdin) != program(stdin));
        assert!(found, "{name}");
    }
}

/// What is printed, with one text for another.
fn with(stdin: &[u8], old: &str, new: &str) -> Vec<u8> {
    let printed = String::from_utf8(program(stdin)).expect("plain text");
    printed.replace(old, new).into_bytes()
}

fn start(stdin: &[u8], most: usize) -> &[u8] {
    &stdin[..stdin.len().min(most)]
}

/// Where the row bytes begin, or the end of an input without any.
fn rows_at(stdin: &[u8]) -> usize {
    let behind_query = match *stdin {
        [low, high, ..] => 2 + usize::from(u16::from_le_bytes([low, high])),
        _ => 2,
    };
    stdin.len().min(behind_query)
}

/// How many pairs the whole numbers of an input make, or 0 where it is refused.
fn pairs(stdin: &[u8]) -> usize {
    let (query, row_bytes) = stdin.split_at(rows_at(stdin));
    let number = |four: &[u8]| i32::from_le_bytes([four[0], four[1], four[2], four[3]]);
    let rows: Vec<i32> = row_bytes.chunks_exact(4).map(number).collect();
    match search::room(behind_length(query), &rows) {
        (DONE, places, n) => places * (n + 1) * search::factor(behind_length(query)),
        _ => 0,
    }
}

fn factor(stdin: &[u8]) -> usize {
    let (query, _) = stdin.split_at(rows_at(stdin));
    search::factor(behind_length(query))
}

/// The answer of the search that the program makes, or of one with less room.
fn answer(stdin: &[u8]) -> u8 {
    let (query, row_bytes) = stdin.split_at(rows_at(stdin));
    let number = |four: &[u8]| i32::from_le_bytes([four[0], four[1], four[2], four[3]]);
    let rows: Vec<i32> = row_bytes.chunks_exact(4).map(number).collect();
    if pairs(stdin) > MOST_PAIRS {
        return DONE;
    }
    let outcome = search::search(
        behind_length(query),
        &rows,
        &mut vec![0; MOST_PAIRS.div_ceil(8)],
        &mut vec![0; MOST_PAIRS],
        &mut vec![0; REPORT_NUMBERS],
        &mut vec![0; LABEL_BYTES],
    );
    outcome.answer
}

fn without_last_line(printed: Vec<u8>) -> Vec<u8> {
    let text = String::from_utf8(printed).expect("plain text");
    let mut lines: Vec<&str> = text.lines().collect();
    lines.pop();
    (lines.join("\n") + "\n").into_bytes()
}

/// The query behind its length.
fn behind_length(query: &[u8]) -> &[u8] {
    query.get(2..).unwrap_or(&[])
}
