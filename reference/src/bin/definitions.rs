//! Prints cases with the results of the reference as a file of definitions, so
//! that the product's definitions are run on the same inputs by the proof
//! checker and compared: `definitions SEED SEARCHES TEXTS PROGRAMS`. Each case
//! is a statement of its own, so that a difference is named by the checker. A fifth
//! as many searches are added that are made within an allowance.

use reference::cases;
use reference::generate::Random;
use reference::search;
use std::fmt::Display;
use std::io::{self, BufWriter, Write};
use std::process::ExitCode;

/// Inputs of the program with more pairs than this are left out: lists are
/// slow in the checker.
const PAIRS: usize = 400;

/// For so many searches one more is made, within an allowance.
const WITHIN: usize = 5;

const HEAD: &str = "\
-- Cases made by reference/src/bin/definitions.rs, not kept.
use Rattle.std.specs.Prelude.{Bool, ◌&&◌, List, [], ◌∷◌, ℕ, eqb, ℤ, pos, negsuc, replicate}
use Rattle.std.proofs.Math.Option.{some}
use lib.Dec.{T}
use Rattle.rules.specs.Reader.{tree_of}
use Rattle.rules.specs.Answers.{deep, wrong, incomplete, nested_loops, too_many, P, first_of, offset_at, Buffers, Memory, search_of, search_within}
use Rattle.rules.specs.Program.{printed}
use Rattle.rules.specs.Bench.{same, equal_z}

abbrev lent : ℕ → ℕ → ℕ → ℕ → Buffers
lent a b c d = record { notes = replicate a 7; trail = replicate b 7; numbers = replicate c (pos 7); labels = replicate d 7 }

abbrev same_result : Memory → ℕ → ℕ → ℕ → ℕ → ℕ → Bool
same_result m a k l s o =
    eqb m.result.answer a && (eqb m.result.matches k && (eqb m.result.labels l && (eqb m.result.steps s && eqb m.result.offset o)))

abbrev same_buffers : Memory → List ℕ → List ℕ → List ℤ → List ℕ → Bool
same_buffers m notes trail numbers labels =
    same eqb m.buffers.notes notes && (same eqb m.buffers.trail trail && (same equal_z m.buffers.numbers numbers && same eqb m.buffers.labels labels))

abbrev text_answer : List ℕ → ℕ
unfolding deep tree_of wrong incomplete nested_loops too_many first_of
text_answer t = first_of ((4, deep 0 0 t) ∷ (5, wrong t) ∷ (14, incomplete t) ∷ (6, nested_loops (tree_of t)) ∷ (7, too_many (tree_of t)) ∷ [])
";

fn main() -> ExitCode {
    let words: Vec<String> = std::env::args().skip(1).collect();
    let numbers: Vec<u64> = words.iter().filter_map(|word| word.parse().ok()).collect();
    let [seed, searches, texts, programs] = numbers[..] else {
        eprintln!("definitions SEED SEARCHES TEXTS PROGRAMS");
        return ExitCode::from(2);
    };
    match print(seed, searches as usize, texts as usize, programs as usize) {
        Ok(()) => ExitCode::SUCCESS,
        Err(_) => ExitCode::FAILURE,
    }
}

fn print(seed: u64, searches: usize, texts: usize, programs: usize) -> io::Result<()> {
    let mut random = Random::new(seed);
    let mut out = BufWriter::new(io::stdout().lock());
    writeln!(out, "{HEAD}")?;
    for number in 0..searches {
        search(&mut out, number, &cases::search_case(&mut random, number))?;
    }
    for number in 0..texts {
        text(&mut out, number, &cases::text_case(&mut random))?;
    }
    for number in 0..programs {
        let case = cases::program_case(&mut random, number);
        if pairs(&case.stdin) <= PAIRS {
            program(&mut out, number, &case)?;
        }
    }
    for number in 0..searches / WITHIN {
        search(&mut out, number, &cases::within_case(&mut random, number))?;
    }
    out.flush()
}

/// The pairs of the search that an input of the program asks for, 0 where it
/// asks for none.
fn pairs(stdin: &[u8]) -> usize {
    let [low, high, rest @ ..] = stdin else {
        return 0;
    };
    let length = usize::from(u16::from_le_bytes([*low, *high]));
    if rest.len() < length {
        return 0;
    }
    let (query, rows) = rest.split_at(length);
    let rows: Vec<i32> = rows
        .chunks_exact(4)
        .map(|word| i32::from_le_bytes([word[0], word[1], word[2], word[3]]))
        .collect();
    let (_, places, n) = search::room(query, &rows);
    places * (n + 1) * search::factor(query)
}

fn list<T: Display>(items: &[T]) -> String {
    let words: Vec<String> = items.iter().map(|item| format!("{item} ∷ ")).collect();
    format!("({}[])", words.concat())
}

/// Signed numbers as the definitions write them: pos n, or negsuc n for -1 - n.
fn signed(items: &[i64]) -> String {
    let word = |&item: &i64| match item {
        0.. => format!("pos {item} ∷ "),
        _ => format!("negsuc {} ∷ ", -(item + 1)),
    };
    format!("({}[])", items.iter().map(word).collect::<String>())
}

fn search(out: &mut impl Write, number: usize, case: &cases::SearchCase) -> io::Result<()> {
    let (name, opened, called) = match case.allowance {
        None => ("search", "search_of", "search_of".to_string()),
        Some(most) => (
            "within",
            "search_within",
            format!("search_within (some {most})"),
        ),
    };
    let name = format!("{name}{number}");
    let rows: Vec<i64> = case.rows.iter().map(|&entry| entry.into()).collect();
    let [notes, trail, numbers, labels] = case.lengths;
    let [matches, label_count, steps, offset] = case.counts;
    writeln!(out, "abbrev {name} : Memory\nunfolding {opened}")?;
    let (query, rows) = (list(&case.query), signed(&rows));
    writeln!(
        out,
        "{name} = {called} {query} {rows} (lent {notes} {trail} {numbers} {labels})\n"
    )?;
    let result = format!("{} {matches} {label_count} {steps} {offset}", case.answer);
    let (notes, trail) = (list(&case.notes), list(&case.trail));
    let (numbers, labels) = (signed(&case.numbers), list(&case.labels));
    let buffers = format!("{notes} {trail} {numbers} {labels}");
    let agrees = format!("same_result {name} {result} && same_buffers {name} {buffers}");
    writeln!(
        out,
        "{name}-agrees : T ({agrees})\nunfolding {opened}\n{name}-agrees = tt\n"
    )
}

fn text(out: &mut impl Write, number: usize, case: &cases::TextCase) -> io::Result<()> {
    let text = list(&case.text);
    let mut agrees = format!("eqb (text_answer {text}) {}", case.answer);
    agrees += &format!(" && eqb (offset_at {text} {}) {}", case.answer, case.offset);
    if case.answer == 0 {
        agrees += &format!(" && eqb (P (tree_of {text})) {}", case.places);
    }
    let opened = "deep tree_of wrong incomplete nested_loops too_many first_of offset_at P";
    writeln!(
        out,
        "text{number}-agrees : T ({agrees})\nunfolding {opened}\ntext{number}-agrees = tt\n"
    )
}

fn program(out: &mut impl Write, number: usize, case: &cases::ProgramCase) -> io::Result<()> {
    let agrees = format!(
        "same eqb (printed {}) {}",
        list(&case.stdin),
        list(&case.printed)
    );
    writeln!(
        out,
        "program{number}-agrees : T ({agrees})\nunfolding printed\nprogram{number}-agrees = tt\n"
    )
}
