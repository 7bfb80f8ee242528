//! The search: all answers in their order, the starts, the report and what lies
//! in the four lent buffers afterwards; once with the counted walk and once with
//! plain backtracking. From document 01, "Places and preferment" (starts) and
//! "Report" (matches, measures, working room, table of answers); and from
//! document 02, R-2 (starts at a labelled row, answer 15, the bound of steps), R-3 (the
//! factor F), R-5 (the average) and R-13 (an allowance of steps, answer 16).

use crate::letters::{self, Held};
use crate::pattern::{self, Pattern};
use crate::places::{self, Place, Repetition};
use crate::query::{self, Function, Measure, Query, Skip};
use crate::walk::{Attempt, Counted, Ground, Pair, Plain};

pub const MOST_ROWS: usize = 4096;

pub const DONE: u8 = 0;
/// The next match does not fit.
pub const STOPPED: u8 = 13;
/// The last match written has no labelled row behind its first to go on at.
pub const STUCK: u8 = 15;
/// A further entry would pass the allowance.
pub const SPENT: u8 = 16;

/// Whether a search with this answer was walked; all others are refused.
pub fn was_walked(answer: u8) -> bool {
    matches!(answer, DONE | STOPPED | STUCK | SPENT)
}

#[derive(Clone, Copy, Debug, PartialEq, Eq)]
pub struct Outcome {
    pub answer: u8,
    pub matches: u64,
    pub labels: u64,
    pub steps: u64,
    /// Of answers 5 and 14; else 0.
    pub offset: u64,
}

impl Outcome {
    /// Answers 1 to 12 and 14 come with zeros, 5 and 14 with an offset.
    pub fn refused(query: &[u8], answer: u8) -> Outcome {
        Outcome {
            answer,
            matches: 0,
            labels: 0,
            steps: 0,
            offset: offset(query, answer),
        }
    }
}

/// Where the pattern's text of a query with this answer is wrong.
pub fn offset(query: &[u8], answer: u8) -> u64 {
    match (answer, query::read(query)) {
        (5 | 14, Ok(query)) => pattern::offset(&query.text),
        _ => 0,
    }
}

/// A query and rows that have none of the answers 1 to 10.
#[derive(Clone, Debug)]
pub struct Accepted {
    pub query: Query,
    pub pattern: Pattern,
    pub places: Vec<Place>,
    /// For each place the repetitions that its flags are of.
    pub rounds: Vec<Vec<Repetition>>,
    pub held: Held,
}

impl Accepted {
    pub fn n(&self) -> usize {
        self.held.row_count()
    }

    pub fn ground(&self) -> Ground<'_> {
        Ground {
            places: &self.places,
            rounds: &self.rounds,
            factor: self.factor(),
            held: &self.held,
        }
    }

    /// F.
    pub fn factor(&self) -> usize {
        self.pattern.factor()
    }

    /// The numbers that one match takes in the report.
    pub fn numbers_per_match(&self) -> usize {
        3 + 2 * self.query.measures.len()
    }

    /// The papers' bound of the steps, each with the factor F: 2P(n+1) in mode 0,
    /// Pn(n+3)/2 in the others.
    pub fn most_steps(&self) -> u64 {
        let places = (self.places.len() * self.factor()) as u64;
        let n = self.n() as u64;
        match self.query.skip {
            Skip::PastLastRow => 2 * places * (n + 1),
            Skip::ToNextRow | Skip::ToFirst(_) | Skip::ToLast(_) => places * n * (n + 3) / 2,
        }
    }
}

/// Judges a query alone: the parts, or the lowest of the answers 1 to 9.
pub fn accept_query(query: &[u8]) -> Result<(Query, Pattern), u8> {
    let query = query::read(query)?;
    let pattern = pattern::judge(&query.text)?;
    if query::letter_is_defined_twice(&query) {
        return Err(8);
    }
    let letters = pattern.letters();
    let known = |letter: Option<u8>| letter.is_none_or(|letter| letters.contains(&letter));
    let measured = query.measures.iter().all(|measure| known(measure.letter));
    if !measured || !known(query.skip.letter()) {
        return Err(9);
    }
    Ok((query, pattern))
}

/// Judges a query and rows: the parts, or the lowest of the answers 1 to 10.
pub fn accept(query: &[u8], rows: &[i32]) -> Result<Accepted, u8> {
    let (query, pattern) = accept_query(query)?;
    if !rows.len().is_multiple_of(query.columns) || rows.len() / query.columns > MOST_ROWS {
        return Err(10);
    }
    let (places, rounds) = places::lay(&pattern);
    let held = Held::new(&query, rows);
    Ok(Accepted {
        query,
        pattern,
        places,
        rounds,
        held,
    })
}

/// The answer 0 with P and n, or the answer of 1 to 10 with zeros.
pub fn room(query: &[u8], rows: &[i32]) -> (u8, usize, usize) {
    match accept(query, rows) {
        Ok(accepted) => (DONE, accepted.places.len(), accepted.n()),
        Err(answer) => (answer, 0, 0),
    }
}

/// F of a query that has none of the answers 1 to 9; else 0.
pub fn factor(query: &[u8]) -> usize {
    accept_query(query).map_or(0, |(_, pattern)| pattern.factor())
}

/// The test of a letter at a row (document 02, R-6): answer, 1 if the letter holds,
/// comparisons judged and offset; of a query or rows that are refused the answer with its
/// offset.
pub fn test(query: &[u8], rows: &[i32], letter: u8, row: u64) -> [u64; 4] {
    match accept(query, rows) {
        Ok(accepted) => {
            let tested = letters::test(&accepted.query, rows, letter, row);
            [DONE.into(), tested.holds.into(), tested.judged as u64, 0]
        }
        Err(answer) => [answer.into(), 0, 0, offset(query, answer)],
    }
}

/// The working room that P, n and F call for: bytes of notes, numbers of trail.
pub fn working_room(places: usize, n: usize, factor: usize) -> (usize, usize) {
    let pairs = places * (n + 1) * factor;
    (pairs.div_ceil(8), pairs)
}

/// The four lent buffers: notes, trail, numbers and labels.
pub type Buffers<'a> = (&'a mut [u8], &'a mut [u32], &'a mut [i64], &'a mut [u8]);

/// The search by the counted walk.
pub fn search(
    query: &[u8],
    rows: &[i32],
    notes: &mut [u8],
    trail: &mut [u32],
    numbers: &mut [i64],
    labels: &mut [u8],
) -> Outcome {
    search_within(query, rows, None, (notes, trail, numbers, labels))
}

/// The search within an allowance of steps; None is the search without one.
pub fn search_within(query: &[u8], rows: &[i32], allowance: Option<u64>, lent: Buffers) -> Outcome {
    search_watched(query, rows, allowance, lent, &mut |_| {})
}

/// The same, showing every attempt to a watcher: that whose match does not fit and
/// the unfinished one as well.
pub fn search_watched(
    query: &[u8],
    rows: &[i32],
    allowance: Option<u64>,
    lent: Buffers,
    watch: &mut dyn FnMut(&Attempt),
) -> Outcome {
    search_by_rule(query, rows, allowance, lent, next_start, watch)
}

/// Where the search goes on after the match that has these labels from this start
/// on; None if it cannot.
pub type Rule = fn(skip: Skip, start: usize, labels: &[u8]) -> Option<usize>;

/// The search with a rule of its own for the next start, so that a wrong one can
/// be tried too.
pub fn search_by_rule(
    query: &[u8],
    rows: &[i32],
    allowance: Option<u64>,
    (notes, trail, numbers, labels): Buffers,
    rule: Rule,
    watch: &mut dyn FnMut(&Attempt),
) -> Outcome {
    match accept_with_room(query, rows, notes.len(), trail.len()) {
        Ok(accepted) => {
            let lent = (notes, trail, numbers, labels);
            search_accepted(&accepted, rows, allowance, lent, rule, watch)
        }
        Err(answer) => Outcome::refused(query, answer),
    }
}

/// The same for a query and rows that are not refused, with working room that is long
/// enough; the letters hold where `accepted` says so, be it right or wrong.
pub fn search_accepted(
    accepted: &Accepted,
    rows: &[i32],
    allowance: Option<u64>,
    (notes, trail, numbers, labels): Buffers,
    rule: Rule,
    watch: &mut dyn FnMut(&Attempt),
) -> Outcome {
    let mut walk = Counted::new(accepted.ground(), allowance);
    let mut report = Report::new(numbers, labels);
    let mut attempt = |start| {
        let attempt = walk.attempt(start);
        watch(&attempt);
        attempt
    };
    let answer = take_starts(accepted, rows, rule, &mut attempt, &mut report)
        .expect("the counted walk never gives up");
    let bound = accepted.most_steps();
    assert!(
        walk.steps() <= bound,
        "the papers' bound of the steps is passed"
    );
    write_notes(notes, walk.failed());
    trail[..walk.failed().len()].fill(0);
    report.outcome(answer, walk.steps())
}

/// The search by plain backtracking. It has no use for notes and trail but for
/// their lengths, and no allowance. None if it lost its patience, so that its result
/// is not known; what the report then holds are the first of its matches.
pub fn search_plain(
    query: &[u8],
    rows: &[i32],
    notes: &[u8],
    trail: &[u32],
    numbers: &mut [i64],
    labels: &mut [u8],
    patience: u64,
) -> Option<Outcome> {
    let accepted = match accept_with_room(query, rows, notes.len(), trail.len()) {
        Ok(accepted) => accepted,
        Err(answer) => return Some(Outcome::refused(query, answer)),
    };
    let mut walk = Plain::new(accepted.ground(), patience);
    let mut report = Report::new(numbers, labels);
    let answer = take_starts(
        &accepted,
        rows,
        next_start,
        &mut |start| walk.attempt(start),
        &mut report,
    )?;
    Some(report.outcome(answer, walk.steps()))
}

/// Answers 1 to 12.
fn accept_with_room(
    query: &[u8],
    rows: &[i32],
    notes: usize,
    trail: usize,
) -> Result<Accepted, u8> {
    let accepted = accept(query, rows)?;
    let (notes_needed, trail_needed) =
        working_room(accepted.places.len(), accepted.n(), accepted.factor());
    if notes < notes_needed {
        return Err(11);
    }
    if trail < trail_needed {
        return Err(12);
    }
    Ok(accepted)
}

/// Makes the attempts start by start and writes their matches, until all is
/// done, a match does not fit, there is no row to go on at behind one that is
/// written, or an attempt stays unfinished. None if one gave up.
fn take_starts(
    accepted: &Accepted,
    rows: &[i32],
    rule: Rule,
    attempt: &mut dyn FnMut(usize) -> Attempt,
    report: &mut Report,
) -> Option<u8> {
    let mut start = 0;
    while start < accepted.n() {
        let next = match attempt(start) {
            Attempt::GaveUp => return None,
            Attempt::Unfinished(_) => return Some(SPENT),
            Attempt::NoMatch => Some(start + 1),
            Attempt::Match(path) => {
                let labels = labels_on(&accepted.places, &path);
                let results = results(&accepted.query, rows, start, &labels);
                if !report.append(start, &labels, &results) {
                    return Some(STOPPED);
                }
                rule(accepted.query.skip, start, &labels)
            }
        };
        match next {
            Some(next) => start = next,
            None => return Some(STUCK),
        }
    }
    Some(DONE)
}

/// After an empty match one row on, in every mode. After a match with rows by the
/// mode; None where the letter labels none of its rows, or the row to go on at is
/// its first.
pub fn next_start(skip: Skip, start: usize, labels: &[u8]) -> Option<usize> {
    if labels.is_empty() {
        return Some(start + 1);
    }
    let rows_on = match skip {
        Skip::PastLastRow => labels.len(),
        Skip::ToNextRow => 1,
        Skip::ToFirst(letter) => labels.iter().position(|&label| label == letter)?,
        Skip::ToLast(letter) => labels.iter().rposition(|&label| label == letter)?,
    };
    (rows_on > 0).then_some(start + rows_on)
}

/// The labels of the rows that a path takes: each letter on it passed one row.
pub fn labels_on(places: &[Place], path: &[Pair]) -> Vec<u8> {
    path.iter()
        .filter_map(|pair| match places[pair.place] {
            Place::Letter { letter, .. } => Some(letter),
            _ => None,
        })
        .collect()
}

/// The results of the measures in order; null is None.
pub fn results(query: &Query, rows: &[i32], start: usize, labels: &[u8]) -> Vec<Option<i64>> {
    query
        .measures
        .iter()
        .map(|measure| result(measure, rows, query.columns, start, labels))
        .collect()
}

fn result(
    measure: &Measure,
    rows: &[i32],
    columns: usize,
    start: usize,
    labels: &[u8],
) -> Option<i64> {
    let entries: Vec<i64> = labels
        .iter()
        .enumerate()
        .filter(|(_, label)| measure.letter.is_none_or(|letter| letter == **label))
        .map(|(index, _)| i64::from(rows[(start + index) * columns + measure.column]))
        .collect();
    if entries.is_empty() && measure.function != Function::Count {
        return None;
    }
    match measure.function {
        Function::Count => Some(entries.len() as i64),
        Function::Sum => Some(entries.iter().sum()),
        Function::Min => entries.iter().min().copied(),
        Function::Max => entries.iter().max().copied(),
        Function::First => entries.first().copied(),
        Function::Last => entries.last().copied(),
        Function::Avg => Some(average(&entries)),
    }
}

/// The sum divided by the count of entries, which is not 0. What is cut toward zero
/// is the quotient of the sum's size; the sum's sign is put before it. A sum is at
/// most 2 to the 43 in size, so none of this can wrap.
fn average(entries: &[i64]) -> i64 {
    let sum: i64 = entries.iter().sum();
    let size = (sum.unsigned_abs() / entries.len() as u64) as i64;
    match sum < 0 {
        true => -size,
        false => size,
    }
}

/// How much of a report is written.
#[derive(Clone, Copy, Debug, Default, PartialEq, Eq)]
pub struct Extent {
    pub matches: usize,
    pub numbers: usize,
    pub labels: usize,
}

/// The two report buffers and how much of them is written.
pub struct Report<'a> {
    numbers: &'a mut [i64],
    labels: &'a mut [u8],
    pub written: Extent,
}

impl<'a> Report<'a> {
    fn new(numbers: &'a mut [i64], labels: &'a mut [u8]) -> Report<'a> {
        Report::behind(numbers, labels, Extent::default())
    }

    /// A report that goes on behind what is written already.
    pub fn behind(numbers: &'a mut [i64], labels: &'a mut [u8], written: Extent) -> Report<'a> {
        Report {
            numbers,
            labels,
            written,
        }
    }

    /// Writes a match whole, or changes nothing if it does not fit whole.
    pub fn append(&mut self, start: usize, labels: &[u8], results: &[Option<i64>]) -> bool {
        let before = self.written;
        let mut written = vec![before.matches as i64 + 1, start as i64, labels.len() as i64];
        for result in results {
            written.push(i64::from(result.is_some()));
            written.push(result.unwrap_or(0));
        }
        let after = Extent {
            matches: before.matches + 1,
            numbers: before.numbers + written.len(),
            labels: before.labels + labels.len(),
        };
        if after.numbers > self.numbers.len() || after.labels > self.labels.len() {
            return false;
        }
        self.numbers[before.numbers..after.numbers].copy_from_slice(&written);
        self.labels[before.labels..after.labels].copy_from_slice(labels);
        self.written = after;
        true
    }

    pub fn outcome(&self, answer: u8, steps: u64) -> Outcome {
        Outcome {
            answer,
            matches: self.written.matches as u64,
            labels: self.written.labels as u64,
            steps,
            offset: 0,
        }
    }
}

/// One bit for each pair, lowest bit first; spare bits of the last byte are 0.
pub fn write_notes(notes: &mut [u8], failed: &[bool]) {
    for (byte, eight) in notes.iter_mut().zip(failed.chunks(8)) {
        *byte = 0;
        for (bit, &has_failed) in eight.iter().enumerate() {
            *byte |= u8::from(has_failed) << bit;
        }
    }
}
