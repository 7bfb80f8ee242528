//! The measures: `COUNT(A), COUNT(*), LAST(B.price) AS accepted, SUM(c1)`. Each has a title: the name
//! behind AS, or how it would be written with the column's own name.

use super::columns::Columns;
use super::fault::Fault;
use super::words::{Word, Words};
use crate::{Function, Measure};

const MOST_MEASURES: usize = 8;

/// A measure as it is written. The column is a place among those that the query names.
#[derive(Clone, Debug, PartialEq, Eq)]
pub struct Measured {
    function: Function,
    letter: Option<char>,
    column: Option<usize>,
    pub title: String,
}

impl Measured {
    /// The measure, where the columns have these numbers in the query.
    pub fn measure(&self, numbers: &[u8]) -> Measure {
        let column = self.column.and_then(|column| numbers.get(column).copied());
        let measure = Measure::new(self.function, column.unwrap_or(0));
        match self.letter {
            Some(letter) => measure.of(letter),
            None => measure,
        }
    }
}

/// Measures parted by commas, to the end of the line, or in SQL's spelling of the clause.
pub fn measures(words: &mut Words<'_>, columns: &mut Columns<'_>) -> Result<Vec<Measured>, Fault> {
    let mut measures: Vec<Measured> = Vec::new();
    loop {
        if measures.len() >= MOST_MEASURES {
            return Err(words.fault("at most 8 measures"));
        }
        let mut measured = measure(words, columns)?;
        let taken = |title: &str| measures.iter().any(|other| other.title == title);
        match name(words, taken)? {
            Some(name) => measured.title = name,
            None => measured.title = free(measured.title, taken),
        }
        measures.push(measured);
        if !words.pass_sign(",") {
            words.want_end("a comma or the end of the line")?;
            return Ok(measures);
        }
    }
}

/// A title that no other measure has: every answer tells measures by their titles.
fn free(title: String, taken: impl Fn(&str) -> bool) -> String {
    let numbered = (2..).map(|number: u32| format!("{title} ({number})"));
    let mut titles = std::iter::once(title.clone()).chain(numbered);
    titles.find(|title| !taken(title)).unwrap_or(title)
}

/// `AS` and a name, if they stand there.
fn name(words: &mut Words<'_>, taken: impl Fn(&str) -> bool) -> Result<Option<String>, Fault> {
    if !words.pass_keyword("AS") {
        return Ok(None);
    }
    let name = match words.peek() {
        Word::Name(name) | Word::Quoted(name) if !name.is_empty() => name.clone(),
        _ => return Err(words.fault("a name for the measure")),
    };
    if taken(&name) {
        return Err(words.fault("a name that no other measure has"));
    }
    words.pass();
    Ok(Some(name))
}

fn measure(words: &mut Words<'_>, columns: &mut Columns<'_>) -> Result<Measured, Fault> {
    if words.sql && (words.is_keyword(0, "FINAL") || words.is_keyword(0, "RUNNING")) {
        let is_final = words.pass_keyword("FINAL");
        if !is_final {
            return Err(
                words.fault("a measure over the whole match, since RUNNING is not supported")
            );
        }
    }
    let (function, called) = function(words)?;
    words.want_sign("(")?;
    let mut measured = match function {
        Function::Count => counted(words)?,
        _ => over_column(words, function, columns)?,
    };
    words.want_sign(")")?;
    measured.title = format!("{called}({})", measured.title);
    Ok(measured)
}

const FUNCTIONS: [(&str, Function); 7] = [
    ("COUNT", Function::Count),
    ("SUM", Function::Sum),
    ("MIN", Function::Min),
    ("MAX", Function::Max),
    ("FIRST", Function::First),
    ("LAST", Function::Last),
    ("AVG", Function::Avg),
];

fn function(words: &mut Words<'_>) -> Result<(Function, &'static str), Fault> {
    for (name, function) in FUNCTIONS {
        if words.pass_keyword(name) {
            return Ok((function, name));
        }
    }
    Err(words.fault("a measure: COUNT, SUM, MIN, MAX, FIRST, LAST or AVG"))
}

/// What is counted: `*` for all rows of the match, or a letter, which may have `.*` behind it.
fn counted(words: &mut Words<'_>) -> Result<Measured, Fault> {
    let counted = |letter: Option<char>| Measured {
        function: Function::Count,
        letter,
        column: None,
        title: String::from(letter.unwrap_or('*')),
    };
    if words.pass_sign("*") {
        return Ok(counted(None));
    }
    let letter = words.want_letter("`*` or a letter A to Z")?;
    if words.pass_sign(".") {
        words.want_sign("*")?;
    }
    Ok(counted(Some(letter)))
}

/// What is measured: a column, or a letter, a dot and a column.
fn over_column(
    words: &mut Words<'_>,
    function: Function,
    columns: &mut Columns<'_>,
) -> Result<Measured, Fault> {
    let mut letter = None;
    if words.peek_behind(1) == &Word::Sign(".") {
        letter = Some(words.want_letter("a letter A to Z in front of the dot")?);
        words.want_sign(".")?;
    }
    let column = columns.want(words)?;
    let name = columns.named.get(column);
    let name = name.map_or("", |named| named.name.as_str());
    Ok(Measured {
        function,
        letter,
        column: Some(column),
        title: letter.map_or(String::from(name), |letter| format!("{letter}.{name}")),
    })
}
