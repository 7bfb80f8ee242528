//! The reader of a query's text, from its words to its parts. There are two spellings, which may
//! stand side by side: lines with a colon, and SQL's clauses, which go over line ends.
//!
//! Reading finds every fault of form and says where it is; the pattern's own text, letters defined
//! twice and letters that are not in the pattern are left to the library.

use super::codes::{codes, Codes};
use super::columns::{Columns, NamedColumn, MOST_COLUMNS};
use super::conditions::{Condition, Known, Reading};
use super::fault::{shown, Fault};
use super::lines::lines;
use super::measures::{measures, Measured};
use super::pattern::{PatternText, LONGEST_PATTERN};
use super::skip::{letter_of, skip};
use super::words::{letter, tokens, without_comment, Token, Word, Words};
use crate::condition::MOST_ENTRIES;
use crate::{Ahead, Error, Query, QueryBuilder, Skip};

const MOST_DEFINES: usize = 26;

/// A query that was read.
#[derive(Clone, Debug, PartialEq, Eq)]
pub struct QueryText {
    /// The query's parts, which the library has still to judge: see [`QueryBuilder::build`].
    pub builder: QueryBuilder,
    /// The columns that the query names, in the order in which its rows have to have them. There
    /// is none where no column is named: its rows have one entry, which is not looked at.
    pub columns: Vec<QueryColumn>,
    /// The measures' titles, all of them different.
    pub titles: Vec<String>,
    /// Where the search goes on behind a match.
    pub skip: Skip,
    /// The columns of `PARTITION BY`.
    pub partition_by: Vec<String>,
    /// The column of `ORDER BY`.
    pub order_by: Option<String>,
    /// Whether the query says `ALL ROWS PER MATCH`.
    pub all_rows: bool,
    /// What is likely not meant.
    pub warnings: Vec<Warning>,
    pattern: PatternText,
    parts: Parts,
}

/// A column of a query.
#[derive(Clone, Debug, PartialEq, Eq)]
pub struct QueryColumn {
    /// Its name.
    pub name: String,
    /// Its place among the names that were handed over, from 0; none where there were none.
    pub index: Option<usize>,
    /// Its code table.
    pub codes: Option<Codes>,
}

/// Something in a query that is likely not meant.
#[derive(Clone, Debug, PartialEq, Eq)]
pub struct Warning {
    /// The line, from 1.
    pub line: usize,
    /// The column in that line, from 1, in characters.
    pub column: usize,
    /// What it is.
    pub message: String,
}

/// A part of the text that can be shown when the library refuses it.
#[derive(Clone, Debug, PartialEq, Eq)]
pub struct Part {
    /// The line where it begins, from 1.
    pub line: usize,
    /// The column in that line, from 1.
    pub column: usize,
    /// The part as it stands in that line, without a comment.
    pub text: String,
}

/// The parts that the library can refuse.
#[derive(Clone, Debug, Default, PartialEq, Eq)]
struct Parts {
    pattern: Option<Part>,
    defines: Vec<(char, Part)>,
    defined_again: Option<Part>,
    skip: Option<Part>,
    measures: Option<Part>,
}

impl QueryText {
    /// The part of the text that a refusal is about; none where it is about no part.
    pub fn part(&self, error: Error) -> Option<&Part> {
        match error {
            Error::TooDeep
            | Error::NotAPattern { .. }
            | Error::PatternEnds { .. }
            | Error::EmptyRepetition
            | Error::TooManyPlaces => self.parts.pattern.as_ref(),
            Error::DefinedTwice => self.parts.defined_again.as_ref(),
            Error::MeasureLetter => self.strange_letter(),
            Error::LooksAhead { by: Some(by) } => match by {
                Ahead::End { .. } => self.parts.pattern.as_ref(),
                Ahead::Letter { letter, .. } => {
                    let mut defines = self.parts.defines.iter();
                    defines.find(|it| it.0 == letter).map(|it| &it.1)
                }
            },
            _ => None,
        }
    }

    /// Where the pattern's text is wrong, what was expected and what was found there; none where
    /// the library refuses it for nothing of its text. The error is the library's.
    pub fn wrong_pattern(&self) -> Option<(Error, Fault)> {
        self.pattern.wrong()
    }

    /// The pattern.
    pub fn pattern(&self) -> &str {
        &self.pattern.text
    }

    /// Has the library judge the query.
    ///
    /// # Errors
    ///
    /// The place and the words of a refusal.
    pub fn build(&self) -> Result<Query, Fault> {
        self.builder.build().map_err(|error| {
            if let Some((_, fault)) = self.wrong_pattern() {
                return fault;
            }
            let part = self.part(error).or(self.parts.pattern.as_ref());
            let (line, column) = part.map_or((1, 1), |part| (part.line, part.column));
            let text = part.map_or("", |part| part.text.as_str());
            let number = error.number().unwrap_or(0);
            let expected = format!("a query that is not refused ({number}: {error})");
            Fault::new(line, column, expected, shown(text))
        })
    }

    /// The part with a letter that the pattern does not have, where the library says that there is
    /// one: the skip, or otherwise the measures. In the text of a pattern every letter stands for
    /// itself.
    fn strange_letter(&self) -> Option<&Part> {
        let strange = |letter: &char| !self.pattern.text.contains(*letter);
        match letter_of(self.skip).filter(strange) {
            Some(_) => self.parts.skip.as_ref(),
            None => self.parts.measures.as_ref(),
        }
    }
}

/// Reads a query's text over columns of any name. The columns of the query are numbered in the
/// order in which the text names them.
///
/// ```
/// let text = mireladle::text::read("pattern: A+ B\nA: price > PREV(price)\nB: event = 2")?;
/// let names: Vec<&str> = text.columns.iter().map(|column| &*column.name).collect();
/// assert_eq!(names, ["price", "event"]);
/// # Ok::<(), mireladle::text::Fault>(())
/// ```
///
/// # Errors
///
/// The first fault.
pub fn read(text: &str) -> Result<QueryText, Fault> {
    read_for(text, Columns::new(None))
}

/// Reads a query's text over rows whose columns have these names. The columns of the query are
/// numbered in the order of the names, those that the text does not name left out.
///
/// # Errors
///
/// The first fault; a column that is not among the names is one.
pub fn read_with(text: &str, names: &[String]) -> Result<QueryText, Fault> {
    read_with_columns(text, names, &[])
}

/// As [`read_with`], and the query has these columns too, each by its place among the names, whether
/// the text names them or not: what its rows are told by, such as their depot. With those that the
/// text names they are at most 8.
///
/// ```
/// use mireladle::text;
///
/// let names = ["depot", "time", "event"].map(String::from);
/// let text = text::read_with_columns("pattern: A\nA: event = 2\ndepot: North=0", &names, &[0])?;
/// let names: Vec<&str> = text.columns.iter().map(|column| &*column.name).collect();
/// assert_eq!(names, ["depot", "event"]);
/// assert_eq!(text.columns[0].codes.as_ref().and_then(|codes| codes.code(b"North")), Some(0));
/// # Ok::<(), text::Fault>(())
/// ```
///
/// # Errors
///
/// The first fault, as of [`read_with`].
pub fn read_with_columns(
    text: &str,
    names: &[String],
    columns: &[usize],
) -> Result<QueryText, Fault> {
    let mut all = Columns::new(Some(names));
    columns.iter().for_each(|column| all.add(*column));
    read_for(text, all)
}

fn read_for(text: &str, columns: Columns<'_>) -> Result<QueryText, Fault> {
    let tokens = tokens(text);
    let mut reader = Reader {
        text,
        tokens: &tokens,
        at: 0,
        end: end_of(text),
        columns,
        pattern: None,
        defines: Vec::new(),
        codes: Vec::new(),
        skip: None,
        measures: None,
        partition_by: Vec::new(),
        order_by: None,
        all_rows: None,
        parts: Parts::default(),
    };
    while let Some(token) = tokens.get(reader.at) {
        reader.part(token)?;
    }
    reader.finish()
}

/// The place behind a text: the line behind its last.
fn end_of(text: &str) -> (usize, usize) {
    (lines(text).count().saturating_add(1), 1)
}

/// A letter with what its DEFINE says, and its place.
struct Define {
    letter: char,
    condition: Condition,
    line: usize,
    column: usize,
}

/// The parts read so far.
struct Reader<'a> {
    text: &'a str,
    tokens: &'a [Token],
    at: usize,
    end: (usize, usize),
    columns: Columns<'a>,
    pattern: Option<PatternText>,
    defines: Vec<Define>,
    codes: Vec<(NamedColumn, Codes)>,
    skip: Option<Skip>,
    measures: Option<Vec<Measured>>,
    partition_by: Vec<String>,
    order_by: Option<String>,
    all_rows: Option<bool>,
    parts: Parts,
}

const KEYS: &str =
    "`pattern:`, `skip:`, `measures:`, a letter and a colon such as `A:`, or a clause \
                    such as `PATTERN (A)`";

/// The words by which SQL's clauses begin.
const CLAUSES: [&str; 9] = [
    "PATTERN",
    "DEFINE",
    "MEASURES",
    "AFTER",
    "PARTITION",
    "ORDER",
    "ONE",
    "ALL",
    "MATCH_RECOGNIZE",
];

impl<'a> Reader<'a> {
    /// Reads the part that begins with this token, the next one.
    fn part(&mut self, token: &Token) -> Result<(), Fault> {
        let behind = self.at.saturating_add(1);
        let colon = self.tokens.get(behind);
        let colon = colon.is_some_and(|it| it.word == Word::Sign(":") && !it.first);
        match &token.word {
            Word::Name(key) if token.first && colon => self.line(token, key),
            Word::Quoted(_) if token.first && colon => self.line(token, ""),
            Word::Name(word) if CLAUSES.iter().any(|it| it.eq_ignore_ascii_case(word)) => {
                self.clause(token)
            }
            Word::Sign(")" | ";") if self.at > 0 && behind == self.tokens.len() => {
                self.at = behind;
                Ok(())
            }
            Word::Sign(")") if matches!(word_at(self.tokens, behind), Word::Sign(";")) => {
                self.at = behind;
                Ok(())
            }
            _ => Err(self.rest_of_text().fault(KEYS)),
        }
    }

    /// The words from the next one on, as clauses.
    fn rest_of_text(&self) -> Words<'a> {
        Words::clauses(self.tokens.get(self.at..).unwrap_or(&[]), self.end)
    }

    /// A part as it can be shown: what stands in its first line.
    fn shown_part(&self, token: &Token) -> Part {
        let line = lines(self.text).nth(token.line.saturating_sub(1));
        Part {
            line: token.line,
            column: token.column,
            text: String::from(without_comment(line.unwrap_or("")).trim()),
        }
    }

    /// A line with a colon.
    fn line(&mut self, token: &Token, key: &str) -> Result<(), Fault> {
        let from = self.at.saturating_add(2);
        let rest = self.tokens.get(from..).unwrap_or(&[]);
        let length = rest.iter().take_while(|it| !it.first).count();
        let rest = rest.get(..length).unwrap_or(&[]);
        let mut words = Words::line(rest, self.line_end(token));
        let lower = key.to_ascii_lowercase();
        match (lower.as_str(), letter(key)) {
            ("pattern", _) => {
                self.once(self.pattern.is_some(), token)?;
                let pattern = self.line_pattern(token)?;
                self.take_pattern(pattern, token)?;
            }
            ("skip", _) => {
                self.once(self.skip.is_some(), token)?;
                self.skip = Some(skip(&mut words)?);
                self.parts.skip = Some(self.shown_part(token));
            }
            ("measures", _) => {
                self.once(self.measures.is_some(), token)?;
                self.measures = Some(measures(&mut words, &mut self.columns)?);
                self.parts.measures = Some(self.shown_part(token));
            }
            (_, Some(letter)) => self.define(letter, token, &mut words)?,
            _ => self.code_table(&mut words)?,
        }
        self.at = from.saturating_add(length);
        Ok(())
    }

    /// The place behind the last word of a token's line.
    fn line_end(&self, token: &Token) -> (usize, usize) {
        let line = lines(self.text).nth(token.line.saturating_sub(1));
        let code = without_comment(line.unwrap_or("")).trim_end();
        (token.line, code.chars().count().saturating_add(1))
    }

    /// A part that the query has already is a fault.
    fn once(&self, already: bool, token: &Token) -> Result<(), Fault> {
        let found = match &token.word {
            Word::Name(name) => name.as_str(),
            _ => "",
        };
        match already {
            true => Err(Fault::new(
                token.line,
                token.column,
                format!("one `{}` only", self.key(token)),
                shown(found),
            )),
            false => Ok(()),
        }
    }

    /// How the key of a part is written.
    fn key(&self, token: &Token) -> String {
        let behind = word_at(self.tokens, self.at.saturating_add(1));
        match (&token.word, behind) {
            (Word::Name(name), Word::Sign(":")) => format!("{name}:"),
            (Word::Name(name), _) => name.to_ascii_uppercase(),
            _ => String::new(),
        }
    }

    /// The pattern's text behind the colon, without what is trimmed.
    fn line_pattern(&self, token: &Token) -> Result<PatternText, Fault> {
        let line = lines(self.text).nth(token.line.saturating_sub(1));
        let code = without_comment(line.unwrap_or(""));
        let (front, rest) = code.split_once(':').unwrap_or((code, ""));
        let before = front.chars().count().saturating_add(2);
        let spaces = rest.chars().take_while(|c| c.is_whitespace()).count();
        let begin = before.saturating_add(spaces);
        let text = rest.trim();
        let end = (token.line, begin.saturating_add(text.chars().count()));
        let mut pattern = PatternText::new(end);
        for (column, c) in (begin..).zip(text.chars()) {
            pattern.push(c, (token.line, column));
        }
        Ok(pattern)
    }

    fn take_pattern(&mut self, pattern: PatternText, token: &Token) -> Result<(), Fault> {
        if pattern.text.len() > LONGEST_PATTERN {
            let (line, column) = pattern.place(0);
            let expected = "a pattern of at most 256 bytes";
            return Err(Fault::new(line, column, expected, shown(&pattern.text)));
        }
        self.pattern = Some(pattern);
        self.parts.pattern = Some(self.shown_part(token));
        Ok(())
    }

    /// What a letter's DEFINE says.
    fn define(&mut self, letter: char, token: &Token, words: &mut Words<'_>) -> Result<(), Fault> {
        let (line, column) = (token.line, token.column);
        if self.defines.len() >= MOST_DEFINES {
            let expected = "at most 26 DEFINE lines, one for each letter";
            let found = shown(&String::from(letter));
            return Err(Fault::new(line, column, expected, found));
        }
        let columns = &mut self.columns;
        let condition = Reading::new(letter, columns).condition(words)?;
        let again = self.defines.iter().any(|define| define.letter == letter);
        if again && self.parts.defined_again.is_none() {
            self.parts.defined_again = Some(self.shown_part(token));
        }
        self.parts.defines.push((letter, self.shown_part(token)));
        self.defines.push(Define {
            letter,
            condition,
            line,
            column,
        });
        Ok(())
    }

    /// A column and a colon, with the numbers that stand for its texts.
    fn code_table(&mut self, words: &mut Words<'_>) -> Result<(), Fault> {
        let key = self.rest_of_text();
        let column = self.columns.find(&key).map_err(|fault| Fault {
            expected: format!("{KEYS}, or {} and its codes", fault.expected),
            ..fault
        })?;
        // Without known columns every other word could be one: a code table shows by its `=`.
        if column.index.is_none() && words.peek_behind(1) != &Word::Sign("=") {
            return Err(key.fault(KEYS));
        }
        if self.codes.iter().any(|(other, _)| other.is(&column)) {
            return Err(key.fault("one code table for each column"));
        }
        if self.codes.len() >= MOST_COLUMNS {
            return Err(key.fault("codes for at most 8 columns"));
        }
        let codes = codes(words)?;
        self.codes.push((column, codes));
        Ok(())
    }

    /// A clause in SQL's spelling.
    fn clause(&mut self, token: &Token) -> Result<(), Fault> {
        let mut words = self.rest_of_text();
        if words.pass_keyword("PATTERN") {
            self.once(self.pattern.is_some(), token)?;
            return self.sql_pattern(token, &words);
        }
        if words.pass_keyword("DEFINE") {
            self.sql_defines(&mut words)?;
        } else if words.pass_keyword("MEASURES") {
            self.once(self.measures.is_some(), token)?;
            self.measures = Some(measures(&mut words, &mut self.columns)?);
            self.parts.measures = Some(self.shown_part(token));
        } else if words.pass_keyword("AFTER") {
            self.once(self.skip.is_some(), token)?;
            words.want_keywords(&["match", "skip"])?;
            self.skip = Some(skip(&mut words)?);
            self.parts.skip = Some(self.shown_part(token));
        } else {
            self.other_clause(token, &mut words)?;
        }
        self.at = self.at.saturating_add(words.passed());
        Ok(())
    }

    /// The clauses that are about the rows rather than the pattern.
    fn other_clause(&mut self, token: &Token, words: &mut Words<'_>) -> Result<(), Fault> {
        if words.pass_keyword("PARTITION") {
            self.once(!self.partition_by.is_empty(), token)?;
            words.want_keywords(&["by"])?;
            loop {
                self.partition_by.push(self.columns.find(words)?.name);
                words.pass();
                if !words.pass_sign(",") {
                    return Ok(());
                }
            }
        }
        if words.pass_keyword("ORDER") {
            self.once(self.order_by.is_some(), token)?;
            words.want_keywords(&["by"])?;
            self.order_by = Some(self.columns.find(words)?.name);
            words.pass();
            words.pass_keyword("ASC");
            return match words.peek() {
                Word::Sign(",") => Err(words.fault("one column to order by")),
                _ => Ok(()),
            };
        }
        if words.pass_keyword("MATCH_RECOGNIZE") {
            return words.want_sign("(");
        }
        self.once(self.all_rows.is_some(), token)?;
        let all = words.pass_keyword("ALL");
        match all {
            true => words.want_keywords(&["rows", "per", "match"])?,
            false => words.want_keywords(&["one", "row", "per", "match"])?,
        }
        self.all_rows = Some(all);
        Ok(())
    }

    /// `A AS ..`, parted by commas.
    fn sql_defines(&mut self, words: &mut Words<'a>) -> Result<(), Fault> {
        loop {
            let token = words.token();
            let letter = words.want_letter("a letter A to Z and `AS`")?;
            words.want_keywords(&["AS"])?;
            if let Some(token) = token {
                self.define(letter, token, words)?;
            }
            if !words.pass_sign(",") {
                return Ok(());
            }
        }
    }

    /// The pattern's text between parentheses, over line ends, which count as spaces.
    fn sql_pattern(&mut self, token: &Token, words: &Words<'a>) -> Result<(), Fault> {
        let open = words.token().filter(|it| it.word == Word::Sign("("));
        let open = open.ok_or_else(|| words.fault("`(`"))?;
        let mut pattern = PatternText::new(self.end);
        let mut depth = 1_usize;
        for (c, place, offset) in characters(self.text, open) {
            match c {
                '(' => depth = depth.saturating_add(1),
                ')' => depth = depth.saturating_sub(1),
                _ => {}
            }
            if depth == 0 {
                let pattern = pattern.ending(place).trimmed();
                let behind = self
                    .tokens
                    .iter()
                    .take_while(|it| it.start <= offset)
                    .count();
                self.take_pattern(pattern, token)?;
                self.at = behind;
                return Ok(());
            }
            // Several spaces count as one, so that they do not fill the pattern's 256 bytes.
            match c.is_whitespace() {
                true if pattern.text.ends_with(' ') => {}
                true => pattern.push(' ', place),
                false => pattern.push(c.to_ascii_uppercase(), place),
            }
        }
        let expected = "a `)` that ends the pattern";
        Err(Fault::new(
            self.end.0,
            self.end.1,
            expected,
            "the end of the query",
        ))
    }

    fn finish(self) -> Result<QueryText, Fault> {
        let Some(pattern) = self.pattern else {
            let (line, column) = self.end;
            let found = "the end of the file";
            return Err(Fault::new(line, column, "a `pattern:` line", found));
        };
        let code_of = |column: &NamedColumn| {
            let table = self.codes.iter().find(|(coded, _)| coded.is(column));
            table.map(|(_, codes)| codes.clone())
        };
        let named = &self.columns.named;
        let names: Vec<String> = named.iter().map(|named| named.name.clone()).collect();
        let codes: Vec<Option<Codes>> = named.iter().map(code_of).collect();
        let (numbers, sorted) = self.columns.numbered();
        let known = Known {
            numbers: &numbers,
            names: &names,
            codes: &codes,
        };
        let query_column = |named: &NamedColumn| QueryColumn {
            name: named.name.clone(),
            index: named.index,
            codes: code_of(named),
        };
        let columns: Vec<QueryColumn> = sorted.iter().map(query_column).collect();
        let skip = self.skip.unwrap_or_default();
        let measures = self.measures.unwrap_or_default();
        let builder = Query::builder(u8::try_from(columns.len().max(1)).unwrap_or(u8::MAX));
        let builder = builder.pattern(&*pattern.text).skip(skip);
        let builder = with_defines(builder, &self.defines, &known)?;
        let builder = measures.iter().fold(builder, |builder, measured| {
            builder.measure(measured.measure(&numbers))
        });
        Ok(QueryText {
            builder,
            columns,
            titles: measures.into_iter().map(|it| it.title).collect(),
            skip,
            partition_by: self.partition_by,
            order_by: self.order_by,
            all_rows: self.all_rows.unwrap_or(false),
            warnings: warnings(&pattern, &self.defines),
            pattern,
            parts: self.parts,
        })
    }
}

/// The builder with what the letters' DEFINEs say; one that says `true` needs none.
fn with_defines(
    mut builder: QueryBuilder,
    defines: &[Define],
    known: &Known<'_>,
) -> Result<QueryBuilder, Fault> {
    for define in defines {
        let Some(condition) = define.condition.written(known)? else {
            continue;
        };
        if !condition.fits() {
            let expected = format!(
                "at most {MOST_ENTRIES} comparisons, ANDs, ORs and NOTs in a DEFINE (`NOT a = b` is \
                 as well `a <> b`)"
            );
            let found = format!("{} of them", condition.len());
            return Err(Fault::new(define.line, define.column, expected, found));
        }
        builder = builder.define(define.letter, [condition]);
    }
    Ok(builder)
}

/// The word so many behind the first.
fn word_at(tokens: &[Token], at: usize) -> &Word {
    tokens.get(at).map_or(&Word::End, |token| &token.word)
}

/// A query's character with its place and its byte.
type Placed = (char, (usize, usize), usize);

/// The characters behind a token, without comments; a line end is a space.
fn characters<'a>(text: &'a str, token: &'a Token) -> impl Iterator<Item = Placed> + 'a {
    let of_line = move |(number, line): (usize, &'a str)| {
        let before = super::words::offset_in(text, line);
        let code = without_comment(line);
        let end = (' ', code.chars().count(), code.len());
        let inside = (0..)
            .zip(code.char_indices())
            .map(|(n, (at, c))| (c, n, at));
        let all = inside.chain([end]);
        all.map(move |(c, n, at): (char, usize, usize)| {
            let place = (number, n.saturating_add(1));
            (c, place, before.saturating_add(at))
        })
    };
    let all = (1..).zip(lines(text)).flat_map(of_line);
    all.skip_while(|(_, _, at)| *at < token.end)
}

/// Letters that have no DEFINE, and DEFINEs of letters that are not in the pattern. A mistyped
/// letter is both.
fn warnings(pattern: &PatternText, defines: &[Define]) -> Vec<Warning> {
    let mut warnings = Vec::new();
    let letters = |c: &char| c.is_ascii_uppercase();
    let mut seen: Vec<char> = Vec::new();
    for (at, c) in pattern.text.char_indices().filter(|(_, c)| letters(c)) {
        let defined = defines.iter().any(|define| define.letter == c);
        if !defined && !seen.contains(&c) {
            seen.push(c);
            let (line, column) = pattern.place(at);
            warnings.push(Warning {
                line,
                column,
                message: format!(
                    "{c} has no DEFINE, so it holds at every row (`{c}: true` says so)"
                ),
            });
        }
    }
    for define in defines {
        let letter = define.letter;
        if !pattern.text.contains(letter) {
            warnings.push(Warning {
                line: define.line,
                column: define.column,
                message: format!("the pattern has no {letter}, so its DEFINE has no effect"),
            });
        }
    }
    warnings
}

#[cfg(test)]
mod tests;
