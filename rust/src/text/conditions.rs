//! What a letter's DEFINE says: `c1 = 3, c2 = PREV(c2) AND NOT (c0 < 5 OR c0 > NEXT(c0, 2) + 5)`,
//! or `true`. The words are read into a [`Condition`], and that into the condition of a query, join by
//! join as it is written. On the left of a comparison stands a column, on the right a number, a
//! text, a column, or a column plus or minus a number; PREV and NEXT look up to 64 rows away.
//! BETWEEN and IN are read as the comparisons that SQL says they are.

use super::codes::{number, signed_number, Codes};
use super::columns::Columns;
use super::fault::Fault;
use super::times::seconds;
use super::words::{Word, Words};
use crate::{col, Column, Comparison, Operand, Operator};

/// The condition of a query that a condition is written as.
type Written = crate::Condition;

const MOST_COMPARISONS: usize = 8;
const FARTHEST_OFFSET: u8 = 64;
/// The most parentheses and NOTs inside one another: more than 8 comparisons could need.
const DEEPEST: usize = 32;

/// A condition as it is written. Columns are places among those that the query names.
#[derive(Clone, Debug, PartialEq, Eq)]
pub enum Condition {
    /// True at every row.
    True,
    /// False at every row.
    False,
    Not(Box<Condition>),
    /// AND of one or more.
    All(Vec<Condition>),
    /// OR of one or more.
    Any(Vec<Condition>),
    Compare(Compared),
}

/// One comparison as it is written.
#[derive(Clone, Debug, PartialEq, Eq)]
pub struct Compared {
    left: At,
    operator: Operator,
    right: Right,
}

/// A column at the current row, or some rows before (negative) or behind it.
#[derive(Clone, Copy, Debug, PartialEq, Eq)]
struct At {
    column: usize,
    offset: i16,
}

#[derive(Clone, Debug, PartialEq, Eq)]
enum Right {
    Number(i32),
    Sum(At, i32),
    /// A text in single quotes, with its place.
    Text(String, (usize, usize)),
}

/// What a condition is read with: the letter that it is about, and the columns named so far.
pub struct Reading<'a, 'b> {
    letter: char,
    columns: &'a mut Columns<'b>,
    /// Comparisons read so far.
    comparisons: usize,
    /// Parentheses and NOTs that are open.
    depth: usize,
}

impl<'a, 'b> Reading<'a, 'b> {
    pub fn new(letter: char, columns: &'a mut Columns<'b>) -> Reading<'a, 'b> {
        Reading {
            letter,
            columns,
            comparisons: 0,
            depth: 0,
        }
    }

    /// A condition, to the end of the line, or in SQL's spelling to what cannot belong to it. In a
    /// line commas part conditions that all have to be true.
    pub fn condition(&mut self, words: &mut Words<'_>) -> Result<Condition, Fault> {
        let mut parts = vec![self.either(words)?];
        while !words.sql && words.pass_sign(",") {
            parts.push(self.either(words)?);
        }
        words.want_end("a comma, AND, OR, or the end of the line")?;
        Ok(joined(parts, Condition::All))
    }

    /// Parts with OR between them.
    fn either(&mut self, words: &mut Words<'_>) -> Result<Condition, Fault> {
        let mut parts = vec![self.both(words)?];
        while words.pass_keyword("OR") {
            parts.push(self.both(words)?);
        }
        Ok(joined(parts, Condition::Any))
    }

    /// Parts with AND between them.
    fn both(&mut self, words: &mut Words<'_>) -> Result<Condition, Fault> {
        let mut parts = vec![self.term(words)?];
        while words.pass_keyword("AND") {
            parts.push(self.term(words)?);
        }
        Ok(joined(parts, Condition::All))
    }

    /// What stands between two joins: NOT and a term, a condition in parentheses, or a comparison.
    fn term(&mut self, words: &mut Words<'_>) -> Result<Condition, Fault> {
        // A column may have the name of a keyword.
        let keyword = !matches!(
            words.peek_behind(1),
            Word::Sign("=" | "<>" | "!=" | "<" | "<=" | ">" | ">=")
        );
        if keyword && words.pass_keyword("TRUE") {
            return Ok(Condition::True);
        }
        if keyword && words.pass_keyword("FALSE") {
            return Ok(Condition::False);
        }
        if keyword && words.is_keyword(0, "NOT") {
            self.deeper(words)?;
            words.pass();
            let turned = self.term(words)?;
            self.depth = self.depth.saturating_sub(1);
            return Ok(Condition::Not(Box::new(turned)));
        }
        if words.peek() == &Word::Sign("(") {
            self.deeper(words)?;
            words.pass();
            let inside = self.either(words)?;
            if !words.pass_sign(")") {
                return Err(words.fault("AND, OR or `)`"));
            }
            self.depth = self.depth.saturating_sub(1);
            return Ok(inside);
        }
        self.predicate(words)
    }

    fn deeper(&mut self, words: &Words<'_>) -> Result<(), Fault> {
        if self.depth >= DEEPEST {
            let expected = format!("at most {DEEPEST} parentheses and NOTs inside one another");
            return Err(words.fault(expected));
        }
        self.depth = self.depth.saturating_add(1);
        Ok(())
    }

    /// A column and what it is compared with: by an operator, BETWEEN or IN.
    fn predicate(&mut self, words: &mut Words<'_>) -> Result<Condition, Fault> {
        self.one_more(words)?;
        let left = self.column_at_row(words)?;
        let not = words.pass_keyword("NOT");
        if words.pass_keyword("BETWEEN") {
            return self.between(left, not, words);
        }
        if words.pass_keyword("IN") {
            return self.listed(left, not, words);
        }
        if not {
            return Err(words.fault("BETWEEN or IN"));
        }
        let operator = operator(words)?;
        let right = self.right_side(words)?;
        Ok(compare(left, operator, right))
    }

    /// `low AND high`: at least the one and at most the other, or with NOT below the one or above
    /// the other, which is unknown at the same rows.
    fn between(&mut self, left: At, not: bool, words: &mut Words<'_>) -> Result<Condition, Fault> {
        let low = self.right_side(words)?;
        if !words.pass_keyword("AND") {
            return Err(words.fault("AND and the upper end of BETWEEN"));
        }
        self.one_more(words)?;
        let high = self.right_side(words)?;
        Ok(match not {
            false => Condition::All(vec![
                compare(left, Operator::AtLeast, low),
                compare(left, Operator::AtMost, high),
            ]),
            true => Condition::Any(vec![
                compare(left, Operator::Less, low),
                compare(left, Operator::Greater, high),
            ]),
        })
    }

    /// `(1, 2, 3)`: equal to one of them, or with NOT unequal to all.
    fn listed(&mut self, left: At, not: bool, words: &mut Words<'_>) -> Result<Condition, Fault> {
        let (operator, join): (_, fn(Vec<Condition>) -> Condition) = match not {
            false => (Operator::Equal, Condition::Any),
            true => (Operator::Unequal, Condition::All),
        };
        words.want_sign("(")?;
        let mut parts = vec![compare(left, operator, self.right_side(words)?)];
        while words.pass_sign(",") {
            self.one_more(words)?;
            parts.push(compare(left, operator, self.right_side(words)?));
        }
        if !words.pass_sign(")") {
            return Err(words.fault("a comma or `)`"));
        }
        Ok(joined(parts, join))
    }

    /// Counts a comparison, of which a letter can have 8.
    fn one_more(&mut self, words: &Words<'_>) -> Result<(), Fault> {
        if self.comparisons >= MOST_COMPARISONS {
            return Err(words.fault("at most 8 comparisons for one letter"));
        }
        self.comparisons = self.comparisons.saturating_add(1);
        Ok(())
    }

    /// A number, a text, or a column with a number added to it or taken from it.
    fn right_side(&mut self, words: &mut Words<'_>) -> Result<Right, Fault> {
        match words.peek() {
            Word::Digits(_) | Word::Sign("+" | "-") => Ok(Right::Number(signed_number(words)?)),
            Word::Name(name) if name.eq_ignore_ascii_case("NULL") => {
                let expected = format!("a whole number or {}", self.columns.expected());
                Err(words.fault(format!("{expected}, {NO_NULL}")))
            }
            Word::Literal(text) => {
                let place = words.place();
                words.pass();
                Ok(Right::Text(text.clone(), place))
            }
            Word::Name(_) | Word::Quoted(_) | Word::Other('"') => {
                let column = self.column_at_row(words)?;
                Ok(Right::Sum(column, added(words)?))
            }
            Word::Other('\'') => Err(words.fault("a closing quote behind this one")),
            _ => {
                let expected = format!("a whole number or {}", self.columns.expected());
                Err(words.fault(expected))
            }
        }
    }

    /// A column, or PREV or NEXT of one.
    fn column_at_row(&mut self, words: &mut Words<'_>) -> Result<At, Fault> {
        let called = words.peek_behind(1) == &Word::Sign("(");
        let back = called && words.pass_keyword("PREV");
        let on = called && !back && words.pass_keyword("NEXT");
        if !back && !on {
            return match called {
                true => Err(words.fault("PREV, NEXT or a column")),
                false => Ok(At {
                    column: self.own_column(words)?,
                    offset: 0,
                }),
            };
        }
        words.want_sign("(")?;
        let column = self.own_column(words)?;
        let rows = match words.pass_sign(",") {
            true => i16::from(offset(words)?),
            false => 1,
        };
        words.want_sign(")")?;
        let offset = if back { rows.saturating_neg() } else { rows };
        Ok(At { column, offset })
    }

    /// A column, which may have the letter that is defined and a dot in front: SQL's `A.price` is
    /// the current row's price in the DEFINE of A.
    fn own_column(&mut self, words: &mut Words<'_>) -> Result<usize, Fault> {
        let dotted = words.peek_behind(1) == &Word::Sign(".");
        if !dotted || !words.sql {
            return self.columns.want(words);
        }
        let letter = self.letter;
        let expected = format!("{letter} in front of the dot, since a DEFINE sees its own rows");
        let mut ahead = words.clone();
        if ahead.want_letter(&expected)? != letter {
            return Err(words.fault(expected));
        }
        *words = ahead;
        words.want_sign(".")?;
        self.columns.want(words)
    }
}

const NO_NULL: &str = "since every cell is a number and none is NULL";

/// One part alone, or several joined.
fn joined(mut parts: Vec<Condition>, join: fn(Vec<Condition>) -> Condition) -> Condition {
    match (parts.pop(), parts.is_empty()) {
        (Some(only), true) => only,
        (last, _) => {
            parts.extend(last);
            join(parts)
        }
    }
}

fn compare(left: At, operator: Operator, right: Right) -> Condition {
    Condition::Compare(Compared {
        left,
        operator,
        right,
    })
}

fn operator(words: &mut Words<'_>) -> Result<Operator, Fault> {
    const EXPECTED: &str = "one of = <> < <= > >=, BETWEEN or IN";
    let operator = match words.peek() {
        Word::Sign("=") => Operator::Equal,
        Word::Sign("<>" | "!=") => Operator::Unequal,
        Word::Sign("<") => Operator::Less,
        Word::Sign("<=") => Operator::AtMost,
        Word::Sign(">") => Operator::Greater,
        Word::Sign(">=") => Operator::AtLeast,
        _ if words.is_keyword(0, "IS") => return Err(words.fault(format!("{EXPECTED}, {NO_NULL}"))),
        _ => return Err(words.fault(EXPECTED)),
    };
    words.pass();
    Ok(operator)
}

/// What is added to a column: nothing, or a number, which may have a sign of its own.
fn added(words: &mut Words<'_>) -> Result<i32, Fault> {
    let minus = words.pass_sign("-");
    if !minus && !words.pass_sign("+") {
        return Ok(0);
    }
    let minus_again = words.pass_sign("-");
    if !minus_again {
        words.pass_sign("+");
    }
    number(words, minus != minus_again)
}

fn offset(words: &mut Words<'_>) -> Result<u8, Fault> {
    let offset = match words.peek() {
        Word::Digits(digits) => digits
            .parse()
            .ok()
            .filter(|offset| *offset <= FARTHEST_OFFSET),
        _ => None,
    };
    let offset = offset.ok_or_else(|| words.fault("a number of rows from 0 to 64"))?;
    words.pass();
    Ok(offset)
}

/// What the columns named in a query are: for each its number there, its name and its codes.
pub struct Known<'a> {
    pub numbers: &'a [u8],
    pub names: &'a [String],
    pub codes: &'a [Option<Codes>],
}

impl Condition {
    /// The condition as a query has it; none where it is true at every row.
    pub fn written(&self, known: &Known<'_>) -> Result<Option<Written>, Fault> {
        match self.is_true() {
            true => Ok(None),
            false => self.whole(known).map(Some),
        }
    }

    /// Whether it says `true` and nothing else.
    fn is_true(&self) -> bool {
        match self {
            Condition::True => true,
            Condition::All(parts) => parts.iter().all(Condition::is_true),
            _ => false,
        }
    }

    /// The same join by join. Where `true` or `false` is joined by OR or NOT, a comparison of the
    /// row with itself stands for it.
    fn whole(&self, known: &Known<'_>) -> Result<Written, Fault> {
        Ok(match self {
            Condition::True => Written::from(col(0).eq(col(0))),
            Condition::False => Written::from(col(0).ne(col(0))),
            Condition::Compare(compared) => Written::from(compared.comparison(known)?),
            Condition::Not(turned) => !turned.whole(known)?,
            Condition::Any(parts) => Written::any(wholes(parts.iter(), known)?),
            Condition::All(_) if self.is_true() => Condition::True.whole(known)?,
            Condition::All(parts) => {
                let parts = parts.iter().filter(|part| !part.is_true());
                Written::all(wholes(parts, known)?)
            }
        })
    }
}

fn wholes<'a>(
    parts: impl Iterator<Item = &'a Condition>,
    known: &Known<'_>,
) -> Result<Vec<Written>, Fault> {
    parts.map(|part| part.whole(known)).collect()
}

impl Compared {
    fn comparison(&self, known: &Known<'_>) -> Result<Comparison, Fault> {
        let right = match &self.right {
            Right::Number(number) => Operand::from(*number),
            Right::Sum(at, 0) => Operand::from(at.column(known)),
            Right::Sum(at, number) => Operand::from(at.column(known).plus(*number)),
            Right::Text(text, place) => {
                Operand::from(known.code(self.left.column, text, *place)?)
            }
        };
        Ok(Comparison::new(
            self.left.column(known),
            self.operator,
            right,
        ))
    }
}

impl At {
    fn column(self, known: &Known<'_>) -> Column {
        let number = known.numbers.get(self.column).copied();
        let column = col(number.unwrap_or(u8::MAX));
        let rows = u8::try_from(self.offset.unsigned_abs()).unwrap_or(u8::MAX);
        match self.offset {
            0 => column,
            ..=-1 => column.prev(rows),
            _ => column.next(rows),
        }
    }
}

impl Known<'_> {
    /// The number that a text compared with a column stands for: its code, or its seconds where it
    /// is a date or a time.
    fn code(&self, column: usize, text: &str, place: (usize, usize)) -> Result<i32, Fault> {
        let fault = |expected| {
            let found = super::fault::shown(&format!("'{text}'"));
            Fault::new(place.0, place.1, expected, found)
        };
        if let Some(codes) = self.codes.get(column).and_then(Option::as_ref) {
            let code = codes.listed(text.as_bytes());
            return code.ok_or_else(|| fault(codes.expected()));
        }
        let time = seconds(text.as_bytes()).filter(|time| time.billionths == 0);
        let time = time.and_then(|time| i32::try_from(time.whole).ok());
        time.ok_or_else(|| {
            let name = self.names.get(column).cloned().unwrap_or_default();
            let written = super::columns::as_written(&name);
            let sample = super::fault::cut(text);
            fault(format!(
                "a number, a date or a time, or else a line with codes for this column, such as \
                 `{written}: '{sample}'=1`"
            ))
        })
    }
}
