//! Queries: built from parts, written as bytes, judged by the library, and run. A [`Query`] has been accepted by the
//! library, so only rows can still be refused. The builder judges nothing itself: parts that are wrong are written so
//! that the library refuses them, with its own number.

use crate::condition::Condition;
use crate::error::{Ahead, Error, DONE};
use crate::expected::Expected;
use crate::lent;
use crate::measure::{letter_byte, Measure};
use crate::report::{Limits, Report};
use crate::rows::Rows;

/// Kinds of records, in the order in which they stand in a query.
const SHAPE: u16 = 1;
const PATTERN: u16 = 2;
const DEFINE: u16 = 3;
const SKIP: u16 = 4;
const MEASURE: u16 = 5;
/// Stands where kind 3 does.
const CONDITION: u16 = 6;

/// Bytes of a comparison, and where in it its two offsets stand.
const COMPARISON: usize = 12;
const LEFT_OFFSET: usize = 1;
const RIGHT_OFFSET: usize = 5;

/// Where the search goes on after a match with rows. After an empty match it goes one row on.
///
/// Prices that fall and then rise, where the last row of one match is the first of the next:
///
/// ```
/// use mireladle::{col, Query, Rows, Skip};
///
/// let query = Query::builder(1)
///     .pattern("S D+ U+")
///     .define('D', [col(0).lt(col(0).prev(1))])
///     .define('U', [col(0).gt(col(0).prev(1))])
///     .skip(Skip::ToLast('U'))
///     .build()?;
/// let report = query.search(Rows::new(&[9, 5, 7, 8, 3, 4], 1))?;
/// let found: Vec<_> = report.matches().map(|m| (m.rows(), m.labels())).collect();
/// assert_eq!(found, [(0..4, "SDUU"), (3..6, "SDU")]);
/// # Ok::<(), mireladle::Error>(())
/// ```
#[derive(Clone, Copy, Debug, Default, PartialEq, Eq, Hash)]
#[non_exhaustive]
pub enum Skip {
    /// At the row behind the match's last row: no two matches share a row.
    #[default]
    PastLastRow,
    /// At the row behind the match's first row: matches may overlap.
    ToNextRow,
    /// At the match's first row with this letter, `A` to `Z`: matches may overlap. The pattern has
    /// to have the letter. A match with rows of which none has it, or whose first row has it, is
    /// written, and the search stops: see [`Ending::NoSkipRow`](crate::Ending::NoSkipRow).
    ToFirst(char),
    /// At the match's last row with this letter, `A` to `Z`: matches may overlap. The pattern has
    /// to have the letter. A match with rows of which none, or the first alone, has it is written,
    /// and the search stops: see [`Ending::NoSkipRow`](crate::Ending::NoSkipRow).
    ToLast(char),
}

impl Skip {
    /// The skip's bytes in a query: its mode, and the letter or 0.
    fn bytes(self) -> [u8; 2] {
        match self {
            Skip::PastLastRow => [0, 0],
            Skip::ToNextRow => [1, 0],
            Skip::ToFirst(letter) => [2, letter_byte(letter)],
            Skip::ToLast(letter) => [3, letter_byte(letter)],
        }
    }

    /// The skip that these bytes say; none if they say none.
    fn of(bytes: &[u8]) -> Option<Skip> {
        match bytes {
            [0, 0] => Some(Skip::PastLastRow),
            [1, 0] => Some(Skip::ToNextRow),
            [2, letter @ b'A'..=b'Z'] => Some(Skip::ToFirst(char::from(*letter))),
            [3, letter @ b'A'..=b'Z'] => Some(Skip::ToLast(char::from(*letter))),
            _ => None,
        }
    }
}

/// Collects the parts of a query. Made by [`Query::builder`].
///
/// Parts are not judged before [`build`](QueryBuilder::build), where the library judges the whole query and gives the
/// lowest number that applies.
#[derive(Clone, Debug, PartialEq, Eq, Hash)]
#[must_use = "a builder does nothing before `build`"]
pub struct QueryBuilder {
    columns: u8,
    pattern: Option<String>,
    defines: Vec<(char, Condition)>,
    skip: Skip,
    measures: Vec<Measure>,
}

impl QueryBuilder {
    /// The pattern's text, at most 256 bytes; a later one replaces an earlier one.
    ///
    /// It is made of letters `A` to `Z`, `^` (before the first row), `$` (behind the last row), `()` (nothing),
    /// branches parted by `|`, the left one tried first, parentheses up to 8 deep, and the quantifiers `*`, `+`, `?`,
    /// `{n}`, `{n,}`, `{,m}` and `{n,m}` with bounds up to 99. These take as many rows as they can; with a `?` directly
    /// behind them, as few. Spaces may stand between all these, and two letters must have one between them.
    pub fn pattern(mut self, text: impl Into<String>) -> Self {
        self.pattern = Some(text.into());
        self
    }

    /// Says at which rows a letter holds: where all these comparisons or [conditions](Condition) are
    /// true, which have 1 to 8 comparisons in all. A letter without DEFINE holds at every row. A
    /// second DEFINE for a letter is refused.
    ///
    /// ```
    /// use mireladle::{col, Query};
    /// let query = Query::builder(2)
    ///     .pattern("A B C")
    ///     .define('A', [col(0).gt(5), col(1).eq(3)])
    ///     .define('B', [col(0).lt(5) | !col(1).eq(3)])
    ///     .build()?;
    /// # Ok::<(), mireladle::Error>(())
    /// ```
    pub fn define(
        mut self,
        letter: char,
        conditions: impl IntoIterator<Item = impl Into<Condition>>,
    ) -> Self {
        self.defines.push((letter, Condition::all(conditions)));
        self
    }

    /// Where the search goes on after a match; past its last row if this is not said.
    pub fn skip(mut self, skip: Skip) -> Self {
        self.skip = skip;
        self
    }

    /// One more measure, up to 8. A match gives its results in the order in which they were asked for.
    pub fn measure(mut self, measure: Measure) -> Self {
        self.measures.push(measure);
        self
    }

    /// The query's bytes, which the library may still refuse.
    ///
    /// A part that the bytes cannot carry, such as an offset of 200 rows, is written as one that is outside its values
    /// too, so that the refusal is the same.
    pub fn to_bytes(&self) -> Vec<u8> {
        let mut bytes = Vec::new();
        append(&mut bytes, SHAPE, &[self.columns, 0]);
        if let Some(text) = &self.pattern {
            append(&mut bytes, PATTERN, text.as_bytes());
        }
        for (letter, condition) in &self.defines {
            let (kind, body) = define(*letter, condition);
            append(&mut bytes, kind, &body);
        }
        append(&mut bytes, SKIP, &self.skip.bytes());
        for measure in &self.measures {
            append(&mut bytes, MEASURE, &measure.bytes());
        }
        bytes
    }

    /// Has the library judge the query.
    ///
    /// # Errors
    ///
    /// The refusals 2 to 9 and 14; a pattern that was never given is a missing record, so 2.
    pub fn build(&self) -> Result<Query, Error> {
        let built = Query::from_bytes(self.to_bytes());
        built.map_err(|error| match error {
            Error::WrongField => self.too_long().unwrap_or(error),
            _ => error,
        })
    }

    /// The first condition that is too long, where there is one.
    fn too_long(&self) -> Option<Error> {
        let too_long = |(_, condition): &&(char, Condition)| !condition.fits();
        let (letter, condition) = self.defines.iter().find(too_long)?;
        Some(Error::ConditionTooLong {
            letter: *letter,
            comparisons: condition.comparisons(),
            entries: condition.len(),
        })
    }
}

/// Appends a record. A body that is too long for its length field is cut to one that is still too long for any kind.
fn append(bytes: &mut Vec<u8>, kind: u16, body: &[u8]) {
    let body = body.get(..usize::from(u16::MAX)).unwrap_or(body);
    let length = u16::try_from(body.len()).unwrap_or(u16::MAX);
    bytes.extend_from_slice(&length.to_le_bytes());
    bytes.extend_from_slice(&kind.to_le_bytes());
    bytes.extend_from_slice(body);
}

/// The bytes of a query with this pattern and nothing else to be refused for.
pub(crate) fn pattern_alone(text: &[u8]) -> Vec<u8> {
    let mut bytes = Vec::new();
    append(&mut bytes, SHAPE, &[1, 0]);
    append(&mut bytes, PATTERN, text);
    append(&mut bytes, SKIP, &Skip::PastLastRow.bytes());
    bytes
}

/// An error about a query, with what was expected where its pattern is wrong or ends.
fn with_expected(error: Error, query: &[u8]) -> Error {
    let at = |offset: u64| {
        let (_, text) = records(query).find(|(kind, _)| *kind == PATTERN)?;
        Expected::behind(text.get(..usize::try_from(offset).ok()?)?)
    };
    match error {
        Error::NotAPattern { offset, .. } => Error::NotAPattern {
            offset,
            expected: at(offset),
        },
        Error::PatternEnds { offset, .. } => Error::PatternEnds {
            offset,
            expected: at(offset),
        },
        other => other,
    }
}

/// The kinds and bodies of a query's records, up to one that is cut.
fn records(query: &[u8]) -> impl Iterator<Item = (u16, &[u8])> {
    let mut left = query;
    std::iter::from_fn(move || {
        let [l0, l1, k0, k1, behind @ ..] = left else {
            return None;
        };
        let length = usize::from(u16::from_le_bytes([*l0, *l1]));
        let body = behind.get(..length)?;
        left = behind.get(length..)?;
        Some((u16::from_le_bytes([*k0, *k1]), body))
    })
}

/// The kind and the body of a DEFINE: kind 3 where AND alone joins the comparisons. More comparisons
/// or entries than a byte can count become 255, which is too many as well.
fn define(letter: char, condition: &Condition) -> (u16, Vec<u8>) {
    let counted = |count: usize| u8::try_from(count).unwrap_or(u8::MAX);
    let begin = |count: u8| vec![letter_byte(letter), count];
    match condition.conjunction() {
        Some(comparisons) => {
            let count = counted(comparisons.len());
            let mut body = begin(count);
            for comparison in comparisons.iter().take(usize::from(count)) {
                body.extend_from_slice(&comparison.bytes());
            }
            (DEFINE, body)
        }
        None => {
            let count = counted(condition.len());
            let mut body = begin(count);
            body.extend(condition.bytes(usize::from(count)));
            (CONDITION, body)
        }
    }
}

/// A query that the library accepts, ready to run on any rows with its number of columns.
#[derive(Clone, Debug, PartialEq, Eq, Hash)]
pub struct Query {
    bytes: Vec<u8>,
    shape: Shape,
    places: u64,
    factor: u64,
}

impl Query {
    /// Begins a query over rows of so many columns, 1 to 8.
    pub fn builder(columns: u8) -> QueryBuilder {
        QueryBuilder {
            columns,
            pattern: None,
            defines: Vec::new(),
            skip: Skip::default(),
            measures: Vec::new(),
        }
    }

    /// A query from its bytes, as a file or another program gives them.
    ///
    /// # Errors
    ///
    /// The refusals 1 to 9 and 14, whatever the bytes.
    pub fn from_bytes(bytes: impl Into<Vec<u8>>) -> Result<Query, Error> {
        let bytes = bytes.into();
        // Without rows nothing but the query can be refused.
        let room = lent::room(&bytes, &[]);
        if room.answer != DONE {
            return Err(with_expected(
                Error::from_answer(room.answer, room.offset),
                &bytes,
            ));
        }
        let shape = Shape::of(&bytes).ok_or(Error::OtherLibrary { answer: DONE })?;
        Ok(Query {
            bytes,
            shape,
            places: room.places,
            factor: room.factor,
        })
    }

    /// The query's bytes.
    pub fn as_bytes(&self) -> &[u8] {
        &self.bytes
    }

    /// How many columns its rows have.
    pub fn columns(&self) -> u8 {
        self.shape.columns
    }

    /// Where the search goes on after a match.
    pub fn skip(&self) -> Skip {
        self.shape.skip
    }

    /// How many measures each match has.
    pub fn measures(&self) -> usize {
        self.shape.measures
    }

    /// P: the places of the unrolled pattern, at most 256. With F, the
    /// [factor](Query::factor), a search of n rows takes at most 2PF(n+1) steps where it skips past
    /// the last row, and at most PFn(n+3)/2 where it skips to the next row, or to the first or last
    /// row with a letter: that can be seconds, see the README and [`Limits::steps`].
    pub fn places(&self) -> u64 {
        self.places
    }

    /// F: 2 to the power of how deep repetitions without upper bound, of something that can match
    /// without taking a row, are nested in the pattern. It is 1 for most patterns, 2 for `(A*)*`,
    /// at most 8.
    ///
    /// ```
    /// use mireladle::{Error, Query};
    /// let factor = |pattern: &str| {
    ///     let query = Query::builder(1).pattern(pattern).build();
    ///     query.map(|query| query.factor())
    /// };
    /// assert_eq!(factor("(A+ B)*"), Ok(1));
    /// assert_eq!(factor("(A* B?)*"), Ok(2));
    /// assert_eq!(factor("(((A*)*)*)*"), Ok(8));
    /// assert_eq!(factor("((((A*)*)*)*)*"), Err(Error::EmptyRepetition));
    /// ```
    pub fn factor(&self) -> u64 {
        self.factor
    }

    /// Searches rows for all matches, without limits. A match is looked for at one row after the
    /// other, but not behind the last: without rows there is none. A search that skips to a
    /// letter's row can stop for want of such a row: see [`Report::ending`].
    ///
    /// # Errors
    ///
    /// [`Error::WrongRows`] and [`Error::ColumnCount`].
    pub fn search(&self, rows: Rows<'_>) -> Result<Report, Error> {
        self.search_within(rows, Limits::default())
    }

    /// Searches rows within limits. The search stops at the first match that does not fit into the
    /// report, or before the first step that is not allowed, whichever comes first: see
    /// [`Report::ending`]. The report holds the matches before that.
    ///
    /// # Errors
    ///
    /// [`Error::WrongRows`] and [`Error::ColumnCount`], whatever the limits.
    pub fn search_within(&self, rows: Rows<'_>, limits: Limits) -> Result<Report, Error> {
        self.check_columns(rows)?;
        let room = lent::room(&self.bytes, rows.entries());
        if room.answer != DONE {
            return Err(Error::from_answer(room.answer, room.offset));
        }
        let (notes, trail) = (length(room.notes())?, length(room.pairs)?);
        let n = length(room.rows)?;
        let (query, rows) = (&self.bytes, rows.entries());
        let (notes, trail) = (&mut vec![0; notes], &mut vec![0; trail]);
        let mut numbers = vec![0; limits.numbers(n, self.shape.measures)];
        let mut labels = vec![0; limits.label_bytes(n, self.shape.skip)];
        let outcome = match limits.allowance() {
            None => lent::search(query, rows, notes, trail, &mut numbers, &mut labels),
            Some(steps) => {
                lent::search_within(query, rows, steps, notes, trail, &mut numbers, &mut labels)
            }
        };
        Report::new(&outcome, numbers, labels, self.shape.measures)
    }
}

impl Query {
    /// Tests a letter at a row, as a search does, and tells how many of its comparisons were judged:
    /// a DEFINE that lists them stops at the first that is not met.
    ///
    /// A letter without DEFINE holds, and so does what is no letter `A` to `Z`. A row behind the last
    /// is judged by what the comparisons read; a search never asks for one.
    ///
    /// ```
    /// use mireladle::{col, Query, Rows, Tested};
    ///
    /// let query = Query::builder(1)
    ///     .pattern("A")
    ///     .define('A', [col(0).gt(0), col(0).gt(col(0).prev(1)), col(0).lt(9)])
    ///     .build()?;
    /// let rows = Rows::new(&[5, 7, 6], 1);
    /// assert_eq!(query.test(rows, 'A', 1)?, Tested { holds: true, judged: 3 });
    /// assert_eq!(query.test(rows, 'A', 2)?, Tested { holds: false, judged: 2 });
    /// assert_eq!(query.test(rows, 'B', 0)?, Tested { holds: true, judged: 0 });
    /// # Ok::<(), mireladle::Error>(())
    /// ```
    ///
    /// # Errors
    ///
    /// [`Error::WrongRows`] and [`Error::ColumnCount`].
    pub fn test(&self, rows: Rows<'_>, letter: char, row: usize) -> Result<Tested, Error> {
        self.check_columns(rows)?;
        let tested = lent::test(&self.bytes, rows.entries(), letter_byte(letter), row);
        match tested.answer {
            DONE => Ok(Tested {
                holds: tested.holds != 0,
                judged: length(tested.judged)?,
            }),
            answer => Err(Error::from_answer(answer, tested.offset)),
        }
    }

    /// PF(n+1): the numbers of the trail, and the bits of the notes, that a search of n rows takes.
    pub(crate) fn pairs(&self, n: usize) -> Result<usize, Error> {
        let places = length(self.places.saturating_mul(self.factor))?;
        Ok(places.saturating_mul(n.saturating_add(1)))
    }

    /// Refuses rows of another number of columns.
    pub(crate) fn check_columns(&self, rows: Rows<'_>) -> Result<(), Error> {
        match rows.columns() == self.shape.columns {
            true => Ok(()),
            false => Err(Error::ColumnCount {
                query: self.shape.columns,
                rows: rows.columns(),
            }),
        }
    }
}

impl Query {
    /// What of the query looks ahead, as the library's answer 17 has it: a `$`, or the first letter
    /// of the pattern, in the order of the DEFINEs, that reads a row behind its own.
    pub(crate) fn looks_ahead(&self) -> Option<Ahead> {
        let (_, text) = records(&self.bytes).find(|(kind, _)| *kind == PATTERN)?;
        if let Some(offset) = text.iter().position(|byte| *byte == b'$') {
            return Some(Ahead::End { offset });
        }
        records(&self.bytes).find_map(|(kind, body)| {
            let (letter, rows) = furthest(kind, body)?;
            // In the text of a pattern every letter stands for itself.
            let asked = rows > 0 && text.contains(&letter);
            asked.then_some(Ahead::Letter {
                letter: char::from(letter),
                rows,
            })
        })
    }
}

/// The letter of a DEFINE, and how many rows behind its own it reads, where it reads furthest.
fn furthest(kind: u16, body: &[u8]) -> Option<(u8, u8)> {
    let [letter, _, entries @ ..] = body else {
        return None;
    };
    let ahead = |comparison: &[u8]| {
        let offset = |at: usize| {
            let byte = comparison.get(at).copied().unwrap_or(0);
            u8::try_from(i8::from_le_bytes([byte])).unwrap_or(0)
        };
        offset(LEFT_OFFSET).max(offset(RIGHT_OFFSET))
    };
    let rows = match kind {
        DEFINE => entries.chunks_exact(COMPARISON).map(ahead).max(),
        CONDITION => comparisons(entries).map(ahead).max(),
        _ => return None,
    };
    Some((*letter, rows.unwrap_or(0)))
}

/// The comparisons among the entries of a DEFINE of kind 6.
fn comparisons(mut entries: &[u8]) -> impl Iterator<Item = &[u8]> {
    std::iter::from_fn(move || loop {
        let (first, behind) = entries.split_first()?;
        entries = behind;
        if *first == 0 {
            let comparison = behind.get(..COMPARISON)?;
            entries = behind.get(COMPARISON..)?;
            return Some(comparison);
        }
    })
}

/// What the test of a letter at a row comes to: see [`Query::test`].
#[derive(Clone, Copy, Debug, PartialEq, Eq, Hash)]
pub struct Tested {
    /// Whether the letter holds there.
    pub holds: bool,
    /// How many comparisons were judged: up to and with the first that is not met, or all; 0 of a
    /// letter without DEFINE, and of a DEFINE with OR or NOT.
    pub judged: usize,
}

impl AsRef<[u8]> for Query {
    fn as_ref(&self) -> &[u8] {
        &self.bytes
    }
}

/// A number of the library as a length in memory.
pub(crate) fn length(number: u64) -> Result<usize, Error> {
    usize::try_from(number).map_err(|_| Error::OtherLibrary { answer: DONE })
}

/// What has to be known of a query to lend it room and to read its report.
#[derive(Clone, Copy, Debug, PartialEq, Eq, Hash)]
struct Shape {
    columns: u8,
    measures: usize,
    skip: Skip,
}

impl Shape {
    /// Reads the shape from an accepted query; none if it was wrongly accepted.
    fn of(query: &[u8]) -> Option<Shape> {
        let (mut columns, mut skip, mut measures) = (None, None, 0_usize);
        for (kind, body) in records(query) {
            match kind {
                SHAPE => columns = body.first().copied(),
                SKIP => skip = Skip::of(body),
                MEASURE => measures = measures.saturating_add(1),
                _ => {}
            }
        }
        Some(Shape {
            columns: columns?,
            measures,
            skip: skip?,
        })
    }
}

#[cfg(test)]
mod tests {
    use super::*;
    use crate::comparison::{col, Comparison};

    /// W1 of the bench sheet, with COUNT(A) and LAST(B) of column 0.
    fn w1() -> QueryBuilder {
        Query::builder(1)
            .pattern("A+ B")
            .define('A', [col(0).gt(col(0).prev(1))])
            .define('B', [col(0).lt(col(0).prev(1))])
            .skip(Skip::PastLastRow)
            .measure(Measure::count().of('A'))
            .measure(Measure::last(0).of('B'))
    }

    const W1: [u8; 72] = [
        0x02, 0x00, 0x01, 0x00, 0x01, 0x00, //
        0x04, 0x00, 0x02, 0x00, 0x41, 0x2B, 0x20, 0x42, //
        0x0E, 0x00, 0x03, 0x00, 0x41, 0x01, 0x00, 0x00, 0x05, 0x01, 0x00, 0xFF, 0, 0, 0, 0, 0,
        0, //
        0x0E, 0x00, 0x03, 0x00, 0x42, 0x01, 0x00, 0x00, 0x03, 0x01, 0x00, 0xFF, 0, 0, 0, 0, 0,
        0, //
        0x02, 0x00, 0x04, 0x00, 0x00, 0x00, //
        0x04, 0x00, 0x05, 0x00, 0x01, 0x41, 0x00, 0x00, //
        0x04, 0x00, 0x05, 0x00, 0x06, 0x42, 0x00, 0x00, //
    ];

    #[test]
    fn w1_has_its_bytes() {
        assert_eq!(w1().to_bytes(), W1);
        let query = w1().build().unwrap();
        assert_eq!(query.as_bytes(), W1);
        assert_eq!(query, Query::from_bytes(W1).unwrap());
        assert_eq!(
            (query.columns(), query.measures(), query.places()),
            (1, 2, 5)
        );
    }

    /// The records of a query with this condition, but for shape, pattern and skip.
    fn defined(condition: impl Into<Condition>) -> Vec<u8> {
        let query = Query::builder(1)
            .pattern("A")
            .define('A', [condition])
            .to_bytes();
        query[11..query.len() - 6].to_vec()
    }

    #[test]
    fn a_condition_has_its_kind() {
        let (one, two) = (col(0).eq(1), col(0).prev(1).lt(2));
        let body = |start: &[u8], parts: &[&[u8]]| [start, &parts.concat()].concat();
        assert_eq!(
            defined(one & two),
            body(&[26, 0, 3, 0, b'A', 2], &[&one.bytes(), &two.bytes()])
        );
        assert_eq!(
            defined(one | two),
            body(
                &[29, 0, 6, 0, b'A', 3],
                &[&[0], &one.bytes(), &[0], &two.bytes(), &[2]]
            )
        );
        assert_eq!(
            defined(!one),
            body(&[16, 0, 6, 0, b'A', 2], &[&[0], &one.bytes(), &[3]])
        );
        assert_eq!(
            defined(one & !two),
            body(
                &[30, 0, 6, 0, b'A', 4],
                &[&[0], &one.bytes(), &[0], &two.bytes(), &[3, 1]]
            )
        );
        // More entries than a byte counts.
        let long = defined(Condition::any(vec![one; 200]));
        assert_eq!(long[2..6], [6, 0, b'A', 255]);
    }

    #[test]
    fn a_later_pattern_or_skip_replaces_an_earlier_one() {
        let twice = Query::builder(1)
            .pattern("A")
            .pattern("B")
            .skip(Skip::ToNextRow)
            .skip(Skip::PastLastRow);
        assert_eq!(twice, Query::builder(1).pattern("B"));
        assert_eq!(
            Query::builder(1).skip(Skip::ToNextRow).to_bytes(),
            [2, 0, 1, 0, 1, 0, 2, 0, 4, 0, 1, 0]
        );
    }

    #[test]
    fn each_skip_has_its_bytes() {
        let all = [
            (Skip::PastLastRow, [0, 0]),
            (Skip::ToNextRow, [1, 0]),
            (Skip::ToFirst('A'), [2, 0x41]),
            (Skip::ToFirst('Z'), [2, 0x5A]),
            (Skip::ToLast('B'), [3, 0x42]),
        ];
        for (skip, bytes) in all {
            let query = Query::builder(1).pattern("A").skip(skip).to_bytes();
            assert!(query.ends_with(&bytes), "{skip:?}");
            let shape = Shape::of(&query).unwrap();
            assert_eq!((shape.skip, shape.columns), (skip, 1));
        }
        // What is no letter stays none, and is not taken for a skip without one.
        for letter in ['\0', 'a', '@', '[', '\u{141}'] {
            assert_eq!(Skip::ToFirst(letter).bytes(), [2, u8::MAX], "{letter:?}");
            assert_eq!(Skip::ToLast(letter).bytes(), [3, u8::MAX], "{letter:?}");
        }
        for strange in [&[][..], &[0], &[0, 1], &[1, 0x41], &[2, 0], &[3, 0x61]] {
            assert_eq!(Skip::of(strange), None, "{strange:?}");
        }
        for strange in [&[4, 0][..], &[4, 0x41], &[2, 0x41, 0], &[0, 0, 0]] {
            assert_eq!(Skip::of(strange), None, "{strange:?}");
        }
    }

    #[test]
    fn parts_that_the_bytes_cannot_carry_stay_refused() {
        let long = Query::builder(1).pattern("A".repeat(70_000));
        assert_eq!(long.build(), Err(Error::WrongField));
        let a = Query::builder(1).pattern("A");
        for comparisons in [9, 256 + 8, 70_000] {
            assert_eq!(
                a.clone()
                    .define('A', vec![col(0).eq(1); comparisons])
                    .build(),
                Err(Error::ConditionTooLong {
                    letter: 'A',
                    comparisons,
                    entries: 2 * comparisons - 1
                })
            );
        }
        let none: [Comparison; 0] = [];
        assert_eq!(a.clone().define('A', none).build(), Err(Error::WrongField));
        assert_eq!(
            a.clone().define('\u{141}', [col(0).eq(1)]).build(),
            Err(Error::WrongField)
        );
        assert_eq!(
            a.clone().define('A', [col(0).prev(255).eq(1)]).build(),
            Err(Error::WrongField)
        );
        assert_eq!(
            a.clone().measure(Measure::count().of('\0')).build(),
            Err(Error::WrongField)
        );
        for skip in [Skip::ToFirst('\0'), Skip::ToLast('\u{141}')] {
            assert_eq!(a.clone().skip(skip).build(), Err(Error::WrongField));
        }
        assert!(a.build().is_ok());
    }

    #[test]
    fn the_shape_of_cut_bytes_is_none() {
        for end in 0..W1.len() {
            let _ = Shape::of(&W1[..end]);
        }
        assert_eq!(Shape::of(&[]), None);
        assert_eq!(Shape::of(&[9, 0, 1, 0, 1]), None);
        assert_eq!(
            Shape::of(&W1),
            Some(Shape {
                columns: 1,
                measures: 2,
                skip: Skip::PastLastRow
            })
        );
    }
}
