//! Why a query or a search was refused: the library's answers 1 to 12, 14, 17, 20 and 21 by name and
//! in plain words, and the few faults that only this crate can see. Each answer of the library has
//! an error that keeps its number. Of a pattern that is wrong the place is told, and what could stand
//! there; of a query that looks ahead, by what it does.

use std::fmt;

use crate::expected::Expected;

/// The answer of a search that went through all rows.
pub(crate) const DONE: u64 = 0;
/// The answer of a search that ran out of report room.
pub(crate) const STOPPED: u64 = 13;
/// The answer of a search that found no row to go on at behind a match.
pub(crate) const NO_SKIP_ROW: u64 = 15;
/// The answer of a search that ran out of steps.
pub(crate) const OUT_OF_STEPS: u64 = 16;
/// The answer of a query that looks ahead, to a call with a lot of rows.
pub(crate) const LOOKS_AHEAD: u64 = 17;
/// The answer of a search that waits for further rows.
pub(crate) const WAITING: u64 = 23;

/// Why there is no query or no report.
///
/// Where several refusals apply, the library gives the one with the lowest number; 14 stands where 5 does.
#[derive(Clone, Copy, Debug, PartialEq, Eq, Hash)]
#[non_exhaustive]
pub enum Error {
    /// 1: the query's bytes break off inside a record.
    QueryCut,
    /// 2: a record of the query is unknown, missing, repeated, misplaced or one too many. Of a query from a builder: it
    /// has no pattern, more than 26 DEFINEs or more than 8 measures.
    WrongRecords,
    /// 3: a record has the wrong length or a field outside its values. Of a query from a builder: it does not have 1 to 8
    /// columns, names a column beyond them or a letter that is not `A` to `Z`, has a pattern of more than 256 bytes, a
    /// DEFINE without comparisons, an offset beyond 64 rows, or a `COUNT` of another column than 0.
    WrongField,
    /// 3 as well, told apart for a query from a builder: a DEFINE joins more than 8 comparisons by AND,
    /// or has an OR or a NOT and more than 16 entries: comparisons, ANDs, ORs and NOTs.
    ConditionTooLong {
        /// The letter that it is about.
        letter: char,
        /// Its comparisons.
        comparisons: usize,
        /// Its comparisons, ANDs, ORs and NOTs.
        entries: usize,
    },
    /// 4: more than 8 parentheses are open somewhere in the pattern.
    TooDeep,
    /// 5: the pattern text is outside the pattern language: no pattern begins with it up to and
    /// with the byte at the offset.
    NotAPattern {
        /// The byte's offset in the text, from 0.
        offset: u64,
        /// What could stand there, where it is known: see [`Expected::behind`].
        expected: Option<Expected>,
    },
    /// 6: more than three repetitions without upper bound, each of something that can match without
    /// taking a row, are nested in one another, as in `((((A*)*)*)*)*`.
    EmptyRepetition,
    /// 7: the unrolled pattern has more than 256 places.
    TooManyPlaces,
    /// 8: a letter has two DEFINEs.
    DefinedTwice,
    /// 9: a measure names a letter that is not in the pattern, or the skip does.
    MeasureLetter,
    /// 10: the entries are not whole rows, or there are more than 4,096 rows.
    WrongRows,
    /// 11: the notes are too short. [`Query::search`](crate::Query::search) lends enough, so it never gives this.
    NotesShort,
    /// 12: the trail is too short. [`Query::search`](crate::Query::search) lends enough, so it never gives this.
    TrailShort,
    /// 14: the pattern text is no pattern but the beginning of one: it ends where it could go on.
    PatternEnds {
        /// The text's length in bytes.
        offset: u64,
        /// What could stand behind it, where it is known: see [`Expected::behind`].
        expected: Option<Expected>,
    },
    /// 10 as well, told apart for rows that come in lots: there are more of them than the
    /// [`Feed`](crate::Feed) was made for, or it was to be made for more than 4,096.
    TooManyRows {
        /// The rows that there would be.
        rows: usize,
        /// The most that are possible.
        most: usize,
    },
    /// 17: the query looks ahead, so that rows which are still to come could change what was found.
    /// Only a [`Feed`](crate::Feed) gives this.
    LooksAhead {
        /// What looks ahead, where it is known.
        by: Option<Ahead>,
    },
    /// 20: a partition of the depot-by-month table gets no number, since 65,535 have one. No search gives this; see
    /// [`Depots::partition`](crate::Depots::partition).
    NoNumber,
    /// 21: a call with a lot of rows is out of order. Of a [`Feed`](crate::Feed): its end was declared
    /// before. Of [`lent::more`](crate::lent::more) and [`lent::last`](crate::lent::last) also: fewer
    /// rows are said to be present than before.
    OutOfOrder,
    /// The rows were said to have another number of columns than the query is about.
    ColumnCount {
        /// The columns that the query is about.
        query: u8,
        /// The columns that the rows were said to have.
        rows: u8,
    },
    /// The linked library gave an answer or a report that this crate does not know: it is of another version.
    OtherLibrary {
        /// The answer that came with it.
        answer: u64,
    },
}

/// What of a query looks ahead.
#[derive(Clone, Copy, Debug, PartialEq, Eq, Hash)]
#[non_exhaustive]
pub enum Ahead {
    /// The pattern has a `$`, which holds only behind the last row.
    End {
        /// The byte's offset in the pattern's text, from 0.
        offset: usize,
    },
    /// A letter of the pattern reads a row behind its own, by `NEXT`.
    Letter {
        /// The letter.
        letter: char,
        /// How many rows on, where it reads furthest.
        rows: u8,
    },
}

impl fmt::Display for Ahead {
    fn fmt(&self, f: &mut fmt::Formatter<'_>) -> fmt::Result {
        match self {
            Ahead::End { offset } => {
                write!(f, "its pattern has a `$` at byte {offset}, counted from 0")
            }
            Ahead::Letter { letter, rows: 1 } => write!(f, "{letter} reads the next row"),
            Ahead::Letter { letter, rows } => write!(f, "{letter} reads {rows} rows on"),
        }
    }
}

impl Error {
    /// The error that stands for an answer other than 0, 13, 15, 16 and 23, which have a report (see
    /// [`Ending`](crate::Ending)), with the offset that came with it. It does not know what was
    /// expected, or what looks ahead, since it does not know the query.
    ///
    /// ```
    /// use mireladle::Error;
    ///
    /// let error = Error::from_answer(5, 2);
    /// assert_eq!(error, Error::NotAPattern { offset: 2, expected: None });
    /// ```
    pub fn from_answer(answer: u64, offset: u64) -> Error {
        match answer {
            1 => Error::QueryCut,
            2 => Error::WrongRecords,
            3 => Error::WrongField,
            4 => Error::TooDeep,
            5 => Error::NotAPattern {
                offset,
                expected: None,
            },
            6 => Error::EmptyRepetition,
            7 => Error::TooManyPlaces,
            8 => Error::DefinedTwice,
            9 => Error::MeasureLetter,
            10 => Error::WrongRows,
            11 => Error::NotesShort,
            12 => Error::TrailShort,
            14 => Error::PatternEnds {
                offset,
                expected: None,
            },
            LOOKS_AHEAD => Error::LooksAhead { by: None },
            20 => Error::NoNumber,
            21 => Error::OutOfOrder,
            _ => Error::OtherLibrary { answer },
        }
    }

    /// The number of the library's refusal, 1 to 12, 14, 17, 20 or 21; none for the faults that this
    /// crate sees itself.
    pub fn number(self) -> Option<u64> {
        match self {
            Error::QueryCut => Some(1),
            Error::WrongRecords => Some(2),
            Error::WrongField | Error::ConditionTooLong { .. } => Some(3),
            Error::TooDeep => Some(4),
            Error::NotAPattern { .. } => Some(5),
            Error::EmptyRepetition => Some(6),
            Error::TooManyPlaces => Some(7),
            Error::DefinedTwice => Some(8),
            Error::MeasureLetter => Some(9),
            Error::WrongRows | Error::TooManyRows { .. } => Some(10),
            Error::NotesShort => Some(11),
            Error::TrailShort => Some(12),
            Error::PatternEnds { .. } => Some(14),
            Error::LooksAhead { .. } => Some(LOOKS_AHEAD),
            Error::NoNumber => Some(20),
            Error::OutOfOrder => Some(21),
            Error::ColumnCount { .. } | Error::OtherLibrary { .. } => None,
        }
    }

    /// The reason in plain words, where it is always the same.
    fn words(self) -> &'static str {
        match self {
            Error::QueryCut => "the query breaks off inside a record",
            Error::WrongRecords => {
                "a record of the query is unknown, missing, repeated, misplaced or one too many \
                 (one pattern, at most 26 DEFINEs and 8 measures)"
            }
            Error::WrongField => {
                "a record of the query has the wrong length or a field outside its values \
                 (1 to 8 columns and none beyond them, 256 bytes of pattern, letters A to Z, \
                 1 to 8 comparisons in a DEFINE, offsets up to 64)"
            }
            Error::ConditionTooLong { .. } => "a DEFINE is too long",
            Error::TooDeep => "more than 8 parentheses are open somewhere in the pattern",
            Error::NotAPattern { .. } => "the pattern text is wrong",
            Error::PatternEnds { .. } => "the pattern text ends where it could go on to a pattern",
            Error::EmptyRepetition => {
                "more than 3 repetitions without upper bound, each of something that can match without \
                 taking a row, are nested in one another"
            }
            Error::TooManyPlaces => "the pattern, with its repetitions written out, has more than 256 places",
            Error::DefinedTwice => "a letter has two DEFINEs",
            Error::MeasureLetter => {
                "a measure or the skip names a letter that is not in the pattern"
            }
            Error::WrongRows => "the entries are not whole rows, or there are more than 4,096 rows",
            Error::NotesShort => "the notes are too short",
            Error::TrailShort => "the trail is too short",
            Error::TooManyRows { .. } => "there are too many rows",
            Error::LooksAhead { .. } => {
                "the query looks ahead, so that rows which are still to come could change what was \
                 found"
            }
            Error::OutOfOrder => {
                "the call is out of order: the end was declared before it, or it has fewer rows than \
                 a call before it"
            }
            Error::NoNumber => {
                "the table takes no further partition: 65,535 have a number, or the list is full"
            }
            Error::ColumnCount { .. } => "the rows have another number of columns than the query",
            Error::OtherLibrary { .. } => "the linked library is of another version",
        }
    }
}

impl fmt::Display for Error {
    fn fmt(&self, f: &mut fmt::Formatter<'_>) -> fmt::Result {
        f.write_str(self.words())?;
        match self {
            Error::ColumnCount { query, rows } => write!(f, " ({rows}, not {query})"),
            Error::OtherLibrary { answer } => write!(f, " (answer {answer})"),
            Error::TooManyRows { rows, most } => {
                write!(f, ": {rows}, and at most {most} are possible")
            }
            Error::LooksAhead { by: Some(by) } => write!(f, ": {by}"),
            Error::ConditionTooLong {
                letter,
                comparisons,
                entries,
            } => write!(
                f,
                ": that of {letter} has {comparisons} comparisons, and {entries} entries with its \
                 ANDs, ORs and NOTs; 8 comparisons are possible, and 16 entries where there is an \
                 OR or a NOT"
            ),
            Error::NotAPattern { offset, expected } => {
                write!(f, " at byte {offset}, counted from 0")?;
                write_expected(f, expected)
            }
            Error::PatternEnds { offset, expected } => {
                write!(f, ", behind {offset} byte")?;
                f.write_str(if *offset == 1 { "" } else { "s" })?;
                write_expected(f, expected)
            }
            _ => Ok(()),
        }
    }
}

fn write_expected(f: &mut fmt::Formatter<'_>, expected: &Option<Expected>) -> fmt::Result {
    match expected {
        Some(expected) => write!(f, ": expected {expected}"),
        None => Ok(()),
    }
}

impl std::error::Error for Error {}

#[cfg(test)]
mod tests {
    use super::*;

    #[test]
    fn each_refusal_keeps_its_number() {
        for number in (1..=12).chain([14, 17, 20, 21]) {
            assert_eq!(Error::from_answer(number, 0).number(), Some(number));
        }
        for other in [
            DONE,
            STOPPED,
            NO_SKIP_ROW,
            OUT_OF_STEPS,
            18,
            WAITING,
            u64::MAX,
        ] {
            assert_eq!(Error::from_answer(other, 0).number(), None);
        }
    }

    #[test]
    fn each_refusal_has_words_of_its_own() {
        let words: std::collections::HashSet<String> = (1..=14)
            .chain([17, 20, 21])
            .map(|number| Error::from_answer(number, 0).to_string())
            .collect();
        assert_eq!(words.len(), 17);
        // Whoever built the query from parts knows no records: the limits tell what to look for.
        let (records, field) = (
            Error::WrongRecords.to_string(),
            Error::WrongField.to_string(),
        );
        assert!(records.ends_with(" (one pattern, at most 26 DEFINEs and 8 measures)"));
        assert!(field.ends_with(" 1 to 8 comparisons in a DEFINE, offsets up to 64)"));
        let long = Error::ConditionTooLong {
            letter: 'B',
            comparisons: 8,
            entries: 17,
        };
        assert_eq!(long.number(), Some(3));
        assert_eq!(
            long.to_string(),
            "a DEFINE is too long: that of B has 8 comparisons, and 17 entries with its ANDs, ORs \
             and NOTs; 8 comparisons are possible, and 16 entries where there is an OR or a NOT"
        );
        let columns = Error::ColumnCount { query: 1, rows: 3 };
        assert_eq!(
            columns.to_string(),
            "the rows have another number of columns than the query (3, not 1)"
        );
        let rows = Error::TooManyRows { rows: 12, most: 9 };
        assert_eq!(
            (rows.number(), rows.to_string()),
            (
                Some(10),
                String::from("there are too many rows: 12, and at most 9 are possible")
            )
        );
        for (by, end) in [
            (
                Ahead::End { offset: 4 },
                ": its pattern has a `$` at byte 4, counted from 0",
            ),
            (
                Ahead::Letter {
                    letter: 'B',
                    rows: 1,
                },
                ": B reads the next row",
            ),
            (
                Ahead::Letter {
                    letter: 'B',
                    rows: 9,
                },
                ": B reads 9 rows on",
            ),
        ] {
            let ahead = Error::LooksAhead { by: Some(by) };
            assert_eq!(ahead.number(), Some(17));
            assert!(ahead.to_string().ends_with(end), "{ahead}");
        }
    }
}
