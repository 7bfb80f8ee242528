//! Queries as readable text: what people write, read into a query.
//!
//! [`read`] takes a text and gives the query's builder, the columns that it names and the titles of
//! its measures, or the [`Fault`]: its line and column, what was expected there, and what was
//! found. [`read_with`] does the same for rows whose columns are known by name. There are two
//! spellings, which may stand side by side. One has lines with a colon:
//!
//! ```text
//! pattern: O R{2} C                            # a comment
//! O: event = 'offered'
//! R: event = 'refused', base = PREV(base)
//! C: event = 'accepted' AND NOT (time > PREV(time) + 3600 OR base IN (7, 8))
//! event: offered=1, refused=2, accepted=3, *=0
//! skip: past last row
//! measures: COUNT(R), LAST(C.time) AS accepted
//! ```
//!
//! The other is that of SQL's clauses, in capitals or not and over any number of lines:
//!
//! ```
//! use mireladle::{text, Rows};
//!
//! let text = text::read(
//!     "MEASURES LAST(B.price) AS lowest
//!      AFTER MATCH SKIP PAST LAST ROW
//!      PATTERN (A+ B)
//!      DEFINE A AS price > PREV(price),
//!             B AS price < PREV(price)",
//! )?;
//! assert_eq!(text.columns.len(), 1);
//! assert_eq!(text.columns[0].name, "price");
//! assert_eq!(text.titles, ["lowest"]);
//! let report = text.build()?.search(Rows::new(&[100, 110, 120, 115, 130], 1)).unwrap();
//! let found = report.matches().next().unwrap();
//! assert_eq!((found.labels(), found.measures().next()), ("AAB", Some(Some(115))));
//!
//! let fault = text::read("pattern: A\nA: price >").unwrap_err();
//! assert_eq!((fault.line, fault.column), (2, 11));
//! # Ok::<(), text::Fault>(())
//! ```
//!
//! Cells of rows are numbers of 32 bits. A column of texts has a code table ([`Codes`]), and dates
//! and times count as seconds ([`seconds`]); [`cells::number`] turns a cell into a number by both, as
//! the texts in the query were. [`screen`] shows parts of a text so that
//! nothing in them can upset a terminal.

pub mod cells;
mod codes;
mod columns;
mod conditions;
mod fault;
mod lines;
mod measures;
mod pattern;
mod query;
pub mod screen;
mod skip;
mod times;
mod width;
mod words;

pub use codes::Codes;
pub use columns::{as_written, index_named, index_of, one_of_the_columns, MOST_COLUMNS};
pub use fault::{Fault, Marked};
pub use lines::lines;
pub use query::{read, read_with, read_with_columns, Part, QueryColumn, QueryText, Warning};
pub use skip::no_row_behind;
pub use times::{seconds, Seconds};
