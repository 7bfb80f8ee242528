//! Mireladle searches ordered rows of whole numbers for row patterns, by the rules of SQL's `MATCH_RECOGNIZE` (the
//! form of the FROM clause with one output row per match). The search itself is a static library that is proved; this
//! crate is a safe interface to it: it builds queries, lends the buffers, and reads the report.
//!
//! A pattern such as `A+ B` is made of letters. A letter labels one row, and its DEFINE says at which rows it holds:
//! comparisons between entries of that row and of rows before or behind it, joined by AND, OR and NOT. Each match gets the labels of its rows
//! and the results of the query's measures.
//!
//! # Example
//!
//! Rows that rise once or more and then fall:
//!
//! ```
//! use mireladle::{col, Measure, Query, Rows};
//!
//! let query = Query::builder(1)
//!     .pattern("A+ B")
//!     .define('A', [col(0).gt(col(0).prev(1))])
//!     .define('B', [col(0).lt(col(0).prev(1))])
//!     .measure(Measure::count().of('A'))
//!     .measure(Measure::last(0).of('B'))
//!     .build()?;
//!
//! let report = query.search(Rows::new(&[100, 110, 120, 115, 130], 1))?;
//! assert_eq!(report.len(), 1);
//! assert_eq!(report.steps(), 12);
//!
//! for found in &report {
//!     assert_eq!(found.first_row(), 1);
//!     assert_eq!(found.labels(), "AAB");
//!     // COUNT(A) is 2 and LAST(B) is 115.
//!     assert_eq!(found.measures().collect::<Vec<_>>(), [Some(2), Some(115)]);
//! }
//! # Ok::<(), mireladle::Error>(())
//! ```
//!
//! The same query as people write it, in lines or in SQL's clauses, is read by [`text::read`].
//!
//! # How long a search takes
//!
//! The steps of a search are bounded, and counted in its report. A search that skips past the last
//! row takes milliseconds, one with another skip can take seconds. A caller who cannot wait for so
//! long names the steps that a search may take. It then ends after a time in proportion to them,
//! and its report holds the matches that were found by then:
//!
//! ```
//! use mireladle::{Ending, Limits, Query, Rows, Skip};
//!
//! // A match from every row to the last one: 4,096 matches, in more than 16 million steps.
//! let query = Query::builder(1).pattern("A*").skip(Skip::ToNextRow).build()?;
//! let report = query.search_within(Rows::new(&[0; 4096], 1), Limits::default().steps(20_000))?;
//! assert_eq!(report.ending(), Ending::OutOfSteps);
//! assert_eq!((report.len(), report.steps()), (2, 20_000));
//! # Ok::<(), mireladle::Error>(())
//! ```
//!
//! # Rows that come in lots
//!
//! [`Feed`] searches rows while they come, and hands out each match as soon as it is found.
//!
//! # The release desk
//!
//! [`Desk`] says of a bus's log whether the bus may leave: cleared, held, or unreadable.
//!
//! # The depot-by-month table
//!
//! [`Depots`] runs a query over many partitions and counts its matches by depot and month.
//!
//! # Linking
//!
//! The build looks for `libmireladle_c.a` in `../target/staticlib` beside this package, where
//! `tools/build mireladle_c` puts it, or in the folder that the environment variable
//! `MIRELADLE_LIB` names. It is for x86-64 Linux.
//!
//! # Promises
//!
//! No input makes this crate panic. A query or rows that the library refuses become an [`Error`] with the number and
//! the reason of the refusal. What the library promises of its answers is proved with it; what this crate adds, the
//! bytes of a query and the reading of a report, is tested.
//!
//! # Stack
//!
//! A thread with a small stack needs at least 96 KiB to search, or to build a query; see
//! [`lent::STACK`].

#![deny(missing_docs)]
#![deny(unsafe_code)]
#![cfg_attr(test, allow(clippy::restriction))]

mod comparison;
mod condition;
mod depots;
mod desk;
mod error;
mod expected;
mod feed;
pub mod lent;
mod measure;
mod query;
mod report;
mod rows;
pub mod text;

pub use comparison::{col, Column, Comparison, Operand, Operator, Sum};
pub use condition::Condition;
pub use depots::{Depots, Listed, Taken, MONTHS, MOST_DEPOTS};
pub use desk::{Desk, Verdict, LOG_COLUMNS, LOG_ROWS};
pub use error::{Ahead, Error};
pub use expected::Expected;
pub use feed::Feed;
pub use measure::{Function, Measure};
pub use query::{Query, QueryBuilder, Skip, Tested};
pub use report::{Ending, Limits, Match, Matches, Report};
pub use rows::Rows;

#[allow(deprecated)]
pub use report::ReportRoom;

/// The README's Rust, built and run as a test, so that it stays true.
#[cfg(doctest)]
#[doc = include_str!("../../README.md")]
struct Readme;
