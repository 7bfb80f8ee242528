//! Inputs for comparing programs: made by a deterministic generator from a seed,
//! or listed in full. Accepted queries of all shapes, damaged ones for each
//! answer of the table in document 01 and for pairs of answers, texts that go
//! wrong at each byte, inputs at the limits, rooms of every critical length,
//! allowances that end at every sort of event, sums beside multiples of their count,
//! conditions of three truths, sequences of partitions, and tables cut into lots.
//! The right results are not stored here: `search` and `program` give them.

pub mod allowances;
pub mod averages;
pub mod beginnings;
pub mod conditions;
pub mod cuttings;
pub mod damage;
pub mod draft;
pub mod feeds;
pub mod limits;
pub mod listed_cuttings;
pub mod logs;
pub mod mix;
pub mod partitions;
pub mod random;
pub mod scramble;
pub mod stdin;
pub mod tested;
pub mod texts;

pub use draft::{Draft, Input, Room, Size};
pub use random::Random;
