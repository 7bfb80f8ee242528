//! Texts on a screen: without characters that steer it, cut where they are long, and measured by
//! the columns that they take.

pub use super::fault::{column_of, cut, mark, shown, upsets, visible, LONGEST_SHOWN};
pub use super::width::{of_character, width};
