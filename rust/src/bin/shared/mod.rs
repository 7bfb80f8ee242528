//! What the commands mireladle-match and mireladle-desk share, from the command line to the output:
//! one description of a command for its help, manual page, completions and arguments; records,
//! columns and partitions of a file; failures; tables, JSON and CSV. Each command takes it in as a
//! module of its own. Tested here and with the commands.

pub mod csv;
pub mod failure;
pub mod given;
pub mod growing;
pub mod help;
pub mod input;
pub mod json;
pub mod layout;
pub mod options;
pub mod output;
pub mod partitions;
pub mod reading;
pub mod table;
pub mod terminal;
