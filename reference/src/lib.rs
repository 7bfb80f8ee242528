//! An independent program for the rules of document 01 and of the requests of
//! document 02 that have landed, written from the papers alone. It is meant to be
//! read and believed, not to be fast: each module follows one section of the papers
//! and uses their words. Other programs are run against it on the inputs that the
//! module `generate` makes.

pub mod cases;
pub mod depots;
pub mod derive;
pub mod desk;
pub mod generate;
pub mod letters;
pub mod log;
pub mod lots;
pub mod pattern;
pub mod places;
pub mod program;
pub mod query;
pub mod readings;
pub mod search;
pub mod walk;
