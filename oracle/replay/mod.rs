//! Answers of the published Rust, as the program `replay` reads them.

pub mod days;
pub mod editions;
pub mod factors;
pub mod file;
pub mod leaves;
pub mod listings;
pub mod runs;
pub mod seasons;
pub mod strips;
pub mod totals;
