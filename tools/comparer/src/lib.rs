//! Compares a parser of document 01's five entries with the Rust, row by row.
//! See the script tools/compare and the section about it in README.md.

pub mod checks;
pub mod columns;
pub mod compare;
pub mod deep;
pub mod exhaustive;
pub mod families;
pub mod grammar;
pub mod judge;
pub mod kind;
pub mod levels;
pub mod limits;
pub mod question;
pub mod random;
pub mod rows;
pub mod tally;
