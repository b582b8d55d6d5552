//! Stand-in for the older compiler stages of penne: only the types that the
//! Delta lexer and parser name.

pub mod common;
pub mod error;
pub mod included;
pub mod lexer;

pub use error::Errors;
