//! A second JSON Patch engine, written independently of the first.
//!
//! It reads a JSON document and a JSON Patch, applies the operations and writes
//! the patched document, or refuses and says why and where. It is made to be
//! compared with: plain recursion over a plain tree, nothing clever. The depth
//! limit bounds all recursion, and no input makes it panic.

#![forbid(unsafe_code)]
#![warn(missing_docs)]

mod answer;
pub mod cases;
pub mod compare;
pub mod count;
pub mod cursor;
pub mod equal;
pub mod generate;
pub mod hex;
pub mod limits;
pub mod links;
pub mod makers;
pub mod merges;
mod number;
mod numeral;
pub mod operations;
pub mod origins;
pub mod patch;
pub mod pointer;
pub mod reader;
pub mod refusals;
mod strings;
pub mod tool;
pub mod undo;
pub mod value;
pub mod vectors;
pub mod walk;
pub mod writer;

pub use answer::{apply, line, Answer};

#[cfg(test)]
mod tests;
