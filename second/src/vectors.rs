//! The committed cases, each with the line it must give.
//!
//! The lines come from the papers, written by hand or made by a small rule that
//! stands beside them. None is taken from the engine; a test checks that the
//! engine gives them.

use crate::cases::Case;
use crate::limits::TOOL_ROOM;

pub mod appendix;
mod bytes;
mod equality;
pub mod examples;
mod limits;
mod numbers;
mod objects;
mod operations;
mod pointers;
mod reading;
mod shape;
mod strings;
mod walks;

/// A case and the line it must give.
#[derive(Clone, Debug)]
pub struct Vector {
    /// The case.
    pub case: Case,
    /// The patch tool's line for it, without the newline.
    pub expected: Vec<u8>,
}

/// Name, document, patch and the line they must give.
pub type Row = (&'static str, &'static str, &'static str, &'static str);

/// All committed cases.
pub fn all() -> Vec<Vector> {
    [
        rows("example", examples::ROWS),
        appendix::vectors(),
        rows("reading", reading::ROWS),
        rows("reading-patch", reading::PATCH_ROWS),
        rows("number", numbers::ROWS),
        numbers::vectors(),
        rows("string", strings::ROWS),
        strings::vectors(),
        bytes::vectors(),
        rows("shape", shape::ROWS),
        rows("pointer", pointers::ROWS),
        rows("index", pointers::INDEX_ROWS),
        rows("operation", operations::ROWS),
        rows("order", operations::ORDER_ROWS),
        rows("walk", walks::ROWS),
        walks::vectors(),
        walks::long(),
        rows("equality", equality::ROWS),
        equality::vectors(),
        objects::vectors(),
        limits::vectors(),
    ]
    .concat()
}

/// A table's cases, their names with the table's name before them.
fn rows(table: &str, rows: &[Row]) -> Vec<Vector> {
    rows.iter()
        .map(|(name, document, patch, expected)| {
            vector(format!("{table}-{name}"), *document, *patch, *expected)
        })
        .collect()
}

/// One case with the patch tool's room.
fn vector(
    name: impl Into<String>,
    document: impl Into<Vec<u8>>,
    patch: impl Into<Vec<u8>>,
    expected: impl Into<Vec<u8>>,
) -> Vector {
    let case =
        Case { name: name.into(), room: TOOL_ROOM, document: document.into(), patch: patch.into() };
    Vector { case, expected: expected.into() }
}

/// A case about reading the document alone.
fn reads(
    name: impl Into<String>,
    document: impl Into<Vec<u8>>,
    expected: impl Into<Vec<u8>>,
) -> Vector {
    vector(name, document, "[]", expected)
}

/// The line of a document refused by the reader.
fn refused(number: u32, place: usize) -> String {
    format!("refused {number} text 1 op 0 place {place} pointer 0")
}

/// The line of a pointer that leads nowhere: so many tokens were walked, and it
/// is 1 for `path`, 2 for `from`.
fn refused_pointer(number: u32, op: usize, walked: usize, pointer: u32) -> String {
    format!("refused {number} text 0 op {op} place {walked} pointer {pointer}")
}

/// The line of an operation refused for another reason.
fn refused_op(number: u32, op: usize) -> String {
    format!("refused {number} text 0 op {op} place 0 pointer 0")
}
