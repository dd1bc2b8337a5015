//! Patches of pack makers, in a region: SPECIFICATION 15, T-05.
//!
//! A maker sends only test, replace and add, a test first, and every path lies
//! strictly inside the region. What keeps that rule is applied as any patch is.

use crate::answer::{at_op, in_text, plain, Applied, DOCUMENT, PATCH};
use crate::limits::{LONGEST_TEXT, MOST_OPERATIONS};
use crate::patch::{self, refusal, Operation, Refusal};
use crate::refusals::{
    MALFORMED_POINTER, NOT_PERMITTED, NO_ROOM, TOO_LONG, TOO_MANY_OPERATIONS, WRONG_SHAPE,
};
use crate::value::Value;
use crate::{operations, pointer, reader, writer, Answer};
use std::str;

pub mod cases;
pub mod generate;
pub mod vectors;

/// Applies a maker's patch to a document, within a region given as a pointer's
/// text, to be written in an output of that room.
pub fn apply(document: &[u8], patch: &[u8], region: &[u8], room: usize) -> Answer {
    match applied(document, patch, region, room) {
        Ok(Applied { written, .. }) => Answer { written, ..plain(0) },
        Err(refusal) => refusal,
    }
}

/// What comes of a maker's patch, or the refusal as an answer.
pub(crate) fn applied(
    document: &[u8],
    patch: &[u8],
    region: &[u8],
    room: usize,
) -> Result<Applied, Answer> {
    if document.len() > LONGEST_TEXT {
        return Err(in_text(TOO_LONG, DOCUMENT, 0));
    }
    if patch.len() > LONGEST_TEXT {
        return Err(in_text(TOO_LONG, PATCH, 0));
    }
    if region.len() > LONGEST_TEXT {
        return Err(plain(TOO_LONG));
    }
    let document = reader::read(document).map_err(|r| in_text(r.number, DOCUMENT, r.place))?;
    let patch = reader::read(patch).map_err(|r| in_text(r.number, PATCH, r.place))?;
    let region = tokens(region).ok_or_else(|| plain(MALFORMED_POINTER))?;
    let operations = shape(&patch, &region).map_err(at_op)?;
    let result = operations::run(document.clone(), &operations).map_err(at_op)?;
    let written = writer::write(&result);
    if written.len() > room {
        return Err(plain(NO_ROOM));
    }
    Ok(Applied { document, operations, written })
}

/// The tokens of a region, if its bytes are UTF-8 and a pointer.
fn tokens(region: &[u8]) -> Option<Vec<String>> {
    pointer::tokens(str::from_utf8(region).ok()?)
}

/// The operations of a maker's patch. Each element is shaped and held to the rule
/// before the next one is looked at.
fn shape(patch: &Value, region: &[String]) -> Result<Vec<Operation>, Refusal> {
    let Value::Array(elements) = patch else {
        return Err(refusal(WRONG_SHAPE, 0));
    };
    if elements.len() > MOST_OPERATIONS {
        return Err(refusal(TOO_MANY_OPERATIONS, 0));
    }
    if elements.is_empty() {
        return Err(refusal(NOT_PERMITTED, 0));
    }
    let mut operations = Vec::new();
    for (op, element) in (1..).zip(elements) {
        let operation = patch::operation(element).map_err(|number| refusal(number, op))?;
        if !permitted(&operation, op == 1, region) {
            return Err(refusal(NOT_PERMITTED, op));
        }
        operations.push(operation);
    }
    Ok(operations)
}

/// Whether a maker may send this operation.
fn permitted(operation: &Operation, first: bool, region: &[String]) -> bool {
    match operation {
        Operation::Test { path, .. } => pointer::strictly_inside(region, path),
        Operation::Replace { path, .. } | Operation::Add { path, .. } => {
            !first && pointer::strictly_inside(region, path)
        }
        Operation::Remove { .. } | Operation::Move { .. } | Operation::Copy { .. } => false,
    }
}
