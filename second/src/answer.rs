//! The answer: everything in its order, to the first refusal.

use crate::limits::LONGEST_TEXT;
use crate::refusals::{NO_ROOM, TOO_LONG};
use crate::value::Value;
use crate::{operations, patch, reader, writer};

/// What the engine answers.
#[derive(Clone, Debug, PartialEq, Eq)]
pub struct Answer {
    /// 0 for done, else the refusal's number.
    pub number: u32,
    /// 1 for the document, 2 for the patch, else 0.
    pub text: u32,
    /// The operation, counted from 1, else 0.
    pub op: u32,
    /// A byte offset; with 11 and 12 the tokens walked before the one that
    /// failed; else 0.
    pub place: usize,
    /// With 11 and 12, the pointer that leads nowhere: 1 for `path`, 2 for
    /// `from`; else 0.
    pub pointer: u32,
    /// The written text, empty on refusal.
    pub written: Vec<u8>,
}

pub(crate) const DOCUMENT: u32 = 1;
pub(crate) const PATCH: u32 = 2;

/// Applies a patch to a document, to be written in an output of that room.
pub fn apply(document: &[u8], patch: &[u8], room: usize) -> Answer {
    match applied(document, patch, room) {
        Ok(Applied { written, .. }) => Answer { written, ..plain(0) },
        Err(refusal) => refusal,
    }
}

/// A patch that succeeds: the document as read, its operations, and the written
/// text.
pub(crate) struct Applied {
    pub document: Value,
    pub operations: Vec<patch::Operation>,
    pub written: Vec<u8>,
}

/// What comes of a patch, or the refusal as an answer.
pub(crate) fn applied(document: &[u8], patch: &[u8], room: usize) -> Result<Applied, Answer> {
    if document.len() > LONGEST_TEXT {
        return Err(in_text(TOO_LONG, DOCUMENT, 0));
    }
    if patch.len() > LONGEST_TEXT {
        return Err(in_text(TOO_LONG, PATCH, 0));
    }
    let document = reader::read(document).map_err(|r| in_text(r.number, DOCUMENT, r.place))?;
    let patch = reader::read(patch).map_err(|r| in_text(r.number, PATCH, r.place))?;
    let operations = patch::shape(&patch).map_err(at_op)?;
    let result = operations::run(document.clone(), &operations).map_err(at_op)?;
    let written = writer::write(&result);
    if written.len() > room {
        return Err(plain(NO_ROOM));
    }
    Ok(Applied { document, operations, written })
}

/// A refusal that says nothing but its number; with 0, the answer of a text that
/// is empty.
pub(crate) fn plain(number: u32) -> Answer {
    Answer { number, text: 0, op: 0, place: 0, pointer: 0, written: Vec::new() }
}

/// A refusal in one of the two texts.
pub(crate) fn in_text(number: u32, text: u32, place: usize) -> Answer {
    Answer { text, place, ..plain(number) }
}

/// A refusal of the shape, or of a run.
pub(crate) fn at_op(refusal: patch::Refusal) -> Answer {
    let patch::Refusal { number, op, place, pointer } = refusal;
    Answer { op, place, pointer, ..plain(number) }
}

/// The line the patch tool prints for an answer, without the newline.
pub fn line(answer: &Answer) -> Vec<u8> {
    let Answer { number, text, op, place, pointer, written } = answer;
    if *number == 0 {
        written.clone()
    } else {
        format!("refused {number} text {text} op {op} place {place} pointer {pointer}").into_bytes()
    }
}
