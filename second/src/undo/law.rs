//! The law of undos, on the answers of any engine: SPECIFICATION 16, T-09.

use super::UndoAnswer;
use crate::limits::LONGEST_TEXT;
use crate::value::{equal, Value};
use crate::{reader, writer, Answer};

/// What came of a case.
#[derive(Clone, Copy, Debug, PartialEq, Eq, PartialOrd, Ord)]
pub enum Came {
    /// The undo gave a document equal to the original, and the same but for the
    /// order of members.
    Restored,
    /// It gave even the original's order.
    SameOrder,
    /// The law says nothing: the patch is refused.
    PatchRefused,
    /// The law says nothing: the undo is refused.
    UndoRefused,
    /// The law says nothing: the patched text is too long for a document.
    TextTooLong,
    /// The undo, applied to the patched text, is refused.
    NotApplied,
    /// It gives a document that is not equal to the original.
    NotEqual,
    /// It gives an equal one that differs in more than the order of members.
    NotTheSame,
}

impl Came {
    /// Whether the law does not hold.
    pub fn broken(self) -> bool {
        matches!(self, Came::NotApplied | Came::NotEqual | Came::NotTheSame)
    }
}

/// Holds an engine to the law: what it answered to a patch on a document, and
/// what it gives for the undo on the patched text.
pub fn law(
    document: &[u8],
    patch: &[u8],
    answered: &UndoAnswer,
    apply: impl FnOnce(&[u8], &[u8]) -> Answer,
) -> Came {
    let UndoAnswer { answer, undo } = answered;
    match (answer.number, answer.text, answer.place) {
        (0, _, _) if answer.written.len() > LONGEST_TEXT => return Came::TextTooLong,
        (0, _, _) => {}
        // A patch that was read is refused with a place, or was too long.
        (9 | 5 | 6 | 2, 2, 0) if patch.len() <= LONGEST_TEXT => return Came::UndoRefused,
        _ => return Came::PatchRefused,
    }
    let back = apply(&answer.written, undo);
    if back.number != 0 {
        return Came::NotApplied;
    }
    let (Ok(original), Ok(restored)) = (reader::read(document), reader::read(&back.written)) else {
        return Came::NotEqual;
    };
    if !equal(&restored, &original) || !equal(&original, &restored) {
        return Came::NotEqual;
    }
    if back.written == writer::write(&original) {
        return Came::SameOrder;
    }
    if writer::write(&sorted(&restored)) == writer::write(&sorted(&original)) {
        Came::Restored
    } else {
        Came::NotTheSame
    }
}

/// The value with the members of each object in the order of their names. Its
/// numbers are still as they were written.
fn sorted(value: &Value) -> Value {
    match value {
        Value::Array(items) => Value::Array(items.iter().map(sorted).collect()),
        Value::Object(members) => {
            let mut members = members.clone();
            for member in &mut members {
                member.value = sorted(&member.value);
            }
            members.sort_by(|a, b| a.name.cmp(&b.name));
            Value::Object(members)
        }
        scalar => scalar.clone(),
    }
}
