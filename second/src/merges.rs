//! Merge patches: RFC 7396, and SPECIFICATION 18, T-02.

pub mod generate;
pub mod vectors;

use crate::answer::{in_text, plain, Answer, DOCUMENT, PATCH};
use crate::cases::Case;
use crate::limits::{LONGEST_TEXT, MOST_NODES};
use crate::refusals::{NO_ROOM, TOO_LONG, TOO_MANY_NODES};
use crate::value::{Member, Value};
use crate::{line, reader, writer};

/// RFC 7396, section 2, `MergePatch(Target, Patch)`. Members keep their position,
/// new ones go last.
pub fn merge_patch(target: Option<Value>, patch: &Value) -> Value {
    let Value::Object(pairs) = patch else {
        return patch.clone();
    };
    // "Ignore the contents and set it to an empty Object"
    let mut members = match target {
        Some(Value::Object(members)) => members,
        _ => Vec::new(),
    };
    for Member { name, value } in pairs {
        let found = members.iter().position(|member| member.name == *name);
        match (value, found) {
            (Value::Null, Some(at)) => {
                members.remove(at);
            }
            (Value::Null, None) => {}
            (_, Some(at)) => {
                let old = std::mem::replace(&mut members[at].value, Value::Null);
                members[at].value = merge_patch(Some(old), value);
            }
            (_, None) => {
                members.push(Member { name: name.clone(), value: merge_patch(None, value) });
            }
        }
    }
    Value::Object(members)
}

/// Applies a merge patch to a document, to be written in an output of that room.
pub fn merge(document: &[u8], patch: &[u8], room: usize) -> Answer {
    match merged(document, patch, room) {
        Ok(Merged { written, .. }) => Answer { written, ..plain(0) },
        Err(refusal) => refusal,
    }
}

/// A merge that succeeds: the two values as read, the result, and the written text.
pub(crate) struct Merged {
    pub document: Value,
    pub patch: Value,
    pub result: Value,
    pub written: Vec<u8>,
}

/// What comes of a merge patch, or the refusal as an answer.
pub(crate) fn merged(document: &[u8], patch: &[u8], room: usize) -> Result<Merged, Answer> {
    if document.len() > LONGEST_TEXT {
        return Err(in_text(TOO_LONG, DOCUMENT, 0));
    }
    if patch.len() > LONGEST_TEXT {
        return Err(in_text(TOO_LONG, PATCH, 0));
    }
    let document = reader::read(document).map_err(|r| in_text(r.number, DOCUMENT, r.place))?;
    let patch = reader::read(patch).map_err(|r| in_text(r.number, PATCH, r.place))?;
    let result = merge_patch(Some(document.clone()), &patch);
    if result.nodes() > MOST_NODES {
        return Err(plain(TOO_MANY_NODES));
    }
    let written = writer::write(&result);
    if written.len() > room {
        return Err(plain(NO_ROOM));
    }
    Ok(Merged { document, patch, result, written })
}

/// The line that this engine answers of a case.
pub fn line_of(case: &Case) -> Vec<u8> {
    line(&merge(&case.document, &case.patch, case.room))
}
