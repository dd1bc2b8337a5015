//! The undo of a patch: SPECIFICATION 16, T-09.
//!
//! Each operation is looked at with the document that it finds, the patch is run
//! once more meanwhile, and what was noted is put together from the last to the
//! first. The undo is made as an ordinary value and written as any other.

use crate::answer::{applied, in_text, plain, Answer, Applied, PATCH};
use crate::limits::{LONGEST_TEXT, MOST_LEVELS, MOST_NODES, MOST_OPERATIONS};
use crate::operations::{perform, take};
use crate::patch::{Operation, Tokens};
use crate::refusals::{NO_ROOM, TOO_DEEP, TOO_LONG, TOO_MANY_NODES, TOO_MANY_OPERATIONS};
use crate::value::{Member, Value};
use crate::walk::find;
use crate::{pointer, writer};

pub mod cases;
pub mod generate;
pub mod law;
pub mod vectors;

/// The answer of the call that writes an undo too.
#[derive(Clone, Debug, PartialEq, Eq)]
pub struct UndoAnswer {
    /// The answer for the patch, or the refusal of its undo.
    pub answer: Answer,
    /// The undo's text, empty on refusal.
    pub undo: Vec<u8>,
}

/// Applies a patch to a document, to be written in an output of that room, with
/// the undo in an output of its own.
pub fn apply_with_undo(document: &[u8], patch: &[u8], room: usize, undo_room: usize) -> UndoAnswer {
    match attempt(document, patch, room, undo_room) {
        Ok((written, undo)) => UndoAnswer { answer: Answer { written, ..plain(0) }, undo },
        Err(refusal) => UndoAnswer { answer: refusal, undo: Vec::new() },
    }
}

/// The patched text and the undo's, or the refusal as an answer: those of the
/// patch, those of an undo that could not be read back, then its output's.
fn attempt(
    document: &[u8],
    patch: &[u8],
    room: usize,
    undo_room: usize,
) -> Result<(Vec<u8>, Vec<u8>), Answer> {
    let Applied { document, operations, written } = applied(document, patch, room)?;
    Ok((written, undo_text(document, &operations, undo_room)?))
}

/// The undo's text of a run that succeeds, or its refusal as an answer.
pub(crate) fn undo_text(
    document: Value,
    operations: &[Operation],
    undo_room: usize,
) -> Result<Vec<u8>, Answer> {
    let steps = undo(document, operations);
    let count = steps.len();
    let value = value(&steps);
    let text = writer::write(&value);
    let limits = [
        (count, MOST_OPERATIONS, TOO_MANY_OPERATIONS),
        (value.depth(), MOST_LEVELS, TOO_DEEP),
        (value.nodes(), MOST_NODES, TOO_MANY_NODES),
        (text.len(), LONGEST_TEXT, TOO_LONG),
    ];
    for (size, most, number) in limits {
        if size > most {
            return Err(in_text(number, PATCH, 0));
        }
    }
    if text.len() > undo_room {
        return Err(plain(NO_ROOM));
    }
    Ok(text)
}

/// One operation of an undo.
#[derive(Clone, Debug)]
pub struct Step {
    op: &'static str,
    path: Tokens,
    value: Option<Value>,
}

fn removes(path: Tokens) -> Step {
    Step { op: "remove", path, value: None }
}

fn replaces(path: &[String], old: &Value) -> Step {
    Step { op: "replace", path: path.to_vec(), value: Some(old.clone()) }
}

fn adds(path: &[String], old: &Value) -> Step {
    Step { op: "add", path: path.to_vec(), value: Some(old.clone()) }
}

/// The undo of a run that succeeds.
fn undo(mut document: Value, operations: &[Operation]) -> Vec<Step> {
    let mut noted = Vec::new();
    for operation in operations {
        noted.push(undo_one(operation, &document));
        let _ = perform(&mut document, operation);
    }
    noted.into_iter().rev().flatten().collect()
}

/// What takes back one operation, which succeeded on that document.
fn undo_one(operation: &Operation, before: &Value) -> Vec<Step> {
    let old = |path: &[String]| find(before, path).cloned().unwrap_or(Value::Null);
    match operation {
        Operation::Test { .. } => Vec::new(),
        Operation::Add { path, .. } | Operation::Copy { path, .. } => vec![mend(path, before)],
        Operation::Replace { path, .. } => vec![replaces(path, &old(path))],
        Operation::Remove { path } => vec![adds(path, &old(path))],
        Operation::Move { from, .. } if from.is_empty() => Vec::new(),
        Operation::Move { from, path } => {
            let mend = mend(path, &without(before, from));
            if mend.op == "replace" && pointer::strictly_inside(path, from) {
                // The value that it replaced had held `from`.
                return vec![replaces(path, &old(path))];
            }
            vec![mend, adds(from, &old(from))]
        }
    }
}

/// What takes back a value that was put in at a path of this document: by what
/// stood there, it is new or replaced another.
fn mend(path: &[String], before: &Value) -> Step {
    let Some((last, parents)) = path.split_last() else {
        return replaces(path, before);
    };
    match find(before, parents) {
        Ok(Value::Array(items)) if last == "-" => {
            let end = items.len().to_string();
            removes([parents, &[end]].concat())
        }
        Ok(object @ Value::Object(_)) => match object.member(last) {
            Some(old) => replaces(path, old),
            None => removes(path.to_vec()),
        },
        // An element that is put in shifts others and replaces none.
        _ => removes(path.to_vec()),
    }
}

/// The document less the value at a path.
fn without(document: &Value, path: &[String]) -> Value {
    let mut left = document.clone();
    let _ = take(&mut left, path);
    left
}

/// The undo as a value.
fn value(steps: &[Step]) -> Value {
    let member = |name: &str, value| Member { name: name.to_string(), value };
    let operation = |step: &Step| {
        let mut members = vec![
            member("op", Value::Text(step.op.to_string())),
            member("path", Value::Text(pointer::text(&step.path))),
        ];
        members.extend(step.value.clone().map(|value| member("value", value)));
        Value::Object(members)
    };
    Value::Array(steps.iter().map(operation).collect())
}
