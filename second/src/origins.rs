//! Origins: which operation put each value there. SPECIFICATION 19, T-11.
//!
//! A tree of marks stands beside the document, one mark for each value. The values
//! know nothing of it: an operation's pointers are followed in the document as the
//! operation finds it, and the same positions are gone in the tree of marks. After a
//! merge the marks are told by the two texts and the result alone.

use crate::answer::{self, plain, Applied};
use crate::merges::{self, Merged};
use crate::operations::{perform, take};
use crate::patch::Operation;
use crate::refusals::NO_ROOM;
use crate::value::{Member, Value};
use crate::walk::{find, index, position, Index};
use crate::{makers, undo, Answer};

pub mod cases;
pub mod generate;
pub mod vectors;

/// The answer of a call that lists the origins too.
#[derive(Clone, Debug, PartialEq, Eq)]
pub struct Listed {
    /// The answer for the patch, or the refusal of its undo.
    pub answer: Answer,
    /// The undo's text, where one is asked for; empty on refusal.
    pub undo: Vec<u8>,
    /// The origins of the values in the order of their first written bytes; empty on
    /// refusal.
    pub origins: Vec<u16>,
}

/// What a call is lent: the length of the output in bytes, that of the list in
/// entries.
#[derive(Clone, Copy, Debug, PartialEq, Eq)]
pub struct Lent {
    /// The length of the output.
    pub room: usize,
    /// The length of the list.
    pub list: usize,
}

/// Applies a patch to a document.
pub fn apply(document: &[u8], patch: &[u8], lent: Lent) -> Listed {
    listed(answer::applied(document, patch, lent.room).and_then(|it| after_run(it, lent.list)))
}

/// Applies a maker's patch within a region.
pub fn apply_within(document: &[u8], patch: &[u8], region: &[u8], lent: Lent) -> Listed {
    let applied = makers::applied(document, patch, region, lent.room);
    listed(applied.and_then(|it| after_run(it, lent.list)))
}

/// Applies a merge patch.
pub fn merge(document: &[u8], patch: &[u8], lent: Lent) -> Listed {
    listed(merges::merged(document, patch, lent.room).and_then(|it| after_merge(&it, lent.list)))
}

/// Applies a patch to a document, with the undo in an output of its own.
pub fn apply_with_undo(document: &[u8], patch: &[u8], lent: Lent, undo_room: usize) -> Listed {
    listed(answer::applied(document, patch, lent.room).and_then(|it| {
        let (document, operations) = (it.document.clone(), it.operations.clone());
        // A short list is one of the patch's refusals, and those come first.
        let listed = after_run(it, lent.list)?;
        let undo = undo::undo_text(document, &operations, undo_room)?;
        Ok(Listed { undo, ..listed })
    }))
}

/// A refusal lists nothing.
fn listed(outcome: Result<Listed, Answer>) -> Listed {
    outcome.unwrap_or_else(|answer| Listed { answer, undo: Vec::new(), origins: Vec::new() })
}

fn after_run(applied: Applied, list: usize) -> Result<Listed, Answer> {
    let Applied { document, operations, written } = applied;
    fitting(written, run(document, &operations).list(), list)
}

fn after_merge(merged: &Merged, list: usize) -> Result<Listed, Answer> {
    let Merged { document, patch, result, written } = merged;
    fitting(written.clone(), merge_marks(Some(document), Some(patch), result).list(), list)
}

/// "16 also for a short list, where a short output for the document gives it".
fn fitting(written: Vec<u8>, origins: Vec<u16>, list: usize) -> Result<Listed, Answer> {
    if origins.len() > list {
        return Err(plain(NO_ROOM));
    }
    Ok(Listed { answer: Answer { written, ..plain(0) }, undo: Vec::new(), origins })
}

/// The mark of a value, and those of the values directly in it, in written order.
#[derive(Clone, Debug)]
struct Mark {
    origin: u16,
    inside: Vec<Mark>,
}

impl Mark {
    /// One origin for a value and for all in it.
    fn all(value: &Value, origin: u16) -> Mark {
        let inside = value.children().into_iter().map(|child| Mark::all(child, origin)).collect();
        Mark { origin, inside }
    }

    /// The origins, a container's before those of what is in it.
    fn list(&self) -> Vec<u16> {
        let mut list = vec![self.origin];
        for mark in &self.inside {
            list.extend(mark.list());
        }
        list
    }
}

/// The marks after a run that succeeds.
fn run(mut document: Value, operations: &[Operation]) -> Mark {
    let mut marks = Mark::all(&document, 0);
    for (k, operation) in (1..).zip(operations) {
        follow(operation, k, &document, &mut marks);
        let _ = perform(&mut document, operation);
    }
    marks
}

/// What operation k, which succeeds on that document, does to the marks.
fn follow(operation: &Operation, k: u16, before: &Value, marks: &mut Mark) {
    match operation {
        Operation::Test { .. } => {}
        Operation::Add { path, value } => put(marks, before, path, Mark::all(value, k)),
        Operation::Replace { path, value } => *at(marks, before, path) = Mark::all(value, k),
        Operation::Remove { path } => drop(pull(marks, before, path)),
        Operation::Copy { from, path } => {
            let copied = find(before, from).map_or(&Value::Null, |value| value);
            put(marks, before, path, Mark::all(copied, k));
        }
        // Root to root: nothing is moved.
        Operation::Move { from, .. } if from.is_empty() => {}
        Operation::Move { from, path } => {
            let moved = pull(marks, before, from);
            let mut left = before.clone();
            let _ = take(&mut left, from);
            put(marks, &left, path, moved);
        }
    }
}

/// The mark of the value at a path that leads somewhere.
fn at<'a>(marks: &'a mut Mark, document: &Value, path: &[String]) -> &'a mut Mark {
    let mut here = marks;
    for walked in 0..path.len() {
        let container = find(document, &path[..walked]).unwrap_or(&Value::Null);
        let position = position(container, &path[walked]).unwrap_or(0);
        here = &mut here.inside[position];
    }
    here
}

/// Puts a mark where an added value goes.
fn put(marks: &mut Mark, document: &Value, path: &[String], mark: Mark) {
    let Some((last, parents)) = path.split_last() else {
        *marks = mark;
        return;
    };
    let inside = &mut at(marks, document, parents).inside;
    let parent = find(document, parents).unwrap_or(&Value::Null);
    match (parent, index(last)) {
        (Value::Array(_), Ok(Index::At(place))) => inside.insert(place, mark),
        (Value::Array(_), _) => inside.push(mark),
        (object, _) => match position(object, last) {
            Ok(place) => inside[place] = mark,
            Err(_) => inside.push(mark),
        },
    }
}

/// Takes the mark of the value at a path out, the root excepted.
fn pull(marks: &mut Mark, document: &Value, path: &[String]) -> Mark {
    let Some((last, parents)) = path.split_last() else {
        return marks.clone();
    };
    let parent = find(document, parents).unwrap_or(&Value::Null);
    let place = position(parent, last).unwrap_or(0);
    at(marks, document, parents).inside.remove(place)
}

/// The marks of a merge's result, by what the document and the patch have at the same
/// place: "A merge patch counts as operation 1, also for the empty objects it makes."
fn merge_marks<'a>(target: Option<&'a Value>, patch: Option<&'a Value>, result: &Value) -> Mark {
    match (target, patch, result) {
        // The patch does not name it.
        (_, None, _) => Mark::all(result, 0),
        // Merged member by member: the object itself is the document's.
        (Some(Value::Object(_)), Some(Value::Object(_)), Value::Object(members)) => {
            let inside = members.iter().map(|Member { name, value }| {
                let member = |of: Option<&'a Value>| of.and_then(|it| it.member(name));
                merge_marks(member(target), member(patch), value)
            });
            Mark { origin: 0, inside: inside.collect() }
        }
        // Put in, or made because there was no object to merge into.
        _ => Mark::all(result, 1),
    }
}
