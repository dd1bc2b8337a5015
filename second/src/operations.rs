//! The six operations, and running a list of them.

use crate::limits::{MOST_LEVELS, MOST_NODES};
use crate::patch::{refusal, Operation, Refusal};
use crate::refusals::{DIFFERENT, MISSING, ROOT_REMOVED, TOO_DEEP, TOO_MANY_NODES};
use crate::value::{equal, Member, Value};
use crate::walk::{find, find_mut, index, position, Index, Lost};

/// Runs all operations, with both limits after each.
pub fn run(document: Value, operations: &[Operation]) -> Result<Value, Refusal> {
    let mut document = document;
    for (op, operation) in (1..).zip(operations) {
        document = step(document, operation).map_err(|fault| fault.at(op))?;
        if document.nodes() > MOST_NODES {
            return Err(refusal(TOO_MANY_NODES, op));
        }
    }
    Ok(document)
}

/// The bare run of a list of operations: the depth is checked after each, the
/// number of nodes never.
pub fn bare_run(document: Value, operations: &[Operation]) -> Result<Value, Refusal> {
    let mut document = document;
    for (op, operation) in (1..).zip(operations) {
        document = step(document, operation).map_err(|fault| fault.at(op))?;
    }
    Ok(document)
}

/// One step of a bare run: the document after the operation, or why that is
/// refused, or 5 if the result is too deep.
pub fn step(document: Value, operation: &Operation) -> Result<Value, Fault> {
    let mut document = document;
    perform(&mut document, operation)?;
    if document.depth() > MOST_LEVELS {
        return Err(Fault::Other(TOO_DEEP));
    }
    Ok(document)
}

/// Why an operation is refused.
#[derive(Clone, Copy, Debug)]
pub enum Fault {
    /// `path` leads nowhere.
    Path(Lost),
    /// `from` leads nowhere.
    From(Lost),
    /// Anything else, by its number.
    Other(u32),
}

impl Fault {
    /// The refusal, given at that operation.
    fn at(self, op: u32) -> Refusal {
        match self {
            Fault::Path(Lost { number, walked }) => {
                Refusal { number, op, place: walked, pointer: 1 }
            }
            Fault::From(Lost { number, walked }) => {
                Refusal { number, op, place: walked, pointer: 2 }
            }
            Fault::Other(number) => refusal(number, op),
        }
    }
}

/// Performs one operation. After a refusal the document is of no more use: a
/// move may have taken a value out of it already.
pub(crate) fn perform(document: &mut Value, operation: &Operation) -> Result<(), Fault> {
    match operation {
        Operation::Add { path, value } => add(document, path, value.clone()).map_err(Fault::Path),
        Operation::Remove { path } if path.is_empty() => Err(Fault::Other(ROOT_REMOVED)),
        Operation::Remove { path } => take(document, path).map(drop).map_err(Fault::Path),
        Operation::Replace { path, value } => {
            *find_mut(document, path).map_err(Fault::Path)? = value.clone();
            Ok(())
        }
        // The root can only be moved to the root (all else is a move into its
        // own child), and that changes nothing.
        Operation::Move { from, path } if from.is_empty() && path.is_empty() => Ok(()),
        Operation::Move { from, path } => {
            let value = take(document, from).map_err(Fault::From)?;
            add(document, path, value).map_err(Fault::Path)
        }
        Operation::Copy { from, path } => {
            let value = find(document, from).map_err(Fault::From)?.clone();
            add(document, path, value).map_err(Fault::Path)
        }
        Operation::Test { path, value } => {
            if equal(find(document, path).map_err(Fault::Path)?, value) {
                Ok(())
            } else {
                Err(Fault::Other(DIFFERENT))
            }
        }
    }
}

/// Adds a value: at the root it becomes the document, in an object it replaces
/// the member of that name at its position or goes last, in an array it is
/// inserted. The last token can fail as any other: all before it were walked.
fn add(document: &mut Value, path: &[String], value: Value) -> Result<(), Lost> {
    let Some((last, parents)) = path.split_last() else {
        *document = value;
        return Ok(());
    };
    let lost = |number| Lost { number, walked: parents.len() };
    match find_mut(document, parents)? {
        Value::Object(members) => {
            match members.iter_mut().find(|member| member.name == *last) {
                Some(member) => member.value = value,
                None => members.push(Member { name: last.clone(), value }),
            }
            Ok(())
        }
        Value::Array(items) => {
            match index(last).map_err(lost)? {
                Index::End => items.push(value),
                Index::At(at) if at <= items.len() => items.insert(at, value),
                Index::At(_) => return Err(lost(MISSING)),
            }
            Ok(())
        }
        _ => Err(lost(MISSING)),
    }
}

/// Takes the value at the path out of the document; a root leaves null.
pub(crate) fn take(document: &mut Value, path: &[String]) -> Result<Value, Lost> {
    let Some((last, parents)) = path.split_last() else {
        return Ok(std::mem::replace(document, Value::Null));
    };
    let lost = |number| Lost { number, walked: parents.len() };
    let parent = find_mut(document, parents)?;
    let at = position(parent, last).map_err(lost)?;
    match parent {
        Value::Object(members) => Ok(members.remove(at).value),
        Value::Array(items) => Ok(items.remove(at)),
        _ => Err(lost(MISSING)),
    }
}
