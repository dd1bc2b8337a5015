//! The shape of a patch: from a tree to a list of operations.

use crate::limits::MOST_OPERATIONS;
use crate::pointer;
use crate::refusals::{INTO_OWN_CHILD, MALFORMED_POINTER, TOO_MANY_OPERATIONS, WRONG_SHAPE};
use crate::value::Value;

/// The tokens of a pointer.
pub type Tokens = Vec<String>;

/// One operation of a patch.
#[derive(Clone, Debug)]
#[allow(missing_docs)]
pub enum Operation {
    Add { path: Tokens, value: Value },
    Remove { path: Tokens },
    Replace { path: Tokens, value: Value },
    Move { from: Tokens, path: Tokens },
    Copy { from: Tokens, path: Tokens },
    Test { path: Tokens, value: Value },
}

/// Why a patch, or a run, is refused, and at which operation (0 for none).
#[derive(Clone, Copy, Debug, PartialEq, Eq)]
pub struct Refusal {
    /// The refusal's number.
    pub number: u32,
    /// The operation, counted from 1.
    pub op: u32,
    /// For a pointer that leads nowhere, the tokens walked before the one that
    /// failed; else 0.
    pub place: usize,
    /// Which pointer that is: 1 for `path`, 2 for `from`; else 0.
    pub pointer: u32,
}

/// A refusal that speaks of no pointer's way.
pub fn refusal(number: u32, op: u32) -> Refusal {
    Refusal { number, op, place: 0, pointer: 0 }
}

/// The operations of a patch.
pub fn shape(patch: &Value) -> Result<Vec<Operation>, Refusal> {
    let Value::Array(elements) = patch else {
        return Err(refusal(WRONG_SHAPE, 0));
    };
    if elements.len() > MOST_OPERATIONS {
        return Err(refusal(TOO_MANY_OPERATIONS, 0));
    }
    (1..)
        .zip(elements)
        .map(|(op, element)| operation(element).map_err(|number| refusal(number, op)))
        .collect()
}

/// One element: its members first (8), then its pointers (10), then, for a
/// move, whether it goes into its own child (14).
pub(crate) fn operation(element: &Value) -> Result<Operation, u32> {
    // No member is found in what is no object, so that is refused here too.
    let op = text_member(element, "op")?;
    let path = text_member(element, "path")?;
    match op {
        "add" => {
            let value = value_member(element)?;
            Ok(Operation::Add { path: tokens(path)?, value })
        }
        "remove" => Ok(Operation::Remove { path: tokens(path)? }),
        "replace" => {
            let value = value_member(element)?;
            Ok(Operation::Replace { path: tokens(path)?, value })
        }
        "move" => {
            let from = text_member(element, "from")?;
            let path = tokens(path)?;
            let from = tokens(from)?;
            if pointer::strictly_inside(&from, &path) {
                return Err(INTO_OWN_CHILD);
            }
            Ok(Operation::Move { from, path })
        }
        "copy" => {
            let from = text_member(element, "from")?;
            let path = tokens(path)?;
            let from = tokens(from)?;
            Ok(Operation::Copy { from, path })
        }
        "test" => {
            let value = value_member(element)?;
            Ok(Operation::Test { path: tokens(path)?, value })
        }
        _ => Err(WRONG_SHAPE),
    }
}

/// A member that must be there and be a string.
fn text_member<'a>(element: &'a Value, name: &str) -> Result<&'a str, u32> {
    match element.member(name) {
        Some(Value::Text(text)) => Ok(text),
        _ => Err(WRONG_SHAPE),
    }
}

/// The member `value`, which must be there and may be anything.
fn value_member(element: &Value) -> Result<Value, u32> {
    element.member("value").cloned().ok_or(WRONG_SHAPE)
}

fn tokens(pointer: &str) -> Result<Tokens, u32> {
    pointer::tokens(pointer).ok_or(MALFORMED_POINTER)
}
