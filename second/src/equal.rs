//! Two texts compared, and how many names that takes: SPECIFICATION 17, T-10.

use crate::answer::{in_text, DOCUMENT, PATCH};
use crate::limits::LONGEST_TEXT;
use crate::refusals::TOO_LONG;
use crate::value::{equal, Value};
use crate::{line, reader, Answer};

pub mod cases;
pub mod generate;
pub mod vectors;

/// What two values come to.
#[derive(Clone, Copy, Debug, PartialEq, Eq)]
pub struct Compared {
    /// Whether they are equal.
    pub equal: bool,
    /// How many names were compared.
    pub names: u64,
}

/// Compares two texts, or refuses one of them, as a document and a patch are
/// refused.
pub fn compare(first: &[u8], second: &[u8]) -> Result<Compared, Answer> {
    for (text, number) in [(first, DOCUMENT), (second, PATCH)] {
        if text.len() > LONGEST_TEXT {
            return Err(in_text(TOO_LONG, number, 0));
        }
    }
    let first = reader::read(first).map_err(|r| in_text(r.number, DOCUMENT, r.place))?;
    let second = reader::read(second).map_err(|r| in_text(r.number, PATCH, r.place))?;
    Ok(values(&first, &second))
}

/// Compares two values.
pub fn values(target: &Value, value: &Value) -> Compared {
    let mut names = 0;
    let equal = step(target, value, &mut names);
    Compared { equal, names }
}

/// "The target's members in order, each against the patch value's names from the
/// first until one matches, their two values then at once; arrays element by
/// element; all stops at the first difference. Unequal member counts or array
/// lengths differ without a comparison."
fn step(target: &Value, value: &Value, names: &mut u64) -> bool {
    match (target, value) {
        (Value::Array(items), Value::Array(others)) => {
            items.len() == others.len()
                && items.iter().zip(others).all(|(item, other)| step(item, other, names))
        }
        (Value::Object(members), Value::Object(others)) => {
            members.len() == others.len()
                && members.iter().all(|member| {
                    for other in others {
                        *names += 1;
                        if other.name == member.name {
                            return step(&member.value, &other.value, names);
                        }
                    }
                    false
                })
        }
        _ => equal(target, value),
    }
}

/// The line of a comparison, without the newline.
pub fn said(found: &Result<Compared, Answer>) -> Vec<u8> {
    match found {
        Ok(Compared { equal: true, names }) => format!("equal {names}").into_bytes(),
        Ok(Compared { equal: false, names }) => format!("different {names}").into_bytes(),
        Err(refusal) => line(refusal),
    }
}
