//! Walking a document along the tokens of a pointer.

use crate::refusals::{MISSING, NO_INDEX};
use crate::value::Value;

/// A pointer that leads nowhere.
#[derive(Clone, Copy, Debug, PartialEq, Eq)]
pub struct Lost {
    /// The refusal's number, 11 or 12.
    pub number: u32,
    /// How many tokens were walked before the one that failed.
    pub walked: usize,
}

/// What a token means in an array.
pub enum Index {
    /// `-`, the end of the array.
    End,
    /// An index; one too long to hold is the largest, beyond every array.
    At(usize),
}

/// Reads a token as an array index.
pub fn index(token: &str) -> Result<Index, u32> {
    if token == "-" {
        return Ok(Index::End);
    }
    let digits = !token.is_empty() && token.bytes().all(|byte| byte.is_ascii_digit());
    let padded = token.len() > 1 && token.starts_with('0');
    if !digits || padded {
        return Err(NO_INDEX);
    }
    // Digits only, so the one way to fail is being too large.
    Ok(Index::At(token.parse().unwrap_or(usize::MAX)))
}

/// Where in this container the child of that token stands: a position among
/// its items or members.
pub fn position(container: &Value, token: &str) -> Result<usize, u32> {
    match container {
        Value::Object(members) => {
            members.iter().position(|member| member.name == token).ok_or(MISSING)
        }
        Value::Array(items) => match index(token)? {
            Index::At(at) if at < items.len() => Ok(at),
            Index::At(_) | Index::End => Err(MISSING),
        },
        _ => Err(MISSING),
    }
}

/// The value at the tokens.
pub fn find<'a>(root: &'a Value, tokens: &[String]) -> Result<&'a Value, Lost> {
    let mut here = root;
    for (walked, token) in tokens.iter().enumerate() {
        let lost = |number| Lost { number, walked };
        let at = position(here, token).map_err(lost)?;
        here = match here {
            Value::Array(items) => &items[at],
            Value::Object(members) => &members[at].value,
            _ => return Err(lost(MISSING)),
        };
    }
    Ok(here)
}

/// The value at the tokens, to be changed.
pub fn find_mut<'a>(root: &'a mut Value, tokens: &[String]) -> Result<&'a mut Value, Lost> {
    let mut here = root;
    for (walked, token) in tokens.iter().enumerate() {
        let lost = |number| Lost { number, walked };
        let at = position(here, token).map_err(lost)?;
        here = match here {
            Value::Array(items) => &mut items[at],
            Value::Object(members) => &mut members[at].value,
            _ => return Err(lost(MISSING)),
        };
    }
    Ok(here)
}
