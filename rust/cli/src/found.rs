//! What a test that failed had found, and what stands where a pointer got to.

use crate::patches::applied;
use json_patch::{elements, Pointer, Refusal, Walked};

/// Turns a test into a copy of its target to the root.
const COPY: &[u8] = br#"[{"op":"move","from":"/path","path":"/from"},
    {"op":"add","path":"/op","value":"copy"},{"op":"add","path":"/path","value":""}]"#;

/// Takes an operation's value out of it.
const VALUE: &[u8] = br#"[{"op":"copy","from":"/value","path":""}]"#;

/// Turns a move into the removal that it begins with.
const REMOVE: &[u8] = br#"[{"op":"test","path":"/op","value":"move"},
    {"op":"replace","path":"/op","value":"remove"},{"op":"move","from":"/from","path":"/path"}]"#;

/// A test that failed: the value in the document, and the one that it wants. The
/// library finds both: the operations before the test are applied, and then its
/// target is copied to the root.
pub fn found(document: &[u8], patch: &[u8], refusal: &Refusal) -> Option<(Vec<u8>, Vec<u8>)> {
    let test = operation(patch, refusal)?;
    let copy = applied(test, COPY).ok()?;
    let found = after(document, patch, refusal, &[copy])?;
    Some((found, applied(test, VALUE).ok()?))
}

/// The value at the end of what was walked of a pointer that leads nowhere. The
/// library finds it too: the path of a move is walked in what is left.
pub fn reached(
    document: &[u8],
    patch: &[u8],
    refusal: &Refusal,
    walked: &Walked,
) -> Option<Vec<u8>> {
    let removal = match walked.pointer {
        Pointer::Path => applied(operation(patch, refusal)?, REMOVE).ok(),
        Pointer::From => None,
    };
    let copy = [br#"{"op":"copy","path":"","from":""#, walked.way, br#""}"#].concat();
    let last: Vec<Vec<u8>> = removal.into_iter().chain([copy]).collect();
    after(document, patch, refusal, &last)
}

/// The operation that was refused.
fn operation<'a>(patch: &'a [u8], refusal: &Refusal) -> Option<&'a [u8]> {
    elements(patch).nth(refusal.op.checked_sub(1)?)
}

/// The document after the operations before the refused one, and these.
fn after(document: &[u8], patch: &[u8], refusal: &Refusal, last: &[Vec<u8>]) -> Option<Vec<u8>> {
    let before = elements(patch).take(refusal.op.checked_sub(1)?);
    let all: Vec<&[u8]> = before.chain(last.iter().map(Vec::as_slice)).collect();
    applied(document, &[b"[", &all.join(&b","[..])[..], b"]"].concat()).ok()
}
