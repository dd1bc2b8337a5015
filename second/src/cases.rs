//! Cases and files of them.
//!
//! In a file, a case is a header line `case NAME ROOM DOCLEN PATCHLEN`, then
//! the document's bytes, a newline, the patch's bytes, a newline. Cases follow
//! one another directly.

use crate::{apply, line};

/// One case: two inputs and the room for the output.
#[derive(Clone, Debug, PartialEq, Eq)]
pub struct Case {
    /// A name without blanks.
    pub name: String,
    /// The length of the output.
    pub room: usize,
    /// The document's text.
    pub document: Vec<u8>,
    /// The patch's text.
    pub patch: Vec<u8>,
}

impl Case {
    /// The line this engine answers, for a given room.
    pub fn line(&self, room: usize) -> Vec<u8> {
        line(&apply(&self.document, &self.patch, room))
    }

    /// The case as it stands in a file.
    pub fn text(&self) -> Vec<u8> {
        let Case { name, room, document, patch } = self;
        let header = format!("case {name} {room} {} {}\n", document.len(), patch.len());
        let mut text = header.into_bytes();
        text.extend_from_slice(document);
        text.push(b'\n');
        text.extend_from_slice(patch);
        text.push(b'\n');
        text
    }
}

/// Reads a file of cases; a message says what is wrong with one that is none.
pub fn parse(file: &[u8]) -> Result<Vec<Case>, String> {
    let mut cases = Vec::new();
    let mut rest = file;
    while !rest.is_empty() {
        let (case, after) =
            first(rest).ok_or_else(|| format!("no case at byte {}", file.len() - rest.len()))?;
        cases.push(case);
        rest = after;
    }
    Ok(cases)
}

/// The first case, and what follows it.
fn first(file: &[u8]) -> Option<(Case, &[u8])> {
    let end = file.iter().position(|&byte| byte == b'\n')?;
    let header = std::str::from_utf8(&file[..end]).ok()?;
    let words: Vec<&str> = header.split(' ').collect();
    let ["case", name, room, document, patch] = words[..] else {
        return None;
    };
    let (document, rest) = block(&file[end + 1..], document.parse().ok()?)?;
    let (patch, rest) = block(rest, patch.parse().ok()?)?;
    let case = Case { name: name.to_string(), room: room.parse().ok()?, document, patch };
    Some((case, rest))
}

/// As many bytes as said, and what follows the newline after them.
fn block(file: &[u8], length: usize) -> Option<(Vec<u8>, &[u8])> {
    if *file.get(length)? != b'\n' {
        return None;
    }
    Some((file[..length].to_vec(), &file[length + 1..]))
}
