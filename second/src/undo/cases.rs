//! Cases of undos, and files of them.
//!
//! In a file, a case is a header line `case NAME ROOM UNDOROOM DOCLEN PATCHLEN`,
//! then the document's bytes, a newline, the patch's bytes, a newline.

use super::{apply_with_undo, UndoAnswer};
use crate::limits::TOOL_ROOM;
use crate::{apply, line};

/// One case: two inputs and the room for the two outputs.
#[derive(Clone, Debug, PartialEq, Eq)]
pub struct Case {
    /// A name without blanks.
    pub name: String,
    /// The length of the output for the document.
    pub room: usize,
    /// The length of the output for the undo.
    pub undo_room: usize,
    /// The document's text.
    pub document: Vec<u8>,
    /// The patch's text.
    pub patch: Vec<u8>,
}

impl Case {
    /// What this program answers.
    pub fn answer(&self) -> UndoAnswer {
        apply_with_undo(&self.document, &self.patch, self.room, self.undo_room)
    }

    /// The lines of what this program answers: the refusal; or the patched text,
    /// the undo, and what the patch tool prints of these two.
    pub fn lines(&self) -> Vec<u8> {
        let UndoAnswer { answer, undo } = self.answer();
        let named = |what: &str, line: &[u8]| {
            [self.name.as_bytes(), what.as_bytes(), b": ", line, b"\n"].concat()
        };
        if answer.number != 0 {
            return named("", &line(&answer));
        }
        let back = line(&apply(&answer.written, &undo, TOOL_ROOM));
        [named("", &answer.written), named(" undo", &undo), named(" back", &back)].concat()
    }

    /// The case as it stands in a file.
    pub fn file(&self) -> Vec<u8> {
        let Case { name, room, undo_room, document, patch } = self;
        let (of_document, of_patch) = (document.len(), patch.len());
        let header = format!("case {name} {room} {undo_room} {of_document} {of_patch}\n");
        [header.as_bytes(), document, b"\n", patch, b"\n"].concat()
    }
}

/// Reads a file of cases; a message says what is wrong with one that is none.
pub fn parse(file: &[u8]) -> Result<Vec<Case>, String> {
    let mut cases = Vec::new();
    let mut rest = file;
    while !rest.is_empty() {
        let (case, after) =
            first(rest).ok_or_else(|| format!("no case at byte {}", file.len() - rest.len()))?;
        cases.push(case);
        rest = after;
    }
    Ok(cases)
}

/// The first case, and what follows it.
fn first(file: &[u8]) -> Option<(Case, &[u8])> {
    let end = file.iter().position(|&byte| byte == b'\n')?;
    let header = std::str::from_utf8(&file[..end]).ok()?;
    let words: Vec<&str> = header.split(' ').collect();
    let ["case", name, room, undo_room, document, patch] = words[..] else {
        return None;
    };
    let (document, rest) = part(&file[end + 1..], document)?;
    let (patch, rest) = part(rest, patch)?;
    let (name, room, undo_room) = (name.to_string(), room.parse().ok()?, undo_room.parse().ok()?);
    Some((Case { name, room, undo_room, document, patch }, rest))
}

/// So many bytes that a newline ends, and what follows it.
fn part<'a>(file: &'a [u8], length: &str) -> Option<(Vec<u8>, &'a [u8])> {
    let length: usize = length.parse().ok()?;
    if *file.get(length)? != b'\n' {
        return None;
    }
    Some((file[..length].to_vec(), &file[length + 1..]))
}
