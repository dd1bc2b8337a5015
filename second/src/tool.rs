//! The patch tool: two file names in, one line out.

use crate::limits::{LONGEST_TEXT, MOST_NODES, TOOL_READS, TOOL_ROOM};
use crate::merges::merge;
use crate::origins::{self, Lent};
use crate::undo::apply_with_undo;
use crate::{apply, line};
use std::ffi::OsString;
use std::fs::File;
use std::io::{self, Read};
use std::path::Path;

/// What the patch tool prints for its arguments, the newline included.
pub fn output(arguments: &[OsString]) -> Vec<u8> {
    let mut printed = match inputs(arguments) {
        Some((document, patch)) => line(&apply(&document, &patch, TOOL_ROOM)),
        None => b"unreadable".to_vec(),
    };
    printed.push(b'\n');
    printed
}

/// The same for a merge patch.
pub fn merge_output(arguments: &[OsString]) -> Vec<u8> {
    let mut printed = match inputs(arguments) {
        Some((document, patch)) => line(&merge(&document, &patch, TOOL_ROOM)),
        None => b"unreadable".to_vec(),
    };
    printed.push(b'\n');
    printed
}

/// The undo of the patch on the document, or the line of a refusal; the newline
/// included.
pub fn undo_output(arguments: &[OsString]) -> Vec<u8> {
    let mut printed = match inputs(arguments) {
        Some((document, patch)) => {
            let answered = apply_with_undo(&document, &patch, TOOL_ROOM, LONGEST_TEXT);
            if answered.answer.number == 0 {
                answered.undo
            } else {
                line(&answered.answer)
            }
        }
        None => b"unreadable".to_vec(),
    };
    printed.push(b'\n');
    printed
}

/// The origins of the patched document's values, or the line of a refusal; the newline
/// included.
pub fn origins_output(arguments: &[OsString]) -> Vec<u8> {
    let mut printed = match inputs(arguments) {
        Some((document, patch)) => {
            let lent = Lent { room: TOOL_ROOM, list: MOST_NODES };
            let listed = origins::apply(&document, &patch, lent);
            if listed.answer.number == 0 {
                origins::cases::said(&listed.origins).into_bytes()
            } else {
                line(&listed.answer)
            }
        }
        None => b"unreadable".to_vec(),
    };
    printed.push(b'\n');
    printed
}

/// The two inputs, if there are two arguments that name readable files.
fn inputs(arguments: &[OsString]) -> Option<(Vec<u8>, Vec<u8>)> {
    let [document, patch] = arguments else {
        return None;
    };
    let document = beginning(Path::new(document)).ok()?;
    let patch = beginning(Path::new(patch)).ok()?;
    Some((document, patch))
}

/// As much of a file as the tool reads.
fn beginning(name: &Path) -> io::Result<Vec<u8>> {
    let mut bytes = Vec::new();
    File::open(name)?.take(TOOL_READS).read_to_end(&mut bytes)?;
    Ok(bytes)
}
