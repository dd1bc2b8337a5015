//! Cases of calls that list origins, and files of them.
//!
//! In a file, a case is a header line
//! `CALL NAME ROOM UNDOROOM LIST DOCLEN PATCHLEN REGIONLEN`, then the document's bytes,
//! a newline, the patch's bytes, a newline, the region's bytes, a newline. CALL is
//! `apply`, `within`, `merge` or `undo`; UNDOROOM is 0 but for `undo`, and the region is
//! empty but for `within`.

use super::{apply, apply_with_undo, apply_within, merge, Lent, Listed};
use crate::line;

/// Which call a case is put to.
#[derive(Clone, Copy, Debug, PartialEq, Eq, PartialOrd, Ord)]
pub enum Call {
    /// The plain call.
    Apply,
    /// The call with a region.
    Within,
    /// The call for merge patches.
    Merge,
    /// The call with an undo.
    Undo,
}

/// The calls and the word of each in a file.
pub const CALLS: [(Call, &str); 4] = [
    (Call::Apply, "apply"),
    (Call::Within, "within"),
    (Call::Merge, "merge"),
    (Call::Undo, "undo"),
];

/// One case.
#[derive(Clone, Debug, PartialEq, Eq)]
pub struct Case {
    /// The call.
    pub call: Call,
    /// A name without blanks.
    pub name: String,
    /// The lengths of the output and of the list.
    pub lent: Lent,
    /// The length of the output for the undo, 0 where the call has none.
    pub undo_room: usize,
    /// The document's text.
    pub document: Vec<u8>,
    /// The patch's text.
    pub patch: Vec<u8>,
    /// The region, empty where the call has none.
    pub region: Vec<u8>,
}

impl Case {
    /// What this program answers.
    pub fn answer(&self) -> Listed {
        let Case { lent, document, patch, .. } = self;
        match self.call {
            Call::Apply => apply(document, patch, *lent),
            Call::Within => apply_within(document, patch, &self.region, *lent),
            Call::Merge => merge(document, patch, *lent),
            Call::Undo => apply_with_undo(document, patch, *lent, self.undo_room),
        }
    }

    /// The lines of what this program answers: the refusal; or the written text, the
    /// undo where the call has one, and the origins.
    pub fn lines(&self) -> Vec<u8> {
        let Listed { answer, undo, origins } = self.answer();
        let named = |what: &str, line: &[u8]| {
            [self.name.as_bytes(), what.as_bytes(), b": ", line, b"\n"].concat()
        };
        let mut lines = named("", &line(&answer));
        if answer.number != 0 {
            return lines;
        }
        if self.call == Call::Undo {
            lines.extend(named(" undo", &undo));
        }
        lines.extend(named(" origins", said(&origins).as_bytes()));
        lines
    }

    /// The case as it stands in a file.
    pub fn file(&self) -> Vec<u8> {
        let Case { call, name, lent, undo_room, document, patch, region } = self;
        let word = CALLS.iter().find(|(it, _)| it == call).map_or("", |(_, word)| word);
        let Lent { room, list } = lent;
        let lengths = [document.len(), patch.len(), region.len()].map(|n| n.to_string()).join(" ");
        let header = format!("{word} {name} {room} {undo_room} {list} {lengths}\n");
        [header.as_bytes(), document, b"\n", patch, b"\n", region, b"\n"].concat()
    }
}

/// A list as it is printed.
pub fn said(origins: &[u16]) -> String {
    origins.iter().map(u16::to_string).collect::<Vec<_>>().join(" ")
}

/// Reads a file of cases; a message says what is wrong with one that is none.
pub fn parse(file: &[u8]) -> Result<Vec<Case>, String> {
    let mut cases = Vec::new();
    let mut rest = file;
    while !rest.is_empty() {
        let (case, after) =
            first(rest).ok_or_else(|| format!("no case at byte {}", file.len() - rest.len()))?;
        cases.push(case);
        rest = after;
    }
    Ok(cases)
}

/// The first case, and what follows it.
fn first(file: &[u8]) -> Option<(Case, &[u8])> {
    let end = file.iter().position(|&byte| byte == b'\n')?;
    let header = std::str::from_utf8(&file[..end]).ok()?;
    let words: Vec<&str> = header.split(' ').collect();
    let [word, name, room, undo_room, list, document, patch, region] = words[..] else {
        return None;
    };
    let &(call, _) = CALLS.iter().find(|(_, it)| *it == word)?;
    let (document, rest) = block(&file[end + 1..], document)?;
    let (patch, rest) = block(rest, patch)?;
    let (region, rest) = block(rest, region)?;
    let lent = Lent { room: room.parse().ok()?, list: list.parse().ok()? };
    let (name, undo_room) = (name.to_string(), undo_room.parse().ok()?);
    Some((Case { call, name, lent, undo_room, document, patch, region }, rest))
}

/// As many bytes as said, and what follows the newline after them.
fn block<'a>(file: &'a [u8], length: &str) -> Option<(Vec<u8>, &'a [u8])> {
    let length = length.parse().ok()?;
    if *file.get(length)? != b'\n' {
        return None;
    }
    Some((file[..length].to_vec(), &file[length + 1..]))
}
