//! Cases with a region, and files of them.
//!
//! In a file, a case is a header line `case NAME ROOM DOCLEN PATCHLEN REGIONLEN`,
//! then the document's bytes, a newline, the patch's bytes, a newline, the
//! region's bytes, a newline.

use super::apply;
use crate::line;

/// One case: two texts, a region and the room for the output.
#[derive(Clone, Debug, PartialEq, Eq)]
pub struct Case {
    /// A name without blanks.
    pub name: String,
    /// The length of the output.
    pub room: usize,
    /// The document's text.
    pub document: Vec<u8>,
    /// The patch's text.
    pub patch: Vec<u8>,
    /// The region.
    pub region: Vec<u8>,
}

impl Case {
    /// The line that this program answers, in the case's own room.
    pub fn line(&self) -> Vec<u8> {
        line(&apply(&self.document, &self.patch, &self.region, self.room))
    }

    /// The case as it stands in a file.
    pub fn file(&self) -> Vec<u8> {
        let Case { name, room, document, patch, region } = self;
        let lengths = [document.len(), patch.len(), region.len()].map(|n| n.to_string()).join(" ");
        let header = format!("case {name} {room} {lengths}\n");
        [header.as_bytes(), document, b"\n", patch, b"\n", region, b"\n"].concat()
    }
}

/// Reads a file of cases; a message says what is wrong with one that is none.
pub fn parse(file: &[u8]) -> Result<Vec<Case>, String> {
    let mut cases = Vec::new();
    let mut rest = file;
    while !rest.is_empty() {
        let (case, after) =
            first(rest).ok_or_else(|| format!("no case at byte {}", file.len() - rest.len()))?;
        cases.push(case);
        rest = after;
    }
    Ok(cases)
}

/// The first case, and what follows it.
fn first(file: &[u8]) -> Option<(Case, &[u8])> {
    let end = file.iter().position(|&byte| byte == b'\n')?;
    let header = std::str::from_utf8(&file[..end]).ok()?;
    let words: Vec<&str> = header.split(' ').collect();
    let ["case", name, room, document, patch, region] = words[..] else {
        return None;
    };
    let (document, rest) = block(&file[end + 1..], document)?;
    let (patch, rest) = block(rest, patch)?;
    let (region, rest) = block(rest, region)?;
    let case = Case { name: name.to_string(), room: room.parse().ok()?, document, patch, region };
    Some((case, rest))
}

/// As many bytes as said, and what follows the newline after them.
fn block<'a>(file: &'a [u8], length: &str) -> Option<(Vec<u8>, &'a [u8])> {
    let length = length.parse().ok()?;
    if *file.get(length)? != b'\n' {
        return None;
    }
    Some((file[..length].to_vec(), &file[length + 1..]))
}
