//! Cases of Intel HEX, and files of them.
//!
//! A case is a text that is put to both calls: written as Intel HEX, and taken
//! for Intel HEX and read. In a file it is a header line
//! `case NAME ROOM LENGTH`, then the text's bytes, a newline.

use super::{read, write, Refusal};

/// One case: a text and the room for the output.
#[derive(Clone, Debug, PartialEq, Eq)]
pub struct Case {
    /// A name without blanks.
    pub name: String,
    /// The length of the output.
    pub room: usize,
    /// The text.
    pub text: Vec<u8>,
}

impl Case {
    /// The two lines that this program answers.
    pub fn lines(&self) -> Vec<u8> {
        let written = line(write(&self.text, self.room));
        let read = line(read(&self.text, self.room));
        [
            self.name.as_bytes(),
            b" written: ",
            &written,
            b"\n",
            self.name.as_bytes(),
            b" read: ",
            &read,
            b"\n",
        ]
        .concat()
    }

    /// The case as it stands in a file.
    pub fn file(&self) -> Vec<u8> {
        let Case { name, room, text } = self;
        let header = format!("case {name} {room} {}\n", text.len());
        [header.as_bytes(), text, b"\n"].concat()
    }
}

/// The text, or `refused`, the number and the place.
pub fn line(answer: Result<Vec<u8>, Refusal>) -> Vec<u8> {
    answer.unwrap_or_else(|(number, place)| format!("refused {number} place {place}").into_bytes())
}

/// Reads a file of cases; a message says what is wrong with one that is none.
pub fn parse(file: &[u8]) -> Result<Vec<Case>, String> {
    let mut cases = Vec::new();
    let mut rest = file;
    while !rest.is_empty() {
        let (case, after) =
            first(rest).ok_or_else(|| format!("no case at byte {}", file.len() - rest.len()))?;
        cases.push(case);
        rest = after;
    }
    Ok(cases)
}

/// The first case, and what follows it.
fn first(file: &[u8]) -> Option<(Case, &[u8])> {
    let end = file.iter().position(|&byte| byte == b'\n')?;
    let header = std::str::from_utf8(&file[..end]).ok()?;
    let words: Vec<&str> = header.split(' ').collect();
    let ["case", name, room, length] = words[..] else {
        return None;
    };
    let (rest, length) = (&file[end + 1..], length.parse::<usize>().ok()?);
    if *rest.get(length)? != b'\n' {
        return None;
    }
    let case =
        Case { name: name.to_string(), room: room.parse().ok()?, text: rest[..length].to_vec() };
    Some((case, &rest[length + 1..]))
}
