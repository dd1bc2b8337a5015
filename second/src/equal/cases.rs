//! Cases of two texts to compare, and files of them.
//!
//! In a file, a case is a header line `case NAME RUBBISH FIRSTLEN SECONDLEN`, then
//! the first text's bytes, a newline, the second text's bytes, a newline. RUBBISH
//! is what each number of the work area is before the call; no answer depends on
//! it.

use super::{compare, said};

/// One case.
#[derive(Clone, Debug, PartialEq, Eq)]
pub struct Case {
    /// A name without blanks.
    pub name: String,
    /// What the work area holds before.
    pub rubbish: u16,
    /// The first text.
    pub first: Vec<u8>,
    /// The second text.
    pub second: Vec<u8>,
}

impl Case {
    /// The line that this program answers.
    pub fn line(&self) -> Vec<u8> {
        said(&compare(&self.first, &self.second))
    }

    /// The case as it stands in a file.
    pub fn file(&self) -> Vec<u8> {
        let Case { name, rubbish, first, second } = self;
        let header = format!("case {name} {rubbish} {} {}\n", first.len(), second.len());
        [header.as_bytes(), first, b"\n", second, b"\n"].concat()
    }
}

/// Reads a file of cases; a message says what is wrong with one that is none.
pub fn parse(file: &[u8]) -> Result<Vec<Case>, String> {
    let mut cases = Vec::new();
    let mut rest = file;
    while !rest.is_empty() {
        let (case, after) =
            first(rest).ok_or_else(|| format!("no case at byte {}", file.len() - rest.len()))?;
        cases.push(case);
        rest = after;
    }
    Ok(cases)
}

/// The first case, and what follows it.
fn first(file: &[u8]) -> Option<(Case, &[u8])> {
    let end = file.iter().position(|&byte| byte == b'\n')?;
    let header = std::str::from_utf8(&file[..end]).ok()?;
    let words: Vec<&str> = header.split(' ').collect();
    let ["case", name, rubbish, first, second] = words[..] else {
        return None;
    };
    let (first, rest) = block(&file[end + 1..], first)?;
    let (second, rest) = block(rest, second)?;
    Some((Case { name: name.to_string(), rubbish: rubbish.parse().ok()?, first, second }, rest))
}

/// As many bytes as said, and what follows the newline after them.
fn block<'a>(file: &'a [u8], length: &str) -> Option<(Vec<u8>, &'a [u8])> {
    let length = length.parse().ok()?;
    if *file.get(length)? != b'\n' {
        return None;
    }
    Some((file[..length].to_vec(), &file[length + 1..]))
}
