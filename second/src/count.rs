//! A count over patch files, whose names stand one a line: SPECIFICATION 14, T-12.

pub mod cases;

use crate::limits::{LONGEST_NAME, LONGEST_TEXT, MOST_NAMES, TOOL_READS};
use crate::patch::Operation;
use crate::refusals::TOO_LONG;
use crate::{generate, patch, reader};
use std::ffi::OsStr;
use std::fmt;
use std::fs::{self, File};
use std::io::{self, Read, Write};
use std::ops::AddAssign;
use std::os::unix::ffi::OsStrExt;
use std::path::Path;

/// The six operations, in the order of the line.
const WORDS: [&str; 6] = ["add", "remove", "replace", "move", "copy", "test"];

/// What a patch comes to without a document.
#[derive(Clone, Copy, Debug, PartialEq, Eq)]
pub enum Inspection {
    /// How many there are of each operation.
    Counts([u64; 6]),
    /// The refusal: number, text, op and place.
    Refused(u32, u32, u32, usize),
}

/// Reads and shapes a patch.
pub fn inspect(text: &[u8]) -> Inspection {
    if text.len() > LONGEST_TEXT {
        return Inspection::Refused(TOO_LONG, 2, 0, 0);
    }
    let value = match reader::read(text) {
        Ok(value) => value,
        Err(refused) => return Inspection::Refused(refused.number, 2, 0, refused.place),
    };
    match patch::shape(&value) {
        Ok(operations) => Inspection::Counts(counts(&operations)),
        Err(refused) => Inspection::Refused(refused.number, 0, refused.op, 0),
    }
}

fn counts(operations: &[Operation]) -> [u64; 6] {
    let mut counts = [0; 6];
    for operation in operations {
        counts[match operation {
            Operation::Add { .. } => 0,
            Operation::Remove { .. } => 1,
            Operation::Replace { .. } => 2,
            Operation::Move { .. } => 3,
            Operation::Copy { .. } => 4,
            Operation::Test { .. } => 5,
        }] += 1;
    }
    counts
}

impl fmt::Display for Inspection {
    fn fmt(&self, f: &mut fmt::Formatter) -> fmt::Result {
        match self {
            Inspection::Counts(counts) => {
                for (word, count) in WORDS.iter().zip(counts) {
                    write!(f, "{word} {count} ")?;
                }
                write!(f, "ops {}", counts.iter().sum::<u64>())
            }
            Inspection::Refused(number, text, op, place) => {
                write!(f, "refused {number} text {text} op {op} place {place}")
            }
        }
    }
}

/// The sums of a list, field by field.
#[derive(Clone, Copy, Debug, Default, PartialEq, Eq)]
pub struct Tally {
    /// All files.
    pub patches: u64,
    /// Those that are refused or unreadable.
    pub refused: u64,
    /// The operations of the others.
    pub counts: [u64; 6],
}

impl AddAssign for Tally {
    fn add_assign(&mut self, other: Tally) {
        self.patches += other.patches;
        self.refused += other.refused;
        for (sum, count) in self.counts.iter_mut().zip(other.counts) {
            *sum += count;
        }
    }
}

impl fmt::Display for Tally {
    fn fmt(&self, f: &mut fmt::Formatter) -> fmt::Result {
        write!(f, "patches {} refused {} ", self.patches, self.refused)?;
        write!(f, "{} ", Inspection::Counts(self.counts))?;
        write!(f, "over {}", self.patches - self.refused)
    }
}

/// One file.
fn file(name: &[u8]) -> Tally {
    match contents(name).map(|text| inspect(&text)) {
        Ok(Inspection::Counts(counts)) => Tally { patches: 1, refused: 0, counts },
        _ => Tally { patches: 1, refused: 1, counts: [0; 6] },
    }
}

fn contents(name: &[u8]) -> io::Result<Vec<u8>> {
    if name.len() > LONGEST_NAME || name.contains(&0) {
        return Err(io::ErrorKind::InvalidFilename.into());
    }
    let mut text = Vec::new();
    File::open(OsStr::from_bytes(name))?.take(TOOL_READS).read_to_end(&mut text)?;
    Ok(text)
}

/// What is printed for a list of names, the newline included.
pub fn report(list: &[u8]) -> String {
    let names: Vec<&[u8]> = list.split(|&byte| byte == b'\n').filter(|n| !n.is_empty()).collect();
    if names.len() > MOST_NAMES {
        return "too long\n".to_string();
    }
    let mut tally = Tally::default();
    for name in names {
        tally += file(name);
    }
    format!("{tally}\n")
}

/// Writes the patches of generated cases to files in a folder, and the files'
/// names to `out`.
pub fn folder(seed: u64, count: u64, folder: &Path, out: &mut impl Write) -> io::Result<()> {
    for index in 0..count {
        let name = folder.join(format!("{index}.json"));
        fs::write(&name, &generate::case(seed, index).patch)?;
        out.write_all(name.as_os_str().as_bytes())?;
        out.write_all(b"\n")?;
    }
    Ok(())
}
