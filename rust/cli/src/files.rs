//! Texts read from files and results written to them.

use crate::replace::{anew, ready, replace, Made};
use crate::trouble::Trouble;
use json_patch::MAX_BYTES;
use std::ffi::{OsStr, OsString};
use std::fmt::{self, Write as _};
use std::fs::{self, File};
use std::io::{self, Read, Write};
use std::os::fd::AsFd;
use std::os::unix::fs::PermissionsExt;
use std::path::Path;

/// The name of a file as it is said to a person; `-` is standard input. What a
/// terminal would obey is escaped, and so is a byte that is not UTF-8.
#[derive(Clone, Copy)]
pub struct Name<'a>(pub &'a OsStr);

impl fmt::Display for Name<'_> {
    fn fmt(&self, f: &mut fmt::Formatter) -> fmt::Result {
        if self.0 == "-" {
            return f.write_str("standard input");
        }
        for chunk in self.0.as_encoded_bytes().utf8_chunks() {
            for c in chunk.valid().chars() {
                match c {
                    '\u{61c}' | '\u{200b}'..='\u{200f}' | '\u{2028}'..='\u{202e}' => {
                        write!(f, "{}", c.escape_unicode())?
                    }
                    '\u{2060}'..='\u{2069}' | '\u{feff}' => write!(f, "{}", c.escape_unicode())?,
                    c if c.is_control() => write!(f, "{}", c.escape_default())?,
                    c => f.write_char(c)?,
                }
            }
            for byte in chunk.invalid() {
                write!(f, "\\x{byte:02x}")?;
            }
        }
        Ok(())
    }
}

/// A text and where it was read.
#[derive(Debug)]
pub struct Text {
    /// The file's name, as it was given.
    pub name: OsString,
    /// As much of it as was asked for.
    pub bytes: Vec<u8>,
}

impl Text {
    /// Reads a document or a patch: as much as tells whether it is too long.
    pub fn read(name: &OsStr) -> Result<Self, Trouble> {
        Text::read_at_most(name, MAX_BYTES + 1)
    }

    /// Reads a file, or standard input for `-`, up to so many bytes.
    pub fn read_at_most(name: &OsStr, most: usize) -> Result<Self, Trouble> {
        let mut bytes = Vec::new();
        let most = most as u64;
        let read = match name.as_encoded_bytes() {
            b"-" => io::stdin().lock().take(most).read_to_end(&mut bytes),
            _ => File::open(name).and_then(|file| file.take(most).read_to_end(&mut bytes)),
        };
        match read {
            Ok(_) => Ok(Text { name: name.to_owned(), bytes }),
            Err(reason) => Err(Trouble::file(name, reason)),
        }
    }
}

/// Where a result goes.
#[derive(Clone, Copy, Debug)]
pub enum Target<'a> {
    /// Standard output.
    Standard,
    /// A file, whole or not at all.
    File(&'a OsStr),
}

impl<'a> Target<'a> {
    /// What `--output` was given; nothing and `-` are standard output.
    pub fn of(output: Option<&'a OsStr>) -> Self {
        match output {
            Some(name) if name != "-" => Target::File(name),
            _ => Target::Standard,
        }
    }
}

/// Writes a result and the newline behind it. A text of just the length that can
/// be read again gets no newline, which would make it too long.
pub fn deliver(text: Vec<u8>, target: Target) -> Result<(), Trouble> {
    put(&ended(text), target)
}

fn ended(mut text: Vec<u8>) -> Vec<u8> {
    if text.len() != MAX_BYTES {
        text.push(b'\n');
    }
    text
}

/// A patch that takes a result back, the new file that it goes to, and the
/// permissions of that.
pub struct Undo<'a> {
    /// The patch.
    pub text: Vec<u8>,
    /// The file's name.
    pub name: &'a OsStr,
    /// The permissions, less what the user's mask takes.
    pub mode: u32,
}

impl Undo<'_> {
    /// The permissions of an undo: it holds old values, so no one may read it who may
    /// not read the document.
    pub fn mode_for(document: &OsStr) -> u32 {
        let of_document = fs::metadata(document).ok().filter(|it| it.is_file());
        of_document.map_or(0o666, |it| it.permissions().mode() & 0o666 | 0o600)
    }

    /// Writes it alone.
    pub fn deliver(self) -> Result<(), Trouble> {
        let Undo { text, name, mode } = self;
        let made = anew(Path::new(name), &ended(text), mode).and_then(|new| new.appear());
        made.map(|_| ()).map_err(|reason| Trouble::file(name, reason))
    }
}

/// Writes a result, and its undo to a file of its own that must not be there yet.
/// Each appears whole or not at all, and the undo first: whatever comes between,
/// there is no new document without its undo. Where the document cannot be written,
/// the undo goes again.
pub fn deliver_with_undo(text: Vec<u8>, target: Target, undo: Undo) -> Result<(), Trouble> {
    let (text, patch) = (ended(text), ended(undo.text));
    let of_undo = |reason| Trouble::file(undo.name, reason);
    let new = anew(Path::new(undo.name), &patch, undo.mode).map_err(of_undo)?;
    let back = |made: Made, trouble| {
        made.take_away();
        trouble
    };
    let Target::File(name) = target else {
        let made = new.appear().map_err(of_undo)?;
        return print(&text).map_err(|trouble| back(made, trouble));
    };
    let of_target = |reason| Trouble::file(name, reason);
    let ready = ready(Path::new(name), &text).map_err(of_target)?;
    let made = new.appear().map_err(of_undo)?;
    if made.is(Path::new(name)) {
        let words = format!("the document and its undo are both {}", Name(name));
        return Err(back(made, Trouble::usage(words)));
    }
    match ready.appear() {
        Ok(appeared) => appeared.sync().map_err(of_target),
        Err(reason) => Err(back(made, of_target(reason))),
    }
}

/// Writes bytes as they are.
pub fn put(bytes: &[u8], target: Target) -> Result<(), Trouble> {
    match target {
        Target::Standard => print(bytes),
        Target::File(name) => {
            replace(Path::new(name), bytes).map_err(|reason| Trouble::file(name, reason))
        }
    }
}

/// Writes to standard output.
pub fn print(bytes: &[u8]) -> Result<(), Trouble> {
    // A file of its own: the handle of the standard library hides some errors.
    let output = io::stdout().as_fd().try_clone_to_owned().map(File::from);
    output.and_then(|mut output| output.write_all(bytes)).map_err(Trouble::Output)
}
