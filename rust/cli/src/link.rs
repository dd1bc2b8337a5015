//! `json-patch link`.

use crate::arguments::{wrong, Arguments};
use crate::command::{Command, Status, Takes, PORCELAIN, QUIET};
use crate::files::print;
use crate::report::{self, quoted, Words};
use crate::trouble::Trouble;
use json_patch::link::{write, Refused};
use std::os::unix::ffi::OsStrExt;

/// The command.
pub const COMMAND: Command = Command {
    name: "link",
    operands: "POINTER",
    summary: "print the web link of a pointer",
    details: "\
Prints a JSON Pointer as the fragment of a URI (RFC 6901, section 6): a # and
the pointer, in which a byte that a fragment cannot have is written as % and two
hexadecimal digits. The pointer is as a patch has it, with its ~0 and ~1; the
empty pointer is ''.",
    options: &[PORCELAIN, QUIET],
    example: "\
$ json-patch link /cut/c%d
#/cut/c%25d",
    takes: Takes::Text,
    run,
};

fn run(arguments: &Arguments) -> Result<Status, Trouble> {
    let [pointer] = &arguments.operands[..] else {
        return Err(wrong(&COMMAND, "link takes one pointer"));
    };
    let pointer = pointer.as_bytes();
    // A byte becomes three at most, and the # stands in front.
    let mut output = vec![0; 3 * pointer.len() + 1];
    match write(pointer, &mut output) {
        Ok(length) => {
            output.truncate(length);
            output.push(b'\n');
            print(&output).map(|()| Status::Done)
        }
        Err(refused) => {
            let hint = (refused == Refused::MalformedPointer).then(|| hint(pointer).to_string());
            let words = Words { name: quoted(pointer), fault: refused.meaning(), line: None, hint };
            Ok(report::other(arguments, refused.number(), 0, &words))
        }
    }
}

/// Why bytes are no pointer.
fn hint(pointer: &[u8]) -> &'static str {
    match std::str::from_utf8(pointer) {
        Err(_) => "a pointer is UTF-8",
        Ok(text) if !text.starts_with('/') => NO_SLASH,
        Ok(_) => BAD_TILDE,
    }
}

/// A pointer that begins with something else.
pub const NO_SLASH: &str = "a pointer is empty or begins with '/'";
/// A pointer with a tilde that is no escape.
pub const BAD_TILDE: &str = "a '~' has 0 or 1 after it";
