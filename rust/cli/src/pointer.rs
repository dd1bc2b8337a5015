//! `json-patch pointer`.

use crate::arguments::{wrong, Arguments};
use crate::command::{Command, Status, Takes, PORCELAIN, QUIET};
use crate::files::print;
use crate::link::{BAD_TILDE, NO_SLASH};
use crate::report::{self, quoted, Words};
use crate::trouble::Trouble;
use json_patch::link::{read, Refused};
use std::os::unix::ffi::OsStrExt;

/// The command.
pub const COMMAND: Command = Command {
    name: "pointer",
    operands: "LINK",
    summary: "print the pointer that a web link names",
    details: "\
Prints the JSON Pointer of a link, which is a # and what follows it in a URI
(RFC 6901, section 6). The pointer is printed as a patch has it, with its ~0 and
~1. Put the link between quotation marks: a shell takes a bare # for a comment.",
    options: &[PORCELAIN, QUIET],
    example: "\
$ json-patch pointer '#/cut/c%25d'
/cut/c%d",
    takes: Takes::Text,
    run,
};

fn run(arguments: &Arguments) -> Result<Status, Trouble> {
    let link = match &arguments.operands[..] {
        [link] => link.as_bytes(),
        [] => {
            return Err(wrong(&COMMAND, "no link is given; a shell takes a bare # for a comment"))
        }
        _ => return Err(wrong(&COMMAND, "pointer takes one link")),
    };
    // The pointer is shorter than the link.
    let mut output = vec![0; link.len()];
    match read(link, &mut output) {
        Ok(length) => {
            output.truncate(length);
            output.push(b'\n');
            print(&output).map(|()| Status::Done)
        }
        Err(refused) => {
            let hint = match refused {
                Refused::BadLink => Some(no_link(link)),
                Refused::MalformedPointer => Some(no_pointer(link).to_string()),
                _ => None,
            };
            let words = Words { name: quoted(link), fault: refused.meaning(), line: None, hint };
            Ok(report::other(arguments, refused.number(), 0, &words))
        }
    }
}

/// Why bytes are no link.
fn no_link(link: &[u8]) -> String {
    let Some(mut rest) = link.strip_prefix(b"#") else {
        return "a link begins with '#'".to_string();
    };
    while let [first, after @ ..] = rest {
        rest = match (first, after) {
            (b'%', [a, b, after @ ..]) if a.is_ascii_hexdigit() && b.is_ascii_hexdigit() => after,
            (b'%', _) => return "a '%' has two hexadecimal digits after it".to_string(),
            // The library says which bytes stand for themselves.
            (&byte, _) if read(&[b'#', b'/', byte], &mut [0; 2]) == Err(Refused::BadLink) => {
                return format!("the byte {byte:02X} is written as %{byte:02X}");
            }
            _ => after,
        };
    }
    "what its percents stand for is not UTF-8".to_string()
}

/// Why a link names no pointer.
fn no_pointer(link: &[u8]) -> &'static str {
    match link {
        [b'#', b'/', ..] | [b'#', b'%', b'2', b'F' | b'f', ..] => BAD_TILDE,
        _ => NO_SLASH,
    }
}
