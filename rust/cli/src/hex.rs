//! `json-patch hex`.

use crate::arguments::{wrong, Arguments};
use crate::command::{Command, Status, Takes, OUTPUT, PORCELAIN, QUIET};
use crate::files::{put, Name, Target, Text};
use crate::report::{self, Words};
use crate::trouble::Trouble;
use json_patch::hex::{length, write, Reason, Refusal, MAX_TEXT};
use std::ffi::OsStr;

/// The command.
pub const COMMAND: Command = Command {
    name: "hex",
    operands: "[FILE]",
    summary: "write a file as Intel HEX",
    details: "\
Writes the bytes of FILE, at most 65,536, as Intel HEX: data records of 16 bytes
from address 0, then the end record, each on a line of its own. Without FILE, or
for -, standard input is read. A file that is written appears whole or not at
all.",
    options: &[OUTPUT, PORCELAIN, QUIET],
    example: "\
$ cat empty.json
{}
$ json-patch hex empty.json
:030000007B7D0AFB
:00000001FF",
    takes: Takes::Files,
    run,
};

fn run(arguments: &Arguments) -> Result<Status, Trouble> {
    let text = Text::read_at_most(file(&COMMAND, arguments)?, MAX_TEXT + 1)?;
    let mut output = vec![0; length(text.bytes.len())];
    match write(&text.bytes, &mut output) {
        Ok(length) => {
            put(&output[..length], Target::of(arguments.value("output"))).map(|()| Status::Done)
        }
        Err(refusal) => Ok(refused(arguments, &text, refusal)),
    }
}

/// The one file that a command was given, or standard input.
pub fn file<'a>(command: &Command, arguments: &'a Arguments) -> Result<&'a OsStr, Trouble> {
    match &arguments.operands[..] {
        [] => Ok(OsStr::new("-")),
        [name] => Ok(name),
        _ => Err(wrong(command, format!("{} takes one file", command.name))),
    }
}

/// Says why a text was refused: its line, where one is at fault.
pub fn refused(arguments: &Arguments, text: &Text, refusal: Refusal) -> Status {
    let Refusal { reason, line } = refusal;
    let mut lines = text.bytes.split_inclusive(|&byte| byte == b'\n');
    let shown = line.checked_sub(1).and_then(|index| lines.nth(index)).map(ended);
    let name = match line {
        0 => Name(&text.name).to_string(),
        _ => format!("{}:{line}", Name(&text.name)),
    };
    let fault = match (reason, shown) {
        (Reason::WrongEnd, None) => "no end record",
        (Reason::WrongEnd, Some(_)) => "a line after the end record",
        _ => reason.meaning(),
    };
    let hint = match (reason, shown) {
        (Reason::NotARecord, Some([b':', _, _, _, _, _, _, b'0', b'2'..=b'5', ..])) => {
            Some("only records of types 00 and 01 are read".to_string())
        }
        _ => None,
    };
    let words = Words { name, fault, line: shown.map(|shown| (line, shown)), hint };
    report::other(arguments, reason.number(), line, &words)
}

/// A line without its ending.
fn ended(line: &[u8]) -> &[u8] {
    let line = line.strip_suffix(b"\n").unwrap_or(line);
    line.strip_suffix(b"\r").unwrap_or(line)
}
