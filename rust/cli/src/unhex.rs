//! `json-patch unhex`.

use crate::arguments::Arguments;
use crate::command::{Command, Status, Takes, OUTPUT, PORCELAIN, QUIET};
use crate::files::{put, Target, Text};
use crate::hex::{file, refused};
use crate::trouble::Trouble;
use json_patch::hex::{read, MAX_TEXT};

/// The command.
pub const COMMAND: Command = Command {
    name: "unhex",
    operands: "[FILE]",
    summary: "write the bytes that Intel HEX stands for",
    details: "\
Reads Intel HEX, data records that follow on from address 0 and an end record,
and writes the bytes that it stands for, with nothing behind them. Without FILE,
or for -, standard input is read. A file that is written appears whole or not at
all.",
    options: &[OUTPUT, PORCELAIN, QUIET],
    example: "\
$ cat empty.hex
:030000007B7D0AFB
:00000001FF
$ json-patch unhex empty.hex
{}",
    takes: Takes::Files,
    run,
};

/// As much as is read. The longest text that is taken has 65,536 records of one
/// byte and the end record, 15 and 13 bytes a line; the longest record has 521.
/// So the first line that is wrong, and what is wrong with it, stands before this.
const MOST: usize = 1 << 20;
const _: () = assert!(MOST > 65_536 * 15 + 13 + 523);

fn run(arguments: &Arguments) -> Result<Status, Trouble> {
    let text = Text::read_at_most(file(&COMMAND, arguments)?, MOST)?;
    let mut output = vec![0; MAX_TEXT];
    match read(&text.bytes, &mut output) {
        Ok(length) => {
            put(&output[..length], Target::of(arguments.value("output"))).map(|()| Status::Done)
        }
        Err(refusal) => Ok(refused(arguments, &text, refusal)),
    }
}
