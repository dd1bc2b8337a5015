//! `json-patch merge`.

use crate::arguments::{wrong, Arguments};
use crate::command::{Command, Opt, Status, Takes, OUTPUT, PORCELAIN, QUIET};
use crate::files::{deliver, Target};
use crate::patches::Run;
use crate::report;
use crate::trouble::Trouble;

/// The command.
pub const COMMAND: Command = Command {
    name: "merge",
    operands: "DOCUMENT PATCH",
    summary: "apply a merge patch to a document",
    details: "\
Applies a JSON Merge Patch (RFC 7396, application/merge-patch+json) and writes
the result to standard output. A patch that is an object is merged member by
member, and a null member removes; any other patch replaces the whole document.
Members keep their position, and new ones go last. A file that is written
appears whole or not at all. The name - is standard input.

A JSON Patch (RFC 6902, application/json-patch+json) is for json-patch apply.",
    options: &[
        OUTPUT,
        Opt {
            short: Some('i'),
            long: "in-place",
            value: None,
            summary: "write the result to DOCUMENT",
        },
        PORCELAIN,
        QUIET,
    ],
    example: "\
$ cat pack.json
{\"mAh\":3000,\"cut\":[4.2,3.0]}
$ cat merge.json
{\"mAh\":3100,\"cut\":null,\"maker\":\"acme\"}
$ json-patch merge pack.json merge.json
{\"mAh\":3100,\"maker\":\"acme\"}",
    takes: Takes::Files,
    run,
};

fn run(arguments: &Arguments) -> Result<Status, Trouble> {
    if arguments.operands.len() > 2 {
        return Err(wrong(&COMMAND, "merge takes one patch"));
    }
    let run = Run::read(&COMMAND, arguments)?;
    let target = match (arguments.has("in-place"), arguments.value("output")) {
        (true, Some(_)) => {
            return Err(wrong(&COMMAND, "--in-place and --output exclude each other"));
        }
        (true, None) if run.document.name == "-" => {
            return Err(wrong(&COMMAND, "--in-place takes a file, not standard input"));
        }
        (true, None) => Target::File(&run.document.name),
        (false, output) => Target::of(output),
    };
    match run.merged() {
        Ok(text) => deliver(text, target).map(|()| Status::Done),
        Err(refused) => Ok(report::refusal(arguments, &run, &refused)),
    }
}
