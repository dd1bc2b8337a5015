//! `json-patch apply`.

use crate::arguments::{wrong, Arguments};
use crate::command::{Command, Opt, Status, Takes, OUTPUT, PORCELAIN, QUIET, REGION};
use crate::files::{deliver, deliver_with_undo, Target, Undo};
use crate::patches::Run;
use crate::report;
use crate::trouble::Trouble;

/// The command.
pub const COMMAND: Command = Command {
    name: "apply",
    operands: "DOCUMENT PATCH...",
    summary: "apply patches to a document",
    details: "\
Applies each JSON Patch to the text that the one before left, and writes the
result to standard output. Either all patches are applied or none is. A file
that is written appears whole or not at all; its permissions stay, and a
symbolic link is followed. The name - is standard input. With --undo a patch is
written too that takes all of them back; its file appears before the document
does, and is never one that is there already.

With --region each patch must be one that a pack maker may send: only test,
replace and add, a test first, and every path inside the region, which is a
JSON Pointer, and not the region itself. '' is the whole document. An undo need
not be such a patch: apply it without --region.",
    options: &[
        OUTPUT,
        Opt {
            short: Some('i'),
            long: "in-place",
            value: None,
            summary: "write the result to DOCUMENT",
        },
        REGION,
        Opt {
            short: None,
            long: "undo",
            value: Some("FILE"),
            summary: "write what takes it back to FILE, a new file",
        },
        PORCELAIN,
        QUIET,
    ],
    example: "\
$ cat pack.json
{\"mAh\":3000,\"cut\":[4.2,3.0]}
$ cat fix.json
[{\"op\":\"test\",\"path\":\"/mAh\",\"value\":3e3},
 {\"op\":\"add\",\"path\":\"/cut/-\",\"value\":2.8}]
$ json-patch apply pack.json fix.json
{\"mAh\":3000,\"cut\":[4.2,3.0,2.8]}",
    takes: Takes::Files,
    run,
};

fn run(arguments: &Arguments) -> Result<Status, Trouble> {
    let run = Run::read(&COMMAND, arguments)?;
    let target = match (arguments.has("in-place"), arguments.value("output")) {
        (true, Some(_)) => {
            return Err(wrong(&COMMAND, "--in-place and --output exclude each other"));
        }
        (true, None) if run.document.name == "-" => {
            return Err(wrong(&COMMAND, "--in-place takes a file, not standard input"));
        }
        (true, None) => Target::File(&run.document.name),
        (false, output) => Target::of(output),
    };
    let Some(name) = arguments.value("undo") else {
        return match run.result() {
            Ok(text) => deliver(text, target).map(|()| Status::Done),
            Err(refused) => Ok(report::refusal(arguments, &run, &refused)),
        };
    };
    if name == "-" {
        return Err(wrong(&COMMAND, "--undo takes a file, not standard output"));
    }
    match run.result_with_undo() {
        Ok((text, undo)) => {
            let undo = Undo { text: undo, name, mode: Undo::mode_for(&run.document.name) };
            deliver_with_undo(text, target, undo).map(|()| Status::Done)
        }
        Err(refused) => Ok(report::refusal(arguments, &run, &refused)),
    }
}
