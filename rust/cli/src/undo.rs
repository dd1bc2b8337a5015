//! `json-patch undo`.

use crate::arguments::Arguments;
use crate::command::{Command, Opt, Status, Takes, PORCELAIN, QUIET};
use crate::files::{deliver, Target, Undo};
use crate::patches::Run;
use crate::report;
use crate::trouble::Trouble;

/// The command.
pub const COMMAND: Command = Command {
    name: "undo",
    operands: "DOCUMENT PATCH...",
    summary: "print the patch that takes patches back",
    details: "\
DOCUMENT is the document as it was before the patches. Does what apply does, and
writes no result: prints a patch that, applied to the result, gives a document
equal to DOCUMENT; only the order of members may be another. Save it before
DOCUMENT changes, or let 'json-patch apply --undo FILE' write both. The name -
is standard input.",
    options: &[
        Opt {
            short: Some('o'),
            long: "output",
            value: Some("FILE"),
            summary: "write the patch to FILE, a new file",
        },
        PORCELAIN,
        QUIET,
    ],
    example: "\
$ json-patch undo pack.json fix.json
[{\"op\":\"remove\",\"path\":\"/cut/2\"}]",
    takes: Takes::Files,
    run,
};

fn run(arguments: &Arguments) -> Result<Status, Trouble> {
    let run = Run::read(&COMMAND, arguments)?;
    match run.result_with_undo() {
        Ok((_, text)) => match Target::of(arguments.value("output")) {
            Target::Standard => deliver(text, Target::Standard),
            Target::File(name) => {
                Undo { text, name, mode: Undo::mode_for(&run.document.name) }.deliver()
            }
        }
        .map(|()| Status::Done),
        Err(refused) => Ok(report::refusal(arguments, &run, &refused)),
    }
}
