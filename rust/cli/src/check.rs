//! `json-patch check`.

use crate::arguments::Arguments;
use crate::command::{Command, Status, Takes, PORCELAIN, QUIET, REGION};
use crate::files::{print, Name};
use crate::patches::Run;
use crate::report;
use crate::trouble::Trouble;
use json_patch::elements;

/// The command.
pub const COMMAND: Command = Command {
    name: "check",
    operands: "DOCUMENT PATCH...",
    summary: "say whether patches would apply",
    details: "\
Does what apply does, and writes no result: each patch is tried on the text
that the one before left. Prints a line for each patch where all of them apply.
The name - is standard input.",
    options: &[REGION, PORCELAIN, QUIET],
    example: "\
$ json-patch check pack.json fix.json
fix.json: 2 operations apply to pack.json",
    takes: Takes::Files,
    run,
};

fn run(arguments: &Arguments) -> Result<Status, Trouble> {
    let run = Run::read(&COMMAND, arguments)?;
    if let Err(refused) = run.result() {
        return Ok(report::refusal(arguments, &run, &refused));
    }
    if !arguments.has("quiet") && !arguments.has("porcelain") {
        let mut lines = String::new();
        for (index, patch) in run.patches.iter().enumerate() {
            let operations = match elements(&patch.bytes).count() {
                1 => "1 operation applies".to_string(),
                count => format!("{count} operations apply"),
            };
            let (name, to) = (Name(&patch.name), run.document_at(index));
            lines += &format!("{name}: {operations} to {to}\n");
        }
        print(lines.as_bytes())?;
    }
    Ok(Status::Done)
}
