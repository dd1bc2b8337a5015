//! `json-patch inspect`.

use crate::arguments::{wrong, Arguments};
use crate::command::{Command, Status, Takes, PORCELAIN, QUIET};
use crate::files::{print, Name, Text};
use crate::report;
use crate::trouble::Trouble;
use json_patch::inspect::inspect;
use json_patch::Work;

/// The command.
pub const COMMAND: Command = Command {
    name: "inspect",
    operands: "PATCH...",
    summary: "say what operations patches have",
    details: "\
Reads each patch and judges its shape, without a document, and prints a line:
how many operations of each kind it has, and how many in all. A patch that is
refused has no line, and the others have theirs. The name - is standard input.",
    options: &[PORCELAIN, QUIET],
    example: "\
$ json-patch inspect fix.json
fix.json: add 1 remove 0 replace 0 move 0 copy 0 test 1 ops 2",
    takes: Takes::Files,
    run,
};

fn run(arguments: &Arguments) -> Result<Status, Trouble> {
    if arguments.operands.is_empty() {
        return Err(wrong(&COMMAND, "no patch is given"));
    }
    if arguments.operands.iter().filter(|name| *name == "-").count() > 1 {
        return Err(wrong(&COMMAND, "standard input can be read only once"));
    }
    let mut work = Work::new();
    let mut status = Status::Done;
    for name in &arguments.operands {
        let patch = Text::read(name)?;
        match inspect(&patch.bytes, &mut work) {
            Ok(counts) => {
                let line = format!(
                    "{}: add {} remove {} replace {} move {} copy {} test {} ops {}\n",
                    Name(name),
                    counts.adds,
                    counts.removes,
                    counts.replaces,
                    counts.moves,
                    counts.copies,
                    counts.tests,
                    counts.operations()
                );
                print(line.as_bytes())?;
            }
            Err(refusal) => status = report::of_patch(arguments, &patch, &refusal),
        }
    }
    Ok(status)
}
