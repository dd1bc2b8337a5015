//! `json-patch origins`.

use crate::arguments::{wrong, Arguments};
use crate::command::{Command, Opt, Status, Takes, PORCELAIN, QUIET, REGION};
use crate::files::print;
use crate::patches::Run;
use crate::report;
use crate::trouble::Trouble;
use json_patch::origins::values;

/// The command.
pub const COMMAND: Command = Command {
    name: "origins",
    operands: "DOCUMENT PATCH",
    summary: "say which operation put each value there",
    details: "\
Does what apply does, and writes no result: prints a line for each value of it,
in the order in which they would be written. A line has the number of the
operation that put the value there, or 0 for a value from DOCUMENT; its JSON
Pointer, as a patch would have it; and the value itself, but for a container
that has others in it. A value that was moved keeps its number, and a container
keeps its own when something in it changes. The name - is standard input.

Operations are counted from 1, tests too. With --merge the patch is a JSON Merge
Patch, and all that it puts in has the number 1.",
    options: &[
        Opt {
            short: Some('c'),
            long: "changed",
            value: None,
            summary: "leave out the values from DOCUMENT",
        },
        Opt { short: None, long: "merge", value: None, summary: "take PATCH for a merge patch" },
        REGION,
        PORCELAIN,
        QUIET,
    ],
    example: "\
$ cat pack.json
{\"mAh\":3000,\"cut\":[4.2,3.0]}
$ cat fix.json
[{\"op\":\"test\",\"path\":\"/mAh\",\"value\":3e3},
 {\"op\":\"add\",\"path\":\"/cut/-\",\"value\":2.8}]
$ json-patch origins pack.json fix.json
0 \"\"
0 \"/mAh\" 3000
0 \"/cut\"
0 \"/cut/0\" 4.2
0 \"/cut/1\" 3.0
2 \"/cut/2\" 2.8",
    takes: Takes::Files,
    run,
};

fn run(arguments: &Arguments) -> Result<Status, Trouble> {
    if arguments.operands.len() > 2 {
        return Err(wrong(&COMMAND, "origins takes one patch"));
    }
    if arguments.has("merge") && arguments.has("region") {
        return Err(wrong(&COMMAND, "--merge and --region exclude each other"));
    }
    let run = Run::read(&COMMAND, arguments)?;
    match run.origins(arguments.has("merge")) {
        Ok((text, origins)) => {
            print(&lines(&text, &origins, arguments.has("changed"))).map(|()| Status::Done)
        }
        Err(refused) => Ok(report::refusal(arguments, &run, &refused)),
    }
}

/// A line for each value of a written text.
fn lines(text: &[u8], origins: &[u16], changed: bool) -> Vec<u8> {
    let mut lines = Vec::new();
    for (value, origin) in values(text).zip(origins).filter(|(_, &origin)| !changed || origin > 0) {
        lines.extend_from_slice(format!("{origin} {}", value.location.quoted()).as_bytes());
        if let Some(text) = value.text {
            lines.push(b' ');
            lines.extend_from_slice(text);
        }
        lines.push(b'\n');
    }
    lines
}
