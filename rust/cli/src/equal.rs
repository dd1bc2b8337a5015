//! `json-patch equal`.

use crate::arguments::{wrong, Arguments};
use crate::command::{Command, Opt, Status, Takes, PORCELAIN, QUIET};
use crate::files::{print, Text};
use crate::report;
use crate::trouble::Trouble;
use json_patch::compare::compare;
use json_patch::Work;

/// The command.
pub const COMMAND: Command = Command {
    name: "equal",
    operands: "FIRST SECOND",
    summary: "say whether two texts have equal values",
    details: "\
Compares two JSON texts as a test in a patch does: numbers by exact value,
strings by their unescaped text, members in any order. Prints nothing; the exit
status tells, as that of cmp: 0 where they are equal, 1 where they differ, 2
where a text is refused or cannot be read. The name - is standard input.",
    options: &[
        Opt {
            short: Some('c'),
            long: "count",
            value: None,
            summary: "print the verdict, and how many names were compared",
        },
        PORCELAIN,
        QUIET,
    ],
    example: "\
$ cat tidy.json
{\"cut\":[4.20,3],\"mAh\":3e3}
$ json-patch equal --count pack.json tidy.json
equal 3",
    takes: Takes::Files,
    run,
};

fn run(arguments: &Arguments) -> Result<Status, Trouble> {
    let [first, second] = &arguments.operands[..] else {
        return Err(wrong(&COMMAND, "two texts are needed"));
    };
    if first == "-" && second == "-" {
        return Err(wrong(&COMMAND, "standard input can be read only once"));
    }
    let (first, second) = (Text::read(first)?, Text::read(second)?);
    match compare(&first.bytes, &second.bytes, &mut Work::new()) {
        Ok(found) => {
            let (status, verdict) = match found.equal {
                true => (Status::Done, "equal"),
                false => (Status::Different, "different"),
            };
            if arguments.has("count") {
                print(format!("{verdict} {}\n", found.names).as_bytes())?;
            }
            Ok(status)
        }
        Err(refusal) => Ok(report::of_texts(arguments, &first, &second, &refusal)),
    }
}
