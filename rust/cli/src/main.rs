//! The command `json-patch`: patches applied to files, texts compared, pointers
//! as web links, texts as Intel HEX.
//!
//! The work is the library's. This crate reads files, writes the result so that
//! it appears whole or not at all, and puts refusals into words. A subcommand is
//! one module with a [`Command`] in it, and one entry in [`COMMANDS`].

mod apply;
mod arguments;
mod check;
mod command;
mod completion;
mod equal;
mod files;
mod found;
mod help;
mod hex;
mod inspect;
mod link;
mod merge;
mod origins;
mod patches;
mod pointer;
mod replace;
mod report;
mod trouble;
mod undo;
mod unhex;

use command::{Command, Status};
use std::env;
use std::ffi::OsString;
use std::process::ExitCode;
use trouble::Trouble;

/// The subcommands, in the order in which they are listed.
pub const COMMANDS: &[&Command] = &[
    &apply::COMMAND,
    &check::COMMAND,
    &undo::COMMAND,
    &merge::COMMAND,
    &origins::COMMAND,
    &inspect::COMMAND,
    &equal::COMMAND,
    &link::COMMAND,
    &pointer::COMMAND,
    &hex::COMMAND,
    &unhex::COMMAND,
    &completion::COMMAND,
];

fn main() -> ExitCode {
    let words: Vec<OsString> = env::args_os().skip(1).collect();
    match run(&words) {
        Ok(Status::Done) => ExitCode::SUCCESS,
        Ok(Status::Refused | Status::Different) => ExitCode::from(1),
        Ok(Status::Unread) => ExitCode::from(2),
        Err(trouble) => {
            report::trouble(&trouble);
            ExitCode::from(2)
        }
    }
}

/// Runs the command line: a subcommand, or what is asked for in place of one.
fn run(words: &[OsString]) -> Result<Status, Trouble> {
    let Some((first, rest)) = words.split_first() else {
        return Err(Trouble::usage("no command is given"));
    };
    match first.to_str() {
        Some("-h" | "--help") => help::print(&help::overview()),
        Some("-V" | "--version") => {
            help::print(&format!("json-patch {}\n", env!("CARGO_PKG_VERSION")))
        }
        Some("help") => match rest {
            [] => help::print(&help::overview()),
            [name] if name == "-h" || name == "--help" => help::print(&help::overview()),
            [name] => help::print(&help::of(find(name)?)),
            _ => Err(Trouble::usage("help takes one command")),
        },
        _ => {
            let command = find(first)?;
            match arguments::parse(command, rest)? {
                None => help::print(&help::of(command)),
                Some(arguments) => (command.run)(&arguments),
            }
        }
    }
}

/// The subcommand so named.
fn find(name: &OsString) -> Result<&'static Command, Trouble> {
    let found = COMMANDS.iter().find(|command| *name == *command.name);
    found.copied().ok_or_else(|| {
        let kind = if name.as_encoded_bytes().starts_with(b"-") { "option" } else { "command" };
        Trouble::usage(format!("unknown {kind}: {}", files::Name(name)))
    })
}
