//! Help, made of the table of commands.

use crate::command::{Command, Opt, Status};
use crate::files;
use crate::trouble::Trouble;
use crate::COMMANDS;

/// Prints help to standard output.
pub fn print(text: &str) -> Result<Status, Trouble> {
    files::print(text.as_bytes()).map(|()| Status::Done)
}

/// The help of the command as a whole.
pub fn overview() -> String {
    let mut commands = String::new();
    for Command { name, summary, .. } in COMMANDS {
        commands += &format!("  {name:<12} {summary}\n");
    }
    format!(
        "\
Usage: json-patch COMMAND [OPTION]... [OPERAND]...

JSON Patch (RFC 6902), applied by a library that is proved, and taken back;
pointers as web links, and texts as Intel HEX.

Commands:
{commands}  {:<12} show the help of a command

Options:
  -h, --help     show this help
  -V, --version  show the version

Exit status: 0 done, 1 refused, 2 trouble.

Example:
  json-patch apply pack.json fix.json

'json-patch COMMAND --help' has more; json-patch(1) is the manual.
",
        "help"
    )
}

/// The help of a subcommand.
pub fn of(command: &Command) -> String {
    let Command { name, operands, summary, details, example, .. } = command;
    let left: Vec<String> = command.options.iter().map(names).collect();
    let width = left.iter().map(String::len).max().unwrap_or(0).max("  -h, --help".len());
    let mut options = String::new();
    for (left, option) in left.iter().zip(command.options) {
        options += &format!("{left:<width$}  {}\n", option.summary);
    }
    let example = example.replace('\n', "\n  ");
    format!(
        "\
Usage: json-patch {name} [OPTION]... {operands}

{}.

{details}

Options:
{options}{:<width$}  show this help

Exit status: 0 done, 1 refused, 2 trouble.

Example:
  {example}
",
        capital(summary),
        "  -h, --help"
    )
}

/// An option's names and what it takes.
fn names(option: &Opt) -> String {
    let short = option.short.map_or("    ".to_string(), |short| format!("-{short}, "));
    let value = option.value.map_or(String::new(), |value| format!(" {value}"));
    format!("  {short}--{}{value}", option.long)
}

/// A sentence's first letter made a capital.
fn capital(words: &str) -> String {
    let mut letters = words.chars();
    letters.next().map_or(String::new(), |first| first.to_uppercase().chain(letters).collect())
}
