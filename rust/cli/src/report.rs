//! What is said on standard error.

use crate::arguments::Arguments;
use crate::command::Status;
use crate::files::{Name, Text};
use crate::found::{found, reached};
use crate::patches::{Refused, Run};
use crate::trouble::Trouble;
use json_patch::{Kind, Paint, Refusal, Shown, Walked};
use std::env;
use std::io::{self, IsTerminal, Write};

/// The columns of a value that are shown at most.
const SHOWN: usize = 60;

/// Says why a patch was refused, as the options have it.
pub fn refusal(arguments: &Arguments, run: &Run, refused: &Refused) -> Status {
    if arguments.has("porcelain") {
        let mut line = format!("{}\n", refused.refusal.line());
        if run.patches.len() > 1 {
            line += &format!("patch {}\n", refused.index + 1);
        }
        say(&line);
    } else if !arguments.has("quiet") {
        say(&in_words(run, refused));
    }
    Status::Refused
}

/// A refusal in words, as the library explains it, with what only the command
/// can tell.
fn in_words(run: &Run, refused: &Refused) -> String {
    let Refused { refusal, index, document, undo } = refused;
    let patch = &run.patches[*index];
    let (to, name) = (run.document_at(*index), Name(&patch.name));
    if *undo {
        return of_undo(refusal, &to, &name);
    }
    let explanation = refusal.explain(document, &patch.bytes).named(&to, &name).painted(paint());
    match note(refused, &patch.bytes, &to, explanation.walked()) {
        Some(note) => format!("json-patch: {}\n", explanation.noted(&note)),
        None => format!("json-patch: {explanation}\n"),
    }
}

/// The undo of a patch refused, in words: the patch itself applies.
fn of_undo(refusal: &Refusal, to: &str, patch: &Name) -> String {
    let Paint { name, fault, hint, off } = paint();
    let meaning = refusal.kind().map_or("unknown answer", Kind::meaning);
    format!(
        "json-patch: {name}{patch}:{off} {fault}its undo would be no patch: {meaning}{off}\n  \
         {hint}hint:{off} the patch applies to {to}; keep a copy of the document in place of an undo\n"
    )
}

/// What only the command can tell of a refusal: values that it looks up.
fn note(refused: &Refused, patch: &[u8], to: &str, walked: Option<Walked>) -> Option<String> {
    let Refused { refusal, document, .. } = refused;
    match refusal.kind()? {
        Kind::LocationMissing | Kind::NoIndex => {
            let walked = walked?;
            let there = reached(document, patch, refusal, &walked)?;
            Some(match walked.way {
                [] => format!("found {} at the root of {to}", shown(&there)),
                way => format!("found {} at {} in {to}", shown(&there), quoted(way)),
            })
        }
        Kind::TestDiffers => {
            let (found, wanted) = found(document, patch, refusal)?;
            Some(format!("found {} in {to}, expected {}", shown(&found), shown(&wanted)))
        }
        Kind::OutputTooShort => Some("at most 65,536 bytes are written".to_string()),
        _ => None,
    }
}

/// Says why a patch was refused that has no document, as the options have it.
pub fn of_patch(arguments: &Arguments, patch: &Text, refusal: &Refusal) -> Status {
    if arguments.has("porcelain") {
        say(&format!("{}\n", refusal.line()));
    } else if !arguments.has("quiet") {
        let name = Name(&patch.name).to_string();
        let explanation = refusal.explain(b"", &patch.bytes);
        say(&format!(
            "json-patch: {}\n",
            explanation.named(&"no document", &name).painted(paint())
        ));
    }
    Status::Refused
}

/// Says which of two texts was refused that were to be compared, and why, as the
/// options have it.
pub fn of_texts(arguments: &Arguments, first: &Text, second: &Text, refusal: &Refusal) -> Status {
    if arguments.has("porcelain") {
        say(&format!("{}\n", refusal.line()));
    } else if !arguments.has("quiet") {
        let names = [Name(&first.name).to_string(), Name(&second.name).to_string()];
        let explanation = refusal.explain(&first.bytes, &second.bytes);
        say(&format!("json-patch: {}\n", explanation.named(&names[0], &names[1]).painted(paint())));
    }
    Status::Unread
}

/// What is said of a refusal where no patch is applied.
pub struct Words<'a> {
    /// The file and the line, or the text that was given.
    pub name: String,
    /// What went wrong.
    pub fault: &'a str,
    /// The line with its number, where one is at fault.
    pub line: Option<(usize, &'a [u8])>,
    /// What to look at, where that is sure.
    pub hint: Option<String>,
}

/// Says why something that is no patch was refused, as the options have it. `place`
/// is the line at fault, or 0.
pub fn other(arguments: &Arguments, number: u32, place: usize, words: &Words) -> Status {
    if arguments.has("porcelain") {
        say(&format!("{}\n", Refusal { number, text: 0, op: 0, place, pointer: 0 }.line()));
    } else if !arguments.has("quiet") {
        let Paint { name, fault, hint, off } = paint();
        let mut text =
            format!("json-patch: {name}{}:{off} {fault}{}{off}\n", words.name, words.fault);
        if let Some((number, bytes)) = words.line {
            text += &format!("  {number} | {}\n", shown(bytes));
        }
        if let Some(words) = &words.hint {
            text += &format!("  {hint}hint:{off} {words}\n");
        }
        say(&text);
    }
    Status::Refused
}

/// A text as it is said to a person.
pub fn quoted(bytes: &[u8]) -> String {
    format!("\"{}\"", shown(bytes))
}

/// As much of a text as is shown.
fn shown(bytes: &[u8]) -> Shown<'_> {
    Shown { bytes, most: SHOWN }
}

/// Says what the trouble is.
pub fn trouble(trouble: &Trouble) {
    say(&format!("json-patch: {trouble}\n"));
}

/// Colours, where standard error takes them and the user wants them.
fn paint() -> Paint {
    let wanted = env::var_os("NO_COLOR").is_none_or(|value| value.is_empty());
    let able = env::var_os("TERM").is_some_and(|term| term != "dumb") && io::stderr().is_terminal();
    if wanted && able {
        Paint::TERMINAL
    } else {
        Paint::default()
    }
}

/// Writes to standard error. If that fails there is no one left to tell.
fn say(words: &str) {
    let _ = io::stderr().write_all(words.as_bytes());
}
