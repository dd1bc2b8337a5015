//! The arguments of a subcommand.
//!
//! As GNU programs take them: options and operands in any order, `--` before
//! operands that begin with a hyphen, `-o FILE` or `-oFILE`, `--output FILE` or
//! `--output=FILE`, several letters behind one hyphen. A lone `-` is an operand.

use crate::command::{Command, Opt};
use crate::files::Name;
use crate::trouble::Trouble;
use std::ffi::{OsStr, OsString};
use std::os::unix::ffi::{OsStrExt, OsStringExt};

/// What was given to a subcommand.
#[derive(Debug, Default)]
pub struct Arguments {
    /// The operands, in order.
    pub operands: Vec<OsString>,
    given: Vec<(&'static str, OsString)>,
}

impl Arguments {
    /// Whether an option was given.
    pub fn has(&self, long: &str) -> bool {
        self.value(long).is_some()
    }

    /// What an option was given, the last time.
    pub fn value(&self, long: &str) -> Option<&OsStr> {
        self.given.iter().rev().find(|(name, _)| *name == long).map(|(_, value)| &**value)
    }
}

/// Takes the words behind a subcommand apart. `None`: its help is asked for.
pub fn parse(command: &Command, words: &[OsString]) -> Result<Option<Arguments>, Trouble> {
    let mut arguments = Arguments::default();
    let mut words = words.iter();
    while let Some(word) = words.next() {
        match word.as_bytes() {
            b"--" => {
                arguments.operands.extend(words.by_ref().cloned());
            }
            b"--help" => return Ok(None),
            [b'-', b'-', name @ ..] => {
                let end = name.iter().position(|&byte| byte == b'=');
                let (name, value) = name.split_at(end.unwrap_or(name.len()));
                let option = command.options.iter().find(|option| option.long.as_bytes() == name);
                let option = option.ok_or_else(|| unknown(command, word))?;
                let value = match (option.value, value.strip_prefix(b"=")) {
                    (None, None) => OsString::new(),
                    (None, Some(_)) => {
                        return Err(wrong(command, format!("--{} takes no value", option.long)));
                    }
                    (Some(_), Some(value)) => OsString::from_vec(value.to_vec()),
                    (Some(_), None) => next(command, option, &mut words)?,
                };
                arguments.given.push((option.long, value));
            }
            [b'-', letters @ ..] if !letters.is_empty() => {
                if take_letters(command, word, letters, &mut words, &mut arguments)? {
                    return Ok(None);
                }
            }
            _ => arguments.operands.push(word.clone()),
        }
    }
    Ok(Some(arguments))
}

/// Takes the letters behind one hyphen; whether help is asked for.
fn take_letters<'a>(
    command: &Command,
    word: &OsStr,
    mut letters: &[u8],
    words: &mut impl Iterator<Item = &'a OsString>,
    arguments: &mut Arguments,
) -> Result<bool, Trouble> {
    while let Some((&letter, rest)) = letters.split_first() {
        if letter == b'h' {
            return Ok(true);
        }
        let is_it = |option: &&Opt| option.short == Some(char::from(letter));
        let option = command.options.iter().find(is_it).ok_or_else(|| unknown(command, word))?;
        letters = rest;
        let value = match option.value {
            None => OsString::new(),
            Some(_) if rest.is_empty() => next(command, option, words)?,
            Some(_) => OsString::from_vec(std::mem::take(&mut letters).to_vec()),
        };
        arguments.given.push((option.long, value));
    }
    Ok(false)
}

/// The word that an option takes.
fn next<'a>(
    command: &Command,
    option: &Opt,
    words: &mut impl Iterator<Item = &'a OsString>,
) -> Result<OsString, Trouble> {
    let missing = || {
        let value = option.value.unwrap_or_default();
        wrong(command, format!("--{} takes a value: {value}", option.long))
    };
    words.next().cloned().ok_or_else(missing)
}

fn unknown(command: &Command, word: &OsStr) -> Trouble {
    wrong(command, format!("unknown option: {}", Name(word)))
}

/// Wrong use of a subcommand.
pub fn wrong(command: &Command, words: impl Into<String>) -> Trouble {
    Trouble::Usage { command: Some(command.name), words: words.into() }
}
