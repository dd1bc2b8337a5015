//! What a subcommand is.

use crate::arguments::Arguments;
use crate::trouble::Trouble;

/// A subcommand: what it is called, what it takes, and what it does. Its help
/// and its completions are made of this.
pub struct Command {
    /// The word that it is called by.
    pub name: &'static str,
    /// What stands behind the options, as the help shows it.
    pub operands: &'static str,
    /// What it does, in one line.
    pub summary: &'static str,
    /// What a user should know, in paragraphs.
    pub details: &'static str,
    /// Its options, `--help` not among them.
    pub options: &'static [Opt],
    /// A worked example.
    pub example: &'static str,
    /// What its operands are, for completions.
    pub takes: Takes,
    /// Runs it.
    pub run: fn(&Arguments) -> Result<Status, Trouble>,
}

/// What operands are.
pub enum Takes {
    /// Files.
    Files,
    /// One of these words.
    Words(&'static [&'static str]),
    /// A text that the user writes.
    Text,
}

/// An option.
pub struct Opt {
    /// Its letter, where it has one.
    pub short: Option<char>,
    /// Its name.
    pub long: &'static str,
    /// What it takes, where it takes something.
    pub value: Option<&'static str>,
    /// What it does, in one line.
    pub summary: &'static str,
}

/// How a command ended where there was no trouble.
#[derive(Clone, Copy, Debug, PartialEq, Eq)]
pub enum Status {
    /// Done: exit status 0.
    Done,
    /// The patch, or what was given in place of one, was refused: exit status 1.
    Refused,
    /// Two texts have different values: exit status 1.
    Different,
    /// A text that was to be compared was refused: exit status 2.
    Unread,
}

/// `--output`, of every command that writes a result.
pub const OUTPUT: Opt = Opt {
    short: Some('o'),
    long: "output",
    value: Some("FILE"),
    summary: "write the result to FILE",
};

/// `--region`, of every command that applies patches.
pub const REGION: Opt = Opt {
    short: None,
    long: "region",
    value: Some("POINTER"),
    summary: "take only patches of a maker, inside POINTER",
};

/// `--quiet`, of every command that can refuse.
pub const QUIET: Opt = Opt {
    short: Some('q'),
    long: "quiet",
    value: None,
    summary: "say nothing of a refusal; the exit status tells",
};

/// `--porcelain`, of every command that can refuse.
pub const PORCELAIN: Opt = Opt {
    short: None,
    long: "porcelain",
    value: None,
    summary: "say a refusal in one fixed line, for programs",
};
