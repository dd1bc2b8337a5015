//! Trouble: what kept a command from its work, apart from a refusal.

use crate::files::Name;
use std::ffi::{OsStr, OsString};
use std::fmt;
use std::io;

/// Exit status 2, and why.
#[derive(Debug)]
pub enum Trouble {
    /// The command line is wrong.
    Usage {
        /// The subcommand, where one is known.
        command: Option<&'static str>,
        /// What is wrong with it.
        words: String,
    },
    /// A file could not be read or written.
    File {
        /// Its name.
        name: OsString,
        /// The system's reason.
        reason: io::Error,
    },
    /// Standard output could not be written.
    Output(io::Error),
}

impl Trouble {
    /// Wrong use before a subcommand is known.
    pub fn usage(words: impl Into<String>) -> Self {
        Trouble::Usage { command: None, words: words.into() }
    }

    /// A file and the system's reason.
    pub fn file(name: &OsStr, reason: io::Error) -> Self {
        Trouble::File { name: name.to_owned(), reason }
    }
}

impl fmt::Display for Trouble {
    fn fmt(&self, f: &mut fmt::Formatter) -> fmt::Result {
        match self {
            Trouble::Usage { command: None, words } => {
                write!(f, "{words}\nTry 'json-patch --help'.")
            }
            Trouble::Usage { command: Some(name), words } => {
                write!(f, "{words}\nTry 'json-patch {name} --help'.")
            }
            Trouble::File { name, reason } => write!(f, "{}: {}", Name(name), Reason(reason)),
            Trouble::Output(reason) => write!(f, "standard output: {}", Reason(reason)),
        }
    }
}

/// An error in the system's words alone.
struct Reason<'a>(&'a io::Error);

impl fmt::Display for Reason<'_> {
    fn fmt(&self, f: &mut fmt::Formatter) -> fmt::Result {
        let words = self.0.to_string();
        f.write_str(words.split(" (os error").next().unwrap_or_default())
    }
}
