//! The command as a person uses it: every subcommand, every exit status, and
//! whatever can be wrong with a file.

mod equal;
mod files;
mod hex;
mod inspect;
mod links;
mod merge;
mod origins;
mod regions;
mod replacing;
mod statuses;
mod support;
mod undo;
mod usage;
mod words;
