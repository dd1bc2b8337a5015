//! Comparing another program with this engine, on generated cases.

use crate::generate;
use crate::limits::TOOL_ROOM;
use std::ffi::OsString;
use std::io::{self, Write};
use std::path::{Path, PathBuf};
use std::process::{Command, Stdio};
use std::{env, fs, process};

/// Runs the command on each case, tells every difference to `report`, and
/// gives their number. The command is a program and its first arguments; the
/// two file names are put after them.
pub fn compare(
    seed: u64,
    count: u64,
    command: &[OsString],
    report: &mut dyn Write,
) -> io::Result<u64> {
    let files = Files::new();
    let mut differences = 0;
    for index in 0..count {
        let case = generate::case(seed, index);
        let mut expected = case.line(TOOL_ROOM);
        expected.push(b'\n');
        fs::write(&files.document, &case.document)?;
        fs::write(&files.patch, &case.patch)?;
        let got = answer_of(command, &files)?;
        if got != expected {
            differences += 1;
            writeln!(report, "seed {seed} index {index}")?;
            writeln!(report, "  expected: {}", printable(&expected))?;
            writeln!(report, "  got:      {}", printable(&got))?;
        }
    }
    writeln!(report, "{count} cases, {differences} differences")?;
    Ok(differences)
}

/// What the command prints for the two files.
fn answer_of(command: &[OsString], files: &Files) -> io::Result<Vec<u8>> {
    let Some((program, first)) = command.split_first() else {
        return Err(io::Error::new(io::ErrorKind::InvalidInput, "no command"));
    };
    let output = Command::new(program)
        .args(first)
        .arg(&files.document)
        .arg(&files.patch)
        .stdin(Stdio::null())
        .stderr(Stdio::inherit())
        .output()?;
    Ok(output.stdout)
}

/// A line as text: its newline dropped, a missing one told, control bytes and
/// bytes that are no text escaped.
fn printable(line: &[u8]) -> String {
    let (text, ending) = match line.strip_suffix(b"\n") {
        Some(text) => (text, ""),
        None => (line, " (no newline)"),
    };
    let mut shown = String::new();
    for chunk in text.utf8_chunks() {
        for character in chunk.valid().chars() {
            if character.is_control() {
                shown.extend(character.escape_default());
            } else {
                shown.push(character);
            }
        }
        for byte in chunk.invalid() {
            shown.push_str(&format!("\\x{byte:02x}"));
        }
    }
    shown + ending
}

/// Two temporary files, removed at the end.
struct Files {
    document: PathBuf,
    patch: PathBuf,
}

impl Files {
    fn new() -> Self {
        let folder = env::temp_dir();
        let name = |kind: &str| folder.join(format!("second-{}-{kind}.json", process::id()));
        Files { document: name("document"), patch: name("patch") }
    }
}

impl Drop for Files {
    fn drop(&mut self) {
        for file in [&self.document, &self.patch] {
            remove(file);
        }
    }
}

/// Removes a file; one that was never made does not matter.
fn remove(file: &Path) {
    let _ = fs::remove_file(file);
}
