//! The program `second`: see README.md for its commands.

#![forbid(unsafe_code)]

use second::{
    cases, compare, count, equal, generate, hex, links, makers, merges, origins, tool, undo,
    vectors,
};
use std::env;
use std::ffi::OsString;
use std::fs;
use std::io::{self, BufWriter, Read, Write};
use std::path::Path;
use std::process::ExitCode;

const USAGE: &str = "usage:
  second apply DOC PATCH
  second answers FILE
  second vectors FILE
  second cases
  second generate SEED COUNT
  second compare SEED COUNT -- COMMAND...
  second link-cases
  second link-answers FILE
  second link-generate SEED COUNT
  second region-cases
  second region-answers FILE
  second region-vectors FILE
  second region-generate SEED COUNT
  second hex-cases
  second hex-answers FILE
  second hex-generate SEED COUNT
  second count
  second inspect FILE...
  second count-folder SEED COUNT FOLDER
  second count-cases FOLDER
  second undo DOC PATCH
  second undo-cases
  second undo-answers FILE
  second undo-vectors FILE
  second undo-generate SEED COUNT
  second equal FIRST SECOND
  second equal-cases
  second equal-answers FILE
  second equal-vectors FILE
  second equal-generate SEED COUNT
  second merge DOC PATCH
  second merge-cases
  second merge-answers FILE
  second merge-vectors FILE
  second merge-generate SEED COUNT
  second origins DOC PATCH
  second origins-cases
  second origins-answers FILE
  second origins-vectors FILE
  second origins-generate SEED COUNT
";

/// The line of a call whose work area is too short. This program has none, so
/// no case can say it.
const SHORT_WORK: &[u8] = b"work-a-record-short: refused 1 text 0 op 0 place 0 pointer 0\n";

/// The same for the buffer of a call with an undo.
const SHORT_BUFFER: &[u8] = b"buffer-a-byte-short: refused 1 text 0 op 0 place 0 pointer 0\n";

/// The same for each call that lists origins.
const SHORT_LISTED: &str = "\
apply-work-a-record-short: refused 1 text 0 op 0 place 0 pointer 0
within-work-a-record-short: refused 1 text 0 op 0 place 0 pointer 0
merge-work-a-record-short: refused 1 text 0 op 0 place 0 pointer 0
undo-work-a-record-short: refused 1 text 0 op 0 place 0 pointer 0
undo-buffer-a-byte-short: refused 1 text 0 op 0 place 0 pointer 0
";

/// How a command ends when it does not end well.
enum Trouble {
    /// The arguments are not those of a command.
    Usage,
    /// Something else, in words.
    Message(String),
    /// A comparison found differences.
    Differences,
}

impl From<io::Error> for Trouble {
    fn from(error: io::Error) -> Self {
        Trouble::Message(error.to_string())
    }
}

fn main() -> ExitCode {
    let arguments: Vec<OsString> = env::args_os().skip(1).collect();
    match run(&arguments) {
        Ok(()) => ExitCode::SUCCESS,
        Err(Trouble::Differences) => ExitCode::from(1),
        Err(Trouble::Message(message)) => complain(&format!("second: {message}\n")),
        Err(Trouble::Usage) => complain(USAGE),
    }
}

/// Says what is wrong. If that cannot be said either, nothing more can be done.
fn complain(message: &str) -> ExitCode {
    let _ = io::stderr().write_all(message.as_bytes());
    ExitCode::from(2)
}

fn run(arguments: &[OsString]) -> Result<(), Trouble> {
    let mut out = BufWriter::new(io::stdout().lock());
    let (command, rest) = arguments.split_first().ok_or(Trouble::Usage)?;
    match (command.to_str(), rest) {
        (Some("apply"), files) => out.write_all(&tool::output(files))?,
        (Some("answers"), [file]) => answers(file, &mut out)?,
        (Some("vectors"), [file]) => {
            answers(file, &mut out)?;
            out.write_all(SHORT_WORK)?;
        }
        (Some("cases"), []) => {
            for vector in vectors::all() {
                out.write_all(&vector.case.text())?;
            }
        }
        (Some("generate"), [seed, count]) => {
            let seed = number(seed)?;
            for index in 0..number(count)? {
                out.write_all(&generate::case(seed, index).text())?;
            }
        }
        (Some("link-cases"), []) => {
            for vector in links::vectors::all() {
                out.write_all(&vector.case.file())?;
            }
        }
        (Some("link-answers"), [file]) => {
            for case in links::cases::parse(&fs::read(file)?).map_err(Trouble::Message)? {
                out.write_all(&case.lines())?;
            }
        }
        (Some("link-generate"), [seed, count]) => {
            let seed = number(seed)?;
            for index in 0..number(count)? {
                out.write_all(&links::generate::case(seed, index).file())?;
            }
        }
        (Some("region-cases"), []) => {
            for vector in makers::vectors::all() {
                out.write_all(&vector.case.file())?;
            }
        }
        (Some("region-answers"), [file]) => region_answers(file, &mut out)?,
        (Some("region-vectors"), [file]) => {
            region_answers(file, &mut out)?;
            out.write_all(SHORT_WORK)?;
        }
        (Some("region-generate"), [seed, count]) => {
            let seed = number(seed)?;
            for index in 0..number(count)? {
                out.write_all(&makers::generate::case(seed, index).file())?;
            }
        }
        (Some("hex-cases"), []) => {
            for vector in hex::vectors::all() {
                out.write_all(&vector.case.file())?;
            }
        }
        (Some("hex-answers"), [file]) => {
            for case in hex::cases::parse(&fs::read(file)?).map_err(Trouble::Message)? {
                out.write_all(&case.lines())?;
            }
        }
        (Some("hex-generate"), [seed, count]) => {
            let seed = number(seed)?;
            for index in 0..number(count)? {
                out.write_all(&hex::generate::case(seed, index).file())?;
            }
        }
        (Some("count"), []) => {
            let mut names = Vec::new();
            io::stdin().lock().read_to_end(&mut names)?;
            out.write_all(count::report(&names).as_bytes())?;
        }
        (Some("inspect"), files) => {
            for file in files {
                writeln!(out, "{}: {}", file.display(), count::inspect(&fs::read(file)?))?;
            }
        }
        (Some("count-folder"), [seed, count, folder]) => {
            count::folder(number(seed)?, number(count)?, Path::new(folder), &mut out)?;
        }
        (Some("count-cases"), [folder]) => {
            out.write_all(&count::cases::write(Path::new(folder))?)?;
        }
        (Some("undo"), files) => out.write_all(&tool::undo_output(files))?,
        (Some("undo-cases"), []) => {
            for vector in undo::vectors::all() {
                out.write_all(&vector.case.file())?;
            }
        }
        (Some("undo-answers"), [file]) => undo_answers(file, &mut out)?,
        (Some("undo-vectors"), [file]) => {
            undo_answers(file, &mut out)?;
            out.write_all(SHORT_BUFFER)?;
        }
        (Some("undo-generate"), [seed, count]) => {
            let seed = number(seed)?;
            for index in 0..number(count)? {
                out.write_all(&undo::generate::case(seed, index).file())?;
            }
        }
        (Some("equal"), [first, second]) => {
            let found = equal::compare(&fs::read(first)?, &fs::read(second)?);
            out.write_all(&equal::said(&found))?;
            out.write_all(b"\n")?;
        }
        (Some("equal-cases"), []) => {
            for vector in equal::vectors::all() {
                out.write_all(&vector.case.file())?;
            }
        }
        (Some("equal-answers"), [file]) => equal_answers(file, &mut out)?,
        (Some("equal-vectors"), [file]) => {
            equal_answers(file, &mut out)?;
            out.write_all(SHORT_WORK)?;
        }
        (Some("equal-generate"), [seed, count]) => {
            let seed = number(seed)?;
            for index in 0..number(count)? {
                out.write_all(&equal::generate::case(seed, index).file())?;
            }
        }
        (Some("merge"), files) => out.write_all(&tool::merge_output(files))?,
        (Some("merge-cases"), []) => {
            for vector in merges::vectors::all() {
                out.write_all(&vector.case.text())?;
            }
        }
        (Some("merge-answers"), [file]) => merge_answers(file, &mut out)?,
        (Some("merge-vectors"), [file]) => {
            merge_answers(file, &mut out)?;
            out.write_all(SHORT_WORK)?;
        }
        (Some("merge-generate"), [seed, count]) => {
            let seed = number(seed)?;
            for index in 0..number(count)? {
                out.write_all(&merges::generate::case(seed, index).text())?;
            }
        }
        (Some("origins"), files) => out.write_all(&tool::origins_output(files))?,
        (Some("origins-cases"), []) => {
            for vector in origins::vectors::all() {
                out.write_all(&vector.case.file())?;
            }
        }
        (Some("origins-answers"), [file]) => origins_answers(file, &mut out)?,
        (Some("origins-vectors"), [file]) => {
            origins_answers(file, &mut out)?;
            out.write_all(SHORT_LISTED.as_bytes())?;
        }
        (Some("origins-generate"), [seed, count]) => {
            let seed = number(seed)?;
            for index in 0..number(count)? {
                out.write_all(&origins::generate::case(seed, index).file())?;
            }
        }
        (Some("compare"), [seed, count, dashes, command @ ..])
            if dashes == "--" && !command.is_empty() =>
        {
            let found = compare::compare(number(seed)?, number(count)?, command, &mut out)?;
            out.flush()?;
            if found > 0 {
                return Err(Trouble::Differences);
            }
        }
        _ => return Err(Trouble::Usage),
    }
    out.flush()?;
    Ok(())
}

/// The line of each case of a file.
fn answers(file: &OsString, out: &mut impl Write) -> Result<(), Trouble> {
    let cases = cases::parse(&fs::read(file)?).map_err(Trouble::Message)?;
    for case in cases {
        write!(out, "{}: ", case.name)?;
        out.write_all(&case.line(case.room))?;
        out.write_all(b"\n")?;
    }
    Ok(())
}

/// The line of each case of a file of cases with a region.
fn region_answers(file: &OsString, out: &mut impl Write) -> Result<(), Trouble> {
    for case in makers::cases::parse(&fs::read(file)?).map_err(Trouble::Message)? {
        write!(out, "{}: ", case.name)?;
        out.write_all(&case.line())?;
        out.write_all(b"\n")?;
    }
    Ok(())
}

/// The lines of each case of undos in a file.
fn undo_answers(file: &OsString, out: &mut impl Write) -> Result<(), Trouble> {
    for case in undo::cases::parse(&fs::read(file)?).map_err(Trouble::Message)? {
        out.write_all(&case.lines())?;
    }
    Ok(())
}

/// The line of each case of two texts in a file.
fn equal_answers(file: &OsString, out: &mut impl Write) -> Result<(), Trouble> {
    for case in equal::cases::parse(&fs::read(file)?).map_err(Trouble::Message)? {
        write!(out, "{}: ", case.name)?;
        out.write_all(&case.line())?;
        out.write_all(b"\n")?;
    }
    Ok(())
}

/// The line of each case of merge patches in a file.
fn merge_answers(file: &OsString, out: &mut impl Write) -> Result<(), Trouble> {
    for case in cases::parse(&fs::read(file)?).map_err(Trouble::Message)? {
        write!(out, "{}: ", case.name)?;
        out.write_all(&merges::line_of(&case))?;
        out.write_all(b"\n")?;
    }
    Ok(())
}

/// The lines of each case with a list in a file.
fn origins_answers(file: &OsString, out: &mut impl Write) -> Result<(), Trouble> {
    for case in origins::cases::parse(&fs::read(file)?).map_err(Trouble::Message)? {
        out.write_all(&case.lines())?;
    }
    Ok(())
}

fn number(argument: &OsString) -> Result<u64, Trouble> {
    argument.to_str().and_then(|text| text.parse().ok()).ok_or(Trouble::Usage)
}
