//! `hex` and `unhex`.

use crate::support::{committed, Folder, Ran, COMMAND, PACK};
use std::fs::{self, OpenOptions};
use std::process::Command;

const A: &str = ":0100000041BE\n";
const END: &str = ":00000001FF\n";

#[test]
fn a_text_is_written_as_records() {
    let folder = Folder::new();
    let written = |text: &str, records: &str| {
        folder.write("text", text);
        folder.run(["hex", "text"]).done(records);
        folder.run_with(text, &["hex", "-"]).done(records);
        folder.run_with(text, &["hex"]).done(records);
        // The bytes and no more.
        folder.run_with(records, &["unhex"]).done(text);
        folder.run_with(records, &["unhex", "-"]).done(text);
    };
    written("", END);
    written("{}", &format!(":020000007B7D06\n{END}"));
    written("A", &format!("{A}{END}"));
    written("A\n", &format!(":02000000410AB3\n{END}"));
    written(
        "0123456789abcdefA",
        &format!(":10000000303132333435363738396162636465668E\n:0100100041AE\n{END}"),
    );
}

#[test]
fn what_is_written_is_read_back() {
    let folder = Folder::new();
    for length in [0, 1, 15, 16, 17, 255, 256, 65_535, 65_536] {
        let bytes: Vec<u8> = (0..length).map(|at: u32| (at * 7 + at / 256) as u8).collect();
        folder.write("bytes", &bytes);
        folder.run(["hex", "-o", "hex", "bytes"]).done("");
        let records = folder.read("hex");
        assert_eq!(records.len(), json_patch::hex::length(bytes.len()));
        folder.run(["hex", "bytes"]).done(&records);
        let ran = folder.command(["unhex", "hex"]).output().expect("the command ran");
        assert_eq!((ran.status.code(), &ran.stdout, &ran.stderr[..]), (Some(0), &bytes, &b""[..]));
        folder.run(["unhex", "hex", "--output=again"]).done("");
        assert!(fs::read(folder.path("again")).expect("the bytes") == bytes, "{length}");
        // Either case, either ending, and none at the end.
        let other = records.to_lowercase().replace('\n', "\r\n");
        folder.write("other", other.trim_end());
        folder.run(["unhex", "-oagain", "other"]).done("");
        assert!(fs::read(folder.path("again")).expect("the bytes") == bytes, "{length}");
    }
    assert_eq!(folder.names(), ["again", "bytes", "hex", "other"]);
}

/// The longest text that is taken: a record for each byte.
#[test]
fn records_may_be_as_short_as_they_are() {
    let folder = Folder::new();
    let mut records = String::new();
    for at in 0..65_536_u32 {
        let sum = 0_u32.wrapping_sub(1 + (at >> 8) + (at & 0xff) + 0x41) & 0xff;
        records += &format!(":01{at:04X}0041{sum:02X}\r\n");
    }
    folder.write("hex", format!("{records}:00000001FF\r\n"));
    folder.run(["unhex", "hex"]).done(&"A".repeat(65_536));
    // One more is refused, and so is what comes after the end, however much it is.
    folder.write("hex", format!("{records}:0100000041BE\r\n:00000001FF\r\n"));
    folder
        .run(["unhex", "--porcelain", "hex"])
        .refused("refused 20 text 0 op 0 place 65537 pointer 0\n");
    folder.write("hex", format!("{records}:00000001FF\r\n{records}"));
    folder
        .run(["unhex", "--porcelain", "hex"])
        .refused("refused 21 text 0 op 0 place 65538 pointer 0\n");
}

/// Runs `unhex` in every way of saying a refusal; nothing is written.
#[track_caller]
fn refused(records: &str, number: u32, line: usize, said: &str) {
    let folder = Folder::new();
    folder.write("x.hex", records);
    folder.write("out", "as it was");
    folder.run(["unhex", "x.hex"]).refused(&format!("json-patch: x.hex:{line}: {said}\n"));
    folder.run(["unhex", "-q", "x.hex"]).refused("");
    let porcelain = format!("refused {number} text 0 op 0 place {line} pointer 0\n");
    folder.run(["unhex", "--porcelain", "x.hex"]).refused(&porcelain);
    folder.run(["unhex", "--porcelain", "-o", "out", "x.hex"]).refused(&porcelain);
    assert_eq!(folder.read("out"), "as it was");
    let named = format!("json-patch: standard input:{line}: {said}\n");
    folder.run_with(records, &["unhex"]).refused(&named);
}

#[test]
fn what_is_not_a_record_is_refused() {
    let one = |line: &str, hint: &str| {
        refused(&format!("{line}\n{END}"), 18, 1, &format!("not a record\n  1 | {line}{hint}"));
        let said = format!("not a record\n  2 | {line}{hint}");
        refused(&format!("{A}{line}\r\n{END}"), 18, 2, &said);
    };
    one("", "");
    one("{}", "");
    one("0100000041BE", "");
    one(":0100000041B", "");
    one(":0100000041BE ", "");
    one(":0100000041BG", "");
    one(":0000000000", "");
    one(":00000101FE", "");
    let hint = "\n  hint: only records of types 00 and 01 are read";
    one(":020000040800F2", hint);
    one(":0400000508000000EF", hint);
    let long = ":".repeat(100);
    let said = format!("not a record\n  1 | {}…", &long[..60]);
    refused(&long, 18, 1, &said);
    refused("\x1b[31m\n", 18, 1, "not a record\n  1 | \u{fffd}[31m");
}

#[test]
fn a_wrong_sum_address_or_end_is_refused() {
    refused(&format!(":0100000041BF\n{END}"), 19, 1, "wrong sum\n  1 | :0100000041BF");
    refused(&format!("{A}:0100010041BE\n"), 19, 2, "wrong sum\n  2 | :0100010041BE");
    let address = "address not the next, or past 65,536 bytes";
    refused(":0100010041BD\n", 20, 1, &format!("{address}\n  1 | :0100010041BD"));
    refused(&format!("{A}{A}{END}"), 20, 2, &format!("{address}\n  2 | :0100000041BE"));
    refused("", 21, 1, "no end record");
    refused(A, 21, 2, "no end record");
    refused(A.trim_end(), 21, 2, "no end record");
    refused(&format!("{END}\n"), 21, 2, "a line after the end record\n  2 | ");
    refused(&format!("{A}{END}{A}"), 21, 3, "a line after the end record\n  3 | :0100000041BE");
}

#[test]
fn a_text_over_the_limit_is_refused() {
    let folder = Folder::new();
    folder.write("long", "x".repeat(65_537));
    folder.run(["hex", "long"]).refused("json-patch: long: a text over 65,536 bytes\n");
    folder.run(["hex", "-q", "long"]).refused("");
    folder.run(["hex", "--porcelain", "long"]).refused("refused 2 text 0 op 0 place 0 pointer 0\n");
    folder
        .run(["hex", "-o", "out", "long"])
        .refused("json-patch: long: a text over 65,536 bytes\n");
    // Without end, and not read to it.
    folder.run(["hex", "/dev/zero"]).refused("json-patch: /dev/zero: a text over 65,536 bytes\n");
    folder
        .run(["unhex", "--porcelain", "/dev/zero"])
        .refused("refused 18 text 0 op 0 place 1 pointer 0\n");
    assert_eq!(folder.names(), ["long"]);
}

#[test]
fn trouble_is_2() {
    let folder = Folder::with_files();
    folder.write("x.hex", format!("{A}{END}"));
    for (command, file) in [("hex", "pack.json"), ("unhex", "x.hex")] {
        let usage = |words: &[&str], said: &str| {
            let help = format!("Try 'json-patch {command} --help'.");
            folder.run(words).trouble(&format!("json-patch: {said}\n{help}\n"));
        };
        usage(&[command, file, file], &format!("{command} takes one file"));
        usage(&[command, "-i", file], "unknown option: -i");
        usage(&[command, file, "-o"], "--output takes a value: FILE");
        folder.run([command, "gone"]).trouble("json-patch: gone: No such file or directory\n");
        folder.run([command, "."]).trouble("json-patch: .: Is a directory\n");
        folder
            .run([command, "-o", "gone/out", file])
            .trouble("json-patch: gone/out: No such file or directory\n");
        let full = OpenOptions::new().write(true).open("/dev/full").expect("/dev/full");
        Ran::of(folder.command([command, file]).stdout(full))
            .trouble("json-patch: standard output: No space left on device\n");
        // A pipe that nobody reads, made in a process of its own.
        let script = r#"rm -f pipe; mkfifo pipe && exec 3<>pipe 4>pipe 3<&- && "$0" "$@" >&4"#;
        let mut shell = Command::new("sh");
        shell.args(["-c", script, COMMAND, command, file]).current_dir(&folder.0);
        Ran::of(&mut shell).trouble("json-patch: standard output: Broken pipe\n");
    }
    assert_eq!(folder.read("pack.json"), PACK);
}

/// Every committed text put to both commands: the answer that the second program
/// expects of it.
#[test]
fn committed_cases_give_their_answers() {
    let folder = Folder::new();
    let mut tried = 0;
    for case in committed("crates/hex_vectors") {
        folder.write("text", &case.text);
        for (command, expected) in [("hex", &case.written), ("unhex", &case.read)] {
            let words: Vec<&str> = match expected.strip_prefix(b"refused ") {
                Some(words) => std::str::from_utf8(words).expect("text").split(' ').collect(),
                None => Vec::new(),
            };
            let (status, output, error) = match words[..] {
                ["16", ..] => continue,
                [number, "place", line] => {
                    (1, &b""[..], format!("refused {number} text 0 op 0 place {line} pointer 0\n"))
                }
                [number] => {
                    (1, &b""[..], format!("refused {number} text 0 op 0 place 0 pointer 0\n"))
                }
                [] => (0, &expected[..], String::new()),
                _ => panic!("{words:?}"),
            };
            let words = [command, "--porcelain", "text"];
            let ran = folder.command(words).output().expect("the command ran");
            let got = (ran.status.code(), &ran.stdout[..], String::from_utf8_lossy(&ran.stderr));
            assert!(got == (Some(status), output, error.into()), "{command} {}", case.name);
            tried += 1;
        }
    }
    assert!(tried > 400, "{tried}");
}
