//! Files that are missing, unreadable, too long, or have strange names.

use crate::support::{is_root, left_out, Folder, Ran, COMMAND, FIXED, PACK};
use std::ffi::OsStr;
use std::fs::{self, File, OpenOptions, Permissions};
use std::os::unix::ffi::OsStrExt;
use std::os::unix::fs::PermissionsExt;
use std::os::unix::process::CommandExt;
use std::process::{Command, Stdio};

#[test]
fn a_missing_file_is_named_with_the_reason() {
    let folder = Folder::with_files();
    let reason = "No such file or directory";
    for command in ["apply", "check"] {
        folder
            .run([command, "gone.json", "fix.json"])
            .trouble(&format!("json-patch: gone.json: {reason}\n"));
        folder
            .run([command, "pack.json", "gone.json"])
            .trouble(&format!("json-patch: gone.json: {reason}\n"));
        // Before any refusal: nothing is half done.
        folder
            .run([command, "pack.json", "other.json", "gone.json"])
            .trouble(&format!("json-patch: gone.json: {reason}\n"));
        folder.run([command, "", "fix.json"]).trouble(&format!("json-patch: : {reason}\n"));
    }
    folder
        .run(["apply", "-o", "gone/out.json", "pack.json", "fix.json"])
        .trouble(&format!("json-patch: gone/out.json: {reason}\n"));
}

#[test]
fn a_directory_is_no_file() {
    let folder = Folder::with_files();
    fs::create_dir(folder.path("d")).expect("a folder");
    folder.run(["apply", "d", "fix.json"]).trouble("json-patch: d: Is a directory\n");
    folder.run(["apply", "pack.json", "d"]).trouble("json-patch: d: Is a directory\n");
    folder
        .run(["apply", "-o", "d", "pack.json", "fix.json"])
        .trouble("json-patch: d: Is a directory\n");
    folder
        .run(["apply", "pack.json/x", "fix.json"])
        .trouble("json-patch: pack.json/x: Not a directory\n");
}

/// The command as a user who is not root, with a copy that this user may run.
fn as_nobody(folder: &Folder, words: &[&str]) -> Ran {
    let copy = folder.path("json-patch");
    if !copy.exists() {
        // By another process: a file that was written here may be busy for a moment,
        // held open by whatever another test starts.
        let copied = Command::new("cp").arg(COMMAND).arg(&copy).status();
        assert!(copied.is_ok_and(|status| status.success()), "a copy");
        fs::set_permissions(&folder.0, Permissions::from_mode(0o755)).expect("permissions");
    }
    let mut command = Command::new(copy);
    command.args(words).current_dir(&folder.0).stdin(Stdio::null());
    if is_root() {
        command.uid(65_534).gid(65_534);
    }
    Ran::of(&mut command)
}

#[test]
fn what_may_not_be_read_or_written_is_trouble() {
    let folder = Folder::with_files();
    folder.write("secret.json", PACK);
    fs::set_permissions(folder.path("secret.json"), Permissions::from_mode(0o000))
        .expect("permissions");
    let denied = |name: &str| format!("json-patch: {name}: Permission denied\n");
    as_nobody(&folder, &["apply", "secret.json", "fix.json"]).trouble(&denied("secret.json"));
    as_nobody(&folder, &["apply", "pack.json", "secret.json"]).trouble(&denied("secret.json"));
    let to_secret = ["apply", "-o", "secret.json", "pack.json", "fix.json"];
    as_nobody(&folder, &to_secret).trouble(&denied("secret.json"));

    // A file that may not be written stays, though its folder could be written.
    fs::create_dir(folder.path("open")).expect("a folder");
    fs::set_permissions(folder.path("open"), Permissions::from_mode(0o777)).expect("permissions");
    folder.write("open/pack.json", PACK);
    fs::set_permissions(folder.path("open/pack.json"), Permissions::from_mode(0o444))
        .expect("permissions");
    let in_place = ["apply", "-i", "open/pack.json", "fix.json"];
    as_nobody(&folder, &in_place).trouble(&denied("open/pack.json"));
    assert_eq!(folder.read("open/pack.json"), PACK);

    // A file in a folder that may not be written cannot be replaced.
    fs::create_dir(folder.path("shut")).expect("a folder");
    folder.write("shut/pack.json", PACK);
    fs::set_permissions(folder.path("shut/pack.json"), Permissions::from_mode(0o666))
        .expect("permissions");
    fs::set_permissions(folder.path("shut"), Permissions::from_mode(0o555)).expect("permissions");
    let in_place = ["apply", "-i", "shut/pack.json", "fix.json"];
    as_nobody(&folder, &in_place).trouble(&denied("shut/pack.json"));
    assert_eq!(folder.read("shut/pack.json"), PACK);
    fs::set_permissions(folder.path("shut"), Permissions::from_mode(0o755)).expect("permissions");
}

#[test]
fn a_text_over_the_limit_is_refused() {
    let folder = Folder::with_files();
    let blanks = |count: usize| " ".repeat(count);
    folder.write("just.json", blanks(32_768 - PACK.len()) + PACK);
    folder.run(["apply", "just.json", "fix.json"]).done(FIXED);
    folder.write("over.json", blanks(32_769 - PACK.len()) + PACK);
    let words = "json-patch: over.json: the text is longer than 32,768 bytes\n";
    folder.run(["apply", "over.json", "fix.json"]).refused(words);
    folder.run(["apply", "pack.json", "over.json"]).refused(words);
    folder
        .run(["check", "--porcelain", "pack.json", "over.json"])
        .refused("refused 2 text 2 op 0 place 0 pointer 0\n");
    // Without end, and not read to it.
    folder
        .run(["apply", "/dev/zero", "fix.json"])
        .refused("json-patch: /dev/zero: the text is longer than 32,768 bytes\n");
}

#[test]
fn a_result_of_the_longest_length_can_be_read_again() {
    let folder = Folder::new();
    folder.write("same.json", "[]");
    let result = |length: usize| {
        folder.write("list.json", format!(r#"["{}"]"#, "x".repeat(length - r#"[""]"#.len())));
        folder.run(["apply", "-i", "list.json", "same.json"]).done("");
        let again = fs::metadata(folder.path("list.json")).expect("the result").len();
        folder.run(["check", "-q", "list.json", "same.json"]).done("");
        again
    };
    assert_eq!(result(32_766), 32_767);
    assert_eq!(result(32_767), 32_768);
    assert_eq!(result(32_768), 32_768, "a newline would make it too long");
}

#[test]
fn a_full_device_is_trouble() {
    let folder = Folder::with_files();
    let full = || OpenOptions::new().write(true).open("/dev/full").expect("/dev/full");
    for words in [
        &["apply", "pack.json", "fix.json"][..],
        &["check", "pack.json", "fix.json"],
        &["--help"],
        &["--version"],
        &["apply", "--help"],
        &["completion", "bash"],
    ] {
        let ran = Ran::of(folder.command(words).stdout(full()));
        ran.trouble("json-patch: standard output: No space left on device\n");
    }
    folder
        .run(["apply", "-o", "/dev/full", "pack.json", "fix.json"])
        .trouble("json-patch: /dev/full: No space left on device\n");
    // A refusal that nobody can read is still a refusal.
    let ran = Ran::of(folder.command(["apply", "pack.json", "other.json"]).stderr(full()));
    assert_eq!(ran.status, 1);
}

#[test]
fn a_closed_pipe_is_trouble() {
    let folder = Folder::with_files();
    // A pipe that nobody reads, made in a process of its own.
    let script = r#"mkfifo pipe && exec 3<>pipe 4>pipe 3<&- && "$0" apply pack.json fix.json >&4"#;
    let mut shell = Command::new("sh");
    shell.args(["-c", script, COMMAND]).current_dir(&folder.0);
    Ran::of(&mut shell).trouble("json-patch: standard output: Broken pipe\n");
}

#[test]
fn any_name_is_a_name() {
    let folder = Folder::with_files();
    let names: [&[u8]; 8] = [
        b"two words.json",
        b" ",
        b"a\nb.json",
        b"\xff\xfe.json",
        b"-o",
        b"--help",
        "naïve-漢字.json".as_bytes(),
        b"$(id) `id` '\"*?.json",
    ];
    for name in names {
        let name = OsStr::from_bytes(name);
        folder.write(name, PACK);
        let (apply, fix, end) = (OsStr::new("apply"), OsStr::new("fix.json"), OsStr::new("--"));
        folder.run([apply, end, name, fix]).done(FIXED);
        folder.run([apply, OsStr::new("-i"), end, name, fix]).done("");
        assert_eq!(folder.read(name), FIXED);
        let mut output = OsStr::new("--output=").to_owned();
        output.push(name);
        folder.write(name, "");
        folder.run([apply, &output, OsStr::new("pack.json"), fix]).done("");
        assert_eq!(folder.read(name), FIXED);
        fs::remove_file(folder.path(name)).expect("the file");
    }
    assert_eq!(folder.names(), ["fix.json", "other.json", "pack.json"]);
}

#[test]
fn strange_names_are_escaped_in_messages() {
    let folder = Folder::with_files();
    let said = |name: &[u8], shown: &str| {
        let words = [OsStr::new("apply"), OsStr::new("--"), OsStr::from_bytes(name)];
        let ran = folder.run([words[0], words[1], words[2], OsStr::new("fix.json")]);
        ran.trouble(&format!("json-patch: {shown}: No such file or directory\n"));
    };
    said(b"a\nb", "a\\nb");
    said(b"\x1b[31mred", "\\u{1b}[31mred");
    said(b"\xff\xc3\xa9", "\\xffé");
    said("\u{202e}x".as_bytes(), "\\u{202e}x");
    said(b"two words", "two words");
}

#[test]
fn devices_and_pipes_are_written_to() {
    let folder = Folder::with_files();
    folder.run(["apply", "-o", "/dev/null", "pack.json", "fix.json"]).done("");
    let null = fs::metadata("/dev/null").expect("/dev/null");
    assert!(!null.is_file(), "it is still a device");
    folder.run(["apply", "-o", "/dev/stdout", "pack.json", "fix.json"]).done(FIXED);

    let made = Command::new("mkfifo").arg(folder.path("pipe")).status();
    if !made.is_ok_and(|status| status.success()) {
        return left_out("a named pipe", "mkfifo failed");
    }
    // In processes of their own: a pipe that is opened here would be held open for
    // a moment by whatever another test starts.
    let other = |line: &str| {
        let mut shell = Command::new("sh");
        shell.args(["-c", line]).current_dir(&folder.0).stdout(Stdio::piped());
        shell.spawn().expect("a shell started")
    };
    let reader = other("cat pipe");
    folder.run(["apply", "-o", "pipe", "pack.json", "fix.json"]).done("");
    Ran::from(reader.wait_with_output().expect("the reader")).done(FIXED);
    let writer = other("cat fix.json >pipe");
    folder.run(["apply", "pack.json", "pipe"]).done(FIXED);
    Ran::from(writer.wait_with_output().expect("the writer")).done("");
}

#[test]
fn standard_output_may_be_a_file() {
    let folder = Folder::with_files();
    let file = File::create(folder.path("out.json")).expect("a file");
    Ran::of(folder.command(["apply", "pack.json", "fix.json"]).stdout(file)).done("");
    assert_eq!(folder.read("out.json"), FIXED);
}
