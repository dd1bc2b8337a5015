//! Exit statuses, and what stands on which stream.

use crate::support::{Folder, FIX, FIXED, OTHER, PACK, ROOT};
use std::fs;
use std::path::Path;

#[test]
fn done_is_0() {
    let folder = Folder::with_files();
    folder.run(["apply", "pack.json", "fix.json"]).done(FIXED);
    folder
        .run(["check", "pack.json", "fix.json"])
        .done("fix.json: 2 operations apply to pack.json\n");
    folder.run(["apply", "--quiet", "pack.json", "fix.json"]).done(FIXED);
    folder.run(["apply", "--porcelain", "pack.json", "fix.json"]).done(FIXED);
    folder.run(["check", "--quiet", "pack.json", "fix.json"]).done("");
    folder.run(["check", "--porcelain", "pack.json", "fix.json"]).done("");
    assert_eq!(folder.read("pack.json"), PACK);
}

#[test]
fn refused_is_1_with_nothing_on_standard_output() {
    let folder = Folder::with_files();
    let line = "refused 15 text 0 op 1 place 0 pointer 0\n";
    for command in ["apply", "check"] {
        let words = "json-patch: other.json: operation 1, test \"/mAh\": \
                     the test found a difference\n  \
                     found 3000 in pack.json, expected 3001\n  \
                     hint: the patch was made for another document\n";
        folder.run([command, "pack.json", "other.json"]).refused(words);
        folder.run([command, "--quiet", "pack.json", "other.json"]).refused("");
        folder.run([command, "--porcelain", "pack.json", "other.json"]).refused(line);
        folder.run([command, "-q", "--porcelain", "pack.json", "other.json"]).refused(line);
    }
    folder.run(["apply", "-i", "pack.json", "other.json"]);
    folder.run(["apply", "-o", "new.json", "pack.json", "other.json"]);
    assert_eq!(folder.read("pack.json"), PACK);
    assert_eq!(folder.names(), ["fix.json", "other.json", "pack.json"]);
}

#[test]
fn several_patches_are_applied_in_one_go() {
    let folder = Folder::with_files();
    folder.write("more.json", r#"[{"op":"add","path":"/cut/0","value":1}]"#);
    let expected = "{\"mAh\":3000,\"cut\":[1,4.2,3.0,2.8]}\n";
    folder.run(["apply", "pack.json", "fix.json", "more.json"]).done(expected);
    folder.run(["apply", "-i", "pack.json", "fix.json", "more.json"]).done("");
    assert_eq!(folder.read("pack.json"), expected);
    folder.write("pack.json", PACK);
    folder.run(["check", "pack.json", "fix.json", "more.json", "fix.json"]).done(
        "fix.json: 2 operations apply to pack.json\n\
         more.json: 1 operation applies to pack.json after 1 patch\n\
         fix.json: 2 operations apply to pack.json after 2 patches\n",
    );
}

#[test]
fn of_several_patches_the_refused_one_is_named() {
    let folder = Folder::with_files();
    folder.write("set.json", r#"[{"op":"replace","path":"/mAh","value":2600}]"#);
    let run = folder.run(["apply", "-i", "pack.json", "set.json", "fix.json"]);
    run.refused(
        "json-patch: fix.json: operation 1, test \"/mAh\": the test found a difference\n  \
         found 2600 in pack.json after 1 patch, expected 3e3\n  \
         hint: the patch was made for another document\n",
    );
    assert_eq!(folder.read("pack.json"), PACK, "none is applied where one is refused");
    folder
        .run(["apply", "--porcelain", "pack.json", "set.json", "set.json", "fix.json"])
        .refused("refused 15 text 0 op 1 place 0 pointer 0\npatch 3\n");
    let copy = r#"{"op":"copy","from":"/x","path":"/y"}"#;
    let long = "x".repeat(20_000);
    folder.write("long.json", format!(r#"[{{"op":"add","path":"/x","value":"{long}"}},{copy}]"#));
    folder
        .run(["apply", "pack.json", "long.json", "set.json"])
        .refused("json-patch: pack.json after 1 patch: the text is longer than 32,768 bytes\n");
}

#[test]
fn trouble_is_2() {
    let folder = Folder::with_files();
    let one = |words: &[&str], said: &str, help: &str| {
        let hint = format!("json-patch: {said}\nTry 'json-patch{help} --help'.\n");
        folder.run(words).trouble(&hint);
    };
    one(&[], "no command is given", "");
    one(&["aply"], "unknown command: aply", "");
    one(&[""], "unknown command: ", "");
    one(&["--frob"], "unknown option: --frob", "");
    one(&["help", "frob"], "unknown command: frob", "");
    one(&["help", "apply", "check"], "help takes one command", "");
    for command in ["apply", "check"] {
        let help = &format!(" {command}");
        one(&[command], "no document and no patch are given", help);
        one(&[command, "pack.json"], "no patch is given", help);
        one(&[command, "-", "-"], "standard input can be read only once", help);
        one(&[command, "-", "fix.json", "-"], "standard input can be read only once", help);
        one(&[command, "--frob", "pack.json", "fix.json"], "unknown option: --frob", help);
        one(&[command, "pack.json", "fix.json", "-qx"], "unknown option: -qx", help);
        one(&[command, "--quiet=yes", "a", "b"], "--quiet takes no value", help);
    }
    one(&["apply", "a", "b", "-o"], "--output takes a value: FILE", " apply");
    one(&["apply", "a", "b", "--output"], "--output takes a value: FILE", " apply");
    let both = ["apply", "-i", "-o", "x", "pack.json", "fix.json"];
    one(&both, "--in-place and --output exclude each other", " apply");
    one(&["apply", "-i", "-", "fix.json"], "--in-place takes a file, not standard input", " apply");
    one(&["completion"], "completion takes one shell: bash, zsh or fish", " completion");
    one(&["completion", "csh"], "unknown shell: csh", " completion");
    assert_eq!(folder.names(), ["fix.json", "other.json", "pack.json"]);
}

#[test]
fn options_may_stand_anywhere() {
    let folder = Folder::with_files();
    let forms: [&[&str]; 8] = [
        &["apply", "-o", "out", "pack.json", "fix.json"],
        &["apply", "-oout", "pack.json", "fix.json"],
        &["apply", "pack.json", "--output", "out", "fix.json"],
        &["apply", "pack.json", "fix.json", "--output=out"],
        &["apply", "-qo", "out", "pack.json", "fix.json"],
        &["apply", "-qoout", "pack.json", "fix.json"],
        &["apply", "-o", "elsewhere", "-o", "out", "--", "pack.json", "fix.json"],
        &["apply", "-oout", "--", "pack.json", "fix.json"],
    ];
    for form in forms {
        folder.run(form).done("");
        assert_eq!(folder.read("out"), FIXED, "{form:?}");
        fs::remove_file(folder.path("out")).expect("the output");
    }
    assert_eq!(folder.names(), ["fix.json", "other.json", "pack.json"]);
    folder.run(["apply", "-o", "-", "pack.json", "fix.json"]).done(FIXED);
}

#[test]
fn standard_input_is_document_or_patch() {
    let folder = Folder::with_files();
    folder.run_with(PACK, &["apply", "-", "fix.json"]).done(FIXED);
    folder.run_with(FIX, &["apply", "pack.json", "-"]).done(FIXED);
    folder.run_with(FIX, &["apply", "-i", "pack.json", "-"]).done("");
    assert_eq!(folder.read("pack.json"), FIXED);
    folder.run_with("[1,", &["apply", "-", "fix.json"]).refused(
        "json-patch: standard input:1:4: not JSON text: the text ends too early\n  \
           1 | [1,\n    \
             |    ^\n",
    );
    folder
        .run_with(OTHER, &["check", "--porcelain", "pack.json", "-"])
        .refused("refused 15 text 0 op 1 place 0 pointer 0\n");
}

/// Every committed case that lends what the command lends, put to the command:
/// the line that the second program expects of it.
#[test]
fn committed_cases_give_their_lines() {
    let data = Path::new(ROOT).join("crates/vectors");
    let cases = fs::read(data.join("data/cases")).expect("the cases");
    let lines = fs::read(data.join("stdout")).expect("the lines");
    let mut lines = lines.split(|&byte| byte == b'\n');
    let folder = Folder::new();
    let (mut rest, mut tried) = (&cases[..], 0);
    while !rest.is_empty() {
        let end = rest.iter().position(|&byte| byte == b'\n').expect("a line");
        let title: Vec<&str> =
            std::str::from_utf8(&rest[..end]).expect("text").split(' ').collect();
        let number = |at: usize| title[at].parse::<usize>().expect("a number");
        let (name, lent, document, patch) = (title[1], number(2), number(3), number(4));
        let texts = &rest[end + 1..];
        let expected = lines.next().expect("a line for each case");
        if lent == 65_536 && !expected.windows(2).any(|pair| pair == b"\r\n") {
            folder.write("document", &texts[..document]);
            folder.write("patch", &texts[document + 1..document + 1 + patch]);
            let words = ["apply", "--porcelain", "document", "patch"];
            let ran = folder.command(words).output().expect("the command ran");
            let mut said = ran.stdout.clone();
            said.extend(&ran.stderr);
            let mut line = format!("{name}: ").into_bytes();
            line.extend(said.strip_suffix(b"\n").unwrap_or(&said));
            assert_eq!(String::from_utf8_lossy(&line), String::from_utf8_lossy(expected));
            let refused = expected[name.len() + 2..].starts_with(b"refused ");
            assert_eq!(ran.status.code(), Some(i32::from(refused)), "{name}");
            tried += 1;
        }
        rest = &texts[document + patch + 2..];
    }
    assert!(tried > 1500, "{tried}");
}
