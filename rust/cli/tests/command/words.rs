//! What a person reads.

use crate::support::{left_out, program, Folder, Ran};
use std::process::Command;

#[test]
fn a_document_that_is_not_json() {
    let folder = Folder::with_files();
    folder.write("pack.json", "{\n  \"mAh\": 3000,\n  \"cut\": [4.2, 3.0,]\n}\n");
    folder.run(["apply", "pack.json", "fix.json"]).refused(
        "json-patch: pack.json:3:20: not JSON text: unexpected ']'\n  \
           3 |   \"cut\": [4.2, 3.0,]\n    \
             |                    ^\n  \
         hint: no comma stands before a closing bracket\n",
    );
}

#[test]
fn an_operation_that_does_not_fit() {
    let folder = Folder::with_files();
    let said = |patch: &str, words: &str| {
        folder.write("x.json", patch);
        let words = format!("json-patch: x.json: {words}\n");
        folder.run(["apply", "pack.json", "x.json"]).refused(&words);
        folder.run(["check", "pack.json", "x.json"]).refused(&words);
    };
    said(
        r#"[{"op":"replace","path":"/cutoff","value":4.15}]"#,
        "operation 1, replace \"/cutoff\": the location does not exist in pack.json\n  \
         path: the root has no \"cutoff\"\n  \
         found {\"mAh\":3000,\"cut\":[4.2,3.0]} at the root of pack.json",
    );
    said(
        r#"[{"op":"remove","path":"/cut/0"},{"op":"add","path":"/cut/x","value":1}]"#,
        "operation 2, add \"/cut/x\": a token is not an array index\n  \
         path: \"/cut\" is an array, and \"x\" is no index\n  \
         found [3.0] at \"/cut\" in pack.json",
    );
    said(
        r#"[{"op":"move","from":"/cut","path":"/cut/0"}]"#,
        r#"operation 1, move from "/cut" to "/cut/0": a value cannot be moved into its own child"#,
    );
    said(
        r#"{"mAh":3001}"#,
        "the patch is malformed: it is not an array of operations\n  \
         hint: an object is no JSON Patch; a JSON Merge Patch would be one",
    );
    let long = format!(
        r#"[{{"op":"add","path":"/a","value":"{}"}},{}{{"op":"copy","from":"/a","path":"/b"}}]"#,
        "x".repeat(30_000),
        r#"{"op":"copy","from":"/a","path":"/c"},"#
    );
    said(&long, "the result is longer than the lent output\n  at most 65,536 bytes are written");
}

#[test]
fn a_pointer_shows_how_far_it_got() {
    let folder = Folder::with_files();
    folder.write("pack.json", r#"{"mAh":3000,"cut":[4.2,{"low":{"mV":3000}},"x"]}"#);
    let said = |patch: &str, lines: &[&str]| {
        folder.write("x.json", patch);
        let error = folder.run(["apply", "pack.json", "x.json"]).error;
        assert_eq!(
            error.lines().skip(1).map(str::trim_start).collect::<Vec<_>>(),
            lines,
            "{error}"
        );
    };
    said(
        r#"[{"op":"replace","path":"/cut/1/low/mVolt/max","value":1}]"#,
        &[
            r#"path: "/cut/1/low" has no "mVolt""#,
            r#"found {"mV":3000} at "/cut/1/low" in pack.json"#,
        ],
    );
    said(
        r#"[{"op":"add","path":"/mAh/max","value":1}]"#,
        &[r#"path: "/mAh" has no "max""#, r#"found 3000 at "/mAh" in pack.json"#],
    );
    // In what the operations before it left, at the pointer as it is written.
    said(
        r#"[{"op":"add","path":"/a~1b","value":{ "c" : [ 1 ] }},
            { "path":"\/a~1b\u002fc/-/x", "op" : "remove" }]"#,
        &[r#"path: "\/a~1b\u002fc" has no "-""#, r#"found [1] at "\/a~1b\u002fc" in pack.json"#],
    );
    // The path of a move is walked in what is left.
    said(
        r#"[{"from":"/cut/0","op":"move","path":"/cut/1/low"}]"#,
        &[
            r#"path, once from is removed: "/cut/1" has no "low""#,
            r#"found "x" at "/cut/1" in pack.json"#,
        ],
    );
    said(
        r#"[{"op":"move","from":"/cut/1/high","path":"/cut/1/low/x/y"}]"#,
        &[
            r#"from: "/cut/1" has no "high""#,
            r#"found {"low":{"mV":3000}} at "/cut/1" in pack.json"#,
        ],
    );
    said(
        r#"[{"op":"copy","from":"/cut/1/low/mV","path":"/cut/x"}]"#,
        &[
            r#"path: "/cut" is an array, and "x" is no index"#,
            r#"found [4.2,{"low":{"mV":3000}},"x"] at "/cut" in pack.json"#,
        ],
    );
    // Where nothing can be found out, nothing is said of it.
    let tests = r#"{"op":"test","path":"/mAh","value":3e3},"#.repeat(255);
    said(
        &format!(r#"[{tests}{{"op":"move","from":"/mAh","path":"/cut/9"}}]"#),
        &[r#"path, once from is removed: "/cut" has no "9""#],
    );
    folder.write("x.json", r#"[{"op":"test","path":"/cut/01/low","value":1}]"#);
    folder
        .run(["apply", "--porcelain", "pack.json", "x.json"])
        .refused("refused 12 text 0 op 1 place 1 pointer 1\n");
    folder.write("x.json", r#"[{"op":"move","from":"/cut/1/low/x","path":"/y/z"}]"#);
    folder
        .run(["check", "--porcelain", "pack.json", "x.json"])
        .refused("refused 11 text 0 op 1 place 3 pointer 2\n");
}

#[test]
fn a_test_shows_what_it_found() {
    let folder = Folder::with_files();
    let said = |patch: &str, words: &str| {
        folder.write("x.json", patch);
        let error = folder.run(["apply", "pack.json", "x.json"]).error;
        assert_eq!(error.lines().nth(1), Some(words), "{error}");
    };
    // What the operations before it left, at the pointer as it is written.
    said(
        r#"[{"op":"add","path":"/a~1b","value":{ "c" : [ 1 ] }},
            {"op":"remove","path":"/mAh"},
            { "from" : 7, "value": {"c":[ 2 ]}, "p\u0061th":"\/a~1b" , "op":"test"}]"#,
        r#"  found {"c":[1]} in pack.json, expected {"c":[2]}"#,
    );
    said(
        r#"[{"op":"test","path":"","value":null}]"#,
        r#"  found {"mAh":3000,"cut":[4.2,3.0]} in pack.json, expected null"#,
    );
    let long = format!(r#"[{{"op":"test","path":"/mAh","value":"{}"}}]"#, "y".repeat(100));
    said(&long, &format!("  found 3000 in pack.json, expected \"{}…", "y".repeat(59)));
}

#[test]
fn nothing_in_a_text_reaches_a_terminal_as_a_command() {
    let folder = Folder::with_files();
    folder.write("pack.json", b"[\"\x1b[31m\x9b\xe2\x80\xae\"");
    let ran = folder.run(["apply", "pack.json", "fix.json"]);
    assert_eq!(ran.status, 1);
    let bad = |c: char| (c.is_control() && c != '\n') || c == '\u{202e}';
    assert!(!ran.error.contains(bad), "{:?}", ran.error);
    folder.write("x.json", "[{\"op\":\"remove\",\"path\":\"/\u{9b}31m\u{202e}\"}]");
    folder.write("pack.json", "{}");
    let ran = folder.run(["apply", "pack.json", "x.json"]);
    assert!(ran.error.contains("remove \"/\u{fffd}31m\u{fffd}\""), "{:?}", ran.error);
}

/// Standard error of a refusal, on a terminal.
fn on_a_terminal(folder: &Folder, variables: &[(&str, &str)]) -> Option<String> {
    said_on_a_terminal(folder, variables, "apply pack.json other.json")
}

/// What a command says on a terminal.
fn said_on_a_terminal(folder: &Folder, variables: &[(&str, &str)], words: &str) -> Option<String> {
    program("script")?;
    let line = format!("{} {words}", crate::support::COMMAND);
    let mut command = Command::new("script");
    command.args(["-qec", &line, "/dev/null"]).current_dir(&folder.0);
    command.env_remove("NO_COLOR").env("TERM", "xterm").envs(variables.iter().copied());
    Some(Ran::of(&mut command).output)
}

#[test]
fn colours_only_on_a_terminal_and_not_with_no_color() {
    let folder = Folder::with_files();
    let plain = folder.run(["apply", "pack.json", "other.json"]).error;
    assert!(!plain.contains('\x1b'));
    let Some(coloured) = on_a_terminal(&folder, &[]) else {
        return left_out("colours", "no program 'script' to make a terminal");
    };
    assert!(coloured.contains("\x1b[1;31mthe test found a difference\x1b[0m"), "{coloured:?}");
    for variables in [[("NO_COLOR", "1")], [("TERM", "dumb")]] {
        let said = on_a_terminal(&folder, &variables).unwrap_or_default();
        assert_eq!(said.replace("\r\n", "\n"), plain);
    }
    let empty = on_a_terminal(&folder, &[("NO_COLOR", "")]).unwrap_or_default();
    assert_eq!(empty, coloured, "an empty NO_COLOR is none");
}

#[test]
fn links_and_intel_hex_are_refused_in_the_same_colours() {
    let folder = Folder::new();
    folder.write("x.hex", ":020000040800F2\n");
    for (words, coloured) in [
        (
            "unhex x.hex",
            "json-patch: \x1b[1mx.hex:1:\x1b[0m \x1b[1;31mnot a record\x1b[0m\n  \
               1 | :020000040800F2\n  \
             \x1b[1;36mhint:\x1b[0m only records of types 00 and 01 are read\n",
        ),
        (
            "link a",
            "json-patch: \x1b[1m\"a\":\x1b[0m \x1b[1;31mmalformed pointer\x1b[0m\n  \
             \x1b[1;36mhint:\x1b[0m a pointer is empty or begins with '/'\n",
        ),
    ] {
        let Some(said) = said_on_a_terminal(&folder, &[], words) else {
            return left_out("colours", "no program 'script' to make a terminal");
        };
        assert_eq!(said.replace("\r\n", "\n"), coloured);
        let plain = folder.run(words.split(' ')).error;
        let said = said_on_a_terminal(&folder, &[("NO_COLOR", "1")], words).unwrap_or_default();
        assert_eq!(said.replace("\r\n", "\n"), plain);
    }
}
