//! `link` and `pointer`.

use crate::support::{committed, Folder, Ran};
use std::ffi::OsStr;
use std::fs::OpenOptions;
use std::os::unix::ffi::OsStrExt;

/// RFC 6901, section 6: the pointers of section 5 and their links.
const SECTION_6: [(&str, &str); 12] = [
    ("", "#"),
    ("/foo", "#/foo"),
    ("/foo/0", "#/foo/0"),
    ("/", "#/"),
    ("/a~1b", "#/a~1b"),
    ("/c%d", "#/c%25d"),
    ("/e^f", "#/e%5Ef"),
    ("/g|h", "#/g%7Ch"),
    ("/i\\j", "#/i%5Cj"),
    ("/k\"l", "#/k%22l"),
    ("/ ", "#/%20"),
    ("/m~0n", "#/m~0n"),
];

#[test]
fn the_examples_of_section_6() {
    let folder = Folder::new();
    for (pointer, link) in SECTION_6 {
        folder.run(["link", pointer]).done(&format!("{link}\n"));
        folder.run(["pointer", link]).done(&format!("{pointer}\n"));
    }
}

#[test]
fn what_is_written_is_read_back() {
    let folder = Folder::new();
    let long = format!("/{}", "é".repeat(5_000));
    for pointer in ["/-", "/--help", "/#", "/naïve/漢字/😀", "/a\nb\t\x7f", "/%41", &long] {
        let link = folder.run(["link", pointer]);
        link.done(&link.output);
        let link = link.output.strip_suffix('\n').expect("a newline");
        assert!(link.starts_with("#/") && link.bytes().all(|byte| byte.is_ascii_graphic()));
        folder.run(["pointer", link]).done(&format!("{pointer}\n"));
    }
    // Either case of digits, and percents that need not be there.
    folder.run(["pointer", "#%2f%61%c3%A9"]).done("/aé\n");
}

/// Runs a command in every way of saying a refusal.
#[track_caller]
fn refused(words: [&OsStr; 2], number: u32, said: &str) {
    let folder = Folder::new();
    let [command, text] = words;
    let run = |option: &[&str]| {
        let options = option.iter().map(OsStr::new);
        folder.run([command].into_iter().chain(options).chain([OsStr::new("--"), text]))
    };
    run(&[]).refused(said);
    run(&["-q"]).refused("");
    run(&["--porcelain"]).refused(&format!("refused {number} text 0 op 0 place 0 pointer 0\n"));
}

#[test]
fn a_malformed_pointer_is_refused() {
    let one = |pointer: &[u8], shown: &str, hint: &str| {
        let said = format!("json-patch: \"{shown}\": malformed pointer\n  hint: {hint}\n");
        refused([OsStr::new("link"), OsStr::from_bytes(pointer)], 10, &said);
    };
    let slash = "a pointer is empty or begins with '/'";
    let tilde = "a '~' has 0 or 1 after it";
    one(b"cut", "cut", slash);
    one(b"#/cut", "#/cut", slash);
    one(b"-", "-", slash);
    one(b"-q", "-q", slash);
    one(b"/~", "/~", tilde);
    one(b"/a~2", "/a~2", tilde);
    one(b"/\xff", "/\u{fffd}", "a pointer is UTF-8");
    one(b"/\xed\xa0\x80", "/\u{fffd}\u{fffd}\u{fffd}", "a pointer is UTF-8");
    one(b"\x1b[31m", "\u{fffd}[31m", slash);
}

#[test]
fn a_bad_link_is_refused() {
    let one = |link: &[u8], shown: &str, hint: &str| {
        let fault = "no link, or its bytes are not UTF-8";
        let said = format!("json-patch: \"{shown}\": {fault}\n  hint: {hint}\n");
        refused([OsStr::new("pointer"), OsStr::from_bytes(link)], 22, &said);
    };
    one(b"", "", "a link begins with '#'");
    one(b"/cut", "/cut", "a link begins with '#'");
    one(b"#/a b", "#/a b", "the byte 20 is written as %20");
    one(b"#/a#", "#/a#", "the byte 23 is written as %23");
    one("#/é".as_bytes(), "#/é", "the byte C3 is written as %C3");
    one(b"#/%", "#/%", "a '%' has two hexadecimal digits after it");
    one(b"#/%4", "#/%4", "a '%' has two hexadecimal digits after it");
    one(b"#/%4g", "#/%4g", "a '%' has two hexadecimal digits after it");
    one(b"#/%FF", "#/%FF", "what its percents stand for is not UTF-8");
    // 22 before 10.
    one(b"#a b", "#a b", "the byte 20 is written as %20");
}

#[test]
fn a_link_that_names_no_pointer_is_refused() {
    let one = |link: &str, hint: &str| {
        let said = format!("json-patch: \"{link}\": malformed pointer\n  hint: {hint}\n");
        refused([OsStr::new("pointer"), OsStr::new(link)], 10, &said);
    };
    one("#a", "a pointer is empty or begins with '/'");
    one("#%61", "a pointer is empty or begins with '/'");
    one("#/~", "a '~' has 0 or 1 after it");
    one("#/%7E2", "a '~' has 0 or 1 after it");
    one("#%2Fa~", "a '~' has 0 or 1 after it");
}

#[test]
fn a_link_over_the_limit_is_refused() {
    let folder = Folder::new();
    let link = |length: usize| format!("#/{}", "x".repeat(length - 2));
    folder.run(["pointer", &link(32_768)]).done(&format!("{}\n", &link(32_768)[1..]));
    let said = format!("json-patch: \"#/{}…\": a link over 32,768 bytes\n", "x".repeat(58));
    refused([OsStr::new("pointer"), OsStr::new(&link(32_769))], 2, &said);
    // When writing there is none.
    let pointer = format!("/{}", " ".repeat(40_000));
    folder.run(["link", &pointer]).done(&format!("#/{}\n", "%20".repeat(40_000)));
}

#[test]
fn trouble_is_2() {
    let folder = Folder::new();
    let one = |words: &[&str], said: &str| {
        let help = format!("Try 'json-patch {} --help'.", words[0]);
        folder.run(words).trouble(&format!("json-patch: {said}\n{help}\n"));
    };
    one(&["link"], "link takes one pointer");
    one(&["link", "/a", "/b"], "link takes one pointer");
    one(&["link", "-o", "/a"], "unknown option: -o");
    one(&["pointer"], "no link is given; a shell takes a bare # for a comment");
    one(&["pointer", "#/a", "#/b"], "pointer takes one link");
    one(&["pointer", "--frob", "#/a"], "unknown option: --frob");
    for words in [["link", "/a"], ["pointer", "#/a"]] {
        let full = OpenOptions::new().write(true).open("/dev/full").expect("/dev/full");
        let ran = Ran::of(folder.command(words).stdout(full));
        ran.trouble("json-patch: standard output: No space left on device\n");
    }
}

/// Every committed text that can be an argument, put to both commands: the answer
/// that the second program expects of it.
#[test]
fn committed_cases_give_their_answers() {
    let folder = Folder::new();
    let mut tried = 0;
    for case in committed("crates/fragment_vectors") {
        for (command, expected) in [("link", &case.written), ("pointer", &case.read)] {
            if case.text.contains(&0) || expected == b"refused 16" {
                continue;
            }
            let words = ["--porcelain", "--"].map(OsStr::new);
            let words = [OsStr::new(command), words[0], words[1], OsStr::from_bytes(&case.text)];
            let ran = folder.command(words).output().expect("the command ran");
            let (status, output, error) = match expected.starts_with(b"refused ") {
                true => {
                    (1, Vec::new(), [expected, &b" text 0 op 0 place 0 pointer 0\n"[..]].concat())
                }
                false => (0, [expected, &b"\n"[..]].concat(), Vec::new()),
            };
            let got = (ran.status.code(), ran.stdout, ran.stderr);
            assert_eq!(got, (Some(status), output, error), "{command} {}", case.name);
            tried += 1;
        }
    }
    assert!(tried > 2_000, "{tried}");
}
