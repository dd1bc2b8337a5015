//! Undos: printed, and written beside an applied patch.

use crate::replacing::interrupter;
use crate::support::{left_out, Folder, Ran, FIXED, PACK, ROOT};
use std::fs::{self, OpenOptions, Permissions};
use std::os::unix::fs::{symlink, MetadataExt, PermissionsExt};
use std::path::Path;

const UNDO: &str = "[{\"op\":\"remove\",\"path\":\"/cut/2\"}]\n";
const IN_PLACE: [&str; 6] = ["apply", "-i", "--undo", "undo.json", "pack.json", "fix.json"];
const BEFORE: [&str; 3] = ["fix.json", "other.json", "pack.json"];
const AFTER: [&str; 4] = ["fix.json", "other.json", "pack.json", "undo.json"];

/// A patch whose undo is refused with 5, and its document.
fn with_deep_files() -> Folder {
    let folder = Folder::with_files();
    folder.write("deep.json", "[".repeat(31) + &"]".repeat(31));
    folder.write("clear.json", r#"[{"op":"replace","path":"","value":null}]"#);
    folder
}

#[test]
fn an_undo_is_printed() {
    let folder = Folder::with_files();
    folder.run(["undo", "pack.json", "fix.json"]).done(UNDO);
    folder.run(["undo", "-q", "--porcelain", "pack.json", "fix.json"]).done(UNDO);
    folder.run_with(PACK, &["undo", "-", "fix.json"]).done(UNDO);
    folder.run(["undo", "-o", "-", "pack.json", "fix.json"]).done(UNDO);
    folder.write("none.json", "[]");
    folder.run(["undo", "pack.json", "none.json"]).done("[]\n");
    folder.run(["undo", "-o", "undo.json", "pack.json", "fix.json"]).done("");
    assert_eq!((folder.read("undo.json"), folder.read("pack.json")), (UNDO.into(), PACK.into()));
    folder
        .run(["undo", "-o", "undo.json", "pack.json", "none.json"])
        .trouble("json-patch: undo.json: File exists\n");
    assert_eq!(folder.read("undo.json"), UNDO);
}

#[test]
fn an_undo_takes_the_document_back() {
    let folder = Folder::with_files();
    folder.run(IN_PLACE).done("");
    assert_eq!((folder.read("pack.json"), folder.read("undo.json")), (FIXED.into(), UNDO.into()));
    assert_eq!(folder.names(), AFTER);
    folder.run(["apply", "-i", "pack.json", "undo.json"]).done("");
    assert_eq!(folder.read("pack.json"), PACK);
    // To standard output, and to another file.
    let to_output = ["apply", "--undo=u2.json", "pack.json", "fix.json"];
    folder.run(to_output).done(FIXED);
    folder.run(["apply", "-o", "out.json", "--undo", "u3.json", "pack.json", "fix.json"]).done("");
    assert_eq!(folder.read("out.json"), FIXED);
    assert_eq!((folder.read("u2.json"), folder.read("u3.json")), (UNDO.into(), UNDO.into()));
    assert_eq!(folder.read("pack.json"), PACK);
}

#[test]
fn several_patches_have_one_undo() {
    let folder = Folder::with_files();
    folder.write("set.json", r#"[{"op":"replace","path":"/mAh","value":2600}]"#);
    let undo = "[{\"op\":\"replace\",\"path\":\"/mAh\",\"value\":3000},\
                {\"op\":\"remove\",\"path\":\"/cut/2\"}]\n";
    folder.run(["undo", "pack.json", "fix.json", "set.json"]).done(undo);
    folder
        .run(["apply", "-i", "--undo", "undo.json", "pack.json", "fix.json", "set.json"])
        .done("");
    assert_eq!(folder.read("undo.json"), undo);
    folder.run(["apply", "-i", "pack.json", "undo.json"]).done("");
    assert_eq!(folder.read("pack.json"), PACK);
    // Each of them has a patch for its undo, but all of them together do not.
    let swaps = vec![r#"{"op":"move","from":"/0","path":"/1"}"#; 100].join(",");
    folder.write("swap.json", format!("[{swaps}]"));
    folder.write("list.json", "[1,2]");
    folder.run(["undo", "-o", "swaps.json", "list.json", "swap.json"]).done("");
    let words = "json-patch: swap.json: its undo would be no patch: more than 256 operations\n  \
                 hint: the patch applies to list.json after 1 patch; \
                 keep a copy of the document in place of an undo\n";
    folder.run(["undo", "list.json", "swap.json", "swap.json"]).refused(words);
    folder
        .run(["undo", "--porcelain", "list.json", "swap.json", "swap.json"])
        .refused("refused 9 text 2 op 0 place 0 pointer 0\npatch 2\n");
    let long = "x".repeat(17_000);
    folder.write("long.json", format!(r#"["{long}","{long}"]"#));
    folder.write("first.json", r#"[{"op":"remove","path":"/0"}]"#);
    folder
        .run(["undo", "--porcelain", "long.json", "first.json", "first.json"])
        .refused("refused 2 text 1 op 0 place 0 pointer 0\npatch 1\n");
    let long = "x".repeat(16_360);
    folder.write("long.json", format!(r#"["{long}","{long}"]"#));
    folder
        .run(["undo", "--porcelain", "long.json", "first.json", "first.json"])
        .refused("refused 2 text 2 op 0 place 0 pointer 0\npatch 2\n");
}

#[test]
fn a_refusal_leaves_everything() {
    let folder = with_deep_files();
    let names = folder.names();
    let words = "json-patch: clear.json: its undo would be no patch: \
                 more than 32 nested containers\n  \
                 hint: the patch applies to deep.json; \
                 keep a copy of the document in place of an undo\n";
    let deep = folder.read("deep.json");
    for words_of in [
        &["undo", "deep.json", "clear.json"][..],
        &["apply", "-i", "--undo", "undo.json", "deep.json", "clear.json"],
        &["apply", "-o", "out.json", "--undo", "undo.json", "deep.json", "clear.json"],
        &["apply", "--undo", "undo.json", "deep.json", "clear.json"],
    ] {
        folder.run(words_of).refused(words);
        let porcelain: Vec<&str> = words_of.iter().copied().chain(["--porcelain"]).collect();
        folder.run(porcelain).refused("refused 5 text 2 op 0 place 0 pointer 0\n");
        let quiet: Vec<&str> = words_of.iter().copied().chain(["-q"]).collect();
        folder.run(quiet).refused("");
    }
    folder.run(["apply", "-i", "--undo", "undo.json", "pack.json", "other.json"]).refused(
        "json-patch: other.json: operation 1, test \"/mAh\": the test found a difference\n  \
         found 3000 in pack.json, expected 3001\n  \
         hint: the patch was made for another document\n",
    );
    assert_eq!((folder.read("deep.json"), folder.names()), (deep, names));
    // Without an undo it applies.
    folder.run(["apply", "-i", "deep.json", "clear.json"]).done("");
    assert_eq!(folder.read("deep.json"), "null\n");
}

#[test]
fn nothing_that_is_there_is_replaced_by_an_undo() {
    let folder = Folder::with_files();
    fs::create_dir(folder.path("folder")).expect("a folder");
    symlink("nowhere", folder.path("dangling")).expect("a link");
    symlink("other.json", folder.path("linked")).expect("a link");
    let other = folder.read("other.json");
    let names = folder.names();
    for name in ["other.json", "pack.json", "folder", "dangling", "linked", "/dev/null"] {
        let exists = format!("json-patch: {name}: File exists\n");
        folder.run(["apply", "-i", "--undo", name, "pack.json", "fix.json"]).trouble(&exists);
        folder.run(["apply", "--undo", name, "pack.json", "fix.json"]).trouble(&exists);
        folder.run(["undo", "-o", name, "pack.json", "fix.json"]).trouble(&exists);
    }
    let missing = "json-patch: gone/u.json: No such file or directory\n";
    folder.run(["apply", "-i", "--undo", "gone/u.json", "pack.json", "fix.json"]).trouble(missing);
    let nothing = "json-patch: : No such file or directory\n";
    folder.run(["apply", "-i", "--undo", "", "pack.json", "fix.json"]).trouble(nothing);
    // The document and the undo in one file, though none is there yet.
    for (output, undo) in [("new.json", "new.json"), ("./new.json", "folder/../new.json")] {
        let words = format!(
            "json-patch: the document and its undo are both {output}\nTry 'json-patch --help'.\n"
        );
        folder
            .run(["apply", "-o", output, "--undo", undo, "pack.json", "fix.json"])
            .trouble(&words);
    }
    assert_eq!((folder.read("pack.json"), folder.read("other.json")), (PACK.into(), other));
    assert_eq!(folder.names(), names);
}

#[test]
fn wrong_use() {
    let folder = Folder::with_files();
    let one = |words: &[&str], said: &str, command: &str| {
        let hint = format!("json-patch: {said}\nTry 'json-patch {command} --help'.\n");
        folder.run(words).trouble(&hint);
    };
    let to_output = "--undo takes a file, not standard output";
    one(&["apply", "--undo", "-", "pack.json", "fix.json"], to_output, "apply");
    one(&["apply", "pack.json", "fix.json", "--undo"], "--undo takes a value: FILE", "apply");
    one(&["undo"], "no document and no patch are given", "undo");
    one(&["undo", "pack.json"], "no patch is given", "undo");
    one(&["undo", "-", "-"], "standard input can be read only once", "undo");
    one(&["undo", "-i", "pack.json", "fix.json"], "unknown option: -i", "undo");
    assert_eq!(folder.names(), BEFORE);
}

#[test]
fn where_the_document_cannot_be_written_there_is_no_undo() {
    let folder = Folder::with_files();
    let full = OpenOptions::new().write(true).open("/dev/full").expect("/dev/full");
    let words = ["apply", "--undo", "undo.json", "pack.json", "fix.json"];
    Ran::of(folder.command(words).stdout(full))
        .trouble("json-patch: standard output: No space left on device\n");
    folder
        .run(["apply", "-o", "/dev/full", "--undo", "undo.json", "pack.json", "fix.json"])
        .trouble("json-patch: /dev/full: No space left on device\n");
    folder
        .run(["apply", "-o", "gone/out.json", "--undo", "undo.json", "pack.json", "fix.json"])
        .trouble("json-patch: gone/out.json: No such file or directory\n");
    assert_eq!(folder.names(), BEFORE);
    folder
        .run(["apply", "-o", "/dev/null", "--undo", "undo.json", "pack.json", "fix.json"])
        .done("");
    assert_eq!(folder.read("undo.json"), UNDO);
}

#[test]
fn no_one_may_read_an_undo_who_may_not_read_the_document() {
    for (mode, wanted) in [(0o600, 0o600), (0o640, 0o640), (0o644, 0o644), (0o755, 0o644)] {
        let folder = Folder::with_files();
        fs::set_permissions(folder.path("pack.json"), Permissions::from_mode(mode)).expect("mode");
        folder.run(IN_PLACE).done("");
        folder.run(["undo", "-o", "u2.json", "pack.json", "fix.json"]).done("");
        folder.write("plain", "");
        let mode = |name: &str| fs::metadata(folder.path(name)).expect("a file").mode() & 0o7777;
        let mask = 0o666 & !mode("plain");
        assert_eq!((mode("undo.json"), mode("u2.json")), (wanted & !mask, wanted & !mask));
    }
}

/// A run that a library ends at a step, in a folder of its own.
fn interrupted(library: &Path, words: &[&str], variables: &[(&str, &str)]) -> (Folder, Ran) {
    let folder = Folder::with_files();
    let mut command = folder.command(words);
    command.env("LD_PRELOAD", library).envs(variables.iter().copied());
    let ran = Ran::of(&mut command);
    (folder, ran)
}

/// What there is after a run that did not come to its end: the document, the undo,
/// and no file that is half written. A new document has its undo.
fn sound(folder: &Folder, what: &str) -> (bool, bool) {
    let document = folder.read("pack.json");
    let has_undo = folder.path("undo.json").exists();
    assert!(document == PACK || document == FIXED, "{what}: {document}");
    assert!(document == PACK || has_undo, "{what}: a new document without its undo");
    if has_undo {
        assert_eq!(folder.read("undo.json"), UNDO, "{what}");
    }
    (document == FIXED, has_undo)
}

#[test]
fn a_killed_run_leaves_no_new_document_without_its_undo() {
    let folder = Folder::new();
    let Some(library) = interrupter(&folder) else {
        return left_out("killed runs", "no C compiler 'cc'");
    };
    for nameless in ["yes", "no"] {
        let mut seen = Vec::new();
        for function in ["write", "fsync", "fchmod", "linkat", "link", "rename", "unlink"] {
            for moment in ["before", "after", "second", "third", "fourth"] {
                let step = format!("{moment}:{function}");
                let (folder, ran) = interrupted(
                    &library,
                    &IN_PLACE,
                    &[("NAMELESS", nameless), ("INTERRUPT", &step)],
                );
                let what = format!("{step}, nameless {nameless}");
                assert!(ran.status == -1 || ran.status == 0, "{what}: {ran:?}");
                let came = sound(&folder, &what);
                if ran.status == 0 {
                    assert_eq!(came, (true, true), "{what}");
                }
                seen.push(came);
                let mut names = folder.names();
                names.retain(|name| !name.starts_with(".json-patch-"));
                let wanted: &[&str] = if came.1 { &AFTER } else { &BEFORE };
                assert_eq!(names, wanted, "{what}");
                let scratch = folder.names().len() - names.len();
                let most = if nameless == "yes" { 1 } else { 2 };
                assert!(scratch <= most, "{what}: {:?}", folder.names());
            }
        }
        // Old without undo, old with undo, new with undo: all of them come.
        for wanted in [(false, false), (false, true), (true, true)] {
            assert!(seen.contains(&wanted), "{wanted:?}, nameless {nameless}");
        }
    }
}

#[test]
fn a_step_that_fails_leaves_the_old_document_and_no_undo() {
    let folder = Folder::new();
    let Some(library) = interrupter(&folder) else {
        return left_out("steps that fail", "no C compiler 'cc'");
    };
    for nameless in ["yes", "no"] {
        for step in ["write", "fsync", "fchmod", "linkat", "rename"] {
            if (nameless, step) == ("no", "linkat") {
                continue;
            }
            let (folder, ran) =
                interrupted(&library, &IN_PLACE, &[("NAMELESS", nameless), ("FAIL", step)]);
            assert_eq!((ran.status, &ran.output[..]), (2, ""), "{step}");
            assert_eq!(folder.read("pack.json"), PACK, "{step}");
            assert_eq!(folder.names(), BEFORE, "{step}");
        }
    }
}

/// The committed cases with the outputs that the command lends: what they print.
#[test]
fn the_committed_undos() {
    let folder = Folder::new();
    let cases =
        fs::read(Path::new(ROOT).join("crates/undo_vectors/data/cases")).expect("the cases");
    let answers =
        fs::read(Path::new(ROOT).join("crates/undo_vectors/stdout")).expect("the answers");
    let mut lines = answers.split(|&byte| byte == b'\n');
    let (mut rest, mut count) = (&cases[..], 0);
    while !rest.is_empty() {
        let end = rest.iter().position(|&byte| byte == b'\n').expect("a line");
        let title = std::str::from_utf8(&rest[..end]).expect("text");
        let words: Vec<&str> = title.split(' ').collect();
        let ["case", name, room, undo_room, first, second] = words[..] else { panic!("{title}") };
        let (first, second): (usize, usize) =
            (first.parse().expect("a number"), second.parse().expect("a number"));
        let (document, patch) = (&rest[end + 1..][..first], &rest[end + first + 2..][..second]);
        rest = &rest[end + first + second + 3..];
        let line = lines.next().expect("an answer");
        let refused = line.strip_prefix(format!("{name}: refused ").as_bytes());
        let undo = if refused.is_none() { lines.next() } else { None };
        if undo.is_some() {
            lines.next();
        }
        // Every fifth, and those that speak of a limit: each is a process.
        let chosen = count % 5 == 0 || name.starts_with("limit") || name.starts_with("order");
        count += 1;
        if (room, undo_room) != ("65536", "32768") || !chosen {
            continue;
        }
        folder.write("document", document);
        folder.write("patch", patch);
        let ran = folder.run(["undo", "--porcelain", "document", "patch"]);
        match undo {
            Some(undo) => {
                let undo = String::from_utf8_lossy(&undo[name.len() + " undo: ".len()..]);
                assert_eq!(ran.output.trim_end_matches('\n'), undo, "{name}");
            }
            None => {
                let line = String::from_utf8_lossy(&line[name.len() + 2..]);
                ran.refused(&format!("{line}\n"));
            }
        }
    }
    assert!(count > 250);
}
