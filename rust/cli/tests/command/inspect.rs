//! `inspect`.

use crate::support::{Folder, FIX};

/// The line of `fix.json`.
const LINE: &str = "fix.json: add 1 remove 0 replace 0 move 0 copy 0 test 1 ops 2\n";

#[test]
fn a_line_for_each_patch() {
    let folder = Folder::with_files();
    folder.run(["inspect", "fix.json"]).done(LINE);
    folder.write("none.json", " [ ] ");
    let none = "none.json: add 0 remove 0 replace 0 move 0 copy 0 test 0 ops 0\n";
    folder.run(["inspect", "none.json", "fix.json"]).done(&format!("{none}{LINE}"));
    let six = r#"[{"op":"add","path":"","value":0},{"op":"remove","path":"/a"},
        {"op":"replace","path":"","value":0},{"op":"move","from":"/a","path":"/b"},
        {"op":"copy","from":"/a","path":"/a/b"},{"op":"test","path":"/a","value":0}]"#;
    folder.write("six.json", six);
    let line = "six.json: add 1 remove 1 replace 1 move 1 copy 1 test 1 ops 6\n";
    folder.run(["inspect", "six.json"]).done(line);
    // What would be refused only with a document is counted.
    let other = "other.json: add 0 remove 0 replace 0 move 0 copy 0 test 1 ops 1\n";
    folder.run(["inspect", "other.json"]).done(other);
}

#[test]
fn a_refused_patch_has_no_line() {
    let folder = Folder::with_files();
    folder.write("bad.json", r#"[{"op":"remove","path":"/a"},{"op":"remove","path":"a"}]"#);
    let ran = folder.run(["inspect", "bad.json", "fix.json"]);
    assert_eq!((ran.status, &ran.output[..]), (1, LINE));
    assert!(ran.error.starts_with("json-patch: bad.json: operation 2"), "{}", ran.error);
    let ran = folder.run(["inspect", "--porcelain", "fix.json", "bad.json"]);
    assert_eq!((ran.status, &ran.output[..]), (1, LINE));
    assert_eq!(ran.error, "refused 10 text 0 op 2 place 0 pointer 0\n");
    let ran = folder.run(["inspect", "-q", "bad.json"]);
    assert_eq!((ran.status, &ran.output[..], &ran.error[..]), (1, "", ""));
    folder.write("cut.json", "[");
    let ran = folder.run(["inspect", "--porcelain", "cut.json"]);
    assert_eq!((ran.status, &ran.error[..]), (1, "refused 3 text 2 op 0 place 1 pointer 0\n"));
    folder.write("long.json", " ".repeat(40_000));
    let ran = folder.run(["inspect", "--porcelain", "long.json"]);
    assert_eq!((ran.status, &ran.error[..]), (1, "refused 2 text 2 op 0 place 0 pointer 0\n"));
}

#[test]
fn trouble() {
    let folder = Folder::with_files();
    assert_eq!(folder.run(["inspect"]).status, 2);
    assert_eq!(folder.run(["inspect", "-", "-"]).status, 2);
    assert_eq!(folder.run(["inspect", "missing.json"]).status, 2);
    assert!(!FIX.is_empty());
}
