//! `equal`.

use crate::support::{Folder, PACK};

/// The same values as `pack.json` has, in another order and other digits.
const TIDY: &str = r#"{"cut":[4.20,3],"mAh":3e3}"#;

#[test]
fn the_status_is_that_of_cmp() {
    let folder = Folder::with_files();
    folder.write("tidy.json", TIDY);
    folder.run(["equal", "pack.json", "tidy.json"]).done("");
    folder.run(["equal", "pack.json", "pack.json"]).done("");
    let ran = folder.run(["equal", "pack.json", "fix.json"]);
    assert_eq!((ran.status, &ran.output[..], &ran.error[..]), (1, "", ""));
    let ran = folder.run(["equal", "pack.json", "missing.json"]);
    assert_eq!((ran.status, &ran.output[..]), (2, ""));
    assert!(ran.error.starts_with("json-patch: missing.json: "), "{}", ran.error);
}

#[test]
fn the_count_on_request() {
    let folder = Folder::with_files();
    folder.write("tidy.json", TIDY);
    folder.run(["equal", "--count", "pack.json", "tidy.json"]).done("equal 3\n");
    folder.run(["equal", "-c", "tidy.json", "pack.json"]).done("equal 3\n");
    folder.write("other.json", r#"{"mAh":3001,"cut":[]}"#);
    let ran = folder.run(["equal", "pack.json", "other.json", "--count"]);
    assert_eq!((ran.status, &ran.output[..], &ran.error[..]), (1, "different 1\n", ""));
    let ran = folder.run(["equal", "-c", "pack.json", "fix.json"]);
    assert_eq!((ran.status, &ran.output[..]), (1, "different 0\n"));
}

#[test]
fn a_refused_text_is_trouble() {
    let folder = Folder::with_files();
    folder.write("cut.json", "[1,\n2");
    let ran = folder.run(["equal", "--count", "pack.json", "cut.json"]);
    assert_eq!((ran.status, &ran.output[..]), (2, ""));
    assert!(ran.error.starts_with("json-patch: cut.json:2:2: not JSON text"), "{}", ran.error);
    let ran = folder.run(["equal", "cut.json", "pack.json", "--porcelain"]);
    assert_eq!((ran.status, &ran.error[..]), (2, "refused 3 text 1 op 0 place 5 pointer 0\n"));
    let ran = folder.run(["equal", "-q", "cut.json", "pack.json"]);
    assert_eq!((ran.status, &ran.output[..], &ran.error[..]), (2, "", ""));
    folder.write("long.json", " ".repeat(40_000));
    let ran = folder.run(["equal", "--porcelain", "cut.json", "long.json"]);
    assert_eq!((ran.status, &ran.error[..]), (2, "refused 2 text 2 op 0 place 0 pointer 0\n"));
}

#[test]
fn standard_input_and_wrong_use() {
    let folder = Folder::with_files();
    folder.run_with(TIDY, &["equal", "-", "pack.json"]).done("");
    folder.run_with(PACK, &["equal", "-c", "pack.json", "-"]).done("equal 3\n");
    for words in
        [&["equal"][..], &["equal", "pack.json"], &["equal", "-", "-"], &["equal", "a", "b", "c"]]
    {
        assert_eq!(folder.run(words).status, 2, "{words:?}");
    }
}
