//! `merge`.

use crate::support::{Folder, PACK};

const MERGE: &str = r#"{"mAh":3100,"cut":null,"maker":{"name":"acme","lot":null}}"#;
const MERGED: &str = "{\"mAh\":3100,\"maker\":{\"name\":\"acme\"}}\n";

#[test]
fn a_merge_patch_is_applied() {
    let folder = Folder::with_files();
    folder.write("merge.json", MERGE);
    folder.run(["merge", "pack.json", "merge.json"]).done(MERGED);
    folder.run(["merge", "-o", "out.json", "pack.json", "merge.json"]).done("");
    assert_eq!((folder.read("out.json"), folder.read("pack.json")), (MERGED.into(), PACK.into()));
    folder.run(["merge", "--in-place", "pack.json", "merge.json"]).done("");
    assert_eq!(folder.read("pack.json"), MERGED);
}

#[test]
fn what_is_no_object_replaces_the_whole() {
    let folder = Folder::with_files();
    folder.write("null.json", "null");
    folder.run(["merge", "pack.json", "null.json"]).done("null\n");
}

#[test]
fn a_refusal_changes_nothing() {
    let folder = Folder::with_files();
    folder.write("bad.json", "{\"a\":}");
    folder
        .run(["merge", "-i", "--porcelain", "pack.json", "bad.json"])
        .refused("refused 3 text 2 op 0 place 5 pointer 0\n");
    let many: Vec<String> = (0..2047).map(|k| format!("\"{k}\":1")).collect();
    folder.write("many.json", &format!("{{{}}}", many.join(",")));
    folder
        .run(["merge", "-i", "--porcelain", "pack.json", "many.json"])
        .refused("refused 6 text 0 op 0 place 0 pointer 0\n");
    assert_eq!(folder.read("pack.json"), PACK);
}
