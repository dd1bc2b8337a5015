//! `--region`.

use crate::support::{Folder, FIXED, PACK};

/// A patch that a maker with the region `/cut` may send.
const CUT: &str =
    r#"[{"op":"test","path":"/cut/0","value":4.2},{"op":"add","path":"/cut/-","value":2.8}]"#;

#[test]
fn a_makers_patch_is_applied() {
    let folder = Folder::with_files();
    folder.write("cut.json", CUT);
    folder.run(["apply", "--region", "/cut", "pack.json", "cut.json"]).done(FIXED);
    folder.run(["apply", "--region=", "pack.json", "cut.json"]).done(FIXED);
    folder
        .run(["check", "--region=/cut", "pack.json", "cut.json"])
        .done("cut.json: 2 operations apply to pack.json\n");
    folder.run(["apply", "-i", "--region", "/cut", "pack.json", "cut.json"]).done("");
    assert_eq!(folder.read("pack.json"), FIXED);
}

#[test]
fn a_patch_that_breaks_the_rule_is_refused() {
    let folder = Folder::with_files();
    folder.write("cut.json", CUT);
    let line = "refused 17 text 0 op 1 place 0 pointer 0\n";
    folder.run(["apply", "--porcelain", "--region", "/mAh", "pack.json", "cut.json"]).refused(line);
    folder.run(["apply", "--region", "/cut/0", "pack.json", "cut.json"]).refused(
        "json-patch: cut.json: operation 1, test \"/cut/0\": not permitted in the region: \
         its path is not inside the region\n",
    );
    folder.write("none.json", "[]");
    folder
        .run(["check", "--region", "/cut", "pack.json", "none.json"])
        .refused("json-patch: none.json: not permitted in the region: it has no operations\n");
    assert_eq!(folder.read("pack.json"), PACK);
}

#[test]
fn a_makers_patch_is_applied_with_its_undo() {
    let folder = Folder::with_files();
    folder.write("cut.json", CUT);
    let within = |region: &str| {
        let line =
            format!("apply -i --porcelain --region {region} --undo u.json pack.json cut.json");
        folder.run(line.split(' '))
    };
    let before = folder.names();
    for (region, line) in [
        ("/mAh", "refused 17 text 0 op 1 place 0 pointer 0\n"),
        ("cut", "refused 10 text 0 op 0 place 0 pointer 0\n"),
    ] {
        within(region).refused(line);
        assert_eq!((folder.read("pack.json"), folder.names()), (PACK.into(), before.clone()));
    }
    within("/cut").done("");
    assert_eq!(folder.read("pack.json"), FIXED);
    assert_eq!(folder.read("u.json"), "[{\"op\":\"remove\",\"path\":\"/cut/2\"}]\n");
    // The undo is no patch that a maker may send.
    folder
        .run(["apply", "--porcelain", "--region", "/cut", "pack.json", "u.json"])
        .refused("refused 17 text 0 op 1 place 0 pointer 0\n");
    folder.run(["apply", "-i", "pack.json", "u.json"]).done("");
    assert_eq!(folder.read("pack.json"), PACK);
}

#[test]
fn a_region_that_is_no_pointer_is_refused() {
    let folder = Folder::with_files();
    folder.write("cut.json", CUT);
    folder
        .run(["apply", "--region", "cut", "pack.json", "cut.json"])
        .refused("json-patch: region: a pointer is malformed\n");
    let line = "refused 10 text 0 op 0 place 0 pointer 0\n";
    folder.run(["apply", "--porcelain", "--region=cut", "pack.json", "cut.json"]).refused(line);
}
