//! `origins`.

use crate::support::{Folder, PACK};

const BEFORE: &str = "\
0 \"\"
0 \"/mAh\" 3000
0 \"/cut\"
0 \"/cut/0\" 4.2
0 \"/cut/1\" 3.0
";

#[test]
fn a_line_for_each_value() {
    let folder = Folder::with_files();
    let fixed = format!("{BEFORE}2 \"/cut/2\" 2.8\n");
    folder.run(["origins", "pack.json", "fix.json"]).done(&fixed);
    folder.run_with(PACK, &["origins", "-", "fix.json"]).done(&fixed);
    folder.write("none.json", "[]");
    folder.run(["origins", "pack.json", "none.json"]).done(BEFORE);
    assert_eq!(folder.read("pack.json"), PACK);
}

#[test]
fn moved_values_keep_their_number_and_copies_get_one() {
    let folder = Folder::with_files();
    folder.write(
        "all.json",
        r#"[{"op":"test","path":"/mAh","value":3e3},
            {"op":"replace","path":"/mAh","value":3100},
            {"op":"copy","from":"/cut","path":"/old"},
            {"op":"move","from":"/cut","path":"/limits"},
            {"op":"replace","path":"/old/1","value":{"low":[],"why":"a b"}}]"#,
    );
    let lines = "\
0 \"\"
2 \"/mAh\" 3100
3 \"/old\"
3 \"/old/0\" 4.2
5 \"/old/1\"
5 \"/old/1/low\" []
5 \"/old/1/why\" \"a b\"
0 \"/limits\"
0 \"/limits/0\" 4.2
0 \"/limits/1\" 3.0
";
    folder.run(["origins", "pack.json", "all.json"]).done(lines);
    let put_in: String = lines
        .lines()
        .filter(|line| !line.starts_with('0'))
        .map(|line| format!("{line}\n"))
        .collect();
    folder.run(["origins", "--changed", "pack.json", "all.json"]).done(&put_in);
    folder.run(["origins", "pack.json", "-c", "all.json"]).done(&put_in);
}

#[test]
fn a_pointer_is_as_a_patch_would_have_it() {
    let folder = Folder::with_files();
    folder.write("names.json", r#"{"":0,"a b":1,"~/":2,"\"\u000a\\":3,"é":[{}]}"#);
    folder.write("none.json", "[]");
    let ran = folder.run(["origins", "names.json", "none.json"]);
    ran.done("0 \"\"\n0 \"/\" 0\n0 \"/a b\" 1\n0 \"/~0~1\" 2\n0 \"/\\\"\\n\\\\\" 3\n0 \"/é\"\n0 \"/é/0\" {}\n");
    // Each is the pointer of a test that holds.
    let tests: Vec<String> = ran
        .output
        .lines()
        .filter_map(|line| line[2..].rsplit_once(' '))
        .map(|(path, value)| format!(r#"{{"op":"test","path":{path},"value":{value}}}"#))
        .collect();
    assert_eq!(tests.len(), 5);
    folder.write("tests.json", format!("[{}]", tests.join(",")));
    folder
        .run(["check", "names.json", "tests.json"])
        .done("tests.json: 5 operations apply to names.json\n");
}

#[test]
fn the_root_alone() {
    let folder = Folder::new();
    folder.write("one.json", "1");
    folder.write("two.json", r#"[{"op":"replace","path":"","value":2}]"#);
    folder.run(["origins", "one.json", "two.json"]).done("1 \"\" 2\n");
}

#[test]
fn merge_patches() {
    let folder = Folder::with_files();
    folder.write("merge.json", r#"{"mAh":null,"maker":{"name":"acme","lot":{"old":null}}}"#);
    let lines = "\
0 \"\"
0 \"/cut\"
0 \"/cut/0\" 4.2
0 \"/cut/1\" 3.0
1 \"/maker\"
1 \"/maker/name\" \"acme\"
1 \"/maker/lot\" {}
";
    folder.run(["origins", "--merge", "pack.json", "merge.json"]).done(lines);
    let refused = folder.run(["origins", "pack.json", "merge.json", "--porcelain"]);
    refused.refused("refused 8 text 0 op 0 place 0 pointer 0\n");
}

#[test]
fn makers_patches() {
    let folder = Folder::with_files();
    folder.write(
        "cut.json",
        r#"[{"op":"test","path":"/cut/0","value":4.2},{"op":"add","path":"/cut/-","value":2.8}]"#,
    );
    let fixed = format!("{BEFORE}2 \"/cut/2\" 2.8\n");
    folder.run(["origins", "--region", "/cut", "pack.json", "cut.json"]).done(&fixed);
    folder
        .run(["origins", "--porcelain", "--region=/mAh", "pack.json", "cut.json"])
        .refused("refused 17 text 0 op 1 place 0 pointer 0\n");
}

#[test]
fn a_refusal_prints_no_line() {
    let folder = Folder::with_files();
    folder
        .run(["origins", "--porcelain", "pack.json", "other.json"])
        .refused("refused 15 text 0 op 1 place 0 pointer 0\n");
    folder.run(["origins", "-q", "pack.json", "other.json"]).refused("");
    folder.run(["origins", "pack.json", "other.json"]).refused(
        "json-patch: other.json: operation 1, test \"/mAh\": the test found a difference\n  \
         found 3000 in pack.json, expected 3001\n  \
         hint: the patch was made for another document\n",
    );
}

#[test]
fn wrong_use() {
    let folder = Folder::with_files();
    let wrong = |words: &[&str], what: &str| {
        let words = folder.run(words);
        words.trouble(&format!("json-patch: {what}\nTry 'json-patch origins --help'.\n"));
    };
    wrong(&["origins"], "no document and no patch are given");
    wrong(&["origins", "pack.json"], "no patch is given");
    wrong(&["origins", "pack.json", "fix.json", "fix.json"], "origins takes one patch");
    wrong(&["origins", "-", "-"], "standard input can be read only once");
    wrong(
        &["origins", "--merge", "--region", "/cut", "pack.json", "fix.json"],
        "--merge and --region exclude each other",
    );
}
