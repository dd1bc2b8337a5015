//! Every refusal of each call: it is the one without a list, and lists nothing.

use super::{refuses, Vector};
use crate::origins::cases::Call;

/// Name, document, patch and the line of the refusal.
type Refused = (&'static str, String, String, &'static str);

/// All of them.
pub fn vectors() -> Vec<Vector> {
    let mut all = Vec::new();
    for (call, word) in [(Call::Apply, "apply"), (Call::Undo, "undo")] {
        let patch = [read("[]", "[]"), shaped(), ran()].concat();
        all.extend(patch.into_iter().map(|row| one(call, word, "", row)));
    }
    let test = r#"[{"op":"test","path":"/a","value":1}]"#;
    let within = [read(r#"{"a":1}"#, test), narrow()].concat();
    all.extend(within.into_iter().map(|row| one(Call::Within, "within", "", row)));
    all.extend(regions());
    all.extend(read("{}", "{}").into_iter().map(|row| one(Call::Merge, "merge", "", row)));
    all.push(merge_nodes());
    all
}

fn one(call: Call, word: &str, region: &str, (name, document, patch, line): Refused) -> Vector {
    let mut vector = refuses(call, format!("{word}-refused-{name}"), document, patch, line);
    vector.case.region = region.into();
    vector
}

fn row(name: &'static str, document: &str, patch: &str, line: &'static str) -> Refused {
    (name, document.to_string(), patch.to_string(), line)
}

/// 2 to 7: a text that is too long or not read. The other one is fine.
fn read(document: &str, patch: &str) -> Vec<Refused> {
    let long = format!("\"{}\"", "x".repeat(32_767));
    let deep = "[".repeat(33) + &"]".repeat(33);
    let many = format!("[{}]", vec!["1"; 2_048].join(","));
    vec![
        row("long-document", &long, patch, "refused 2 text 1 op 0 place 0 pointer 0"),
        row("long-patch", document, &long, "refused 2 text 2 op 0 place 0 pointer 0"),
        row("document", "[1,]", patch, "refused 3 text 1 op 0 place 3 pointer 0"),
        row("patch", document, "[1,]", "refused 3 text 2 op 0 place 3 pointer 0"),
        row("name-twice", r#"{"a":1,"a":2}"#, patch, "refused 4 text 1 op 0 place 9 pointer 0"),
        row(
            "name-twice-in-patch",
            document,
            r#"{"a":1,"a":2}"#,
            "refused 4 text 2 op 0 place 9 pointer 0",
        ),
        row("deep-document", &deep, patch, "refused 5 text 1 op 0 place 32 pointer 0"),
        row("deep-patch", document, &deep, "refused 5 text 2 op 0 place 32 pointer 0"),
        row("many-nodes", &many, patch, "refused 6 text 1 op 0 place 4095 pointer 0"),
        row("many-nodes-in-patch", document, &many, "refused 6 text 2 op 0 place 4095 pointer 0"),
        row("number", "1e10000", patch, "refused 7 text 1 op 0 place 6 pointer 0"),
        row("number-in-patch", document, "1e10000", "refused 7 text 2 op 0 place 6 pointer 0"),
    ]
}

/// 8, 9, 10 and 14: the patch's shape.
fn shaped() -> Vec<Refused> {
    let adds = format!("[{}]", vec![r#"{"op":"add","path":"/-","value":0}"#; 257].join(","));
    vec![
        row("no-array", "[]", "{}", "refused 8 text 0 op 0 place 0 pointer 0"),
        row("no-op", "[]", r#"[{"path":""}]"#, "refused 8 text 0 op 1 place 0 pointer 0"),
        row("257-operations", "[]", &adds, "refused 9 text 0 op 0 place 0 pointer 0"),
        row(
            "pointer",
            "[]",
            r#"[{"op":"remove","path":"a"}]"#,
            "refused 10 text 0 op 1 place 0 pointer 0",
        ),
        row(
            "own-child",
            "{}",
            r#"[{"op":"move","from":"/a","path":"/a/b"}]"#,
            "refused 14 text 0 op 1 place 0 pointer 0",
        ),
    ]
}

/// 5, 6, 11, 12, 13 and 15: an operation, after one that succeeded.
fn ran() -> Vec<Refused> {
    let then = |operation: &str| format!(r#"[{{"op":"add","path":"/-","value":0}},{operation}]"#);
    let deep = "[".repeat(30) + &"]".repeat(30);
    let many = format!("[{}]", vec!["1"; 2_046].join(","));
    vec![
        row(
            "too-deep",
            &format!("[{}]", "[".repeat(30) + &"]".repeat(30)),
            &then(r#"{"op":"copy","from":"","path":"/0/0"}"#),
            "refused 5 text 0 op 2 place 0 pointer 0",
        ),
        row(
            "too-many-nodes",
            &many,
            &then(r#"{"op":"add","path":"/-","value":1}"#),
            "refused 6 text 0 op 2 place 0 pointer 0",
        ),
        row(
            "missing",
            &deep,
            &then(r#"{"op":"remove","path":"/9"}"#),
            "refused 11 text 0 op 2 place 0 pointer 1",
        ),
        row(
            "missing-from",
            "[]",
            &then(r#"{"op":"copy","from":"/0/a","path":"/-"}"#),
            "refused 11 text 0 op 2 place 1 pointer 2",
        ),
        row(
            "no-index",
            "[]",
            &then(r#"{"op":"remove","path":"/01"}"#),
            "refused 12 text 0 op 2 place 0 pointer 1",
        ),
        row(
            "root-removed",
            "[]",
            &then(r#"{"op":"remove","path":""}"#),
            "refused 13 text 0 op 2 place 0 pointer 0",
        ),
        row(
            "different",
            "[]",
            &then(r#"{"op":"test","path":"/0","value":1}"#),
            "refused 15 text 0 op 2 place 0 pointer 0",
        ),
    ]
}

/// The same kinds that a maker can meet, and 17.
fn narrow() -> Vec<Refused> {
    let then = |operation: &str| format!(r#"[{{"op":"test","path":"/a","value":1}},{operation}]"#);
    let a = r#"{"a":1}"#;
    vec![
        row("no-array", a, "{}", "refused 8 text 0 op 0 place 0 pointer 0"),
        row("no-op", a, &then("{}"), "refused 8 text 0 op 2 place 0 pointer 0"),
        row("nothing", a, "[]", "refused 17 text 0 op 0 place 0 pointer 0"),
        row(
            "no-test",
            a,
            r#"[{"op":"add","path":"/b","value":2}]"#,
            "refused 17 text 0 op 1 place 0 pointer 0",
        ),
        row(
            "move",
            a,
            &then(r#"{"op":"move","from":"/a","path":"/b"}"#),
            "refused 17 text 0 op 2 place 0 pointer 0",
        ),
        row(
            "pointer",
            a,
            &then(r#"{"op":"remove","path":"a"}"#),
            "refused 10 text 0 op 2 place 0 pointer 0",
        ),
        row(
            "missing",
            a,
            &then(r#"{"op":"replace","path":"/b","value":2}"#),
            "refused 11 text 0 op 2 place 0 pointer 1",
        ),
        row(
            "no-index",
            r#"{"a":1,"b":[0]}"#,
            &then(r#"{"op":"replace","path":"/b/x","value":2}"#),
            "refused 12 text 0 op 2 place 1 pointer 1",
        ),
        row(
            "different",
            a,
            r#"[{"op":"test","path":"/a","value":2}]"#,
            "refused 15 text 0 op 1 place 0 pointer 0",
        ),
    ]
}

/// The region's own: 2 for a long one, 10 for a malformed one, 17 for a path beside it.
fn regions() -> Vec<Vector> {
    let test = r#"[{"op":"test","path":"/a","value":1}]"#;
    let with = |name, region: &str, line| {
        one(Call::Within, "within", region, row(name, r#"{"a":1}"#, test, line))
    };
    vec![
        with("long-region", &"/x".repeat(16_385), "refused 2 text 0 op 0 place 0 pointer 0"),
        with("region", "x", "refused 10 text 0 op 0 place 0 pointer 0"),
        with("beside-the-region", "/b", "refused 17 text 0 op 1 place 0 pointer 0"),
        with("the-region-itself", "/a", "refused 17 text 0 op 1 place 0 pointer 0"),
    ]
}

/// 6 of a merge, judged on the result.
fn merge_nodes() -> Vector {
    let members: Vec<String> = (0..2_047).map(|k| format!("\"{k}\":1")).collect();
    let document = format!("{{{}}}", members.join(","));
    let line = "refused 6 text 0 op 0 place 0 pointer 0";
    one(Call::Merge, "merge", "", row("too-many-nodes", &document, r#"{"a":{}}"#, line))
}
