//! The committed cases of calls that list origins, each with the lines that it must
//! give.
//!
//! Texts and lists come from the papers, written by hand or made by a small rule that
//! stands beside them. None is taken from the program; a test checks that the program
//! gives them.

use super::cases::{Call, Case};
use super::Lent;
use crate::limits::{MOST_NODES, TOOL_ROOM};

mod limits;
mod refusals;

/// The output for an undo that the committed cases lend, where they do not say
/// otherwise: no undo is longer.
pub const UNDO_ROOM: usize = 32_768;

/// What a case must give.
#[derive(Clone, Debug, PartialEq, Eq)]
pub enum Expected {
    /// The written text, the undo (empty where the call has none), and the list.
    Gives(String, String, String),
    /// The line of a refusal.
    Refuses(String),
}

/// A case and what it must give.
#[derive(Clone, Debug)]
pub struct Vector {
    /// The case.
    pub case: Case,
    /// What it must give.
    pub expected: Expected,
}

impl Vector {
    /// The lines that it must give.
    pub fn lines(&self) -> Vec<u8> {
        let name = &self.case.name;
        match &self.expected {
            Expected::Gives(text, undo, list) if self.case.call == Call::Undo => {
                format!("{name}: {text}\n{name} undo: {undo}\n{name} origins: {list}\n")
            }
            Expected::Gives(text, _, list) => format!("{name}: {text}\n{name} origins: {list}\n"),
            Expected::Refuses(line) => format!("{name}: {line}\n"),
        }
        .into_bytes()
    }

    /// The same case with another output and another list.
    fn lent(mut self, room: usize, list: usize) -> Self {
        self.case.lent = Lent { room, list };
        self
    }

    /// The same case with another output for the undo.
    fn undo_lent(mut self, room: usize) -> Self {
        self.case.undo_room = room;
        self
    }
}

/// Name, document, patch; the written text and the list.
type Row = (&'static str, [&'static str; 2], [&'static str; 2]);

/// All committed cases.
pub fn all() -> Vec<Vector> {
    [
        rows(Call::Apply, "one", ROWS),
        rows(Call::Apply, "moved", MOVED_ROWS),
        rows(Call::Apply, "copied", COPIED_ROWS),
        rows(Call::Apply, "run", RUN_ROWS),
        within(),
        rows(Call::Merge, "merge", MERGE_ROWS),
        undone(),
        refusals::vectors(),
        limits::vectors(),
    ]
    .concat()
}

fn rows(call: Call, table: &str, rows: &[Row]) -> Vec<Vector> {
    rows.iter()
        .map(|(name, [document, patch], [text, list])| {
            gives(call, format!("{table}-{name}"), *document, *patch, *text, *list)
        })
        .collect()
}

/// A case with buffers enough.
fn case(
    call: Call,
    name: impl Into<String>,
    document: impl Into<Vec<u8>>,
    patch: impl Into<Vec<u8>>,
) -> Case {
    let undo_room = if call == Call::Undo { UNDO_ROOM } else { 0 };
    let (name, document, patch) = (name.into(), document.into(), patch.into());
    let lent = Lent { room: TOOL_ROOM, list: MOST_NODES };
    Case { call, name, lent, undo_room, document, patch, region: Vec::new() }
}

/// A case that is done.
fn gives(
    call: Call,
    name: impl Into<String>,
    document: impl Into<Vec<u8>>,
    patch: impl Into<Vec<u8>>,
    text: impl Into<String>,
    list: impl Into<String>,
) -> Vector {
    let expected = Expected::Gives(text.into(), String::new(), list.into());
    Vector { case: case(call, name, document, patch), expected }
}

/// A case that is refused.
fn refuses(
    call: Call,
    name: impl Into<String>,
    document: impl Into<Vec<u8>>,
    patch: impl Into<Vec<u8>>,
    line: impl Into<String>,
) -> Vector {
    Vector { case: case(call, name, document, patch), expected: Expected::Refuses(line.into()) }
}

/// The line of an output, or of a list, that is too short.
const NO_ROOM: &str = "refused 16 text 0 op 0 place 0 pointer 0";

/// One operation: "k for a value put in by operation k, add, replace or copy, all nodes of
/// it", "and a container keeps its origin when a child changes".
#[rustfmt::skip]
const ROWS: &[Row] = &[
    ("none", ["7", "[]"], ["7", "0"]),
    ("none-nested", [r#" {"a": [1, {}], "b": null} "#, "[]"], [r#"{"a":[1,{}],"b":null}"#, "0 0 0 0 0"]),
    ("add-member", [r#"{"a":1}"#, r#"[{"op":"add","path":"/b","value":2}]"#], [r#"{"a":1,"b":2}"#, "0 0 1"]),
    ("add-container", ["{}", r#"[{"op":"add","path":"/a","value":{"b":[1,2],"c":{}}}]"#],
        [r#"{"a":{"b":[1,2],"c":{}}}"#, "0 1 1 1 1 1"]),
    ("add-over-member", [r#"{"a":1,"b":2}"#, r#"[{"op":"add","path":"/a","value":[3]}]"#], [r#"{"a":[3],"b":2}"#, "0 1 1 0"]),
    ("add-equal", [r#"{"a":1}"#, r#"[{"op":"add","path":"/a","value":1}]"#], [r#"{"a":1}"#, "0 1"]),
    ("add-first-element", ["[1,2]", r#"[{"op":"add","path":"/0","value":0}]"#], ["[0,1,2]", "0 1 0 0"]),
    ("add-between", [r#"{"a":[1,3]}"#, r#"[{"op":"add","path":"/a/1","value":2}]"#], [r#"{"a":[1,2,3]}"#, "0 0 0 1 0"]),
    ("add-last-element", ["[1,2]", r#"[{"op":"add","path":"/-","value":[]}]"#], ["[1,2,[]]", "0 0 0 1"]),
    ("add-root", [r#"{"a":1}"#, r#"[{"op":"add","path":"","value":{"a":1}}]"#], [r#"{"a":1}"#, "1 1"]),
    ("add-below-kept-containers", [r#"{"a":{"b":{"c":1}}}"#, r#"[{"op":"add","path":"/a/b/d","value":2}]"#],
        [r#"{"a":{"b":{"c":1,"d":2}}}"#, "0 0 0 0 1"]),
    ("replace-member", [r#"{"a":[1,2],"b":3}"#, r#"[{"op":"replace","path":"/a","value":{"c":4}}]"#],
        [r#"{"a":{"c":4},"b":3}"#, "0 1 1 0"]),
    ("replace-element", ["[[1],[2],[3]]", r#"[{"op":"replace","path":"/1","value":0}]"#], ["[[1],0,[3]]", "0 0 0 1 0 0"]),
    ("replace-equal", ["[1]", r#"[{"op":"replace","path":"/0","value":1}]"#], ["[1]", "0 1"]),
    ("replace-root", ["[1]", r#"[{"op":"replace","path":"","value":[1,[2]]}]"#], ["[1,[2]]", "1 1 1 1"]),
    ("remove-member", [r#"{"a":1,"b":[2]}"#, r#"[{"op":"remove","path":"/a"}]"#], [r#"{"b":[2]}"#, "0 0 0"]),
    ("remove-last", ["[1]", r#"[{"op":"remove","path":"/0"}]"#], ["[]", "0"]),
    ("test", [r#"{"a":[1]}"#, r#"[{"op":"test","path":"/a","value":[1]}]"#], [r#"{"a":[1]}"#, "0 0 0"]),
];

/// "a moved value keeps its own".
#[rustfmt::skip]
const MOVED_ROWS: &[Row] = &[
    ("member", [r#"{"a":[1],"b":2}"#, r#"[{"op":"move","from":"/a","path":"/c"}]"#], [r#"{"b":2,"c":[1]}"#, "0 0 0 0"]),
    ("element", ["[1,2,3]", r#"[{"op":"move","from":"/0","path":"/2"}]"#], ["[2,3,1]", "0 0 0 0"]),
    ("put-in-then-moved", [r#"{"a":1}"#, r#"[{"op":"add","path":"/b","value":[2,{}]},{"op":"move","from":"/b","path":"/c"}]"#],
        [r#"{"a":1,"c":[2,{}]}"#, "0 0 1 1 1"]),
    ("over-a-newer-value", [r#"{"a":1}"#, r#"[{"op":"add","path":"/b","value":2},{"op":"move","from":"/a","path":"/b"}]"#],
        [r#"{"b":1}"#, "0 0"]),
    ("mixed-inside", [r#"{"a":{"b":1},"z":0}"#,
        r#"[{"op":"add","path":"/a/c","value":2},{"op":"replace","path":"/z","value":3},{"op":"move","from":"/a","path":"/y"}]"#],
        [r#"{"z":3,"y":{"b":1,"c":2}}"#, "0 2 0 0 1"]),
    ("over-its-own-parent", [r#"{"a":{"b":[1]}}"#, r#"[{"op":"move","from":"/a/b","path":"/a"}]"#], [r#"{"a":[1]}"#, "0 0 0"]),
    ("to-the-root", [r#"{"a":[1]}"#, r#"[{"op":"add","path":"/a/-","value":2},{"op":"move","from":"/a","path":""}]"#],
        ["[1,2]", "0 0 1"]),
    ("to-itself-goes-last", [r#"{"a":1,"b":2}"#, r#"[{"op":"replace","path":"/a","value":3},{"op":"move","from":"/a","path":"/a"}]"#],
        [r#"{"b":2,"a":3}"#, "0 0 1"]),
    ("root-to-root", ["[1]", r#"[{"op":"move","from":"","path":""}]"#], ["[1]", "0 0"]),
    ("into-a-newer-container", [r#"{"a":1}"#, r#"[{"op":"add","path":"/b","value":[]},{"op":"move","from":"/a","path":"/b/0"}]"#],
        [r#"{"b":[1]}"#, "0 1 0"]),
    ("twice", ["[1,2,3]", r#"[{"op":"add","path":"/0","value":0},{"op":"move","from":"/0","path":"/3"},{"op":"move","from":"/3","path":"/1"}]"#],
        ["[1,0,2,3]", "0 0 1 0 0"]),
];

/// "k for a value put in by operation k, add, replace or copy, all nodes of it".
#[rustfmt::skip]
const COPIED_ROWS: &[Row] = &[
    ("member", [r#"{"a":[1,{}]}"#, r#"[{"op":"copy","from":"/a","path":"/b"}]"#], [r#"{"a":[1,{}],"b":[1,{}]}"#, "0 0 0 0 1 1 1"]),
    ("element", ["[[1]]", r#"[{"op":"copy","from":"/0","path":"/0"}]"#], ["[[1],[1]]", "0 1 1 0 0"]),
    ("copy-of-a-copy", [r#"{"a":[1]}"#, r#"[{"op":"copy","from":"/a","path":"/b"},{"op":"copy","from":"/b","path":"/c"}]"#],
        [r#"{"a":[1],"b":[1],"c":[1]}"#, "0 0 0 1 1 2 2"]),
    ("mixed-inside", [r#"{"a":{"b":1}}"#, r#"[{"op":"add","path":"/a/c","value":2},{"op":"copy","from":"/a","path":"/d"}]"#],
        [r#"{"a":{"b":1,"c":2},"d":{"b":1,"c":2}}"#, "0 0 0 1 2 2 2"]),
    ("over-its-source", [r#"{"a":[1]}"#, r#"[{"op":"copy","from":"/a","path":"/a"}]"#], [r#"{"a":[1]}"#, "0 1 1"]),
    ("root-to-root", ["[1]", r#"[{"op":"copy","from":"","path":""}]"#], ["[1]", "1 1"]),
    ("root-into-itself", ["[1]", r#"[{"op":"copy","from":"","path":"/-"}]"#], ["[1,[1]]", "0 0 1 1"]),
    ("parent-into-child", [r#"{"a":{}}"#, r#"[{"op":"copy","from":"/a","path":"/a/b"}]"#], [r#"{"a":{"b":{}}}"#, "0 0 1"]),
    ("child-over-parent", [r#"{"a":{"b":[1]}}"#, r#"[{"op":"copy","from":"/a/b","path":"/a"}]"#], [r#"{"a":[1]}"#, "0 1 1"]),
    ("then-moved", [r#"{"a":1}"#, r#"[{"op":"copy","from":"/a","path":"/b"},{"op":"move","from":"/b","path":"/c"}]"#],
        [r#"{"a":1,"c":1}"#, "0 0 1"]),
    ("source-then-changed", [r#"{"a":[1]}"#, r#"[{"op":"copy","from":"/a","path":"/b"},{"op":"replace","path":"/a/0","value":9}]"#],
        [r#"{"a":[9],"b":[1]}"#, "0 0 2 1 1"]),
];

/// Several operations: the last that put a value there.
#[rustfmt::skip]
const RUN_ROWS: &[Row] = &[
    ("later-over-earlier", [r#"{"a":1}"#, r#"[{"op":"replace","path":"/a","value":2},{"op":"replace","path":"/a","value":3}]"#],
        [r#"{"a":3}"#, "0 2"]),
    ("inside-what-was-put-in", ["{}", r#"[{"op":"add","path":"/a","value":{"b":[1]}},{"op":"add","path":"/a/b/0","value":0}]"#],
        [r#"{"a":{"b":[0,1]}}"#, "0 1 1 2 1"]),
    ("tests-count", ["[1]", r#"[{"op":"test","path":"/0","value":1},{"op":"test","path":"","value":[1]},{"op":"add","path":"/-","value":2}]"#],
        ["[1,2]", "0 0 3"]),
    ("removed-and-put-back", [r#"{"a":1,"b":2}"#, r#"[{"op":"remove","path":"/a"},{"op":"add","path":"/a","value":1}]"#],
        [r#"{"b":2,"a":1}"#, "0 0 2"]),
    ("shifted", ["[1]", r#"[{"op":"add","path":"/0","value":"x"},{"op":"add","path":"/0","value":"y"},{"op":"remove","path":"/1"}]"#],
        [r#"["y",1]"#, "0 2 0"]),
    ("all-six", [r#"{"cut":[4.2,3.0],"mAh":3000,"x":0}"#,
        r#"[{"op":"test","path":"/mAh","value":3e3},{"op":"replace","path":"/mAh","value":3100},{"op":"add","path":"/cut/-","value":2.8},{"op":"copy","from":"/cut","path":"/old"},{"op":"move","from":"/cut","path":"/limits"},{"op":"remove","path":"/x"}]"#],
        [r#"{"mAh":3100,"old":[4.2,3.0,2.8],"limits":[4.2,3.0,2.8]}"#, "0 2 4 4 4 4 0 0 0 3"]),
    ("escaped-names", [r#"{"a/b":1,"\u00e9":[2]}"#,
        r#"[{"op":"replace","path":"/a~1b","value":3},{"op":"add","path":"/é/0","value":{"\u0041":null}}]"#],
        [r#"{"a/b":3,"é":[{"A":null},2]}"#, "0 1 0 2 2 0"]),
    // Each container stands before what is in it, and no name is listed.
    ("order", [r#"{"a":{"b":{"c":1}},"d":[[2]],"e":3}"#,
        r#"[{"op":"replace","path":"/a/b/c","value":0},{"op":"replace","path":"/d/0/0","value":0},{"op":"replace","path":"/e","value":0}]"#],
        [r#"{"a":{"b":{"c":0}},"d":[[0]],"e":0}"#, "0 0 0 1 0 0 2 3"]),
    // The specification's own example.
    ("example", [r#"{"mAh":3000,"cut":[4.2,3.0]}"#,
        r#"[{"op":"test","path":"/mAh","value":3e3},{"op":"add","path":"/cut/-","value":2.8}]"#],
        [r#"{"mAh":3000,"cut":[4.2,3.0,2.8]}"#, "0 0 0 0 0 2"]),
];

/// Makers' patches, in their region: the numbers are those of the plain patch.
fn within() -> Vec<Vector> {
    let one = |name: &str, region: &str, document: &str, patch: &str, text: &str, list: &str| {
        let mut vector = gives(Call::Within, format!("within-{name}"), document, patch, text, list);
        vector.case.region = region.into();
        vector
    };
    vec![
        one(
            "replace",
            "/m",
            r#"{"m":{"a":1,"b":[2]},"n":0}"#,
            r#"[{"op":"test","path":"/m/a","value":1},{"op":"replace","path":"/m/b","value":[3]}]"#,
            r#"{"m":{"a":1,"b":[3]},"n":0}"#,
            "0 0 0 2 2 0",
        ),
        one(
            "whole-document",
            "",
            r#"{"a":1}"#,
            r#"[{"op":"test","path":"/a","value":1},{"op":"add","path":"/b","value":{"c":2}}]"#,
            r#"{"a":1,"b":{"c":2}}"#,
            "0 0 2 2",
        ),
        one(
            "twice",
            "/m/0",
            r#"{"m":[{"a":1}]}"#,
            r#"[{"op":"test","path":"/m/0/a","value":1},{"op":"add","path":"/m/0/b","value":[]},{"op":"add","path":"/m/0/b/0","value":1}]"#,
            r#"{"m":[{"a":1,"b":[1]}]}"#,
            "0 0 0 0 2 3",
        ),
        one(
            "tests-alone",
            "/m",
            r#"{"m":{"a":1}}"#,
            r#"[{"op":"test","path":"/m/a","value":1}]"#,
            r#"{"m":{"a":1}}"#,
            "0 0 0",
        ),
    ]
}

/// "A merge patch counts as operation 1, also for the empty objects it makes."
#[rustfmt::skip]
const MERGE_ROWS: &[Row] = &[
    ("member", [r#"{"a":"b"}"#, r#"{"a":"c"}"#], [r#"{"a":"c"}"#, "0 1"]),
    ("equal-member", [r#"{"a":1}"#, r#"{"a":1}"#], [r#"{"a":1}"#, "0 1"]),
    ("new-member", [r#"{"a":"b"}"#, r#"{"b":"c"}"#], [r#"{"a":"b","b":"c"}"#, "0 0 1"]),
    ("removed", [r#"{"a":"b","b":"c"}"#, r#"{"a":null}"#], [r#"{"b":"c"}"#, "0 0"]),
    ("nothing", [r#"{"a":[1]}"#, "{}"], [r#"{"a":[1]}"#, "0 0 0"]),
    ("merged-object", [r#"{"a":{"b":1,"c":[2]},"d":3}"#, r#"{"a":{"b":4}}"#], [r#"{"a":{"b":4,"c":[2]},"d":3}"#, "0 0 1 0 0 0"]),
    ("merged-deep", [r#"{"a":{"b":{"c":1,"d":2}}}"#, r#"{"a":{"b":{"c":null,"e":{"f":5}}}}"#],
        [r#"{"a":{"b":{"d":2,"e":{"f":5}}}}"#, "0 0 0 0 1 1"]),
    ("merged-with-nothing", [r#"{"a":{"b":1}}"#, r#"{"a":{}}"#], [r#"{"a":{"b":1}}"#, "0 0 0"]),
    ("array-replaced", [r#"{"a":[1,2]}"#, r#"{"a":[1,{"x":null}]}"#], [r#"{"a":[1,{"x":null}]}"#, "0 1 1 1 1"]),
    ("object-over-array", [r#"{"a":[{"b":1}]}"#, r#"{"a":{"b":2}}"#], [r#"{"a":{"b":2}}"#, "0 1 1"]),
    ("object-over-scalar", [r#"{"a":1}"#, r#"{"a":{"b":{"c":null}}}"#], [r#"{"a":{"b":{}}}"#, "0 1 1"]),
    ("made-objects", ["{}", r#"{"a":{"bb":{"ccc":null}}}"#], [r#"{"a":{"bb":{}}}"#, "0 1 1"]),
    ("empty-object-made", [r#"{"a":1}"#, r#"{"b":{}}"#], [r#"{"a":1,"b":{}}"#, "0 0 1"]),
    ("target-no-object", ["[1,2]", r#"{"a":"b","c":null}"#], [r#"{"a":"b"}"#, "1 1"]),
    ("target-null", ["null", "{}"], ["{}", "1"]),
    ("target-empty-object", ["{}", "{}"], ["{}", "0"]),
    ("patch-array", [r#"{"a":"b"}"#, r#"["c",{"d":null}]"#], [r#"["c",{"d":null}]"#, "1 1 1 1"]),
    ("patch-scalar", [r#"{"a":"b"}"#, "7"], ["7", "1"]),
    ("patch-null", ["null", "null"], ["null", "1"]),
    ("positions", [r#"{"a":1,"b":2,"c":3}"#, r#"{"c":4,"y":5,"a":6,"x":[7]}"#], [r#"{"a":6,"b":2,"c":4,"y":5,"x":[7]}"#, "0 1 0 1 1 1 1"]),
    ("same-name-in-child", [r#"{"a":{"a":{"a":1}}}"#, r#"{"a":{"a":{"a":2,"b":{"a":null}}}}"#],
        [r#"{"a":{"a":{"a":2,"b":{}}}}"#, "0 0 0 1 1"]),
    ("escaped-name", [r#"{"\u0061":{"x":1}}"#, r#"{"a":{"y":2}}"#], [r#"{"a":{"x":1,"y":2}}"#, "0 0 0 1"]),
];

/// The undo is beside it; the list is the patched document's.
fn undone() -> Vec<Vector> {
    let one = |name: &str, document: &str, patch: &str, text: &str, undo: &str, list: &str| {
        let case = case(Call::Undo, format!("undo-{name}"), document, patch);
        Vector { case, expected: Expected::Gives(text.into(), undo.into(), list.into()) }
    };
    vec![
        one("nothing", "7", "[]", "7", "[]", "0"),
        one(
            "add",
            r#"{"a":1}"#,
            r#"[{"op":"add","path":"/b","value":[2]}]"#,
            r#"{"a":1,"b":[2]}"#,
            r#"[{"op":"remove","path":"/b"}]"#,
            "0 0 1 1",
        ),
        one(
            "replace",
            r#"{"a":[1,2]}"#,
            r#"[{"op":"replace","path":"/a","value":3}]"#,
            r#"{"a":3}"#,
            r#"[{"op":"replace","path":"/a","value":[1,2]}]"#,
            "0 1",
        ),
        one(
            "remove",
            "[1,2]",
            r#"[{"op":"remove","path":"/0"}]"#,
            "[2]",
            r#"[{"op":"add","path":"/0","value":1}]"#,
            "0 0",
        ),
        one(
            "copy-then-move",
            r#"{"a":[1]}"#,
            r#"[{"op":"copy","from":"/a","path":"/b"},{"op":"move","from":"/b","path":"/c"}]"#,
            r#"{"a":[1],"c":[1]}"#,
            r#"[{"op":"remove","path":"/c"},{"op":"add","path":"/b","value":[1]},{"op":"remove","path":"/b"}]"#,
            "0 0 0 1 1",
        ),
        one(
            "over-its-own-parent",
            r#"{"a":{"b":[1]}}"#,
            r#"[{"op":"move","from":"/a/b","path":"/a"}]"#,
            r#"{"a":[1]}"#,
            r#"[{"op":"replace","path":"/a","value":{"b":[1]}}]"#,
            "0 0 0",
        ),
        one(
            "add-root",
            "[1]",
            r#"[{"op":"test","path":"","value":[1]},{"op":"add","path":"","value":{"a":[]}}]"#,
            r#"{"a":[]}"#,
            r#"[{"op":"replace","path":"","value":[1]}]"#,
            "2 2",
        ),
    ]
}
