//! The committed cases of undos, each with the lines that it must give.
//!
//! The lines come from the papers, written by hand or made by a small rule that
//! stands beside them. None is taken from the program; a test checks that the
//! program gives them.

use super::cases::Case;
use crate::limits::TOOL_ROOM;

mod limits;
mod moves;
mod names;

/// The output for an undo that the committed cases lend, where they do not say
/// otherwise: no undo is longer.
pub const UNDO_ROOM: usize = 32_768;

/// What a case must give.
#[derive(Clone, Debug, PartialEq, Eq)]
pub enum Expected {
    /// The patched text, the undo, and the line of the undo on that text.
    Gives(Vec<u8>, Vec<u8>, Vec<u8>),
    /// The line of a refusal.
    Refuses(String),
}

/// A case and what it must give.
#[derive(Clone, Debug)]
pub struct Vector {
    /// The case.
    pub case: Case,
    /// What it must give.
    pub expected: Expected,
}

impl Vector {
    /// The lines that it must give.
    pub fn lines(&self) -> Vec<u8> {
        let name = self.case.name.as_bytes();
        let named = |what: &str, line: &[u8]| [name, what.as_bytes(), b": ", line, b"\n"].concat();
        match &self.expected {
            Expected::Gives(text, undo, back) => {
                [named("", text), named(" undo", undo), named(" back", back)].concat()
            }
            Expected::Refuses(line) => named("", line.as_bytes()),
        }
    }

    /// The same case with other outputs.
    fn lent(mut self, room: usize, undo_room: usize) -> Self {
        (self.case.room, self.case.undo_room) = (room, undo_room);
        self
    }
}

/// Name, document, patch; the patched text, the undo, and what it gives back.
type Row = (&'static str, [&'static str; 2], [&'static str; 3]);

/// All committed cases.
pub fn all() -> Vec<Vector> {
    [
        rows("one", ROWS),
        rows("run", RUN_ROWS),
        rows("move", moves::ROWS),
        rows("copy", moves::COPY_ROWS),
        rows("name", names::ROWS),
        names::vectors(),
        refusals(),
        limits::vectors(),
    ]
    .concat()
}

fn rows(table: &str, rows: &[Row]) -> Vec<Vector> {
    rows.iter()
        .map(|(name, [document, patch], [text, undo, back])| {
            gives(format!("{table}-{name}"), *document, *patch, *text, *undo, *back)
        })
        .collect()
}

fn case(name: String, document: impl Into<Vec<u8>>, patch: impl Into<Vec<u8>>) -> Case {
    let (document, patch) = (document.into(), patch.into());
    Case { name, room: TOOL_ROOM, undo_room: UNDO_ROOM, document, patch }
}

/// A case that is done.
fn gives(
    name: impl Into<String>,
    document: impl Into<Vec<u8>>,
    patch: impl Into<Vec<u8>>,
    text: impl Into<Vec<u8>>,
    undo: impl Into<Vec<u8>>,
    back: impl Into<Vec<u8>>,
) -> Vector {
    let expected = Expected::Gives(text.into(), undo.into(), back.into());
    Vector { case: case(name.into(), document, patch), expected }
}

/// A case that is refused.
fn refuses(
    name: impl Into<String>,
    document: impl Into<Vec<u8>>,
    patch: impl Into<Vec<u8>>,
    line: impl Into<String>,
) -> Vector {
    Vector { case: case(name.into(), document, patch), expected: Expected::Refuses(line.into()) }
}

/// The line of an undo that could not be read back.
fn refused_undo(number: u32) -> String {
    format!("refused {number} text 2 op 0 place 0 pointer 0")
}

/// The line of an output that is too short.
const NO_ROOM: &str = "refused 16 text 0 op 0 place 0 pointer 0";

/// The six operations, on members, elements and the root.
#[rustfmt::skip]
const ROWS: &[Row] = &[
    // add
    ("add-member", ["{}", r#"[{"op":"add","path":"/a","value":1}]"#],
        [r#"{"a":1}"#, r#"[{"op":"remove","path":"/a"}]"#, "{}"]),
    ("add-member-beside", [r#"{"b":[2]}"#, r#"[{"op":"add","path":"/a","value":{"c":[]}}]"#],
        [r#"{"b":[2],"a":{"c":[]}}"#, r#"[{"op":"remove","path":"/a"}]"#, r#"{"b":[2]}"#]),
    ("add-over-member", [r#"{"a":1,"b":2}"#, r#"[{"op":"add","path":"/a","value":[]}]"#],
        [r#"{"a":[],"b":2}"#, r#"[{"op":"replace","path":"/a","value":1}]"#, r#"{"a":1,"b":2}"#]),
    ("add-over-equal-member", [r#"{"a":1.0}"#, r#"[{"op":"add","path":"/a","value":1}]"#],
        [r#"{"a":1}"#, r#"[{"op":"replace","path":"/a","value":1.0}]"#, r#"{"a":1.0}"#]),
    ("add-first-element", ["[1,2]", r#"[{"op":"add","path":"/0","value":0}]"#],
        ["[0,1,2]", r#"[{"op":"remove","path":"/0"}]"#, "[1,2]"]),
    ("add-between", ["[1,3]", r#"[{"op":"add","path":"/1","value":2}]"#],
        ["[1,2,3]", r#"[{"op":"remove","path":"/1"}]"#, "[1,3]"]),
    ("add-at-length", ["[1,2]", r#"[{"op":"add","path":"/2","value":3}]"#],
        ["[1,2,3]", r#"[{"op":"remove","path":"/2"}]"#, "[1,2]"]),
    ("add-dash", [r#"{"a":[1,3]}"#, r#"[{"op":"add","path":"/a/-","value":2}]"#],
        [r#"{"a":[1,3,2]}"#, r#"[{"op":"remove","path":"/a/2"}]"#, r#"{"a":[1,3]}"#]),
    ("add-dash-to-empty", ["[]", r#"[{"op":"add","path":"/-","value":null}]"#],
        ["[null]", r#"[{"op":"remove","path":"/0"}]"#, "[]"]),
    ("add-dash-two-digits", ["[0,1,2,3,4,5,6,7,8,9]", r#"[{"op":"add","path":"/-","value":10}]"#],
        ["[0,1,2,3,4,5,6,7,8,9,10]", r#"[{"op":"remove","path":"/10"}]"#, "[0,1,2,3,4,5,6,7,8,9]"]),
    ("add-dash-in-object", [r#"{"a":1}"#, r#"[{"op":"add","path":"/-","value":2}]"#],
        [r#"{"a":1,"-":2}"#, r#"[{"op":"remove","path":"/-"}]"#, r#"{"a":1}"#]),
    ("add-root", [r#"{"a":[1, 2]}"#, r#"[{"op":"add","path":"","value":null}]"#],
        ["null", r#"[{"op":"replace","path":"","value":{"a":[1,2]}}]"#, r#"{"a":[1,2]}"#]),
    ("add-root-scalar", ["1", r#"[{"op":"add","path":"","value":{}}]"#],
        ["{}", r#"[{"op":"replace","path":"","value":1}]"#, "1"]),
    ("add-deep", [r#"{"a":[{"b":[]}]}"#, r#"[{"op":"add","path":"/a/0/b/0","value":{"c":null}}]"#],
        [r#"{"a":[{"b":[{"c":null}]}]}"#, r#"[{"op":"remove","path":"/a/0/b/0"}]"#, r#"{"a":[{"b":[]}]}"#]),

    // remove
    ("remove-member-comes-back-last", [r#"{"a":1,"b":2}"#, r#"[{"op":"remove","path":"/a"}]"#],
        [r#"{"b":2}"#, r#"[{"op":"add","path":"/a","value":1}]"#, r#"{"b":2,"a":1}"#]),
    ("remove-only-member", [r#"{"a":{"b":[1,{}]}}"#, r#"[{"op":"remove","path":"/a"}]"#],
        ["{}", r#"[{"op":"add","path":"/a","value":{"b":[1,{}]}}]"#, r#"{"a":{"b":[1,{}]}}"#]),
    ("remove-first-element", ["[1,2,3]", r#"[{"op":"remove","path":"/0"}]"#],
        ["[2,3]", r#"[{"op":"add","path":"/0","value":1}]"#, "[1,2,3]"]),
    ("remove-last-element", ["[1,2,3]", r#"[{"op":"remove","path":"/2"}]"#],
        ["[1,2]", r#"[{"op":"add","path":"/2","value":3}]"#, "[1,2,3]"]),
    ("remove-only-element", ["[[]]", r#"[{"op":"remove","path":"/0"}]"#],
        ["[]", r#"[{"op":"add","path":"/0","value":[]}]"#, "[[]]"]),
    ("remove-nested", [r#"{"a":[{"b":1,"c":2}]}"#, r#"[{"op":"remove","path":"/a/0/b"}]"#],
        [r#"{"a":[{"c":2}]}"#, r#"[{"op":"add","path":"/a/0/b","value":1}]"#, r#"{"a":[{"c":2,"b":1}]}"#]),

    // replace
    ("replace-member", [r#"{"a":1,"b":2}"#, r#"[{"op":"replace","path":"/a","value":[3]}]"#],
        [r#"{"a":[3],"b":2}"#, r#"[{"op":"replace","path":"/a","value":1}]"#, r#"{"a":1,"b":2}"#]),
    ("replace-element", ["[1,2,3]", r#"[{"op":"replace","path":"/1","value":{}}]"#],
        ["[1,{},3]", r#"[{"op":"replace","path":"/1","value":2}]"#, "[1,2,3]"]),
    ("replace-root", [" [ 1 ] ", r#"[{"op":"replace","path":"","value":2}]"#],
        ["2", r#"[{"op":"replace","path":"","value":[1]}]"#, "[1]"]),
    ("replace-by-itself", [r#"{"a":1}"#, r#"[{"op":"replace","path":"/a","value":1}]"#],
        [r#"{"a":1}"#, r#"[{"op":"replace","path":"/a","value":1}]"#, r#"{"a":1}"#]),
    ("replace-number-as-written", [r#"{"a":-0.0e+00}"#, r#"[{"op":"replace","path":"/a","value":1}]"#],
        [r#"{"a":1}"#, r#"[{"op":"replace","path":"/a","value":-0.0e+00}]"#, r#"{"a":-0.0e+00}"#]),
    ("replace-string-unescaped", [r#"["\u0041\u00e9\u000a\/"]"#, r#"[{"op":"replace","path":"/0","value":1}]"#],
        ["[1]", r#"[{"op":"replace","path":"/0","value":"Aé\n/"}]"#, r#"["Aé\n/"]"#]),

    // test
    ("test-member", [r#"{"a":1}"#, r#"[{"op":"test","path":"/a","value":1.0}]"#],
        [r#"{"a":1}"#, "[]", r#"{"a":1}"#]),
    ("test-root", ["[1]", r#"[{"op":"test","path":"","value":[10e-1]}]"#], ["[1]", "[]", "[1]"]),
    ("tests-alone", ["[1]", r#"[{"op":"test","path":"/0","value":1},{"op":"test","path":"","value":[1]}]"#],
        ["[1]", "[]", "[1]"]),
    ("nothing", [" true ", "[]"], ["true", "[]", "true"]),
    ("minus-zero-tested", [r#"{"a":-0}"#, r#"[{"op":"test","path":"/a","value":0}]"#],
        [r#"{"a":-0}"#, "[]", r#"{"a":-0}"#]),
];

/// Several operations: the last is taken back first.
#[rustfmt::skip]
const RUN_ROWS: &[Row] = &[
    ("last-first", [r#"{"a":1}"#, r#"[{"op":"remove","path":"/a"},{"op":"add","path":"/b","value":2}]"#],
        [r#"{"b":2}"#, r#"[{"op":"remove","path":"/b"},{"op":"add","path":"/a","value":1}]"#, r#"{"a":1}"#]),
    ("same-place-twice", [r#"{"a":1}"#, r#"[{"op":"replace","path":"/a","value":2},{"op":"replace","path":"/a","value":3}]"#],
        [r#"{"a":3}"#, r#"[{"op":"replace","path":"/a","value":2},{"op":"replace","path":"/a","value":1}]"#, r#"{"a":1}"#]),
    ("added-then-over", ["{}", r#"[{"op":"add","path":"/a","value":1},{"op":"add","path":"/a","value":2}]"#],
        [r#"{"a":2}"#, r#"[{"op":"replace","path":"/a","value":1},{"op":"remove","path":"/a"}]"#, "{}"]),
    ("removed-then-added", [r#"{"a":1,"b":2}"#, r#"[{"op":"remove","path":"/a"},{"op":"add","path":"/a","value":3}]"#],
        [r#"{"b":2,"a":3}"#, r#"[{"op":"remove","path":"/a"},{"op":"add","path":"/a","value":1}]"#, r#"{"b":2,"a":1}"#]),
    ("dashes", ["[]", r#"[{"op":"add","path":"/-","value":1},{"op":"add","path":"/-","value":2},{"op":"add","path":"/0","value":0}]"#],
        ["[0,1,2]", r#"[{"op":"remove","path":"/0"},{"op":"remove","path":"/1"},{"op":"remove","path":"/0"}]"#, "[]"]),
    ("removed-from-the-front", ["[1,2,3]", r#"[{"op":"remove","path":"/0"},{"op":"remove","path":"/0"},{"op":"remove","path":"/0"}]"#],
        ["[]", r#"[{"op":"add","path":"/0","value":3},{"op":"add","path":"/0","value":2},{"op":"add","path":"/0","value":1}]"#, "[1,2,3]"]),
    ("inside-what-was-added", ["{}", r#"[{"op":"add","path":"/a","value":[]},{"op":"add","path":"/a/-","value":1}]"#],
        [r#"{"a":[1]}"#, r#"[{"op":"remove","path":"/a/0"},{"op":"remove","path":"/a"}]"#, "{}"]),
    ("inside-what-is-replaced", [r#"{"a":[1]}"#, r#"[{"op":"add","path":"/a/0","value":0},{"op":"replace","path":"","value":null}]"#],
        ["null", r#"[{"op":"replace","path":"","value":{"a":[0,1]}},{"op":"remove","path":"/a/0"}]"#, r#"{"a":[1]}"#]),
    ("tests-between", [r#"{"a":1}"#, r#"[{"op":"test","path":"/a","value":1},{"op":"replace","path":"/a","value":2},{"op":"test","path":"/a","value":2},{"op":"remove","path":"/a"}]"#],
        ["{}", r#"[{"op":"add","path":"/a","value":2},{"op":"replace","path":"/a","value":1}]"#, r#"{"a":1}"#]),
    ("all-six", [r#"{"a":{"b":{"c":"foo"}}}"#, r#"[
{ "op": "test", "path": "/a/b/c", "value": "foo" },
{ "op": "remove", "path": "/a/b/c" },
{ "op": "add", "path": "/a/b/c", "value": [ "foo", "bar" ] },
{ "op": "replace", "path": "/a/b/c", "value": 42 },
{ "op": "move", "from": "/a/b/c", "path": "/a/b/d" },
{ "op": "copy", "from": "/a/b/d", "path": "/a/b/e" }
]"#], [r#"{"a":{"b":{"d":42,"e":42}}}"#,
        r#"[{"op":"remove","path":"/a/b/e"},{"op":"remove","path":"/a/b/d"},{"op":"add","path":"/a/b/c","value":42},{"op":"replace","path":"/a/b/c","value":["foo","bar"]},{"op":"remove","path":"/a/b/c"},{"op":"add","path":"/a/b/c","value":"foo"}]"#,
        r#"{"a":{"b":{"c":"foo"}}}"#]),
];

/// Refusals of the patch come first, as they are; a refusal writes neither text.
fn refusals() -> Vec<Vector> {
    let deep = "[".repeat(31) + &"]".repeat(31);
    let replaced = r#"[{"op":"replace","path":"","value":1}]"#;
    let removed = r#"[{"op":"remove","path":"/a"}]"#;
    let one = |name: &str, document: &str, patch: &str, line: &str| {
        refuses(format!("refused-{name}"), document, patch, line)
    };
    vec![
        one("document", "[1,]", "[]", "refused 3 text 1 op 0 place 3 pointer 0"),
        one("name", r#"{"a":1,"a":2}"#, "[]", "refused 4 text 1 op 0 place 9 pointer 0"),
        one("patch", "{}", "[", "refused 3 text 2 op 0 place 1 pointer 0"),
        one("shape", "{}", "{}", "refused 8 text 0 op 0 place 0 pointer 0"),
        one(
            "pointer",
            "{}",
            r#"[{"op":"remove","path":"a"}]"#,
            "refused 10 text 0 op 1 place 0 pointer 0",
        ),
        one("missing", "{}", removed, "refused 11 text 0 op 1 place 0 pointer 1"),
        one(
            "from",
            r#"{"a":{}}"#,
            r#"[{"op":"move","from":"/a/b","path":"/c"}]"#,
            "refused 11 text 0 op 1 place 1 pointer 2",
        ),
        one(
            "index",
            "[1]",
            r#"[{"op":"remove","path":"/01"}]"#,
            "refused 12 text 0 op 1 place 0 pointer 1",
        ),
        one(
            "root",
            "[1]",
            r#"[{"op":"remove","path":""}]"#,
            "refused 13 text 0 op 1 place 0 pointer 0",
        ),
        one(
            "own-child",
            "{}",
            r#"[{"op":"move","from":"/a","path":"/a/b"}]"#,
            "refused 14 text 0 op 1 place 0 pointer 0",
        ),
        one(
            "test",
            "1",
            r#"[{"op":"test","path":"","value":2}]"#,
            "refused 15 text 0 op 1 place 0 pointer 0",
        ),
        // One operation has an undo that could not be read back, a later one is refused.
        one(
            "later",
            &deep,
            r#"[{"op":"replace","path":"","value":1},{"op":"remove","path":"/a"}]"#,
            "refused 11 text 0 op 2 place 0 pointer 1",
        ),
        // A short output for the document is one of the patch's refusals.
        refuses("refused-output-first", &*deep, replaced, NO_ROOM).lent(0, UNDO_ROOM),
        refuses("refused-output", "1", "[]", NO_ROOM).lent(0, UNDO_ROOM),
        refuses(
            "refused-before-both-outputs",
            "{}",
            removed,
            "refused 11 text 0 op 1 place 0 pointer 1",
        )
        .lent(0, 0),
        refuses("refused-undo-before-its-output", &*deep, replaced, refused_undo(5)).lent(1, 0),
        // The undo's output: just enough, a byte short, none.
        gives(
            "room-exact",
            "{}",
            r#"[{"op":"add","path":"/a","value":1}]"#,
            r#"{"a":1}"#,
            r#"[{"op":"remove","path":"/a"}]"#,
            "{}",
        )
        .lent(7, 29),
        refuses("room-undo-one-short", "{}", r#"[{"op":"add","path":"/a","value":1}]"#, NO_ROOM)
            .lent(7, 28),
        refuses(
            "room-document-one-short",
            "{}",
            r#"[{"op":"add","path":"/a","value":1}]"#,
            NO_ROOM,
        )
        .lent(6, 29),
        gives("room-of-two", "1", "[]", "1", "[]", "1").lent(1, 2),
        refuses("room-of-one", "1", "[]", NO_ROOM).lent(1, 1),
        refuses("room-of-none", "1", "[]", NO_ROOM).lent(1, 0),
        gives(
            "room-of-escapes",
            r#"["\u0001"]"#,
            r#"[{"op":"remove","path":"/0"}]"#,
            "[]",
            r#"[{"op":"add","path":"/0","value":"\u0001"}]"#,
            r#"["\u0001"]"#,
        )
        .lent(2, 43),
        refuses(
            "room-of-escapes-short",
            r#"["\u0001"]"#,
            r#"[{"op":"remove","path":"/0"}]"#,
            NO_ROOM,
        )
        .lent(2, 42),
    ]
}
