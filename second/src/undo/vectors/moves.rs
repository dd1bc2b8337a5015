//! Moves and copies: within an array, over an ancestor, beside it, to itself.

use super::Row;

/// Moves.
#[rustfmt::skip]
pub const ROWS: &[Row] = &[
    // Members.
    ("to-new-member", [r#"{"a":1,"c":3}"#, r#"[{"op":"move","from":"/a","path":"/b"}]"#],
        [r#"{"c":3,"b":1}"#, r#"[{"op":"remove","path":"/b"},{"op":"add","path":"/a","value":1}]"#, r#"{"c":3,"a":1}"#]),
    ("over-member", [r#"{"a":1,"b":2}"#, r#"[{"op":"move","from":"/a","path":"/b"}]"#],
        [r#"{"b":1}"#, r#"[{"op":"replace","path":"/b","value":2},{"op":"add","path":"/a","value":1}]"#, r#"{"b":2,"a":1}"#]),
    ("member-to-itself", [r#"{"a":1,"b":2}"#, r#"[{"op":"move","from":"/a","path":"/a"}]"#],
        [r#"{"b":2,"a":1}"#, r#"[{"op":"remove","path":"/a"},{"op":"add","path":"/a","value":1}]"#, r#"{"b":2,"a":1}"#]),
    ("only-member-to-itself", [r#"{"a":[1]}"#, r#"[{"op":"move","from":"/a","path":"/a"}]"#],
        [r#"{"a":[1]}"#, r#"[{"op":"remove","path":"/a"},{"op":"add","path":"/a","value":[1]}]"#, r#"{"a":[1]}"#]),
    ("into-another-object", [r#"{"a":1,"b":{}}"#, r#"[{"op":"move","from":"/a","path":"/b/c"}]"#],
        [r#"{"b":{"c":1}}"#, r#"[{"op":"remove","path":"/b/c"},{"op":"add","path":"/a","value":1}]"#, r#"{"b":{},"a":1}"#]),
    ("out-of-an-object", [r#"{"a":{"b":{"c":1}}}"#, r#"[{"op":"move","from":"/a/b","path":"/b"}]"#],
        [r#"{"a":{},"b":{"c":1}}"#, r#"[{"op":"remove","path":"/b"},{"op":"add","path":"/a/b","value":{"c":1}}]"#, r#"{"a":{"b":{"c":1}}}"#]),
    ("text-prefix-is-no-ancestor", [r#"{"a":1,"ab":2}"#, r#"[{"op":"move","from":"/ab","path":"/a"}]"#],
        [r#"{"a":2}"#, r#"[{"op":"replace","path":"/a","value":1},{"op":"add","path":"/ab","value":2}]"#, r#"{"a":1,"ab":2}"#]),

    // Within one array, both ways.
    ("to-the-back", ["[1,2,3]", r#"[{"op":"move","from":"/0","path":"/2"}]"#],
        ["[2,3,1]", r#"[{"op":"remove","path":"/2"},{"op":"add","path":"/0","value":1}]"#, "[1,2,3]"]),
    ("to-the-front", ["[1,2,3]", r#"[{"op":"move","from":"/2","path":"/0"}]"#],
        ["[3,1,2]", r#"[{"op":"remove","path":"/0"},{"op":"add","path":"/2","value":3}]"#, "[1,2,3]"]),
    ("one-on", ["[1,2,3]", r#"[{"op":"move","from":"/0","path":"/1"}]"#],
        ["[2,1,3]", r#"[{"op":"remove","path":"/1"},{"op":"add","path":"/0","value":1}]"#, "[1,2,3]"]),
    ("dash", ["[1,2,3]", r#"[{"op":"move","from":"/0","path":"/-"}]"#],
        ["[2,3,1]", r#"[{"op":"remove","path":"/2"},{"op":"add","path":"/0","value":1}]"#, "[1,2,3]"]),
    ("dash-of-the-last", ["[1,2,3]", r#"[{"op":"move","from":"/2","path":"/-"}]"#],
        ["[1,2,3]", r#"[{"op":"remove","path":"/2"},{"op":"add","path":"/2","value":3}]"#, "[1,2,3]"]),
    ("dash-of-the-only-one", ["[1]", r#"[{"op":"move","from":"/0","path":"/-"}]"#],
        ["[1]", r#"[{"op":"remove","path":"/0"},{"op":"add","path":"/0","value":1}]"#, "[1]"]),
    ("element-to-itself", ["[1,2,3]", r#"[{"op":"move","from":"/1","path":"/1"}]"#],
        ["[1,2,3]", r#"[{"op":"remove","path":"/1"},{"op":"add","path":"/1","value":2}]"#, "[1,2,3]"]),
    ("dash-from-elsewhere", [r#"{"a":1,"b":[1,2]}"#, r#"[{"op":"move","from":"/a","path":"/b/-"}]"#],
        [r#"{"b":[1,2,1]}"#, r#"[{"op":"remove","path":"/b/2"},{"op":"add","path":"/a","value":1}]"#, r#"{"b":[1,2],"a":1}"#]),
    ("element-to-member", [r#"{"a":[1,2]}"#, r#"[{"op":"move","from":"/a/0","path":"/b"}]"#],
        [r#"{"a":[2],"b":1}"#, r#"[{"op":"remove","path":"/b"},{"op":"add","path":"/a/0","value":1}]"#, r#"{"a":[1,2]}"#]),

    // `path` is walked in what is left, and the undo speaks of that.
    ("where-things-shifted", ["[[],[1],[2]]", r#"[{"op":"move","from":"/0","path":"/1/0"}]"#],
        ["[[1],[[],2]]", r#"[{"op":"remove","path":"/1/0"},{"op":"add","path":"/0","value":[]}]"#, "[[],[1],[2]]"]),
    ("where-things-shifted-over", [r#"[0,{"a":1},{"a":2}]"#, r#"[{"op":"move","from":"/0","path":"/1/a"}]"#],
        [r#"[{"a":1},{"a":0}]"#, r#"[{"op":"replace","path":"/1/a","value":2},{"op":"add","path":"/0","value":0}]"#, r#"[0,{"a":1},{"a":2}]"#]),

    // Over an ancestor: one operation, with the ancestor as it stood.
    ("over-parent", [r#"{"a":{"b":1,"c":2}}"#, r#"[{"op":"move","from":"/a/b","path":"/a"}]"#],
        [r#"{"a":1}"#, r#"[{"op":"replace","path":"/a","value":{"b":1,"c":2}}]"#, r#"{"a":{"b":1,"c":2}}"#]),
    ("over-grandparent", [r#"{"z":0,"a":{"b":{"c":1}},"d":2}"#, r#"[{"op":"move","from":"/a/b/c","path":"/a"}]"#],
        [r#"{"z":0,"a":1,"d":2}"#, r#"[{"op":"replace","path":"/a","value":{"b":{"c":1}}}]"#, r#"{"z":0,"a":{"b":{"c":1}},"d":2}"#]),
    ("element-over-its-array-member", [r#"{"a":[1,2]}"#, r#"[{"op":"move","from":"/a/1","path":"/a"}]"#],
        [r#"{"a":2}"#, r#"[{"op":"replace","path":"/a","value":[1,2]}]"#, r#"{"a":[1,2]}"#]),
    ("over-root", [r#"{"a":{"b":[1]},"c":2}"#, r#"[{"op":"move","from":"/a/b","path":""}]"#],
        ["[1]", r#"[{"op":"replace","path":"","value":{"a":{"b":[1]},"c":2}}]"#, r#"{"a":{"b":[1]},"c":2}"#]),
    ("element-over-root", ["[1,2]", r#"[{"op":"move","from":"/1","path":""}]"#],
        ["2", r#"[{"op":"replace","path":"","value":[1,2]}]"#, "[1,2]"]),
    ("root-to-root", [r#"{"a":[1]}"#, r#"[{"op":"move","from":"","path":""}]"#],
        [r#"{"a":[1]}"#, "[]", r#"{"a":[1]}"#]),

    // In an array the value is put in beside the ancestor, which stays.
    ("beside-parent", ["[[1,2],3]", r#"[{"op":"move","from":"/0/1","path":"/0"}]"#],
        ["[2,[1],3]", r#"[{"op":"remove","path":"/0"},{"op":"add","path":"/0/1","value":2}]"#, "[[1,2],3]"]),
    ("member-beside-its-object", [r#"[{"a":1,"b":2}]"#, r#"[{"op":"move","from":"/0/a","path":"/0"}]"#],
        [r#"[1,{"b":2}]"#, r#"[{"op":"remove","path":"/0"},{"op":"add","path":"/0/a","value":1}]"#, r#"[{"b":2,"a":1}]"#]),
    ("beside-parent-in-object", [r#"{"0":[{"1":1}]}"#, r#"[{"op":"move","from":"/0/0/1","path":"/0/0"}]"#],
        [r#"{"0":[1,{}]}"#, r#"[{"op":"remove","path":"/0/0"},{"op":"add","path":"/0/0/1","value":1}]"#, r#"{"0":[{"1":1}]}"#]),
    ("beside-grandparent", [r#"[0,{"a":{"b":1}}]"#, r#"[{"op":"move","from":"/1/a/b","path":"/1"}]"#],
        [r#"[0,1,{"a":{}}]"#, r#"[{"op":"remove","path":"/1"},{"op":"add","path":"/1/a/b","value":1}]"#, r#"[0,{"a":{"b":1}}]"#]),
    ("behind-parent", [r#"[[1,2]]"#, r#"[{"op":"move","from":"/0/0","path":"/1"}]"#],
        ["[[2],1]", r#"[{"op":"remove","path":"/1"},{"op":"add","path":"/0/0","value":1}]"#, "[[1,2]]"]),
    // A number for a name: the parent is an object, so it is replaced.
    ("over-parent-named-by-number", [r#"{"0":{"1":1}}"#, r#"[{"op":"move","from":"/0/1","path":"/0"}]"#],
        [r#"{"0":1}"#, r#"[{"op":"replace","path":"/0","value":{"1":1}}]"#, r#"{"0":{"1":1}}"#]),
];

/// Copies.
#[rustfmt::skip]
pub const COPY_ROWS: &[Row] = &[
    ("to-new-member", [r#"{"a":[1]}"#, r#"[{"op":"copy","from":"/a","path":"/b"}]"#],
        [r#"{"a":[1],"b":[1]}"#, r#"[{"op":"remove","path":"/b"}]"#, r#"{"a":[1]}"#]),
    ("over-member", [r#"{"a":1,"b":2}"#, r#"[{"op":"copy","from":"/a","path":"/b"}]"#],
        [r#"{"a":1,"b":1}"#, r#"[{"op":"replace","path":"/b","value":2}]"#, r#"{"a":1,"b":2}"#]),
    ("member-to-itself", [r#"{"a":1,"b":2}"#, r#"[{"op":"copy","from":"/a","path":"/a"}]"#],
        [r#"{"a":1,"b":2}"#, r#"[{"op":"replace","path":"/a","value":1}]"#, r#"{"a":1,"b":2}"#]),
    ("element-to-itself", ["[1,2]", r#"[{"op":"copy","from":"/0","path":"/0"}]"#],
        ["[1,1,2]", r#"[{"op":"remove","path":"/0"}]"#, "[1,2]"]),
    ("dash", ["[1,2]", r#"[{"op":"copy","from":"/0","path":"/-"}]"#],
        ["[1,2,1]", r#"[{"op":"remove","path":"/2"}]"#, "[1,2]"]),
    ("into-own-child", [r#"{"a":{"b":1}}"#, r#"[{"op":"copy","from":"/a","path":"/a/c"}]"#],
        [r#"{"a":{"b":1,"c":{"b":1}}}"#, r#"[{"op":"remove","path":"/a/c"}]"#, r#"{"a":{"b":1}}"#]),
    ("over-own-child", [r#"{"a":{"b":1}}"#, r#"[{"op":"copy","from":"/a","path":"/a/b"}]"#],
        [r#"{"a":{"b":{"b":1}}}"#, r#"[{"op":"replace","path":"/a/b","value":1}]"#, r#"{"a":{"b":1}}"#]),
    ("over-parent", [r#"{"a":{"b":1}}"#, r#"[{"op":"copy","from":"/a/b","path":"/a"}]"#],
        [r#"{"a":1}"#, r#"[{"op":"replace","path":"/a","value":{"b":1}}]"#, r#"{"a":{"b":1}}"#]),
    ("over-grandparent", [r#"{"a":[{"b":1}],"c":0}"#, r#"[{"op":"copy","from":"/a/0/b","path":"/a"}]"#],
        [r#"{"a":1,"c":0}"#, r#"[{"op":"replace","path":"/a","value":[{"b":1}]}]"#, r#"{"a":[{"b":1}],"c":0}"#]),
    ("over-root", [r#"[1,[2]]"#, r#"[{"op":"copy","from":"/1","path":""}]"#],
        ["[2]", r#"[{"op":"replace","path":"","value":[1,[2]]}]"#, "[1,[2]]"]),
    ("root-to-root", ["[1]", r#"[{"op":"copy","from":"","path":""}]"#],
        ["[1]", r#"[{"op":"replace","path":"","value":[1]}]"#, "[1]"]),
    ("root-into-member", [r#"{"a":1}"#, r#"[{"op":"copy","from":"","path":"/b"}]"#],
        [r#"{"a":1,"b":{"a":1}}"#, r#"[{"op":"remove","path":"/b"}]"#, r#"{"a":1}"#]),
    ("root-over-member", [r#"{"a":1}"#, r#"[{"op":"copy","from":"","path":"/a"}]"#],
        [r#"{"a":{"a":1}}"#, r#"[{"op":"replace","path":"/a","value":1}]"#, r#"{"a":1}"#]),
    ("beside-parent", ["[[1,2]]", r#"[{"op":"copy","from":"/0/1","path":"/0"}]"#],
        ["[2,[1,2]]", r#"[{"op":"remove","path":"/0"}]"#, "[[1,2]]"]),
];
