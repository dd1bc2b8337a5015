//! The six operations, and the order of members in what is written.

use super::Row;

/// What the operations do.
#[rustfmt::skip]
pub const ROWS: &[Row] = &[
    // add
    ("add-root", "1", r#"[{"op":"add","path":"","value":{"x":[]}}]"#, r#"{"x":[]}"#),
    ("add-root-over-object", r#"{"a":1}"#, r#"[{"op":"add","path":"","value":2}]"#, "2"),
    ("add-parent-missing", r#"{"q":{"bar":2}}"#, r#"[{"op":"add","path":"/a/b","value":1}]"#, "refused 11 text 0 op 1 place 0 pointer 1"),
    ("add-parent-there", r#"{"a":{"foo":1}}"#, r#"[{"op":"add","path":"/a/b","value":1}]"#, r#"{"a":{"foo":1,"b":1}}"#),
    ("add-parent-scalar", r#"{"a":1}"#, r#"[{"op":"add","path":"/a/b","value":1}]"#, "refused 11 text 0 op 1 place 1 pointer 1"),
    ("add-parent-string", r#"{"a":"xyz"}"#, r#"[{"op":"add","path":"/a/0","value":1}]"#, "refused 11 text 0 op 1 place 1 pointer 1"),
    ("add-parent-null", "null", r#"[{"op":"add","path":"/a","value":1}]"#, "refused 11 text 0 op 1 place 0 pointer 1"),
    ("add-deep", r#"{"a":[{"b":[]}]}"#, r#"[{"op":"add","path":"/a/0/b/0","value":{"c":null}}]"#, r#"{"a":[{"b":[{"c":null}]}]}"#),
    ("add-value-as-written", "[]", r#"[{"op":"add","path":"/-","value": [ -0.0 , 1E+2 , "\u0041\u00e9\u0001" ] }]"#, r#"[[-0.0,1E+2,"Aé\u0001"]]"#),
    ("add-array-is-one-element", r#"[1]"#, r#"[{"op":"add","path":"/0","value":[2,3]}]"#, "[[2,3],1]"),
    ("add-twice-same-index", "[]", r#"[{"op":"add","path":"/0","value":1},{"op":"add","path":"/0","value":2}]"#, "[2,1]"),

    // remove
    ("remove-member", r#"{"a":1,"b":2,"c":3}"#, r#"[{"op":"remove","path":"/b"}]"#, r#"{"a":1,"c":3}"#),
    ("remove-element", "[1,2,3]", r#"[{"op":"remove","path":"/0"}]"#, "[2,3]"),
    ("remove-container", r#"{"a":{"b":[1,2]}}"#, r#"[{"op":"remove","path":"/a"}]"#, "{}"),
    ("remove-missing-member", r#"{"a":1}"#, r#"[{"op":"remove","path":"/b"}]"#, "refused 11 text 0 op 1 place 0 pointer 1"),
    ("remove-missing-element", "[]", r#"[{"op":"remove","path":"/0"}]"#, "refused 11 text 0 op 1 place 0 pointer 1"),
    ("remove-twice", r#"{"a":1}"#, r#"[{"op":"remove","path":"/a"},{"op":"remove","path":"/a"}]"#, "refused 11 text 0 op 2 place 0 pointer 1"),
    ("remove-root-scalar", "1", r#"[{"op":"remove","path":""}]"#, "refused 13 text 0 op 1 place 0 pointer 0"),
    ("remove-root-later", "[1]", r#"[{"op":"remove","path":"/0"},{"op":"remove","path":""}]"#, "refused 13 text 0 op 2 place 0 pointer 0"),
    ("remove-from-scalar", "1", r#"[{"op":"remove","path":"/a"}]"#, "refused 11 text 0 op 1 place 0 pointer 1"),

    // replace
    ("replace-root", r#"{"a":1}"#, r#"[{"op":"replace","path":"","value":[]}]"#, "[]"),
    ("replace-missing-member", r#"{"a":1}"#, r#"[{"op":"replace","path":"/b","value":1}]"#, "refused 11 text 0 op 1 place 0 pointer 1"),
    ("replace-at-length", "[1]", r#"[{"op":"replace","path":"/1","value":1}]"#, "refused 11 text 0 op 1 place 0 pointer 1"),
    ("replace-container", r#"{"a":{"b":1},"c":2}"#, r#"[{"op":"replace","path":"/a","value":0}]"#, r#"{"a":0,"c":2}"#),
    ("replace-by-null", r#"{"a":1}"#, r#"[{"op":"replace","path":"/a","value":null}]"#, r#"{"a":null}"#),

    // move
    ("move-member", r#"{"a":1}"#, r#"[{"op":"move","from":"/a","path":"/b"}]"#, r#"{"b":1}"#),
    ("move-root-to-root", r#"{"a":[1]}"#, r#"[{"op":"move","from":"","path":""}]"#, r#"{"a":[1]}"#),
    ("move-root-to-root-scalar", "\"x\"", r#"[{"op":"move","from":"","path":""}]"#, "\"x\""),
    ("move-to-root", r#"{"a":{"b":[1]},"c":2}"#, r#"[{"op":"move","from":"/a/b","path":""}]"#, "[1]"),
    ("move-element-to-root", "[1,2]", r#"[{"op":"move","from":"/1","path":""}]"#, "2"),
    ("move-missing-to-root", "[1,2]", r#"[{"op":"move","from":"/2","path":""}]"#, "refused 11 text 0 op 1 place 0 pointer 2"),
    ("move-missing", r#"{"a":1}"#, r#"[{"op":"move","from":"/b","path":"/c"}]"#, "refused 11 text 0 op 1 place 0 pointer 2"),
    ("move-missing-to-itself", r#"{"a":1}"#, r#"[{"op":"move","from":"/b","path":"/b"}]"#, "refused 11 text 0 op 1 place 0 pointer 2"),
    ("move-parent-missing", r#"{"a":1}"#, r#"[{"op":"move","from":"/a","path":"/b/c"}]"#, "refused 11 text 0 op 1 place 0 pointer 1"),
    ("move-parent-scalar", r#"{"a":1,"b":2}"#, r#"[{"op":"move","from":"/a","path":"/b/c"}]"#, "refused 11 text 0 op 1 place 1 pointer 1"),
    ("move-from-is-first", "[1]", r#"[{"op":"move","from":"/1","path":"/x"}]"#, "refused 11 text 0 op 1 place 0 pointer 2"),
    ("move-from-no-index", "[1]", r#"[{"op":"move","from":"/01","path":"/9"}]"#, "refused 12 text 0 op 1 place 0 pointer 2"),
    ("move-to-no-index", "[1]", r#"[{"op":"move","from":"/0","path":"/x"}]"#, "refused 12 text 0 op 1 place 0 pointer 1"),
    ("move-element-to-itself", "[1,2,3]", r#"[{"op":"move","from":"/1","path":"/1"}]"#, "[1,2,3]"),
    ("move-last-to-itself", "[1,2,3]", r#"[{"op":"move","from":"/2","path":"/2"}]"#, "[1,2,3]"),
    ("move-last-beyond", "[1,2,3]", r#"[{"op":"move","from":"/2","path":"/3"}]"#, "refused 11 text 0 op 1 place 0 pointer 1"),
    ("move-only-element", "[1]", r#"[{"op":"move","from":"/0","path":"/1"}]"#, "refused 11 text 0 op 1 place 0 pointer 1"),
    ("move-forward", "[1,2,3]", r#"[{"op":"move","from":"/2","path":"/0"}]"#, "[3,1,2]"),
    ("move-to-where-things-shifted", "[[],[1],[2]]", r#"[{"op":"move","from":"/0","path":"/1/0"}]"#, "[[1],[[],2]]"),
    ("move-to-where-nothing-is-left", "[[],[1]]", r#"[{"op":"move","from":"/0","path":"/1/0"}]"#, "refused 11 text 0 op 1 place 0 pointer 1"),
    ("move-out-of-array", r#"{"a":[1,2],"b":{}}"#, r#"[{"op":"move","from":"/a/0","path":"/b/c"}]"#, r#"{"a":[2],"b":{"c":1}}"#),
    ("move-up", r#"{"a":{"b":{"c":1}}}"#, r#"[{"op":"move","from":"/a/b","path":"/b"}]"#, r#"{"a":{},"b":{"c":1}}"#),
    ("move-element-over-its-array", "[[1,2],3]", r#"[{"op":"move","from":"/0/1","path":"/0"}]"#, "[2,[1],3]"),
    ("move-member-over-grandparent", r#"{"a":{"b":{"c":1}},"d":2}"#, r#"[{"op":"move","from":"/a/b/c","path":"/a"}]"#, r#"{"a":1,"d":2}"#),

    // copy
    ("copy-member", r#"{"a":[1]}"#, r#"[{"op":"copy","from":"/a","path":"/b"}]"#, r#"{"a":[1],"b":[1]}"#),
    ("copy-to-itself", r#"{"a":1,"b":2}"#, r#"[{"op":"copy","from":"/a","path":"/a"}]"#, r#"{"a":1,"b":2}"#),
    ("copy-element-to-itself", "[1,2]", r#"[{"op":"copy","from":"/0","path":"/0"}]"#, "[1,1,2]"),
    ("copy-into-own-child", r#"{"a":{"b":1}}"#, r#"[{"op":"copy","from":"/a","path":"/a/c"}]"#, r#"{"a":{"b":1,"c":{"b":1}}}"#),
    ("copy-over-own-child", r#"{"a":{"b":1}}"#, r#"[{"op":"copy","from":"/a","path":"/a/b"}]"#, r#"{"a":{"b":{"b":1}}}"#),
    ("copy-root-into-member", r#"{"a":1}"#, r#"[{"op":"copy","from":"","path":"/b"}]"#, r#"{"a":1,"b":{"a":1}}"#),
    ("copy-root-into-array", "[1]", r#"[{"op":"copy","from":"","path":"/-"},{"op":"copy","from":"","path":"/0"}]"#, "[[1,[1]],1,[1]]"),
    ("copy-root-to-root", "[1]", r#"[{"op":"copy","from":"","path":""}]"#, "[1]"),
    ("copy-to-root", "[1,[2]]", r#"[{"op":"copy","from":"/1","path":""}]"#, "[2]"),
    ("copy-walks-unchanged-document", "[1,2]", r#"[{"op":"copy","from":"/0","path":"/2"}]"#, "[1,2,1]"),
    ("copy-beyond", "[1,2]", r#"[{"op":"copy","from":"/0","path":"/3"}]"#, "refused 11 text 0 op 1 place 0 pointer 1"),
    ("copy-missing", "{}", r#"[{"op":"copy","from":"/a","path":"/b"}]"#, "refused 11 text 0 op 1 place 0 pointer 2"),
    ("copy-parent-missing", r#"{"a":1}"#, r#"[{"op":"copy","from":"/a","path":"/b/c"}]"#, "refused 11 text 0 op 1 place 0 pointer 1"),
    ("copy-from-is-first", "[1]", r#"[{"op":"copy","from":"/1","path":"/x"}]"#, "refused 11 text 0 op 1 place 0 pointer 2"),
    ("copy-to-no-index", "[1]", r#"[{"op":"copy","from":"/0","path":"/x"}]"#, "refused 12 text 0 op 1 place 0 pointer 1"),
    ("copy-is-apart", r#"{"a":[1]}"#, r#"[{"op":"copy","from":"/a","path":"/b"},{"op":"add","path":"/a/-","value":2}]"#, r#"{"a":[1,2],"b":[1]}"#),

    // test
    ("test-root", r#"{"a":[1]}"#, r#"[{"op":"test","path":"","value":{"a":[1]}}]"#, r#"{"a":[1]}"#),
    ("test-missing-member", r#"{"a":1}"#, r#"[{"op":"test","path":"/b","value":null}]"#, "refused 11 text 0 op 1 place 0 pointer 1"),
    ("test-missing-element", "[1]", r#"[{"op":"test","path":"/1","value":null}]"#, "refused 11 text 0 op 1 place 0 pointer 1"),
    ("test-no-index", "[1]", r#"[{"op":"test","path":"/01","value":1}]"#, "refused 12 text 0 op 1 place 0 pointer 1"),
    ("test-in-scalar", "1", r#"[{"op":"test","path":"/0","value":1}]"#, "refused 11 text 0 op 1 place 0 pointer 1"),
    ("test-sees-what-came-before", "[1]", r#"[{"op":"replace","path":"/0","value":2},{"op":"test","path":"/0","value":2}]"#, "[2]"),
    ("test-fails-second", "[1]", r#"[{"op":"test","path":"/0","value":1},{"op":"test","path":"/0","value":2}]"#, "refused 15 text 0 op 2 place 0 pointer 0"),

    // The RFC's examples outside its appendix.
    ("rfc-section-3", r#"{"a":{"b":{"c":"foo"}}}"#, r#"[
{ "op": "test", "path": "/a/b/c", "value": "foo" },
{ "op": "remove", "path": "/a/b/c" },
{ "op": "add", "path": "/a/b/c", "value": [ "foo", "bar" ] },
{ "op": "replace", "path": "/a/b/c", "value": 42 },
{ "op": "move", "from": "/a/b/c", "path": "/a/b/d" },
{ "op": "copy", "from": "/a/b/d", "path": "/a/b/e" }
]"#, r#"{"a":{"b":{"d":42,"e":42}}}"#),
    ("rfc-section-5", r#"{"a":{"b":{"c":"C"}}}"#, r#"[
{ "op": "replace", "path": "/a/b/c", "value": 42 },
{ "op": "test", "path": "/a/b/c", "value": "C" }
]"#, "refused 15 text 0 op 2 place 0 pointer 0"),
];

/// Where members stand afterwards.
#[rustfmt::skip]
pub const ORDER_ROWS: &[Row] = &[
    ("as-read", r#"{"b":1,"a":2,"":3,"B":4}"#, "[]", r#"{"b":1,"a":2,"":3,"B":4}"#),
    ("new-goes-last", r#"{"b":1,"c":2}"#, r#"[{"op":"add","path":"/a","value":0}]"#, r#"{"b":1,"c":2,"a":0}"#),
    ("added-over-stays", r#"{"a":1,"b":2,"c":3}"#, r#"[{"op":"add","path":"/b","value":0}]"#, r#"{"a":1,"b":0,"c":3}"#),
    ("replaced-stays", r#"{"a":1,"b":2,"c":3}"#, r#"[{"op":"replace","path":"/a","value":0}]"#, r#"{"a":0,"b":2,"c":3}"#),
    ("removed-and-added-goes-last", r#"{"a":1,"b":2}"#, r#"[{"op":"remove","path":"/a"},{"op":"add","path":"/a","value":1}]"#, r#"{"b":2,"a":1}"#),
    ("moved-to-itself-goes-last", r#"{"a":1,"b":2,"c":3}"#, r#"[{"op":"move","from":"/a","path":"/a"}]"#, r#"{"b":2,"c":3,"a":1}"#),
    ("moved-over-takes-position", r#"{"a":1,"b":2,"c":3}"#, r#"[{"op":"move","from":"/c","path":"/a"}]"#, r#"{"a":3,"b":2}"#),
    ("moved-to-new-goes-last", r#"{"a":1,"b":2}"#, r#"[{"op":"move","from":"/a","path":"/z"}]"#, r#"{"b":2,"z":1}"#),
    ("copied-over-stays", r#"{"a":1,"b":2,"c":3}"#, r#"[{"op":"copy","from":"/c","path":"/a"}]"#, r#"{"a":3,"b":2,"c":3}"#),
    ("copied-to-new-goes-last", r#"{"a":1,"b":2}"#, r#"[{"op":"copy","from":"/a","path":"/z"}]"#, r#"{"a":1,"b":2,"z":1}"#),
    ("tested-stays", r#"{"a":1,"b":2}"#, r#"[{"op":"test","path":"","value":{"b":2,"a":1}}]"#, r#"{"a":1,"b":2}"#),
    ("value-keeps-its-own", "[]", r#"[{"op":"add","path":"/0","value":{"z":1,"a":2}}]"#, r#"[{"z":1,"a":2}]"#),
    ("moved-in-its-own-order", r#"{"x":{"z":1,"a":2}}"#, r#"[{"op":"move","from":"/x","path":"/y"}]"#, r#"{"y":{"z":1,"a":2}}"#),
];
