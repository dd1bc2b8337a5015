//! The examples of the scope paper that fit in a line. Those on the limits are
//! with the limits.

use super::Row;

/// The examples, in the paper's order.
#[rustfmt::skip]
pub const ROWS: &[Row] = &[
    ("add-between", r#"{"a":[1,3]}"#, r#"[{"op":"add","path":"/a/1","value":2}]"#, r#"{"a":[1,2,3]}"#),
    ("add-at-length", r#"{"a":[1,3]}"#, r#"[{"op":"add","path":"/a/2","value":2}]"#, r#"{"a":[1,3,2]}"#),
    ("add-at-end", r#"{"a":[1,3]}"#, r#"[{"op":"add","path":"/a/-","value":2}]"#, r#"{"a":[1,3,2]}"#),
    ("add-beyond", r#"{"a":[1,3]}"#, r#"[{"op":"add","path":"/a/3","value":2}]"#, "refused 11 text 0 op 1 place 1 pointer 1"),
    ("add-padded-index", r#"{"a":[1,3]}"#, r#"[{"op":"add","path":"/a/01","value":2}]"#, "refused 12 text 0 op 1 place 1 pointer 1"),

    ("move-in-array", r#"{"a":[1,2,3]}"#, r#"[{"op":"move","from":"/a/0","path":"/a/2"}]"#, r#"{"a":[2,3,1]}"#),
    ("move-beyond-what-is-left", r#"{"a":[1,2,3]}"#, r#"[{"op":"move","from":"/a/0","path":"/a/3"}]"#, "refused 11 text 0 op 1 place 1 pointer 1"),
    ("move-onto-member", r#"{"a":1,"b":2}"#, r#"[{"op":"move","from":"/a","path":"/b"}]"#, r#"{"b":1}"#),
    ("move-into-own-child", r#"{"a":{"b":1}}"#, r#"[{"op":"move","from":"/a","path":"/a/b"}]"#, "refused 14 text 0 op 1 place 0 pointer 0"),
    ("move-onto-parent", r#"{"a":{"b":1}}"#, r#"[{"op":"move","from":"/a/b","path":"/a"}]"#, r#"{"a":1}"#),

    ("replace-escaped-slash", r#"{"a/b":1}"#, r#"[{"op":"replace","path":"/a~1b","value":5}]"#, r#"{"a/b":5}"#),

    ("test-4400", "4400", r#"[{"op":"test","path":"","value":4.4e3}]"#, "4400"),
    ("test-4400-other-way", "4.4e3", r#"[{"op":"test","path":"","value":4400}]"#, "4.4e3"),
    ("test-long-integers", "9007199254740993", r#"[{"op":"test","path":"","value":9007199254740992}]"#, "refused 15 text 0 op 1 place 0 pointer 0"),
    ("test-tenth", "0.10", r#"[{"op":"test","path":"","value":1e-1}]"#, "0.10"),
    ("test-number-and-string", "10", r#"[{"op":"test","path":"","value":"10"}]"#, "refused 15 text 0 op 1 place 0 pointer 0"),

    ("repeated-name", r#"{"a":1,"a":2}"#, "[]", "refused 4 text 1 op 0 place 9 pointer 0"),
    ("comma-before-bracket", "[1,]", "[]", "refused 3 text 1 op 0 place 3 pointer 0"),
    ("empty-document", "", "[]", "refused 3 text 1 op 0 place 0 pointer 0"),
    ("remove-root", r#"{"a":1}"#, r#"[{"op":"remove","path":""}]"#, "refused 13 text 0 op 1 place 0 pointer 0"),

    (
        "tool",
        r#"{"mAh":3000,"cut":[4.2,3.0]}"#,
        r#"[{"op":"test","path":"/mAh","value":3e3},{"op":"add","path":"/cut/-","value":2.8}]"#,
        r#"{"mAh":3000,"cut":[4.2,3.0,2.8]}"#,
    ),
    (
        "tool-refuses",
        r#"{"mAh":3000,"cut":[4.2,3.0]}"#,
        r#"[{"op":"test","path":"/mAh","value":3001},{"op":"add","path":"/cut/-","value":2.8}]"#,
        "refused 15 text 0 op 1 place 0 pointer 0",
    ),

    // The shortcuts that look right.
    ("shortcut-tilde-order", r#"{"/":1,"~1":2}"#, r#"[{"op":"remove","path":"/~01"}]"#, r#"{"/":1}"#),
    ("shortcut-prefix-of-text", r#"{"a":1,"ab":{"c":2}}"#, r#"[{"op":"move","from":"/a","path":"/ab/c"}]"#, r#"{"ab":{"c":1}}"#),
    ("shortcut-wrapping-index", "[1,2]", r#"[{"op":"remove","path":"/18446744073709551616"}]"#, "refused 11 text 0 op 1 place 0 pointer 1"),
    ("shortcut-walk-before-removal", "[[1],[2]]", r#"[{"op":"move","from":"/0","path":"/1/0"}]"#, "refused 11 text 0 op 1 place 0 pointer 1"),
];
