//! The shape of a patch.

use super::Row;

/// Shapes.
#[rustfmt::skip]
pub const ROWS: &[Row] = &[
    ("no-operations", r#" { "a" : 1 } "#, "[]", r#"{"a":1}"#),

    // The top value.
    ("top-object", "1", "{}", "refused 8 text 0 op 0 place 0 pointer 0"),
    ("top-operation", "1", r#"{"op":"test","path":"","value":1}"#, "refused 8 text 0 op 0 place 0 pointer 0"),
    ("top-string", "1", r#""[]""#, "refused 8 text 0 op 0 place 0 pointer 0"),
    ("top-number", "1", "1", "refused 8 text 0 op 0 place 0 pointer 0"),
    ("top-null", "1", "null", "refused 8 text 0 op 0 place 0 pointer 0"),
    ("top-true", "1", "true", "refused 8 text 0 op 0 place 0 pointer 0"),

    // Elements that are no operations.
    ("element-number", "1", "[1]", "refused 8 text 0 op 1 place 0 pointer 0"),
    ("element-null", "1", "[null]", "refused 8 text 0 op 1 place 0 pointer 0"),
    ("element-string", "1", r#"["remove"]"#, "refused 8 text 0 op 1 place 0 pointer 0"),
    ("element-array", "1", r#"[["op","remove"]]"#, "refused 8 text 0 op 1 place 0 pointer 0"),
    ("element-empty-object", "1", "[{}]", "refused 8 text 0 op 1 place 0 pointer 0"),
    ("element-second", "1", r#"[{"op":"test","path":"","value":1},2]"#, "refused 8 text 0 op 2 place 0 pointer 0"),
    ("element-third", "1", r#"[{"op":"test","path":"","value":1},{"op":"test","path":"","value":1},[]]"#, "refused 8 text 0 op 3 place 0 pointer 0"),

    // `op`.
    ("op-missing", "1", r#"[{"path":"","value":1}]"#, "refused 8 text 0 op 1 place 0 pointer 0"),
    ("op-null", "1", r#"[{"op":null,"path":"","value":1}]"#, "refused 8 text 0 op 1 place 0 pointer 0"),
    ("op-number", "1", r#"[{"op":1,"path":"","value":1}]"#, "refused 8 text 0 op 1 place 0 pointer 0"),
    ("op-array", "1", r#"[{"op":["add"],"path":"","value":1}]"#, "refused 8 text 0 op 1 place 0 pointer 0"),
    ("op-unknown", "1", r#"[{"op":"delete","path":""}]"#, "refused 8 text 0 op 1 place 0 pointer 0"),
    ("op-empty", "1", r#"[{"op":"","path":"","value":1}]"#, "refused 8 text 0 op 1 place 0 pointer 0"),
    ("op-capital", "1", r#"[{"op":"Add","path":"","value":2}]"#, "refused 8 text 0 op 1 place 0 pointer 0"),
    ("op-blank", "1", r#"[{"op":"add ","path":"","value":2}]"#, "refused 8 text 0 op 1 place 0 pointer 0"),
    ("op-nul", "1", r#"[{"op":"add\u0000","path":"","value":2}]"#, "refused 8 text 0 op 1 place 0 pointer 0"),
    ("op-longer", "1", r#"[{"op":"adds","path":"","value":2}]"#, "refused 8 text 0 op 1 place 0 pointer 0"),
    ("op-name-capital", "1", r#"[{"Op":"add","path":"","value":2}]"#, "refused 8 text 0 op 1 place 0 pointer 0"),
    ("op-escaped", "1", r#"[{"op":"\u0061\u0064d","path":"","value":2}]"#, "2"),
    ("names-escaped", "1", r#"[{"\u006fp":"add","p\u0061th":"","valu\u0065":2}]"#, "2"),

    // `path`.
    ("path-missing", "1", r#"[{"op":"add","value":2}]"#, "refused 8 text 0 op 1 place 0 pointer 0"),
    ("path-null", "1", r#"[{"op":"add","path":null,"value":2}]"#, "refused 8 text 0 op 1 place 0 pointer 0"),
    ("path-number", "[1]", r#"[{"op":"remove","path":0}]"#, "refused 8 text 0 op 1 place 0 pointer 0"),
    ("path-array", "[1]", r#"[{"op":"remove","path":["0"]}]"#, "refused 8 text 0 op 1 place 0 pointer 0"),

    // `value`.
    ("value-missing-add", "1", r#"[{"op":"add","path":""}]"#, "refused 8 text 0 op 1 place 0 pointer 0"),
    ("value-missing-replace", "1", r#"[{"op":"replace","path":""}]"#, "refused 8 text 0 op 1 place 0 pointer 0"),
    ("value-missing-test", "1", r#"[{"op":"test","path":""}]"#, "refused 8 text 0 op 1 place 0 pointer 0"),
    ("value-null-add", "1", r#"[{"op":"add","path":"","value":null}]"#, "null"),
    ("value-null-replace", "1", r#"[{"op":"replace","path":"","value":null}]"#, "null"),
    ("value-null-test", "null", r#"[{"op":"test","path":"","value":null}]"#, "null"),
    ("value-ignored-remove", "[1]", r#"[{"op":"remove","path":"/0","value":{"x":[]}}]"#, "[]"),
    ("value-ignored-move", "[1,2]", r#"[{"op":"move","path":"/0","from":"/1","value":7}]"#, "[2,1]"),
    ("value-ignored-copy", "[1,2]", r#"[{"op":"copy","path":"/0","from":"/1","value":7}]"#, "[2,1,2]"),

    // `from`.
    ("from-missing-move", "[1]", r#"[{"op":"move","path":"/0"}]"#, "refused 8 text 0 op 1 place 0 pointer 0"),
    ("from-missing-copy", "[1]", r#"[{"op":"copy","path":"/0"}]"#, "refused 8 text 0 op 1 place 0 pointer 0"),
    ("from-null-move", "[1]", r#"[{"op":"move","path":"/0","from":null}]"#, "refused 8 text 0 op 1 place 0 pointer 0"),
    ("from-number-copy", "[1]", r#"[{"op":"copy","path":"/0","from":0}]"#, "refused 8 text 0 op 1 place 0 pointer 0"),
    ("from-ignored-add", "[1]", r#"[{"op":"add","path":"/-","value":2,"from":7}]"#, "[1,2]"),
    ("from-ignored-malformed", "[1]", r#"[{"op":"remove","path":"/0","from":"no pointer ~"}]"#, "[]"),
    ("from-ignored-replace", "[1]", r#"[{"op":"replace","path":"/0","value":2,"from":[]}]"#, "[2]"),
    ("from-ignored-test", "[1]", r#"[{"op":"test","path":"/0","value":1,"from":"~"}]"#, "[1]"),
    ("from-prefix-ignored-copy", r#"{"a":{}}"#, r#"[{"op":"copy","from":"/a","path":"/a/b"}]"#, r#"{"a":{"b":{}}}"#),

    // Other members, and the order of members.
    ("other-members", "[1]", r#"[{"zz":{"op":"x"},"op":"add","":null,"path":"/0","Path":3,"value":0,"values":[]}]"#, "[0,1]"),
    ("member-order", "[1]", r#"[{"value":0,"path":"/0","op":"add"}]"#, "[0,1]"),

    // Which refusal comes first.
    ("all-shapes-before-any-run", "[1]", r#"[{"op":"remove","path":"/9"},{"op":"x","path":""}]"#, "refused 8 text 0 op 2 place 0 pointer 0"),
    ("all-pointers-before-any-run", "[1]", r#"[{"op":"remove","path":"/9"},{"op":"remove","path":"x"}]"#, "refused 10 text 0 op 2 place 0 pointer 0"),
    ("all-moves-before-any-run", "[1]", r#"[{"op":"remove","path":"/9"},{"op":"move","from":"/0","path":"/0/1"}]"#, "refused 14 text 0 op 2 place 0 pointer 0"),
    ("pointer-before-next-shape", "[1]", r#"[{"op":"remove","path":"x"},1]"#, "refused 10 text 0 op 1 place 0 pointer 0"),
    ("move-before-next-shape", "[1]", r#"[{"op":"move","from":"","path":"/0"},1]"#, "refused 14 text 0 op 1 place 0 pointer 0"),
    ("move-before-next-pointer", "[1]", r#"[{"op":"move","from":"","path":"/0"},{"op":"remove","path":"x"}]"#, "refused 14 text 0 op 1 place 0 pointer 0"),
    ("pointer-before-next-move", "[1]", r#"[{"op":"remove","path":"x"},{"op":"move","from":"","path":"/0"}]"#, "refused 10 text 0 op 1 place 0 pointer 0"),
    ("value-before-pointer", "[1]", r#"[{"op":"add","path":"x"}]"#, "refused 8 text 0 op 1 place 0 pointer 0"),
    ("from-before-pointer", "[1]", r#"[{"op":"move","path":"x"}]"#, "refused 8 text 0 op 1 place 0 pointer 0"),
    ("from-type-before-pointer", "[1]", r#"[{"op":"copy","path":"x","from":1}]"#, "refused 8 text 0 op 1 place 0 pointer 0"),
    ("op-before-pointer", "[1]", r#"[{"op":"x","path":"x"}]"#, "refused 8 text 0 op 1 place 0 pointer 0"),
    ("pointer-before-own-child", "[1]", r#"[{"op":"move","from":"","path":"/~"}]"#, "refused 10 text 0 op 1 place 0 pointer 0"),
    ("from-malformed-move", "[1]", r#"[{"op":"move","from":"0","path":"/0"}]"#, "refused 10 text 0 op 1 place 0 pointer 0"),
    ("from-malformed-copy", "[1]", r#"[{"op":"copy","from":"/~2","path":"/0"}]"#, "refused 10 text 0 op 1 place 0 pointer 0"),
    ("own-child-of-what-is-missing", "[1]", r#"[{"op":"move","from":"/7","path":"/7/x"}]"#, "refused 14 text 0 op 1 place 0 pointer 0"),
];
