//! Appendix A of RFC 6902, with its line breaks.
//!
//! The RFC prints results, not lines; where it puts members in another order
//! than this engine keeps, the two are equal but not the same. So a row has
//! both: the line, and the RFC's result, which a test compares by equality.

use super::{vector, Vector};

/// One example of the appendix.
pub struct Example {
    /// Its number, such as `A.1`.
    pub name: &'static str,
    /// The target document.
    pub document: &'static str,
    /// The patch.
    pub patch: &'static str,
    /// The RFC's resulting document; none where it says that there is an error.
    pub result: Option<&'static str>,
    /// This engine's line.
    pub line: &'static str,
}

/// The appendix as committed cases.
pub fn vectors() -> Vec<Vector> {
    EXAMPLES
        .iter()
        .map(|e| vector(format!("appendix-{}", e.name), e.document, e.patch, e.line))
        .collect()
}

/// A.1 to A.16.
pub const EXAMPLES: &[Example] = &[
    Example {
        name: "A.1",
        document: r#"{ "foo": "bar"}"#,
        patch: r#"[
{ "op": "add", "path": "/baz", "value": "qux" }
]"#,
        result: Some(
            r#"{
"baz": "qux",
"foo": "bar"
}"#,
        ),
        line: r#"{"foo":"bar","baz":"qux"}"#,
    },
    Example {
        name: "A.2",
        document: r#"{ "foo": [ "bar", "baz" ] }"#,
        patch: r#"[
{ "op": "add", "path": "/foo/1", "value": "qux" }
]"#,
        result: Some(r#"{ "foo": [ "bar", "qux", "baz" ] }"#),
        line: r#"{"foo":["bar","qux","baz"]}"#,
    },
    Example {
        name: "A.3",
        document: r#"{
"baz": "qux",
"foo": "bar"
}"#,
        patch: r#"[
{ "op": "remove", "path": "/baz" }
]"#,
        result: Some(r#"{ "foo": "bar" }"#),
        line: r#"{"foo":"bar"}"#,
    },
    Example {
        name: "A.4",
        document: r#"{ "foo": [ "bar", "qux", "baz" ] }"#,
        patch: r#"[
{ "op": "remove", "path": "/foo/1" }
]"#,
        result: Some(r#"{ "foo": [ "bar", "baz" ] }"#),
        line: r#"{"foo":["bar","baz"]}"#,
    },
    Example {
        name: "A.5",
        document: r#"{
"baz": "qux",
"foo": "bar"
}"#,
        patch: r#"[
{ "op": "replace", "path": "/baz", "value": "boo" }
]"#,
        result: Some(
            r#"{
"baz": "boo",
"foo": "bar"
}"#,
        ),
        line: r#"{"baz":"boo","foo":"bar"}"#,
    },
    Example {
        name: "A.6",
        document: r#"{
"foo": {
"bar": "baz",
"waldo": "fred"
},
"qux": {
"corge": "grault"
}
}"#,
        patch: r#"[
{ "op": "move", "from": "/foo/waldo", "path": "/qux/thud" }
]"#,
        result: Some(
            r#"{
"foo": {
"bar": "baz"
},
"qux": {
"corge": "grault",
"thud": "fred"
}
}"#,
        ),
        line: r#"{"foo":{"bar":"baz"},"qux":{"corge":"grault","thud":"fred"}}"#,
    },
    Example {
        name: "A.7",
        document: r#"{ "foo": [ "all", "grass", "cows", "eat" ] }"#,
        patch: r#"[
{ "op": "move", "from": "/foo/1", "path": "/foo/3" }
]"#,
        result: Some(r#"{ "foo": [ "all", "cows", "eat", "grass" ] }"#),
        line: r#"{"foo":["all","cows","eat","grass"]}"#,
    },
    // The result is not printed: a test that succeeds changes nothing.
    Example {
        name: "A.8",
        document: r#"{
"baz": "qux",
"foo": [ "a", 2, "c" ]
}"#,
        patch: r#"[
{ "op": "test", "path": "/baz", "value": "qux" },
{ "op": "test", "path": "/foo/1", "value": 2 }
]"#,
        result: Some(
            r#"{
"baz": "qux",
"foo": [ "a", 2, "c" ]
}"#,
        ),
        line: r#"{"baz":"qux","foo":["a",2,"c"]}"#,
    },
    Example {
        name: "A.9",
        document: r#"{ "baz": "qux" }"#,
        patch: r#"[
{ "op": "test", "path": "/baz", "value": "bar" }
]"#,
        result: None,
        line: "refused 15 text 0 op 1 place 0 pointer 0",
    },
    Example {
        name: "A.10",
        document: r#"{ "foo": "bar" }"#,
        patch: r#"[
{ "op": "add", "path": "/child", "value": { "grandchild": { } } }
]"#,
        result: Some(
            r#"{
"foo": "bar",
"child": {
"grandchild": {
}
}
}"#,
        ),
        line: r#"{"foo":"bar","child":{"grandchild":{}}}"#,
    },
    Example {
        name: "A.11",
        document: r#"{ "foo": "bar" }"#,
        patch: r#"[
{ "op": "add", "path": "/baz", "value": "qux", "xyz": 123 }
]"#,
        result: Some(
            r#"{
"foo": "bar",
"baz": "qux"
}"#,
        ),
        line: r#"{"foo":"bar","baz":"qux"}"#,
    },
    Example {
        name: "A.12",
        document: r#"{ "foo": "bar" }"#,
        patch: r#"[
{ "op": "add", "path": "/baz/bat", "value": "qux" }
]"#,
        result: None,
        line: "refused 11 text 0 op 1 place 0 pointer 1",
    },
    // No document is printed; the repeated name is refused whatever it is.
    Example {
        name: "A.13",
        document: r#"{ "foo": "bar" }"#,
        patch: r#"[
{ "op": "add", "path": "/baz", "value": "qux", "op": "remove" }
]"#,
        result: None,
        line: "refused 4 text 2 op 0 place 52 pointer 0",
    },
    Example {
        name: "A.14",
        document: r#"{
"/": 9,
"~1": 10
}"#,
        patch: r#"[
{"op": "test", "path": "/~01", "value": 10}
]"#,
        result: Some(
            r#"{
"/": 9,
"~1": 10
}"#,
        ),
        line: r#"{"/":9,"~1":10}"#,
    },
    Example {
        name: "A.15",
        document: r#"{
"/": 9,
"~1": 10
}"#,
        patch: r#"[
{"op": "test", "path": "/~01", "value": "10"}
]"#,
        result: None,
        line: "refused 15 text 0 op 1 place 0 pointer 0",
    },
    Example {
        name: "A.16",
        document: r#"{ "foo": ["bar"] }"#,
        patch: r#"[
{ "op": "add", "path": "/foo/-", "value": ["abc", "def"] }
]"#,
        result: Some(r#"{ "foo": ["bar", ["abc", "def"]] }"#),
        line: r#"{"foo":["bar",["abc","def"]]}"#,
    },
];
