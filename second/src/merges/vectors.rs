//! The committed cases of merge patches, each with the line it must give.

use crate::cases::Case;
use crate::limits::TOOL_ROOM;
use crate::vectors::Vector;

/// Name, document, patch and the line they must give.
type Row = (&'static str, &'static str, &'static str, &'static str);

/// RFC 7396, appendix A, in its order.
const APPENDIX: &[Row] = &[
    ("1", r#"{"a":"b"}"#, r#"{"a":"c"}"#, r#"{"a":"c"}"#),
    ("2", r#"{"a":"b"}"#, r#"{"b":"c"}"#, r#"{"a":"b","b":"c"}"#),
    ("3", r#"{"a":"b"}"#, r#"{"a":null}"#, r#"{}"#),
    ("4", r#"{"a":"b","b":"c"}"#, r#"{"a":null}"#, r#"{"b":"c"}"#),
    ("5", r#"{"a":["b"]}"#, r#"{"a":"c"}"#, r#"{"a":"c"}"#),
    ("6", r#"{"a":"c"}"#, r#"{"a":["b"]}"#, r#"{"a":["b"]}"#),
    ("7", r#"{"a": {"b": "c"} }"#, r#"{"a":{"b":"d","c":null}}"#, r#"{"a":{"b":"d"}}"#),
    ("8", r#"{"a":[{"b":"c"}]}"#, r#"{"a":[1]}"#, r#"{"a":[1]}"#),
    ("9", r#"["a","b"]"#, r#"["c","d"]"#, r#"["c","d"]"#),
    ("10", r#"{"a":"b"}"#, r#"["c"]"#, r#"["c"]"#),
    ("11", r#"{"a":"foo"}"#, "null", "null"),
    ("12", r#"{"a":"foo"}"#, r#""bar""#, r#""bar""#),
    ("13", r#"{"e":null}"#, r#"{"a":1}"#, r#"{"e":null,"a":1}"#),
    ("14", "[1,2]", r#"{"a":"b","c":null}"#, r#"{"a":"b"}"#),
    ("15", "{}", r#"{"a":{"bb":{"ccc":null}}}"#, r#"{"a":{"bb":{}}}"#),
];

/// The example of RFC 7396, section 3.
const SECTION_3: Row = (
    "section-3",
    r#"{"title":"Goodbye!","author":{"givenName":"John","familyName":"Doe"},"tags":["example","sample"],"content":"This will be unchanged"}"#,
    r#"{"title":"Hello!","phoneNumber":"+01-123-456-7890","author":{"familyName":null},"tags":["example"]}"#,
    r#"{"title":"Hello!","author":{"givenName":"John"},"tags":["example"],"content":"This will be unchanged","phoneNumber":"+01-123-456-7890"}"#,
);

/// The root, positions and nulls.
const ROWS: &[Row] = &[
    ("root-scalar-by-object", "7", r#"{"a":1}"#, r#"{"a":1}"#),
    ("root-null-by-object", "null", r#"{"a":null}"#, "{}"),
    ("root-array-by-object", "[1]", "{}", "{}"),
    ("root-object-by-true", r#"{"a":1}"#, "true", "true"),
    ("root-object-by-number", r#"{"a":1}"#, "-0.50e+1", "-0.50e+1"),
    ("root-array-by-array", "[1,2]", "[null]", "[null]"),
    ("empty-patch", r#"{"a":1}"#, " { } ", r#"{"a":1}"#),
    ("both-empty", "{}", "{}", "{}"),
    (
        "positions",
        r#"{"a":1,"b":2,"c":3}"#,
        r#"{"c":4,"y":5,"a":6,"x":7}"#,
        r#"{"a":6,"b":2,"c":4,"y":5,"x":7}"#,
    ),
    (
        "removed-and-added",
        r#"{"a":1,"b":2}"#,
        r#"{"b":null,"c":1,"a":null,"d":2}"#,
        r#"{"c":1,"d":2}"#,
    ),
    ("null-of-no-member", r#"{"a":1}"#, r#"{"b":null}"#, r#"{"a":1}"#),
    (
        "nulls-stay-in-the-target",
        r#"{"a":null,"b":{"c":null}}"#,
        r#"{"b":{"d":1}}"#,
        r#"{"a":null,"b":{"c":null,"d":1}}"#,
    ),
    (
        "nulls-in-arrays",
        r#"{"a":1}"#,
        r#"{"a":[null,{"b":null}],"c":[[null]]}"#,
        r#"{"a":[null,{"b":null}],"c":[[null]]}"#,
    ),
    (
        "deep-nulls",
        r#"{"a":{"b":{"c":{"d":1,"e":2}}}}"#,
        r#"{"a":{"b":{"c":{"d":null}}}}"#,
        r#"{"a":{"b":{"c":{"e":2}}}}"#,
    ),
    (
        "deep-nulls-in-new",
        "{}",
        r#"{"a":{"b":null,"c":{"d":null,"e":{"f":null}},"g":0}}"#,
        r#"{"a":{"c":{"e":{}},"g":0}}"#,
    ),
    ("object-over-scalar", r#"{"a":1}"#, r#"{"a":{"b":null,"c":2}}"#, r#"{"a":{"c":2}}"#),
    ("object-over-array", r#"{"a":[{"b":1}]}"#, r#"{"a":{"b":2}}"#, r#"{"a":{"b":2}}"#),
    ("scalar-over-object", r#"{"a":{"b":1}}"#, r#"{"a":false}"#, r#"{"a":false}"#),
    (
        "same-name-in-child",
        r#"{"a":{"a":{"a":1}}}"#,
        r#"{"a":{"a":{"a":2,"b":{"a":null}}}}"#,
        r#"{"a":{"a":{"a":2,"b":{}}}}"#,
    ),
    (
        "escaped-name",
        r#"{"\u0061":1,"\"":2}"#,
        r#"{"a":3,"\u0022":null,"\u00e9":4}"#,
        "{\"a\":3,\"\u{e9}\":4}",
    ),
    ("empty-name", r#"{"":{"":1}}"#, r#"{"":{"":null,"x":2}}"#, r#"{"":{"x":2}}"#),
    ("bad-document", "[1,]", r#"{"a":1}"#, "refused 3 text 1 op 0 place 3 pointer 0"),
    ("bad-patch", "{}", r#"{"a" 1}"#, "refused 3 text 2 op 0 place 5 pointer 0"),
    ("bad-both", "", "", "refused 3 text 1 op 0 place 0 pointer 0"),
    ("name-twice-in-document", r#"{"a":1,"a":2}"#, "{}", "refused 4 text 1 op 0 place 9 pointer 0"),
    (
        "name-twice-in-patch",
        "{}",
        r#"{"a":null,"\u0061":null}"#,
        "refused 4 text 2 op 0 place 17 pointer 0",
    ),
    ("large-exponent", "1e10000", "{}", "refused 7 text 1 op 0 place 6 pointer 0"),
    ("large-exponent-in-patch", "1", "[1e-10000]", "refused 7 text 2 op 0 place 8 pointer 0"),
];

/// All committed cases.
pub fn all() -> Vec<Vector> {
    let mut all: Vec<Vector> = APPENDIX.iter().map(|row| row_of("appendix", row)).collect();
    all.push(row_of("merge", &SECTION_3));
    all.extend(ROWS.iter().map(|row| row_of("merge", row)));
    all.extend(depths());
    all.extend(counts());
    all.extend(rooms());
    all
}

fn row_of(table: &str, (name, document, patch, expected): &Row) -> Vector {
    vector(format!("{table}-{name}"), document, patch, expected)
}

fn vector(name: impl Into<String>, document: &str, patch: &str, expected: &str) -> Vector {
    with_room(name, TOOL_ROOM, document, patch, expected)
}

fn with_room(
    name: impl Into<String>,
    room: usize,
    document: &str,
    patch: &str,
    expected: &str,
) -> Vector {
    let case = Case { name: name.into(), room, document: document.into(), patch: patch.into() };
    Vector { case, expected: expected.into() }
}

/// Objects one in the other, so many, and a value in the last.
fn nested(levels: usize, inner: &str) -> String {
    format!("{}{inner}{}", "{\"a\":".repeat(levels), "}".repeat(levels))
}

/// Depth 32 both ways: what is read is never too deep afterwards.
fn depths() -> Vec<Vector> {
    let deep = nested(32, "1");
    let too_deep = nested(33, "1");
    vec![
        vector("depth-32-patch", "{}", &deep, &deep),
        vector("depth-32-patch-of-nulls", "{}", &nested(32, "null"), &nested(31, "{}")),
        vector(
            "depth-32-document",
            &deep,
            r#"{"b":1}"#,
            &format!("{},\"b\":1}}", &deep[..deep.len() - 1]),
        ),
        vector("depth-32-both", &deep, &nested(32, "2"), &nested(32, "2")),
        vector("depth-33-document", &too_deep, "{}", "refused 5 text 1 op 0 place 160 pointer 0"),
        vector("depth-33-patch", "{}", &too_deep, "refused 5 text 2 op 0 place 160 pointer 0"),
    ]
}

/// Members of these names, each with a value.
fn members(names: impl Iterator<Item = usize>, value: &str) -> String {
    names.map(|k| format!("\"{k}\":{value}")).collect::<Vec<_>>().join(",")
}

/// 2,048 and 2,049 nodes in the result; more on the way; many members in any order.
fn counts() -> Vec<Vector> {
    let object = |members: String| format!("{{{members}}}");
    let first = object(members(0..1_000, "1"));
    let full = object(format!("{},{}", members(0..1_000, "1"), members(1_000..2_047, "2")));
    let six = "refused 6 text 0 op 0 place 0 pointer 0";
    let whole = object(members(0..2_047, "1"));
    // 2,047 members: 1,000 go, 1,000 stay and 1,000 come, which stand first in the patch
    let on_the_way =
        object(format!("{},{}", members(3_000..4_000, "3"), members(0..1_000, "null")));
    let left = object(format!("{},{}", members(1_000..2_000, "1"), members(3_000..4_000, "3")));
    let backwards = object(members((0..2_000).rev(), "4"));
    vec![
        vector("nodes-2048", &first, &object(members(1_000..2_047, "2")), &full),
        vector("nodes-2049", &first, &object(members(1_000..2_048, "2")), six),
        vector("nodes-2048-kept", &whole, r#"{"0":1}"#, &whole),
        vector("nodes-2049-nested", &whole, r#"{"0":[1]}"#, six),
        vector("nodes-2049-empty-object", &whole, r#"{"a":{"b":null}}"#, six),
        vector("nodes-3001-on-the-way", &object(members(0..2_000, "1")), &on_the_way, &left),
        vector(
            "members-backwards",
            &object(members(0..2_000, "1")),
            &backwards,
            &object(members(0..2_000, "4")),
        ),
        vector(
            "nodes-2049-document",
            &format!("[{}]", vec!["1"; 2_048].join(",")),
            "{}",
            "refused 6 text 1 op 0 place 4095 pointer 0",
        ),
        vector(
            "nodes-2049-patch",
            "{}",
            &format!("[{}]", vec!["1"; 2_048].join(",")),
            "refused 6 text 2 op 0 place 4095 pointer 0",
        ),
    ]
}

/// The output, and texts that are too long.
fn rooms() -> Vec<Vector> {
    let no_room = "refused 16 text 0 op 0 place 0 pointer 0";
    let long = format!("\"{}\"", "x".repeat(32_767));
    let fits = format!("\"{}\"", "x".repeat(32_766));
    vec![
        with_room("room-enough", 13, r#"{"a":1}"#, r#"{"b":2}"#, r#"{"a":1,"b":2}"#),
        with_room("room-short", 12, r#"{"a":1}"#, r#"{"b":2}"#, no_room),
        with_room("room-none", 0, "{}", "1", no_room),
        with_room("room-short-whole", 3, "{}", "null", no_room),
        vector("long-document", &long, "{}", "refused 2 text 1 op 0 place 0 pointer 0"),
        vector("long-patch", "{}", &long, "refused 2 text 2 op 0 place 0 pointer 0"),
        vector("long-both", &long, &long, "refused 2 text 1 op 0 place 0 pointer 0"),
        vector("as-long-as-may-be", "1", &fits, &fits),
    ]
}
