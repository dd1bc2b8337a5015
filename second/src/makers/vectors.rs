//! The committed cases with a region, each with the line it must give.
//!
//! The lines come from the papers, written by hand or made by a small rule that
//! stands beside them. None is taken from the program; a test checks that the
//! program gives them.

use super::cases::Case;
use crate::limits::TOOL_ROOM;

/// A case and the line it must give.
#[derive(Clone, Debug)]
pub struct Vector {
    /// The case.
    pub case: Case,
    /// The line, without the newline.
    pub expected: Vec<u8>,
}

/// Name, document, patch, region and the line they must give.
type Row = (&'static str, &'static str, &'static str, &'static [u8], &'static str);

/// All committed cases.
pub fn all() -> Vec<Vector> {
    let tables = [
        ("rule", RULE),
        ("region", REGION),
        ("spelling", SPELLING),
        ("order", ORDER),
        ("run", RUN),
    ];
    let mut all: Vec<Vector> = tables.iter().flat_map(|(table, rows)| from(table, rows)).collect();
    all.extend(lengths());
    all.extend(bytes());
    all.extend(counts());
    all.extend(rooms());
    all
}

fn from(table: &str, rows: &[Row]) -> Vec<Vector> {
    rows.iter()
        .map(|&(name, document, patch, region, expected)| {
            vector(format!("{table}-{name}"), document, patch, region, expected)
        })
        .collect()
}

/// One case with the patch tool's room.
fn vector(
    name: impl Into<String>,
    document: impl Into<Vec<u8>>,
    patch: impl Into<Vec<u8>>,
    region: impl Into<Vec<u8>>,
    expected: impl Into<Vec<u8>>,
) -> Vector {
    let case = Case {
        name: name.into(),
        room: TOOL_ROOM,
        document: document.into(),
        patch: patch.into(),
        region: region.into(),
    };
    Vector { case, expected: expected.into() }
}

/// The line of a refusal that is of no text and has no place.
fn refused(number: u32, op: usize) -> String {
    format!("refused {number} text 0 op {op} place 0 pointer 0")
}

const BROKEN: &str = "refused 17 text 0 op 1 place 0 pointer 0";
const BROKEN_AT_2: &str = "refused 17 text 0 op 2 place 0 pointer 0";
const MALFORMED: &str = "refused 10 text 0 op 0 place 0 pointer 0";

/// Which operations a maker may send, and where.
const RULE: &[Row] = &[
    (
        "test",
        r#"{"m":{"a":1}}"#,
        r#"[{"op":"test","path":"/m/a","value":1}]"#,
        b"/m",
        r#"{"m":{"a":1}}"#,
    ),
    (
        "test-replace",
        r#"{"m":{"a":1}}"#,
        r#"[{"op":"test","path":"/m/a","value":1},{"op":"replace","path":"/m/a","value":2}]"#,
        b"/m",
        r#"{"m":{"a":2}}"#,
    ),
    (
        "test-add",
        r#"{"m":{"a":1}}"#,
        r#"[{"op":"test","path":"/m/a","value":1},{"op":"add","path":"/m/b","value":2}]"#,
        b"/m",
        r#"{"m":{"a":1,"b":2}}"#,
    ),
    (
        "test-test",
        r#"{"m":{"a":1}}"#,
        r#"[{"op":"test","path":"/m/a","value":1},{"op":"test","path":"/m/a","value":1.0}]"#,
        b"/m",
        r#"{"m":{"a":1}}"#,
    ),
    ("no-operations", r#"{"m":{"a":1}}"#, "[]", b"/m", "refused 17 text 0 op 0 place 0 pointer 0"),
    ("no-operations-at-the-root", "1", " [ ] ", b"", "refused 17 text 0 op 0 place 0 pointer 0"),
    (
        "replace-first",
        r#"{"m":{"a":1}}"#,
        r#"[{"op":"replace","path":"/m/a","value":2}]"#,
        b"/m",
        BROKEN,
    ),
    (
        "add-first",
        r#"{"m":{"a":1}}"#,
        r#"[{"op":"add","path":"/m/b","value":2},{"op":"test","path":"/m/b","value":2}]"#,
        b"/m",
        BROKEN,
    ),
    ("remove-first", r#"{"m":{"a":1}}"#, r#"[{"op":"remove","path":"/m/a"}]"#, b"/m", BROKEN),
    (
        "move-first",
        r#"{"m":{"a":1}}"#,
        r#"[{"op":"move","from":"/m/a","path":"/m/b"}]"#,
        b"/m",
        BROKEN,
    ),
    (
        "copy-first",
        r#"{"m":{"a":1}}"#,
        r#"[{"op":"copy","from":"/m/a","path":"/m/b"}]"#,
        b"/m",
        BROKEN,
    ),
    (
        "remove",
        r#"{"m":{"a":1}}"#,
        r#"[{"op":"test","path":"/m/a","value":1},{"op":"remove","path":"/m/a"}]"#,
        b"/m",
        BROKEN_AT_2,
    ),
    (
        "move",
        r#"{"m":{"a":1}}"#,
        r#"[{"op":"test","path":"/m/a","value":1},{"op":"move","from":"/m/a","path":"/m/b"}]"#,
        b"/m",
        BROKEN_AT_2,
    ),
    (
        "copy",
        r#"{"m":{"a":1}}"#,
        r#"[{"op":"test","path":"/m/a","value":1},{"op":"copy","from":"/m/a","path":"/m/b"}]"#,
        b"/m",
        BROKEN_AT_2,
    ),
    (
        "path-is-the-region",
        r#"{"m":{"a":1}}"#,
        r#"[{"op":"test","path":"/m","value":{"a":1}}]"#,
        b"/m",
        BROKEN,
    ),
    (
        "path-above-the-region",
        r#"{"m":{"a":1}}"#,
        r#"[{"op":"test","path":"","value":{"m":{"a":1}}}]"#,
        b"/m",
        BROKEN,
    ),
    (
        "path-beside-the-region",
        r#"{"m":{"a":1},"n":{"a":1}}"#,
        r#"[{"op":"test","path":"/n/a","value":1}]"#,
        b"/m",
        BROKEN,
    ),
    (
        "path-begins-as-text",
        r#"{"m":{"a":1},"mm":{"a":1}}"#,
        r#"[{"op":"test","path":"/mm/a","value":1}]"#,
        b"/m",
        BROKEN,
    ),
    (
        "path-begins-as-text-and-ends",
        r#"{"m":1,"mm":1}"#,
        r#"[{"op":"test","path":"/mm","value":1}]"#,
        b"/m",
        BROKEN,
    ),
    (
        "path-shorter-than-the-region",
        r#"{"m":{"a":1}}"#,
        r#"[{"op":"test","path":"/m/a","value":1}]"#,
        b"/m/a/b",
        BROKEN,
    ),
    (
        "second-path-outside",
        r#"{"m":{"a":1},"n":2}"#,
        r#"[{"op":"test","path":"/m/a","value":1},{"op":"replace","path":"/n","value":2}]"#,
        b"/m",
        BROKEN_AT_2,
    ),
    (
        "root-region-any-path",
        r#"{"m":1}"#,
        r#"[{"op":"test","path":"/m","value":1},{"op":"add","path":"/n","value":2}]"#,
        b"",
        r#"{"m":1,"n":2}"#,
    ),
    ("root-region-root-path", "1", r#"[{"op":"test","path":"","value":1}]"#, b"", BROKEN),
    (
        "deeper",
        r#"{"m":{"a":[[1]]}}"#,
        r#"[{"op":"test","path":"/m/a/0/0","value":1}]"#,
        b"/m/a",
        r#"{"m":{"a":[[1]]}}"#,
    ),
    (
        "element-of-an-array",
        r#"[[1],[2]]"#,
        r#"[{"op":"test","path":"/1/0","value":2},{"op":"add","path":"/1/-","value":3}]"#,
        b"/1",
        "[[1],[2,3]]",
    ),
    (
        "index-is-a-token",
        r#"[[1],[2]]"#,
        r#"[{"op":"test","path":"/01/0","value":2}]"#,
        b"/1",
        BROKEN,
    ),
    (
        "region-that-is-not-there",
        r#"{"m":1}"#,
        r#"[{"op":"test","path":"/n/a","value":1}]"#,
        b"/n",
        "refused 11 text 0 op 1 place 0 pointer 1",
    ),
    (
        "other-members-do-not-matter",
        r#"{"m":{"a":1}}"#,
        r#"[{"value":1,"from":"/n","path":"/m/a","x":[],"op":"test"}]"#,
        b"/m",
        r#"{"m":{"a":1}}"#,
    ),
];

/// Regions that are none, and some that are.
const REGION: &[Row] = &[
    ("no-slash", r#"{"m":{"a":1}}"#, r#"[{"op":"test","path":"/m/a","value":1}]"#, b"m", MALFORMED),
    ("blank", r#"{"m":{"a":1}}"#, r#"[{"op":"test","path":"/m/a","value":1}]"#, b" /m", MALFORMED),
    ("link", r#"{"m":{"a":1}}"#, r#"[{"op":"test","path":"/m/a","value":1}]"#, b"#/m", MALFORMED),
    (
        "in-quotes",
        r#"{"m":{"a":1}}"#,
        r#"[{"op":"test","path":"/m/a","value":1}]"#,
        b"\"/m\"",
        MALFORMED,
    ),
    (
        "tilde-at-the-end",
        r#"{"m":{"a":1}}"#,
        r#"[{"op":"test","path":"/m/a","value":1}]"#,
        b"/m~",
        MALFORMED,
    ),
    (
        "tilde-before-2",
        r#"{"m":{"a":1}}"#,
        r#"[{"op":"test","path":"/m/a","value":1}]"#,
        b"/m~2",
        MALFORMED,
    ),
    (
        "tilde-before-a-slash",
        r#"{"m":{"a":1}}"#,
        r#"[{"op":"test","path":"/m/a","value":1}]"#,
        b"/m~/a",
        MALFORMED,
    ),
    (
        "tilde-twice",
        r#"{"m":{"a":1}}"#,
        r#"[{"op":"test","path":"/m/a","value":1}]"#,
        b"/~~0",
        MALFORMED,
    ),
    (
        "cut-character",
        r#"{"m":{"a":1}}"#,
        r#"[{"op":"test","path":"/m/a","value":1}]"#,
        b"/m\xC3",
        MALFORMED,
    ),
    (
        "continuation-alone",
        r#"{"m":{"a":1}}"#,
        r#"[{"op":"test","path":"/m/a","value":1}]"#,
        b"/\x80",
        MALFORMED,
    ),
    (
        "overlong-slash",
        r#"{"m":{"a":1}}"#,
        r#"[{"op":"test","path":"/m/a","value":1}]"#,
        b"\xC0\xAFm",
        MALFORMED,
    ),
    (
        "overlong-three",
        r#"{"m":{"a":1}}"#,
        r#"[{"op":"test","path":"/m/a","value":1}]"#,
        b"/\xE0\x80\xAF",
        MALFORMED,
    ),
    (
        "surrogate",
        r#"{"m":{"a":1}}"#,
        r#"[{"op":"test","path":"/m/a","value":1}]"#,
        b"/\xED\xA0\x80",
        MALFORMED,
    ),
    (
        "above-10ffff",
        r#"{"m":{"a":1}}"#,
        r#"[{"op":"test","path":"/m/a","value":1}]"#,
        b"/\xF4\x90\x80\x80",
        MALFORMED,
    ),
    (
        "never-a-byte",
        r#"{"m":{"a":1}}"#,
        r#"[{"op":"test","path":"/m/a","value":1}]"#,
        b"/\xFF",
        MALFORMED,
    ),
    (
        "not-utf8-before-the-slash",
        r#"{"m":{"a":1}}"#,
        r#"[{"op":"test","path":"/m/a","value":1}]"#,
        b"\xFF/m",
        MALFORMED,
    ),
    (
        "empty-token",
        r#"{"":{"a":1}}"#,
        r#"[{"op":"test","path":"//a","value":1}]"#,
        b"/",
        r#"{"":{"a":1}}"#,
    ),
    (
        "empty-token-path-of-one",
        r#"{"":{"a":1}}"#,
        r#"[{"op":"test","path":"/","value":{"a":1}}]"#,
        b"/",
        BROKEN,
    ),
    (
        "empty-token-path-beside",
        r#"{"a":1}"#,
        r#"[{"op":"test","path":"/a","value":1}]"#,
        b"/",
        BROKEN,
    ),
    (
        "two-empty-tokens",
        r#"{"":{"":{"":1}}}"#,
        r#"[{"op":"test","path":"///","value":1}]"#,
        b"//",
        r#"{"":{"":{"":1}}}"#,
    ),
    (
        "two-empty-tokens-path-equal",
        r#"{"":{"":{"":1}}}"#,
        r#"[{"op":"test","path":"//","value":{"":1}}]"#,
        b"//",
        BROKEN,
    ),
    (
        "ends-with-a-slash",
        r#"{"m":{"":{"a":1}}}"#,
        r#"[{"op":"test","path":"/m//a","value":1}]"#,
        b"/m/",
        r#"{"m":{"":{"a":1}}}"#,
    ),
    (
        "ends-with-a-slash-path-without",
        r#"{"m":{"a":1}}"#,
        r#"[{"op":"test","path":"/m/a","value":1}]"#,
        b"/m/",
        BROKEN,
    ),
    (
        "zero-byte",
        "{\"\\u0000\":{\"a\":1}}",
        r#"[{"op":"test","path":"/\u0000/a","value":1}]"#,
        b"/\0",
        r#"{"\u0000":{"a":1}}"#,
    ),
    (
        "backslash-is-one",
        r#"{"\\":{"a":1}}"#,
        r#"[{"op":"test","path":"/\\/a","value":1}]"#,
        b"/\\",
        r#"{"\\":{"a":1}}"#,
    ),
    (
        "backslash-u-is-no-escape",
        r#"{"m":{"a":1}}"#,
        r#"[{"op":"test","path":"/m/a","value":1}]"#,
        b"/\\u006d",
        BROKEN,
    ),
    (
        "backslash-u-as-it-is",
        r#"{"\\u006d":{"a":1}}"#,
        r#"[{"op":"test","path":"/\\u006d/a","value":1}]"#,
        b"/\\u006d",
        r#"{"\\u006d":{"a":1}}"#,
    ),
    (
        "quote",
        r#"{"\"":{"a":1}}"#,
        r#"[{"op":"test","path":"/\"/a","value":1}]"#,
        b"/\"",
        r#"{"\"":{"a":1}}"#,
    ),
    (
        "control",
        r#"{"\n":{"a":1}}"#,
        r#"[{"op":"test","path":"/\n/a","value":1}]"#,
        b"/\n",
        r#"{"\n":{"a":1}}"#,
    ),
    (
        "delete",
        "{\"\x7F\":{\"a\":1}}",
        "[{\"op\":\"test\",\"path\":\"/\x7F/a\",\"value\":1}]",
        b"/\x7F",
        "{\"\x7F\":{\"a\":1}}",
    ),
    (
        "percent-is-one",
        r#"{"%6d":{"a":1}}"#,
        r#"[{"op":"test","path":"/%6d/a","value":1}]"#,
        b"/%6d",
        r#"{"%6d":{"a":1}}"#,
    ),
    (
        "dash",
        r#"[[1]]"#,
        r#"[{"op":"test","path":"/-/0","value":1}]"#,
        b"/-",
        "refused 11 text 0 op 1 place 0 pointer 1",
    ),
];

/// A region and a path that are spelled in other ways: tokens are compared
/// unescaped.
const SPELLING: &[Row] = &[
    (
        "tilde",
        r#"{"~":{"a":1}}"#,
        r#"[{"op":"test","path":"/~0/a","value":1}]"#,
        b"/~0",
        r#"{"~":{"a":1}}"#,
    ),
    (
        "slash",
        r#"{"/":{"a":1}}"#,
        r#"[{"op":"test","path":"/~1/a","value":1}]"#,
        b"/~1",
        r#"{"/":{"a":1}}"#,
    ),
    (
        "slash-is-no-tilde",
        r#"{"/":{"a":1}}"#,
        r#"[{"op":"test","path":"/~1/a","value":1}]"#,
        b"/~0",
        BROKEN,
    ),
    (
        "tilde-one",
        r#"{"~1":{"a":1}}"#,
        r#"[{"op":"test","path":"/~01/a","value":1}]"#,
        b"/~01",
        r#"{"~1":{"a":1}}"#,
    ),
    (
        "tilde-one-is-no-slash",
        r#"{"/":{"a":1}}"#,
        r#"[{"op":"test","path":"/~1/a","value":1}]"#,
        b"/~01",
        BROKEN,
    ),
    (
        "tilde-zero",
        r#"{"~0":{"a":1}}"#,
        r#"[{"op":"test","path":"/~00/a","value":1}]"#,
        b"/~00",
        r#"{"~0":{"a":1}}"#,
    ),
    (
        "slash-within-a-token",
        r#"{"a/b":{"a":1}}"#,
        r#"[{"op":"test","path":"/a~1b/a","value":1}]"#,
        b"/a~1b",
        r#"{"a/b":{"a":1}}"#,
    ),
    (
        "slash-within-is-no-slash-between",
        r#"{"a":{"b":{"a":1}}}"#,
        r#"[{"op":"test","path":"/a/b/a","value":1}]"#,
        b"/a~1b",
        BROKEN,
    ),
    (
        "token-cut-at-an-escaped-slash",
        r#"{"a/b":1}"#,
        r#"[{"op":"test","path":"/a~1b","value":1}]"#,
        b"/a",
        BROKEN,
    ),
    (
        "token-cut-at-an-escaped-tilde",
        r#"{"a~b":1}"#,
        r#"[{"op":"test","path":"/a~0b","value":1}]"#,
        b"/a",
        BROKEN,
    ),
    (
        "letter-escaped-in-the-path",
        r#"{"m":{"a":1}}"#,
        r#"[{"op":"test","path":"/\u006d/a","value":1}]"#,
        b"/m",
        r#"{"m":{"a":1}}"#,
    ),
    (
        "slash-escaped-in-the-path",
        r#"{"m":{"a":1}}"#,
        r#"[{"op":"test","path":"\/m\/a","value":1}]"#,
        b"/m",
        r#"{"m":{"a":1}}"#,
    ),
    (
        "slash-escaped-by-number",
        r#"{"m":{"a":1}}"#,
        r#"[{"op":"test","path":"\u002fm\u002Fa","value":1}]"#,
        b"/m",
        r#"{"m":{"a":1}}"#,
    ),
    (
        "tilde-escaped-in-the-path",
        r#"{"~":{"a":1}}"#,
        r#"[{"op":"test","path":"/\u007e\u0030/a","value":1}]"#,
        b"/~0",
        r#"{"~":{"a":1}}"#,
    ),
    (
        "two-bytes",
        "{\"\u{e9}\":{\"a\":1}}",
        "[{\"op\":\"test\",\"path\":\"/\u{e9}/a\",\"value\":1}]",
        b"/\xC3\xA9",
        "{\"\u{e9}\":{\"a\":1}}",
    ),
    (
        "three-bytes",
        "{\"\u{20ac}\":{\"a\":1}}",
        "[{\"op\":\"test\",\"path\":\"/\u{20ac}/a\",\"value\":1}]",
        b"/\xE2\x82\xAC",
        "{\"\u{20ac}\":{\"a\":1}}",
    ),
    (
        "four-bytes",
        "{\"\u{1f50b}\":{\"a\":1}}",
        "[{\"op\":\"test\",\"path\":\"/\u{1f50b}/a\",\"value\":1}]",
        b"/\xF0\x9F\x94\x8B",
        "{\"\u{1f50b}\":{\"a\":1}}",
    ),
    (
        "two-bytes-escaped-in-the-path",
        "{\"\u{e9}\":{\"a\":1}}",
        r#"[{"op":"test","path":"/\u00e9/a","value":1}]"#,
        b"/\xC3\xA9",
        "{\"\u{e9}\":{\"a\":1}}",
    ),
    (
        "three-bytes-escaped-in-the-path",
        "{\"\u{20ac}\":{\"a\":1}}",
        r#"[{"op":"test","path":"/\u20AC/a","value":1}]"#,
        b"/\xE2\x82\xAC",
        "{\"\u{20ac}\":{\"a\":1}}",
    ),
    (
        "four-bytes-escaped-in-the-path",
        "{\"\u{1f50b}\":{\"a\":1}}",
        r#"[{"op":"test","path":"/\ud83d\udd0b/a","value":1}]"#,
        b"/\xF0\x9F\x94\x8B",
        "{\"\u{1f50b}\":{\"a\":1}}",
    ),
    (
        "same-first-byte",
        "{\"\u{e9}\":{\"a\":1}}",
        "[{\"op\":\"test\",\"path\":\"/\u{e9}/a\",\"value\":1}]",
        b"/\xC3\xA8",
        BROKEN,
    ),
    (
        "same-first-three-bytes",
        "{\"\u{1f50b}\":{\"a\":1}}",
        "[{\"op\":\"test\",\"path\":\"/\u{1f50b}/a\",\"value\":1}]",
        b"/\xF0\x9F\x94\x8A",
        BROKEN,
    ),
    (
        "no-normalization",
        "{\"\u{e9}\":{\"a\":1}}",
        "[{\"op\":\"test\",\"path\":\"/\u{e9}/a\",\"value\":1}]",
        b"/e\xCC\x81",
        BROKEN,
    ),
    (
        "case-matters",
        r#"{"m":{"a":1}}"#,
        r#"[{"op":"test","path":"/m/a","value":1}]"#,
        b"/M",
        BROKEN,
    ),
];

/// Which refusal comes first.
const ORDER: &[Row] = &[
    (
        "document-unread-before-the-region",
        "{",
        "[",
        b"m",
        "refused 3 text 1 op 0 place 1 pointer 0",
    ),
    ("patch-unread-before-the-region", "{}", "[", b"m", "refused 3 text 2 op 0 place 1 pointer 0"),
    (
        "patch-name-twice-before-the-region",
        "{}",
        r#"[{"a":1,"a":2}]"#,
        b"\xFF",
        "refused 4 text 2 op 0 place 10 pointer 0",
    ),
    ("region-before-the-top-value", "{}", "{}", b"m", MALFORMED),
    ("region-before-no-operations", "{}", "[]", b"/~", MALFORMED),
    ("region-before-the-shape", "{}", "[1]", b"/~2", MALFORMED),
    ("top-value-before-the-rule", "{}", "{}", b"/m", "refused 8 text 0 op 0 place 0 pointer 0"),
    ("no-object-before-the-rule", "{}", "[1]", b"/m", "refused 8 text 0 op 1 place 0 pointer 0"),
    (
        "no-value-before-the-rule",
        "{}",
        r#"[{"op":"replace","path":"/n"}]"#,
        b"/m",
        "refused 8 text 0 op 1 place 0 pointer 0",
    ),
    (
        "unknown-kind-before-the-rule",
        "{}",
        r#"[{"op":"check","path":"/n","value":1}]"#,
        b"/m",
        "refused 8 text 0 op 1 place 0 pointer 0",
    ),
    (
        "pointer-before-the-rule",
        "{}",
        r#"[{"op":"replace","path":"n","value":1}]"#,
        b"/m",
        "refused 10 text 0 op 1 place 0 pointer 0",
    ),
    (
        "from-before-the-rule",
        "{}",
        r#"[{"op":"copy","from":"n","path":"/m/a"}]"#,
        b"/m",
        "refused 10 text 0 op 1 place 0 pointer 0",
    ),
    (
        "own-child-before-the-rule",
        "{}",
        r#"[{"op":"move","from":"/m/a","path":"/m/a/b"}]"#,
        b"/m",
        "refused 14 text 0 op 1 place 0 pointer 0",
    ),
    ("rule-before-the-next-shape", "{}", r#"[{"op":"remove","path":"/m/a"},1]"#, b"/m", BROKEN),
    (
        "rule-before-the-next-pointer",
        "{}",
        r#"[{"op":"test","path":"/n","value":1},{"op":"test","path":"n","value":1}]"#,
        b"/m",
        BROKEN,
    ),
    (
        "shape-before-the-next-rule",
        "{}",
        r#"[{"op":"test","path":"m","value":1},{"op":"remove","path":"/n"}]"#,
        b"/m",
        "refused 10 text 0 op 1 place 0 pointer 0",
    ),
    (
        "all-shapes-before-the-run",
        r#"{"m":{"a":1}}"#,
        r#"[{"op":"test","path":"/m/a","value":2},{"op":"remove","path":"/m/a"}]"#,
        b"/m",
        BROKEN_AT_2,
    ),
    (
        "second-shape-before-the-run",
        r#"{"m":{"a":1}}"#,
        r#"[{"op":"test","path":"/m/a","value":2},{"op":"add","path":"/m/a"}]"#,
        b"/m",
        "refused 8 text 0 op 2 place 0 pointer 0",
    ),
    (
        "kind-and-path-are-one-rule",
        r#"{"m":{"a":1}}"#,
        r#"[{"op":"remove","path":"/n"}]"#,
        b"/m",
        BROKEN,
    ),
];

/// What passes gives the answer of a plain patch.
const RUN: &[Row] = &[
    (
        "test-differs",
        r#"{"m":{"a":1}}"#,
        r#"[{"op":"test","path":"/m/a","value":2}]"#,
        b"/m",
        "refused 15 text 0 op 1 place 0 pointer 0",
    ),
    (
        "missing",
        r#"{"m":{"a":1}}"#,
        r#"[{"op":"test","path":"/m/a","value":1},{"op":"replace","path":"/m/b","value":1}]"#,
        b"/m",
        "refused 11 text 0 op 2 place 1 pointer 1",
    ),
    (
        "place-counts-from-the-root",
        r#"{"m":{"a":[1]}}"#,
        r#"[{"op":"test","path":"/m/a/0","value":1},{"op":"replace","path":"/m/a/7","value":1}]"#,
        b"/m/a",
        "refused 11 text 0 op 2 place 2 pointer 1",
    ),
    (
        "no-index",
        r#"{"m":[1]}"#,
        r#"[{"op":"test","path":"/m/x","value":1}]"#,
        b"/m",
        "refused 12 text 0 op 1 place 1 pointer 1",
    ),
    (
        "minus-zero",
        r#"{"m":{"a":-0}}"#,
        r#"[{"op":"test","path":"/m/a","value":0.0},{"op":"add","path":"/m/a","value":1}]"#,
        b"/m",
        r#"{"m":{"a":1}}"#,
    ),
    (
        "written-again",
        " { \"m\" : { \"a\" : 1 } , \"n\" : \"\\u0041\" } ",
        r#"[{"op":"test","path":"/m/a","value":1}]"#,
        b"/m",
        r#"{"m":{"a":1},"n":"A"}"#,
    ),
    (
        "too-deep",
        r#"{"m":{"a":1}}"#,
        r#"[{"op":"test","path":"/m/a","value":1},{"op":"add","path":"/m/b","value":[[[[[[[[[[[[[[[[[[[[[[[[[[[[[[1]]]]]]]]]]]]]]]]]]]]]]]]]]]]]]}]"#,
        b"/m",
        r#"{"m":{"a":1,"b":[[[[[[[[[[[[[[[[[[[[[[[[[[[[[[1]]]]]]]]]]]]]]]]]]]]]]]]]]]]]]}}"#,
    ),
];

/// Both sides of the three lengths, and the region's after the two texts'.
fn lengths() -> Vec<Vector> {
    const LONGEST: usize = 32_768;
    let document = r#"{"m":{"a":1}}"#;
    let patch = r#"[{"op":"test","path":"/m/a","value":1}]"#;
    let padded = |text: &str, length: usize| {
        let mut text = text.as_bytes().to_vec();
        text.resize(length, b' ');
        text
    };
    // `/`, and as many `a`
    let region = |length: usize| [b"/".to_vec(), vec![b'a'; length - 1]].concat();
    let long = LONGEST + 1;
    vec![
        vector("length-region-32768", document, patch, region(LONGEST), BROKEN),
        vector("length-region-32769", document, patch, region(long), refused(2, 0)),
        vector("length-region-32769-malformed", document, patch, vec![b'a'; long], refused(2, 0)),
        vector("length-region-before-reading", "{", "[", region(long), refused(2, 0)),
        vector(
            "length-region-32768-after-reading",
            "{",
            "[",
            region(LONGEST),
            "refused 3 text 1 op 0 place 1 pointer 0",
        ),
        vector("length-document-32768", padded(document, LONGEST), patch, "/m", document),
        vector(
            "length-document-32769",
            padded(document, long),
            patch,
            "/m",
            "refused 2 text 1 op 0 place 0 pointer 0",
        ),
        vector("length-patch-32768", document, padded(patch, LONGEST), "/m", document),
        vector(
            "length-patch-32769",
            document,
            padded(patch, long),
            "/m",
            "refused 2 text 2 op 0 place 0 pointer 0",
        ),
        vector(
            "length-document-before-the-region",
            padded(document, long),
            patch,
            region(long),
            "refused 2 text 1 op 0 place 0 pointer 0",
        ),
        vector(
            "length-patch-before-the-region",
            document,
            padded(patch, long),
            region(long),
            "refused 2 text 2 op 0 place 0 pointer 0",
        ),
        long_token(),
    ]
}

/// A region near the limit that the path begins with, so that each byte is
/// compared: the name has 32,700 characters.
fn long_token() -> Vector {
    let name = "a".repeat(32_700);
    let document = format!("{{\"{name}\":1}}");
    let patch = format!(r#"[{{"op":"test","path":"/{name}/b","value":1}}]"#);
    // the member is there, and is no container
    vector(
        "length-long-token",
        document,
        patch,
        format!("/{name}"),
        "refused 11 text 0 op 1 place 1 pointer 1",
    )
}

/// Each byte as the region's one character: the slash begins an empty token, `~`
/// and what is above ASCII is malformed, and any other is itself.
fn bytes() -> Vec<Vector> {
    (0..=255u8)
        .map(|byte| {
            let name = match byte {
                0x22 => "\\\"".to_string(),
                0x5C => "\\\\".to_string(),
                0x00..=0x1F => format!("\\u{byte:04x}"),
                0x80.. => "x".to_string(),
                _ => char::from(byte).to_string(),
            };
            let patch = format!(r#"[{{"op":"test","path":"/{name}/a","value":1}}]"#);
            let expected = match byte {
                // the path has the region's two empty tokens and one more, which is
                // not there
                b'/' => "refused 11 text 0 op 1 place 0 pointer 1".to_string(),
                b'~' | 0x80.. => refused(10, 0),
                _ => "refused 11 text 0 op 1 place 0 pointer 1".to_string(),
            };
            let patch = if byte == b'~' { "[]".to_string() } else { patch };
            vector(format!("byte-{byte:02x}"), "{}", patch, [b'/', byte], expected)
        })
        .collect()
}

/// As many operations as may be, and one more; the last one breaks the rule.
fn counts() -> Vec<Vector> {
    let test = r#"{"op":"test","path":"/m/a","value":1}"#;
    let patch = |count: usize, last: &str| {
        let mut elements = vec![test; count - 1];
        elements.push(last);
        format!("[{}]", elements.join(","))
    };
    let document = r#"{"m":{"a":1}}"#;
    let remove = r#"{"op":"remove","path":"/m/a"}"#;
    vec![
        vector("count-256", document, patch(256, test), "/m", document),
        vector("count-257", document, patch(257, test), "/m", refused(9, 0)),
        vector("count-256-the-last-broken", document, patch(256, remove), "/m", refused(17, 256)),
        vector("count-257-the-last-broken", document, patch(257, remove), "/m", refused(9, 0)),
        vector("count-257-region-malformed", document, patch(257, test), "m", refused(10, 0)),
    ]
}

/// An output exactly as long as the text, one a byte shorter, and none; 16 is
/// last.
fn rooms() -> Vec<Vector> {
    let document = r#"{"m":{"a":1}}"#;
    let patch = r#"[{"op":"test","path":"/m/a","value":1}]"#;
    let broken = r#"[{"op":"test","path":"/n/a","value":1}]"#;
    let with = |name: &str, room: usize, patch: &str, expected: &str| {
        let mut vector = vector(format!("room-{name}"), document, patch, "/m", expected);
        vector.case.room = room;
        vector
    };
    vec![
        with("exact", document.len(), patch, document),
        with("a-byte-short", document.len() - 1, patch, "refused 16 text 0 op 0 place 0 pointer 0"),
        with("none", 0, patch, "refused 16 text 0 op 0 place 0 pointer 0"),
        with("none-and-broken", 0, broken, BROKEN),
    ]
}
