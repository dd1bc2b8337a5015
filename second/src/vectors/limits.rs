//! Both sides of every limit, and the output's room.

use super::{reads, refused, refused_op, refused_pointer, vector, Vector};

/// All of them.
pub fn vectors() -> Vec<Vector> {
    [lengths(), depth(), depth_by_operations(), nodes(), nodes_by_operations(), counts(), room()]
        .concat()
}

/// The array of so many zeros.
fn zeros(count: usize) -> String {
    format!("[{}]", vec!["0"; count].join(","))
}

/// So many arrays in one another, the innermost empty.
fn nest(levels: usize) -> String {
    "[".repeat(levels) + &"]".repeat(levels)
}

/// So many arrays in one another, around a text.
fn nest_around(levels: usize, inner: &str) -> String {
    "[".repeat(levels) + inner + &"]".repeat(levels)
}

/// The pointer to the first element, so many times down, and then a token.
fn down(levels: usize, last: &str) -> String {
    "/0".repeat(levels) + "/" + last
}

/// A patch of these operations.
fn patch(operations: &[String]) -> String {
    format!("[{}]", operations.join(","))
}

fn add(path: &str, value: &str) -> String {
    format!(r#"{{"op":"add","path":"{path}","value":{value}}}"#)
}

fn replace(path: &str, value: &str) -> String {
    format!(r#"{{"op":"replace","path":"{path}","value":{value}}}"#)
}

fn test(path: &str, value: &str) -> String {
    format!(r#"{{"op":"test","path":"{path}","value":{value}}}"#)
}

fn remove(path: &str) -> String {
    format!(r#"{{"op":"remove","path":"{path}"}}"#)
}

fn relocate(op: &str, from: &str, path: &str) -> String {
    format!(r#"{{"op":"{op}","from":"{from}","path":"{path}"}}"#)
}

/// The lengths of the texts.
fn lengths() -> Vec<Vector> {
    let text = |length: usize| format!("\"{}\"", "a".repeat(length - 2));
    let padded = |short: &str, length: usize| short.to_string() + &" ".repeat(length - short.len());
    vec![
        vector("limit-document-32768", text(32_768), "[]", text(32_768)),
        vector(
            "limit-document-32769",
            text(32_769),
            "[]",
            "refused 2 text 1 op 0 place 0 pointer 0",
        ),
        vector(
            "limit-document-32769-blank",
            padded("1", 32_769),
            "[]",
            "refused 2 text 1 op 0 place 0 pointer 0",
        ),
        vector("limit-patch-32768", "1", padded("[]", 32_768), "1"),
        vector(
            "limit-patch-32769",
            "1",
            padded("[]", 32_769),
            "refused 2 text 2 op 0 place 0 pointer 0",
        ),
        // Both too long: the document is told. Too long comes before all else.
        vector(
            "limit-both-32769",
            padded("1", 32_769),
            padded("[]", 32_769),
            "refused 2 text 1 op 0 place 0 pointer 0",
        ),
        vector(
            "limit-patch-32769-document-bad",
            "x",
            "x".repeat(32_769),
            "refused 2 text 2 op 0 place 0 pointer 0",
        ),
    ]
}

/// Nesting in the texts.
fn depth() -> Vec<Vector> {
    let objects = |levels: usize| r#"{"a":"#.repeat(levels - 1) + "{}" + &"}".repeat(levels - 1);
    let in_value = r#"[{"op":"test","path":"","value":"#;
    let in_other = r#"[{"op":"test","path":"","value":1,"zz":"#;
    vec![
        reads("limit-depth-32", nest(32), nest(32)),
        reads("limit-depth-33", nest(33), refused(5, 32)),
        reads("limit-depth-200", nest(200), refused(5, 32)),
        reads("limit-depth-32-objects", objects(32), objects(32)),
        reads("limit-depth-33-objects", objects(33), refused(5, 160)),
        reads("limit-depth-32-scalar-inside", nest_around(32, "1"), nest_around(32, "1")),
        reads("limit-depth-33-object-inside", nest_around(32, "{}"), refused(5, 32)),
        reads(
            "limit-depth-32-twice",
            format!("[{},{}]", nest(31), nest(31)),
            format!("[{},{}]", nest(31), nest(31)),
        ),
        reads("limit-depth-33-second", format!("[{},{}]", nest(31), nest(32)), refused(5, 95)),
        // Told at the bracket, whatever comes after it; but not before what is
        // wrong before it, or where no bracket may stand.
        reads("limit-depth-32-cut", "[".repeat(32), refused(3, 32)),
        reads("limit-depth-33-cut", "[".repeat(33), refused(5, 32)),
        reads("limit-depth-33-bad-inside", nest_around(33, "x"), refused(5, 32)),
        reads("limit-depth-32-bad-inside", nest_around(32, "x"), refused(3, 32)),
        reads("limit-depth-33-for-name", "[".repeat(31) + "{[", refused(3, 32)),
        reads("limit-depth-33-after-value", "[".repeat(32) + "1[", refused(3, 33)),
        // In a patch the array and the operation are two levels.
        vector("limit-depth-30-in-value", nest(30), format!("{in_value}{}}}]", nest(30)), nest(30)),
        vector(
            "limit-depth-31-in-value",
            nest(31),
            format!("{in_value}{}}}]", nest(31)),
            format!("refused 5 text 2 op 0 place {} pointer 0", in_value.len() + 30),
        ),
        vector("limit-depth-30-in-other-member", "1", format!("{in_other}{}}}]", nest(30)), "1"),
        vector(
            "limit-depth-31-in-other-member",
            "1",
            format!("{in_other}{}}}]", nest(31)),
            format!("refused 5 text 2 op 0 place {} pointer 0", in_other.len() + 30),
        ),
    ]
}

/// Nesting that operations make.
fn depth_by_operations() -> Vec<Vector> {
    let pair = |left: usize, right: usize| format!("[{},{}]", nest(left), nest(right));
    vec![
        vector("limit-depth-32-by-add", nest(31), patch(&[add(&down(30, "-"), "[]")]), nest(32)),
        vector(
            "limit-depth-33-by-add",
            nest(32),
            patch(&[add(&down(31, "-"), "{}")]),
            refused_op(5, 1),
        ),
        vector(
            "limit-depth-33-by-second-add",
            nest(31),
            patch(&[add(&down(30, "-"), "[]"), add(&down(31, "-"), "[]")]),
            refused_op(5, 2),
        ),
        vector(
            "limit-depth-scalar-at-32",
            nest(32),
            patch(&[add(&down(31, "-"), "1")]),
            nest_around(32, "1"),
        ),
        vector(
            "limit-depth-33-then-less",
            nest(32),
            patch(&[add(&down(31, "-"), "[]"), replace("", "1")]),
            refused_op(5, 1),
        ),
        vector(
            "limit-depth-33-by-replace",
            nest_around(32, "1"),
            patch(&[replace(&down(31, "0"), "[]")]),
            refused_op(5, 1),
        ),
        vector(
            "limit-depth-32-by-replace",
            nest_around(31, "1"),
            patch(&[replace(&down(30, "0"), "[]")]),
            nest(32),
        ),
        vector(
            "limit-depth-32-by-copy",
            nest(16),
            patch(&[relocate("copy", "", &down(15, "-"))]),
            nest(32),
        ),
        vector(
            "limit-depth-34-by-copy",
            nest(17),
            patch(&[relocate("copy", "", &down(16, "-"))]),
            refused_op(5, 1),
        ),
        // The second is moved into the innermost of the first.
        vector(
            "limit-depth-32-by-move",
            pair(16, 15),
            patch(&[relocate("move", "/1", &down(16, "-"))]),
            nest(32),
        ),
        vector(
            "limit-depth-33-by-move",
            pair(16, 16),
            patch(&[relocate("move", "/1", &down(16, "-"))]),
            refused_op(5, 1),
        ),
        vector(
            "limit-depth-32-remove-then-add",
            nest(32),
            patch(&[remove(&down(30, "0")), add(&down(30, "-"), "{}")]),
            nest_around(31, "{}"),
        ),
    ]
}

/// Nodes in the texts.
fn nodes() -> Vec<Vector> {
    let in_value = r#"[{"op":"test","path":"","value":"#;
    // The root and 2,047 values; what follows is value 2,049.
    let full = format!("[{}", "0,".repeat(2_047));
    // The root, zeros, and brackets that open levels 2 to 33.
    let then_deep = |zeros: usize| format!("[{}{}", "0,".repeat(zeros), "[".repeat(32));
    let members: Vec<String> = (0..2_047).map(|number| format!(r#""{number}":0"#)).collect();
    let object = format!("{{{}}}", members.join(","));
    vec![
        reads("limit-nodes-2048", zeros(2_047), zeros(2_047)),
        reads("limit-nodes-2049", zeros(2_048), refused(6, 4_095)),
        reads("limit-nodes-2048-object", object.clone(), object),
        // Told at the first byte of a value, if a value can begin there.
        reads("limit-nodes-2049-cut-string", full.clone() + "\"", refused(6, 4_095)),
        reads("limit-nodes-2049-cut-number", full.clone() + "-", refused(6, 4_095)),
        reads("limit-nodes-2049-bad-literal", full.clone() + "nil", refused(6, 4_095)),
        reads("limit-nodes-2049-container", full.clone() + "{}]", refused(6, 4_095)),
        reads("limit-nodes-2049-after-blank", full.clone() + " 0]", refused(6, 4_096)),
        reads("limit-nodes-2049-not-json", full.clone() + "x", refused(3, 4_095)),
        reads("limit-nodes-2049-missing", full.clone() + "]", refused(3, 4_095)),
        reads("limit-nodes-2048-cut", full.clone(), refused(3, 4_095)),
        // Level 33 and value 2,049 on the same byte, and each a byte earlier.
        reads("limit-depth-and-nodes", then_deep(2_016), refused(5, 4_064)),
        reads("limit-depth-before-nodes", then_deep(2_015), refused(5, 4_062)),
        reads("limit-nodes-before-depth", then_deep(2_017), refused(6, 4_065)),
        // In a patch: the array, the operation, three members and the zeros.
        vector(
            "limit-nodes-2048-in-patch",
            zeros(2_043),
            format!("{in_value}{}}}]", zeros(2_043)),
            zeros(2_043),
        ),
        vector(
            "limit-nodes-2049-in-patch",
            "1",
            format!("{in_value}{}}}]", zeros(2_044)),
            format!("refused 6 text 2 op 0 place {} pointer 0", in_value.len() + 1 + 2 * 2_043),
        ),
    ]
}

/// Nodes that operations make.
fn nodes_by_operations() -> Vec<Vector> {
    let with = |count: usize, last: &str| {
        let mut text = zeros(count);
        text.pop();
        text + "," + last + "]"
    };
    // 2,048 nodes and 32 levels: the root, 31 arrays, 2,016 zeros.
    let full_and_deep = format!("[{},{}", nest(31), &zeros(2_016)[1..]);
    vec![
        vector("limit-nodes-2048-by-add", zeros(2_046), patch(&[add("/-", "1")]), with(2_046, "1")),
        vector("limit-nodes-2049-by-add", zeros(2_047), patch(&[add("/-", "1")]), refused_op(6, 1)),
        vector(
            "limit-nodes-2049-by-second-add",
            zeros(2_046),
            patch(&[add("/-", "1"), add("/-", "1")]),
            refused_op(6, 2),
        ),
        vector(
            "limit-nodes-2049-then-less",
            zeros(2_047),
            patch(&[add("/-", "1"), remove("/0")]),
            refused_op(6, 1),
        ),
        vector(
            "limit-nodes-remove-then-add",
            zeros(2_047),
            patch(&[remove("/0"), add("/-", "1"), remove("/0"), add("/-", "2")]),
            with(2_045, "1,2"),
        ),
        vector(
            "limit-nodes-2048-by-replace",
            zeros(2_047),
            patch(&[replace("/0", "[]")]),
            zeros(2_047).replacen('0', "[]", 1),
        ),
        vector(
            "limit-nodes-2049-by-replace",
            zeros(2_047),
            patch(&[replace("/0", "[1]")]),
            refused_op(6, 1),
        ),
        vector(
            "limit-nodes-2048-by-copy",
            zeros(1_023),
            patch(&[relocate("copy", "", "/-")]),
            with(1_023, &zeros(1_023)),
        ),
        vector(
            "limit-nodes-2050-by-copy",
            zeros(1_024),
            patch(&[relocate("copy", "", "/-")]),
            refused_op(6, 1),
        ),
        vector(
            "limit-nodes-2048-moved-and-tested",
            zeros(2_047),
            patch(&[relocate("move", "/0", "/-"), test("/2046", "0")]),
            zeros(2_047),
        ),
        vector(
            "limit-depth-33-and-nodes-2049",
            full_and_deep.clone(),
            patch(&[add(&down(31, "-"), "[]")]),
            refused_op(5, 1),
        ),
        vector(
            "limit-depth-32-and-nodes-2049",
            full_and_deep.clone(),
            patch(&[add(&down(31, "-"), "1")]),
            refused_op(6, 1),
        ),
        vector(
            "limit-nodes-own-refusal-first",
            full_and_deep,
            patch(&[add("/x", "[1]")]),
            refused_pointer(12, 1, 0, 1),
        ),
    ]
}

/// The number of operations.
fn counts() -> Vec<Vector> {
    let tests = |count: usize| vec![test("", "1"); count];
    let mut last_fails = tests(255);
    last_fails.push(test("", "2"));
    let mut cut = patch(&tests(257));
    cut.pop();
    let cut_at = cut.len();
    let too_many = "refused 9 text 0 op 0 place 0 pointer 0";
    vec![
        vector("limit-operations-256", "1", patch(&tests(256)), "1"),
        vector("limit-operations-257", "1", patch(&tests(257)), too_many),
        vector("limit-operations-256-last-fails", "1", patch(&last_fails), refused_op(15, 256)),
        vector("limit-operations-256-zeros", "1", zeros(256), refused_op(8, 1)),
        vector("limit-operations-257-zeros", "1", zeros(257), too_many),
        vector(
            "limit-operations-257-cut",
            "1",
            cut,
            format!("refused 3 text 2 op 0 place {cut_at} pointer 0"),
        ),
    ]
}

/// The output's room.
fn room() -> Vec<Vector> {
    let fitted = |name: &str, room: usize, document: &str, patch: &str, expected: &str| {
        let mut vector = vector(name, document, patch, expected);
        vector.case.room = room;
        vector
    };
    let none = "refused 16 text 0 op 0 place 0 pointer 0";
    let insert = r#"[{"op":"add","path":"/a/1","value":2}]"#;
    let twice = patch(&vec![relocate("copy", "/0", "/0"); 2]);
    let long = |length: usize| format!("\"{}\"", "a".repeat(length));
    let exact = long(21_842);
    let below = long(21_841);
    vec![
        fitted("room-exact", 13, r#"{"a":[1,3]}"#, insert, r#"{"a":[1,2,3]}"#),
        fitted("room-one-short", 12, r#"{"a":[1,3]}"#, insert, none),
        fitted("room-one-more", 14, r#"{"a":[1,3]}"#, insert, r#"{"a":[1,2,3]}"#),
        fitted("room-none", 0, "1", "[]", none),
        fitted("room-one", 1, "1", "[]", "1"),
        fitted("room-of-escapes", 8, "\"\\u0001\"", "[]", "\"\\u0001\""),
        fitted("room-of-escapes-short", 7, "\"\\u0001\"", "[]", none),
        fitted("room-of-raw", 4, "\"\\u00e9\"", "[]", "\"é\""),
        fitted("room-of-raw-short", 3, "\"\\u00e9\"", "[]", none),
        fitted("room-not-for-blanks", 2, "[          ]", "[]", "[]"),
        fitted(
            "room-is-last",
            0,
            "1",
            r#"[{"op":"test","path":"","value":2}]"#,
            "refused 15 text 0 op 1 place 0 pointer 0",
        ),
        fitted("room-after-reading", 0, "x", "[]", "refused 3 text 1 op 0 place 0 pointer 0"),
        // Three strings of 21,844 bytes, two commas and two brackets; then
        // three strings a byte shorter, and four bytes more of a number.
        vector(
            "room-65536",
            format!("[{exact}]"),
            twice.clone(),
            format!("[{exact},{exact},{exact}]"),
        ),
        vector("room-65537", format!("[{below},100]"), twice, none),
    ]
}
