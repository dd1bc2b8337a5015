//! Both sides of every length: the list, the output and the undo's, for each call.

use super::{gives, refuses, Expected, Vector, NO_ROOM, UNDO_ROOM};
use crate::limits::{MOST_NODES, TOOL_ROOM};
use crate::origins::cases::{said, Call};

/// All of them.
pub fn vectors() -> Vec<Vector> {
    let mut all: Vec<Vector> = SMALL.iter().flat_map(small).collect();
    all.extend(undo_rooms());
    all.extend(most_entries());
    all.extend(largest_origin());
    all
}

/// A call, its word, document, patch and region; the text, the undo and the list.
type Small = (Call, &'static str, [&'static str; 3], [&'static str; 3]);

/// One patch for each call. Each result has four values.
#[rustfmt::skip]
const SMALL: &[Small] = &[
    (Call::Apply, "apply", [r#"{"a":1}"#, r#"[{"op":"add","path":"/b","value":[2]}]"#, ""],
        [r#"{"a":1,"b":[2]}"#, "", "0 0 1 1"]),
    (Call::Within, "within", [r#"{"a":1}"#, r#"[{"op":"test","path":"/a","value":1},{"op":"add","path":"/b","value":[2]}]"#, ""],
        [r#"{"a":1,"b":[2]}"#, "", "0 0 2 2"]),
    (Call::Merge, "merge", [r#"{"a":1}"#, r#"{"b":[2]}"#, ""], [r#"{"a":1,"b":[2]}"#, "", "0 0 1 1"]),
    (Call::Undo, "undo", [r#"{"a":1}"#, r#"[{"op":"add","path":"/b","value":[2]}]"#, ""],
        [r#"{"a":1,"b":[2]}"#, r#"[{"op":"remove","path":"/b"}]"#, "0 0 1 1"]),
];

/// The list just long enough, longer, one short and empty; the same beside an output
/// that is just long enough, or a byte short.
fn small((call, word, [document, patch, region], [text, undo, list]): &Small) -> Vec<Vector> {
    let entries = list.split(' ').count();
    let (room, most) = (text.len(), TOOL_ROOM);
    let done = |name: &str, room: usize, entries: usize| {
        let mut vector =
            gives(*call, format!("{word}-list-{name}"), *document, *patch, *text, *list);
        vector.case.region = (*region).into();
        vector.expected = Expected::Gives((*text).into(), (*undo).into(), (*list).into());
        vector.lent(room, entries)
    };
    let short = |name: &str, room: usize, entries: usize| {
        let mut vector = refuses(*call, format!("{word}-list-{name}"), *document, *patch, NO_ROOM);
        vector.case.region = (*region).into();
        vector.lent(room, entries)
    };
    vec![
        done("exact", most, entries),
        done("one-more", most, entries + 1),
        done("and-output-exact", room, entries),
        short("one-short", most, entries - 1),
        short("empty", most, 0),
        short("exact-and-output-short", room - 1, entries),
        short("short-and-output-exact", room, entries - 1),
        short("and-output-short", room - 1, entries - 1),
        short("and-output-empty", 0, 0),
    ]
}

/// A short list is one of the patch's refusals: it comes before those of the undo, and
/// an undo that is refused lists nothing.
fn undo_rooms() -> Vec<Vector> {
    let deep = "[".repeat(31) + &"]".repeat(31);
    let replaced = r#"[{"op":"replace","path":"","value":[1,2]}]"#;
    let moves = format!("[{}]", vec![r#"{"op":"move","from":"/0","path":"/1"}"#; 129].join(","));
    let zeros = format!("[[{}]]", vec!["0"; 2_046].join(","));
    let long = format!("[\"{}\"]", "x".repeat(32_760));
    let removed = r#"[{"op":"remove","path":"/0"}]"#;
    let refused = |name: &str, document: &str, patch: &str, line: &str| {
        refuses(Call::Undo, format!("undo-list-{name}"), document, patch, line)
    };
    let unread = |number: u32| format!("refused {number} text 2 op 0 place 0 pointer 0");
    let small =
        |line: &str| refused("room", r#"{"a":1}"#, r#"[{"op":"remove","path":"/a"}]"#, line);
    let named = |mut vector: Vector, name: &str| {
        vector.case.name = format!("undo-list-{name}");
        vector
    };
    // The undo is [{"op":"add","path":"/a","value":1}]: 36 bytes.
    let undone =
        Expected::Gives("{}".into(), r#"[{"op":"add","path":"/a","value":1}]"#.into(), "0".into());
    let exact = Vector { expected: undone, ..small("") }.lent(2, 1).undo_lent(36);
    vec![
        refused("enough-undo-too-deep", &deep, replaced, &unread(5)).lent(TOOL_ROOM, 3),
        refused("short-before-undo-too-deep", &deep, replaced, NO_ROOM).lent(TOOL_ROOM, 2),
        refused("enough-undo-of-258", "[1,2]", &moves, &unread(9)).lent(TOOL_ROOM, 3),
        refused("short-before-undo-of-258", "[1,2]", &moves, NO_ROOM).lent(TOOL_ROOM, 2),
        refused("enough-undo-of-many-nodes", &zeros, removed, &unread(6)).lent(TOOL_ROOM, 1),
        refused("short-before-undo-of-many-nodes", &zeros, removed, NO_ROOM).lent(TOOL_ROOM, 0),
        refused("enough-undo-too-long", &long, removed, &unread(2)).lent(TOOL_ROOM, 1),
        refused("short-before-undo-too-long", &long, removed, NO_ROOM).lent(TOOL_ROOM, 0),
        named(exact, "and-undo-exact"),
        named(small(NO_ROOM), "exact-undo-a-byte-short").lent(2, 1).undo_lent(35),
        named(small(NO_ROOM), "short-undo-exact").lent(2, 0).undo_lent(36),
        named(small(NO_ROOM), "all-three-short").lent(1, 0).undo_lent(35),
        // An undo that could not be read back comes before its output.
        refused("enough-undo-too-deep-without-room", &deep, replaced, &unread(5))
            .lent(TOOL_ROOM, 3)
            .undo_lent(0),
    ]
}

/// 2,048 values in the result: the list has as many entries.
fn most_entries() -> Vec<Vector> {
    let members = |from: usize, to: usize, value: &str| -> String {
        (from..to).map(|k| format!("\"{k}\":{value}")).collect::<Vec<_>>().join(",")
    };
    let array = |count: usize| format!("[{}]", vec!["0"; count].join(","));
    let list = |zeros: usize, ones: usize| said(&[vec![0; zeros], vec![1; ones]].concat());
    let patch = r#"[{"op":"add","path":"/-","value":0}]"#;
    let object = format!("{{{}}}", members(0, 1_000, "0"));
    let merge = format!("{{{}}}", members(1_000, 2_047, "1"));
    let merged = format!("{{{},{}}}", members(0, 1_000, "0"), members(1_000, 2_047, "1"));
    let mut all = Vec::new();
    for (call, word, undo) in
        [(Call::Apply, "apply", ""), (Call::Undo, "undo", r#"[{"op":"remove","path":"/2046"}]"#)]
    {
        let mut done = gives(call, format!("{word}-list-2048"), array(2_046), patch, "", "");
        done.expected = Expected::Gives(array(2_047), undo.into(), list(2_047, 1));
        all.push(done.clone().lent(TOOL_ROOM, MOST_NODES));
        all.push(
            refuses(call, format!("{word}-list-2047"), array(2_046), patch, NO_ROOM)
                .lent(TOOL_ROOM, MOST_NODES - 1),
        );
    }
    all.push(
        gives(Call::Merge, "merge-list-2048", &*object, &*merge, merged, list(1_001, 1_047))
            .lent(TOOL_ROOM, MOST_NODES),
    );
    all.push(
        refuses(Call::Merge, "merge-list-2047", object, merge, NO_ROOM)
            .lent(TOOL_ROOM, MOST_NODES - 1),
    );
    all
}

/// 256 operations: the largest origin.
fn largest_origin() -> Vec<Vector> {
    let adds = |count: usize| vec![r#"{"op":"add","path":"/-","value":7}"#; count].join(",");
    let patch = format!("[{}]", adds(256));
    let text = format!("[{}]", vec!["7"; 256].join(","));
    let list = said(&(0..=256).collect::<Vec<u16>>());
    let removes: Vec<String> =
        (0..256).rev().map(|at| format!(r#"{{"op":"remove","path":"/{at}"}}"#)).collect();
    let mut undone = gives(Call::Undo, "undo-256-operations", "[]", &*patch, "", "");
    undone.expected =
        Expected::Gives(text.clone(), format!("[{}]", removes.join(",")), list.clone());
    let tests = vec![r#"{"op":"test","path":"","value":[]}"#; 255].join(",");
    let within = {
        let document = r#"{"m":{"a":1}}"#;
        let test = r#"{"op":"test","path":"/m/a","value":1}"#;
        let add = r#"{"op":"add","path":"/m/b","value":2}"#;
        let patch = format!("[{},{add}]", vec![test; 255].join(","));
        let text = r#"{"m":{"a":1,"b":2}}"#;
        let mut vector =
            gives(Call::Within, "within-256-operations", document, patch, text, "0 0 0 256");
        vector.case.region = "/m".into();
        vector
    };
    vec![
        gives(Call::Apply, "apply-256-operations", "[]", &*patch, text, list),
        gives(
            Call::Apply,
            "apply-255-tests-and-an-add",
            "[]",
            format!(r#"[{tests},{{"op":"add","path":"/0","value":{{}}}}]"#),
            "[{}]",
            "0 256",
        ),
        undone.undo_lent(UNDO_ROOM),
        within,
    ]
}
