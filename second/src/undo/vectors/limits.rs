//! Both sides of every limit of an undo, and the order in which they are told.

use super::{gives, refused_undo, refuses, Vector, NO_ROOM, UNDO_ROOM};

/// All of them.
pub fn vectors() -> Vec<Vector> {
    [operations(), depth(), nodes(), bytes(), order()].concat()
}

/// The array of so many zeros.
fn zeros(count: usize) -> String {
    format!("[{}]", vec!["0"; count].join(","))
}

/// So many arrays in one another, the innermost empty.
fn nest(levels: usize) -> String {
    "[".repeat(levels) + &"]".repeat(levels)
}

/// A string of so many bytes.
fn string(length: usize) -> String {
    format!("\"{}\"", "a".repeat(length - 2))
}

/// A patch of these operations.
fn patch(operations: &[String]) -> String {
    format!("[{}]", operations.join(","))
}

fn add(path: &str, value: &str) -> String {
    format!(r#"{{"op":"add","path":"{path}","value":{value}}}"#)
}

fn replace(path: &str, value: &str) -> String {
    format!(r#"{{"op":"replace","path":"{path}","value":{value}}}"#)
}

fn remove(path: &str) -> String {
    format!(r#"{{"op":"remove","path":"{path}"}}"#)
}

fn relocate(op: &str, from: &str, path: &str) -> String {
    format!(r#"{{"op":"{op}","from":"{from}","path":"{path}"}}"#)
}

/// 9: a move gives two operations.
fn operations() -> Vec<Vector> {
    let swaps = |count: usize| vec![relocate("move", "/0", "/1"); count];
    // After an even number of swaps `[1,2]` is itself; the last one moved a 2.
    let unswaps = |count: usize| -> Vec<String> {
        let each = |at: usize| [remove("/1"), add("/0", if at % 2 == 0 { "1" } else { "2" })];
        (0..count).rev().flat_map(each).collect()
    };
    let then = |mut first: Vec<String>, last: String| {
        first.push(last);
        patch(&first)
    };
    let pair = |at: usize| if at % 2 == 0 { ["/0", "/2"] } else { ["/2", "/0"] };
    let to_and_fro = |count: usize| -> Vec<String> {
        (0..count).map(|at| relocate("move", pair(at)[0], pair(at)[1])).collect()
    };
    let fro_and_to = |count: usize| -> Vec<String> {
        let each = |at: usize| [remove(pair(at)[1]), add(pair(at)[0], "7")];
        (0..count).rev().flat_map(each).collect()
    };
    let adds = vec![add("/-", "0"); 256];
    let removes: Vec<String> = (0..256).rev().map(|at| remove(&format!("/{at}"))).collect();
    let over_parent = relocate("move", "/0/a", "/0");
    let before_parent = replace("/0", r#"{"a":7}"#);
    vec![
        gives(
            "limit-128-moves",
            "[1,2]",
            patch(&swaps(128)),
            "[1,2]",
            patch(&unswaps(128)),
            "[1,2]",
        ),
        refuses("limit-129-moves", "[1,2]", patch(&swaps(129)), refused_undo(9)),
        refuses("limit-256-moves", "[1,2]", patch(&swaps(256)), refused_undo(9)),
        refuses(
            "limit-128-moves-and-an-add",
            "[1,2]",
            then(swaps(128), add("/-", "3")),
            refused_undo(9),
        ),
        gives(
            "limit-128-moves-and-a-test",
            "[1,2]",
            then(swaps(128), r#"{"op":"test","path":"/0","value":1}"#.to_string()),
            "[1,2]",
            patch(&unswaps(128)),
            "[1,2]",
        ),
        // 127 moves, and two more operations of one each.
        gives(
            "limit-127-moves-and-two-adds",
            "[1,2]",
            patch(&[swaps(127), vec![add("/-", "3"), add("/-", "4")]].concat()),
            "[2,1,3,4]",
            patch(&[vec![remove("/3"), remove("/2")], unswaps(127)].concat()),
            "[1,2]",
        ),
        // A move over an ancestor gives one: with 127 more moves and an add, 256.
        gives(
            "limit-128-moves-one-over-an-ancestor",
            r#"{"0":{"a":7},"1":8}"#,
            patch(&[vec![over_parent.clone()], to_and_fro(127), vec![add("/3", "0")]].concat()),
            r#"{"1":8,"2":7,"3":0}"#,
            patch(&[vec![remove("/3")], fro_and_to(127), vec![before_parent]].concat()),
            r#"{"1":8,"0":{"a":7}}"#,
        ),
        refuses(
            "limit-129-moves-one-over-an-ancestor",
            r#"{"0":{"a":7},"1":8}"#,
            patch(&[vec![over_parent], to_and_fro(128)].concat()),
            refused_undo(9),
        ),
        gives(
            "limit-256-moves-of-the-root",
            "1",
            patch(&vec![relocate("move", "", ""); 256]),
            "1",
            "[]",
            "1",
        ),
        gives("limit-256-adds", "[]", patch(&adds), zeros(256), patch(&removes), "[]"),
        refuses(
            "limit-257-operations-of-the-patch",
            "[]",
            patch(&vec![add("/-", "0"); 257]),
            "refused 9 text 0 op 0 place 0 pointer 0",
        ),
    ]
}

/// 5: a value stands two levels deep in the undo.
fn depth() -> Vec<Vector> {
    let beside = |levels: usize| format!("[{},0]", nest(levels));
    let objects = |levels: usize| r#"{"a":"#.repeat(levels - 1) + "{}" + &"}".repeat(levels - 1);
    let root = |value: &str| patch(&[replace("", value)]);
    vec![
        gives("limit-depth-30-root", nest(30), root("1"), "1", root(&nest(30)), nest(30)),
        refuses("limit-depth-31-root", nest(31), root("1"), refused_undo(5)),
        refuses("limit-depth-32-root", nest(32), root("1"), refused_undo(5)),
        gives(
            "limit-depth-30-objects",
            objects(30),
            root("1"),
            "1",
            root(&objects(30)),
            objects(30),
        ),
        refuses("limit-depth-31-objects", objects(31), root("1"), refused_undo(5)),
        gives(
            "limit-depth-30-below-root",
            beside(30),
            patch(&[remove("/0")]),
            "[0]",
            patch(&[add("/0", &nest(30))]),
            beside(30),
        ),
        refuses("limit-depth-31-below-root", beside(31), patch(&[remove("/0")]), refused_undo(5)),
        refuses(
            "limit-depth-31-replaced",
            beside(31),
            patch(&[replace("/0", "1")]),
            refused_undo(5),
        ),
        gives(
            "limit-depth-30-moved",
            beside(30),
            patch(&[relocate("move", "/0", "/1")]),
            format!("[0,{}]", nest(30)),
            patch(&[remove("/1"), add("/0", &nest(30))]),
            beside(30),
        ),
        refuses(
            "limit-depth-31-moved",
            beside(31),
            patch(&[relocate("move", "/0", "/1")]),
            refused_undo(5),
        ),
        refuses(
            "limit-depth-31-moved-to-itself",
            format!("{{\"a\":{}}}", nest(31)),
            patch(&[relocate("move", "/a", "/a")]),
            refused_undo(5),
        ),
        refuses(
            "limit-depth-31-by-ancestor",
            nest(31),
            patch(&[relocate("move", "/0/0", "")]),
            refused_undo(5),
        ),
        // What the undo does not hold may be as deep as a document may be.
        gives(
            "limit-depth-32-beside",
            beside(31),
            patch(&[add("/-", "1"), remove("/1")]),
            format!("[{},1]", nest(31)),
            patch(&[add("/1", "0"), remove("/2")]),
            beside(31),
        ),
        gives(
            "limit-depth-31-copied",
            beside(31),
            patch(&[relocate("copy", "/0", "/1")]),
            format!("[{0},{0},0]", nest(31)),
            patch(&[remove("/1")]),
            beside(31),
        ),
        // Two levels down a value is 30 deep at most.
        gives(
            "limit-depth-32-two-down",
            format!("[[{}]]", nest(30)),
            patch(&[remove("/0/0")]),
            "[[]]",
            patch(&[add("/0/0", &nest(30))]),
            format!("[[{}]]", nest(30)),
        ),
    ]
}

/// 6: the array, three nodes for each operation, and those of its value.
fn nodes() -> Vec<Vector> {
    let root = |value: &str| patch(&[replace("", value)]);
    let members = |count: usize| {
        let all: Vec<String> = (0..count).map(|at| format!(r#""{at}":0"#)).collect();
        format!("{{{}}}", all.join(","))
    };
    // `[[0,..],0,0]`: the first is removed, then the two others.
    let three = |count: usize| format!("[{},0,0]", zeros(count));
    let removes = patch(&vec![remove("/0"); 3]);
    vec![
        // 1 + 3 + 2,044.
        gives("limit-nodes-2048", zeros(2_043), root("1"), "1", root(&zeros(2_043)), zeros(2_043)),
        refuses("limit-nodes-2049", zeros(2_044), root("1"), refused_undo(6)),
        gives(
            "limit-nodes-2048-object",
            members(2_043),
            root("1"),
            "1",
            root(&members(2_043)),
            members(2_043),
        ),
        refuses("limit-nodes-2049-object", members(2_044), root("1"), refused_undo(6)),
        // 1 + 4 + 4 + 3 + 2,036.
        gives(
            "limit-nodes-2048-in-three",
            three(2_035),
            removes.clone(),
            "[]",
            patch(&[add("/0", "0"), add("/0", "0"), add("/0", &zeros(2_035))]),
            three(2_035),
        ),
        refuses("limit-nodes-2049-in-three", three(2_036), removes, refused_undo(6)),
        // 1 + 3 + 3 + 2,041 by a move of an array of 2,040 zeros.
        gives(
            "limit-nodes-2048-moved",
            format!("[{}]", zeros(2_040)),
            patch(&[relocate("move", "/0", "/0")]),
            format!("[{}]", zeros(2_040)),
            patch(&[remove("/0"), add("/0", &zeros(2_040))]),
            format!("[{}]", zeros(2_040)),
        ),
        refuses(
            "limit-nodes-2049-moved",
            format!("[{}]", zeros(2_041)),
            patch(&[relocate("move", "/0", "/0")]),
            refused_undo(6),
        ),
        // A document of 2,048 nodes, of which the undo holds few.
        gives(
            "limit-nodes-of-the-document",
            zeros(2_047),
            patch(&[remove("/2046")]),
            zeros(2_046),
            patch(&[add("/2046", "0")]),
            zeros(2_047),
        ),
    ]
}

/// 2: the undo's text.
fn bytes() -> Vec<Vector> {
    let root = |value: &str| patch(&[replace("", value)]);
    let around = root("").len();
    let of = |length: usize| string(length - around);
    // Controls, each written as six bytes, and a string for what is left.
    let controls = format!("\"{}\"", "\\u0001".repeat(5_448));
    let with_controls =
        format!("[{controls},{}]", string(32_768 - root("[,]").len() - controls.len()));
    // A letter spelled as an escape, which is written as itself.
    let respelled = format!("\"{}\"", "\\u0061".repeat(5_461));
    // A name escaped twice: as a pointer, then as a string.
    let name = "~".repeat(8_000);
    let pointer = format!("/{}", "~0".repeat(8_000));
    let long_name = |value: &str| format!("{{\"{name}\":{value}}}");
    let rest = |length: usize| string(length - patch(&[add(&pointer, "")]).len());
    // Two operations that are taken back: the first is the longer and stands last.
    let two = |length: usize| format!("[{},{}]", string(length), string(100));
    let untwo = |length: usize| patch(&[add("/0", &string(100)), add("/0", &string(length))]);
    let left = UNDO_ROOM - untwo(2).len() + 2;
    let copies = patch(&vec![relocate("copy", "/a", "/b"); 256]);
    let large = format!(r#"{{"a":{},"b":0}}"#, string(16_000));
    let small = format!("[{}]", string(20_000));
    vec![
        gives("limit-undo-32768", of(32_768), root("1"), "1", root(&of(32_768)), of(32_768)),
        refuses("limit-undo-32769", of(32_769), root("1"), refused_undo(2)),
        refuses("limit-undo-of-longest-document", string(32_768), root("1"), refused_undo(2)),
        gives(
            "limit-undo-32768-controls",
            &*with_controls,
            root("1"),
            "1",
            root(&with_controls),
            &*with_controls,
        ),
        gives(
            "limit-undo-of-longest-document-respelled",
            &*respelled,
            root("1"),
            "1",
            root(&string(5_463)),
            string(5_463),
        ),
        gives(
            "limit-undo-32768-name",
            long_name(&rest(32_768)),
            patch(&[remove(&pointer)]),
            "{}",
            patch(&[add(&pointer, &rest(32_768))]),
            long_name(&rest(32_768)),
        ),
        refuses(
            "limit-undo-32769-name",
            long_name(&rest(32_769)),
            patch(&[remove(&pointer)]),
            refused_undo(2),
        ),
        gives(
            "limit-undo-32768-in-two",
            two(left),
            patch(&vec![remove("/0"); 2]),
            "[]",
            untwo(left),
            two(left),
        ),
        refuses(
            "limit-undo-32769-in-two",
            two(left + 1),
            patch(&vec![remove("/0"); 2]),
            refused_undo(2),
        ),
        // Far past it, by many operations, and by the first of them.
        refuses("limit-undo-of-megabytes", large, copies, refused_undo(2)),
        refuses(
            "limit-undo-long-then-short",
            small.clone(),
            patch(&[
                relocate("copy", "/0", "/-"),
                remove("/0"),
                remove("/0"),
                add("/-", "1"),
                add("/-", "2"),
            ]),
            refused_undo(2),
        ),
        // The document may be written longer than a document may be: the undo is
        // written, but cannot be applied to that text.
        gives(
            "limit-text-too-long-for-the-undo",
            small.clone(),
            patch(&[relocate("copy", "/0", "/-")]),
            format!("[{0},{0}]", string(20_000)),
            patch(&[remove("/1")]),
            "refused 2 text 1 op 0 place 0 pointer 0",
        ),
        // The undo's output as long as the longest undo, and a byte short.
        refuses("limit-undo-32768-short", of(32_768), root("1"), NO_ROOM).lent(1, UNDO_ROOM - 1),
        refuses("limit-undo-32769-no-room", of(32_769), root("1"), refused_undo(2)).lent(1, 0),
    ]
}

/// Several at once: 16 of the document, 9, 5, 6, 2, then 16 of the undo.
fn order() -> Vec<Vector> {
    let root = |value: &str| replace("", value);
    // 31 deep, and as many more nodes and bytes as there is room for.
    let full = |levels: usize, zeros: usize, length: usize| {
        let nested = nest(levels - 1);
        let used = nested.len() + 2 * zeros + 3;
        format!("[{nested}{},{}]", ",0".repeat(zeros), string(length - used))
    };
    let then_moves = |first: &str| {
        let moves = vec![relocate("move", "/0", "/1"); 129];
        patch(&[vec![root(first)], moves].concat())
    };
    // 31 deep: 1 + 30 arrays, the zeros, the string.
    let all = full(31, 2_016, 32_768);
    let wide = full(30, 2_017, 32_768);
    let long = string(32_768);
    vec![
        refuses("order-output-first", &*all, then_moves("[1,2]"), NO_ROOM).lent(4, UNDO_ROOM),
        refuses("order-9-first", &*all, then_moves("[1,2]"), refused_undo(9)).lent(5, 0),
        refuses("order-5-then", &*all, patch(&[root("1")]), refused_undo(5)).lent(1, 0),
        refuses("order-6-then", &*wide, patch(&[root("1")]), refused_undo(6)).lent(1, 0),
        refuses("order-2-then", &*long, patch(&[root("1")]), refused_undo(2)).lent(1, 0),
        refuses("order-16-last", "2", patch(&[root("1")]), NO_ROOM).lent(1, 0),
    ]
}
