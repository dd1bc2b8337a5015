//! The calls that list origins: what is listed, what is refused, and what is promised of
//! lent memory.

use json_patch::origins::{self, values, Listed, Written};
use json_patch::undo::{self, Refused, UndoWork, UNDO_BYTES};
use json_patch::{Kind, Node, Refusal, Work, MAX_NODES, TOOL_OUTPUT, WORK_ENTRIES, WORK_NODES};

const UNWRITTEN: u16 = 0xabcd;

/// The written text and the list.
type Found = (String, Vec<u16>);

/// Any call that lists.
type Call<'a> = &'a dyn Fn(&mut [u8], &mut [u16]) -> Result<Listed, Refusal>;

fn found(call: Call) -> Result<Found, Refusal> {
    let (mut output, mut list) = (vec![0; TOOL_OUTPUT], [UNWRITTEN; MAX_NODES]);
    let Listed { length, values: count } = call(&mut output, &mut list)?;
    assert!(list[count..].iter().all(|&entry| entry == UNWRITTEN), "the rest of the list stays");
    Ok((String::from_utf8(output[..length].to_vec()).unwrap(), list[..count].to_vec()))
}

fn applied(document: &str, patch: &str) -> Result<Found, Refusal> {
    found(&|output, list| {
        origins::apply(document.as_bytes(), patch.as_bytes(), output, list, &mut Work::new())
    })
}

fn merged(document: &str, patch: &str) -> Result<Found, Refusal> {
    found(&|output, list| {
        origins::merge(document.as_bytes(), patch.as_bytes(), output, list, &mut Work::new())
    })
}

fn ok(text: &str, list: &[u16]) -> Result<Found, Refusal> {
    Ok((text.to_string(), list.to_vec()))
}

#[test]
fn each_kind_of_operation() {
    let document = r#"{"a":[1,2],"b":{"c":3}}"#;
    let one = |operation: &str| applied(document, &format!("[{operation}]"));
    assert_eq!(applied(document, "[]"), ok(document, &[0; 6]));
    let add = one(r#"{"op":"add","path":"/a/1","value":[{}]}"#);
    assert_eq!(add, ok(r#"{"a":[1,[{}],2],"b":{"c":3}}"#, &[0, 0, 0, 1, 1, 0, 0, 0]));
    let replace = one(r#"{"op":"replace","path":"/b","value":[4]}"#);
    assert_eq!(replace, ok(r#"{"a":[1,2],"b":[4]}"#, &[0, 0, 0, 0, 1, 1]));
    let remove = one(r#"{"op":"remove","path":"/a"}"#);
    assert_eq!(remove, ok(r#"{"b":{"c":3}}"#, &[0, 0, 0]));
    let copy = one(r#"{"op":"copy","from":"/b","path":"/a/0"}"#);
    assert_eq!(copy, ok(r#"{"a":[{"c":3},1,2],"b":{"c":3}}"#, &[0, 0, 1, 1, 0, 0, 0, 0]));
    let test = one(r#"{"op":"test","path":"/b/c","value":3.0}"#);
    assert_eq!(test, ok(document, &[0; 6]));
    let moved = one(r#"{"op":"move","from":"/b/c","path":"/b"}"#);
    assert_eq!(moved, ok(r#"{"a":[1,2],"b":3}"#, &[0; 5]));
}

#[test]
fn a_moved_value_keeps_its_own_and_a_copy_of_it_does_not() {
    let patch = r#"[{"op":"add","path":"/x","value":[0]},{"op":"move","from":"/x","path":"/y"},
                    {"op":"copy","from":"/y","path":"/z"},{"op":"add","path":"/y/-","value":1}]"#;
    assert_eq!(applied("{}", patch), ok(r#"{"y":[0,1],"z":[0]}"#, &[0, 1, 1, 4, 3, 3]));
}

#[test]
fn the_largest_origin() {
    let patch = format!("[{}]", vec![r#"{"op":"add","path":"/-","value":0}"#; 256].join(","));
    let list: Vec<u16> = (0..=256).collect();
    assert_eq!(applied("[]", &patch).unwrap().1, list);
}

#[test]
fn a_merge_patch_counts_as_operation_1() {
    assert_eq!(
        merged(r#"{"a":{"b":1},"c":2}"#, r#"{"a":{"d":{"e":null}}}"#),
        ok(r#"{"a":{"b":1,"d":{}},"c":2}"#, &[0, 0, 0, 1, 0])
    );
    assert_eq!(merged("[1]", "{}"), ok("{}", &[1]));
    assert_eq!(merged("{}", "{}"), ok("{}", &[0]));
    assert_eq!(merged("{}", "[null]"), ok("[null]", &[1, 1]));
}

/// A list that is just long enough, and one that is an entry short.
#[test]
fn both_sides_of_the_list() {
    let patch = br#"[{"op":"test","path":"/a","value":1},{"op":"add","path":"/b","value":[2]}]"#;
    let (document, region) = (br#"{"a":1}"#, b"");
    let calls: [Call; 3] = [
        &|output, list| origins::apply(document, patch, output, list, &mut Work::new()),
        &|output, list| {
            origins::apply_within(document, patch, region, output, list, &mut Work::new())
        },
        &|output, list| origins::merge(document, br#"{"b":[2]}"#, output, list, &mut Work::new()),
    ];
    for (call, k) in calls.into_iter().zip([2, 2, 1]) {
        let (mut output, mut list) = ([7; 32], [UNWRITTEN; 4]);
        assert_eq!(
            call(&mut output, &mut list[..3]).unwrap_err().kind(),
            Some(Kind::OutputTooShort)
        );
        assert_eq!((output, list), ([7; 32], [UNWRITTEN; 4]));
        assert_eq!(
            call(&mut output[..14], &mut list).unwrap_err().kind(),
            Some(Kind::OutputTooShort)
        );
        assert_eq!((output, list), ([7; 32], [UNWRITTEN; 4]));
        assert_eq!(call(&mut output[..15], &mut list), Ok(Listed { length: 15, values: 4 }));
        assert_eq!((&output[..15], list), (&br#"{"a":1,"b":[2]}"#[..], [0, 0, k, k]));
        assert_eq!(output[15..], [7; 17]);
    }
}

#[test]
fn the_rule_of_a_region_stays() {
    let patch = br#"[{"op":"test","path":"/a","value":1}]"#;
    let mut list = [UNWRITTEN; 4];
    let refusal = origins::apply_within(
        br#"{"a":1}"#,
        patch,
        b"/a",
        &mut [0; 8],
        &mut list,
        &mut Work::new(),
    );
    assert_eq!(refusal.unwrap_err().kind(), Some(Kind::NotPermitted));
    assert_eq!(list, [UNWRITTEN; 4]);
}

#[test]
fn beside_an_undo() {
    let (document, patch) = (br#"{"a":[1]}"#, br#"[{"op":"replace","path":"/a","value":2}]"#);
    let back = br#"[{"op":"replace","path":"/a","value":[1]}]"#;
    let mut work = UndoWork::new();
    let (mut output, mut undo, mut list) = ([7; 16], [7; 64], [UNWRITTEN; 3]);
    let written =
        origins::apply_with_undo(document, patch, &mut output, &mut undo, &mut list, &mut work);
    let document_is = Listed { length: 7, values: 2 };
    assert_eq!(written, Ok(Written { document: document_is, undo: back.len() }));
    assert_eq!((&undo[..back.len()], list), (&back[..], [0, 1, UNWRITTEN]));
    // The same two texts without a list.
    let (mut output_again, mut undo_again) = ([7; 16], [7; 64]);
    let again =
        undo::apply_with_undo(document, patch, &mut output_again, &mut undo_again, &mut work);
    assert_eq!(again, Ok(undo::Written { document: 7, undo: back.len() }));
    assert_eq!((output_again, undo_again), (output, undo));
}

/// A short list is one of the patch's refusals: it comes before the undo's own.
#[test]
fn a_short_list_comes_before_the_undos_refusals() {
    let deep = ["[".repeat(31), "]".repeat(31)].concat();
    let patch = br#"[{"op":"replace","path":"","value":1}]"#;
    let mut work = UndoWork::new();
    let mut call = |list: &mut [u16]| {
        let (mut output, mut undo) = ([7; 16], [7; 128]);
        let refused = origins::apply_with_undo(
            deep.as_bytes(),
            patch,
            &mut output,
            &mut undo,
            list,
            &mut work,
        );
        assert_eq!((output, undo), ([7; 16], [7; 128]));
        refused.unwrap_err()
    };
    let mut list = [UNWRITTEN; 1];
    let refused = call(&mut list);
    assert!(matches!(refused, Refused::Undo(_)), "{refused}");
    assert_eq!((refused.kind(), list), (Some(Kind::TooDeep), [UNWRITTEN]));
    let refused = call(&mut []);
    assert!(matches!(refused, Refused::Patch(_)), "{refused}");
    assert_eq!(refused.kind(), Some(Kind::OutputTooShort));
}

#[test]
fn the_work_area_is_cleared_and_a_1_changes_nothing() {
    let node = Node { span: 9, tags: 6, origin: 5, ..Node::ZERO };
    let calls = [origins::apply_in, origins::merge_in];
    for (call, patch) in calls.into_iter().zip([&b"[]"[..], b"{}"]) {
        let (mut output, mut list) = ([7; 8], [UNWRITTEN; 4]);
        let (mut nodes, mut index) = (vec![node; WORK_NODES + 1], vec![7; WORK_ENTRIES + 1]);
        let done = call(b"{}", patch, &mut output, &mut list, &mut nodes, &mut index);
        assert_eq!(done, Ok(Listed { length: 2, values: 1 }));
        assert!(nodes[..WORK_NODES].iter().all(|node| *node == Node::ZERO));
        assert!(index[..WORK_ENTRIES].iter().all(|&entry| entry == 0));
        assert_eq!((nodes[WORK_NODES], index[WORK_ENTRIES]), (node, 7));
        list = [UNWRITTEN; 4];
        nodes.truncate(WORK_NODES - 1);
        let refusal = call(b"{}", patch, &mut output, &mut list, &mut nodes, &mut index);
        assert_eq!(refusal.unwrap_err().kind(), Some(Kind::WorkTooShort));
        assert_eq!(list, [UNWRITTEN; 4]);
    }
    let (mut nodes, mut index) = (vec![node; WORK_NODES], vec![7; WORK_ENTRIES]);
    let mut text = vec![7; UNDO_BYTES + 1];
    let (mut output, mut undo, mut list) = ([7; 8], [7; 8], [UNWRITTEN; 4]);
    let done = origins::apply_with_undo_in(
        b"1",
        b"[]",
        &mut output,
        &mut undo,
        &mut list,
        &mut nodes,
        &mut index,
        &mut text,
    );
    assert_eq!(done.map(|written| written.undo), Ok(2));
    assert!(nodes.iter().all(|node| *node == Node::ZERO) && index.iter().all(|&entry| entry == 0));
    assert!(text[..UNDO_BYTES].iter().all(|&byte| byte == 0) && text[UNDO_BYTES] == 7);
}

/// As many values are found in the written text as the list has entries.
#[test]
fn the_values_of_the_result() {
    let patch = r#"[{"op":"add","path":"/n","value":{"a/b":[true,{"~":"x,]\"}"}],"":{}}}]"#;
    let (text, list) = applied(r#"{"mAh":3000}"#, patch).unwrap();
    let told: Vec<(u16, String, Option<&[u8]>)> = values(text.as_bytes())
        .zip(list)
        .map(|(value, origin)| (origin, value.location.to_string(), value.text))
        .collect();
    let wanted: [(u16, &str, Option<&[u8]>); 8] = [
        (0, "", None),
        (0, "/mAh", Some(b"3000")),
        (1, "/n", None),
        (1, "/n/a~1b", None),
        (1, "/n/a~1b/0", Some(b"true")),
        (1, "/n/a~1b/1", None),
        (1, "/n/a~1b/1/~0", Some(br#""x,]\"}""#)),
        (1, "/n/", Some(b"{}")),
    ];
    assert_eq!(told, wanted.map(|(k, pointer, text)| (k, pointer.to_string(), text)));
}
