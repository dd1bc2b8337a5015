//! The call with an undo through the wrapper: what is written, what is refused, and
//! what is promised of lent memory.

use json_patch::undo::{apply_with_undo, apply_with_undo_in};
use json_patch::undo::{Refused, UndoWork, Written, UNDO_BYTES};
use json_patch::{apply, Kind, Node, Refusal, MAX_BYTES, TOOL_OUTPUT, WORK_ENTRIES, WORK_NODES};

/// The patched text, the undo, and what the undo gives back.
fn there_and_back(document: &str, patch: &str) -> Result<[String; 3], Refused> {
    let (mut output, mut undo) = (vec![0; TOOL_OUTPUT], vec![0; MAX_BYTES]);
    let mut work = UndoWork::new();
    let text = |bytes: &[u8]| String::from_utf8_lossy(bytes).into_owned();
    let Written { document, undo: length } =
        apply_with_undo(document.as_bytes(), patch.as_bytes(), &mut output, &mut undo, &mut work)?;
    let (patched, undo) = (&output[..document], &undo[..length]);
    let mut back = vec![0; TOOL_OUTPUT];
    let length = apply(patched, undo, &mut back, work.plain()).expect("the undo applies");
    Ok([text(patched), text(undo), text(&back[..length])])
}

#[test]
fn a_patch_is_taken_back() {
    let one = |document: &str, patch: &str, patched: &str, undo: &str, back: &str| {
        let all = [patched, undo, back].map(str::to_string);
        assert_eq!(there_and_back(document, patch), Ok(all), "{patch}");
    };
    one("[ 1 ]", "[]", "[1]", "[]", "[1]");
    one(
        r#"{"a":1,"b":2}"#,
        r#"[{"op":"remove","path":"/a"}]"#,
        r#"{"b":2}"#,
        r#"[{"op":"add","path":"/a","value":1}]"#,
        r#"{"b":2,"a":1}"#,
    );
    one(
        r#"{"0":[{"1":1}]}"#,
        r#"[{"op":"move","from":"/0/0/1","path":"/0/0"}]"#,
        r#"{"0":[1,{}]}"#,
        r#"[{"op":"remove","path":"/0/0"},{"op":"add","path":"/0/0/1","value":1}]"#,
        r#"{"0":[{"1":1}]}"#,
    );
}

#[test]
fn refusals_of_the_undo_are_told_from_those_of_the_patch() {
    let swap = r#"{"op":"move","from":"/0","path":"/1"}"#;
    let replace = r#"[{"op":"replace","path":"","value":1}]"#;
    let nested = |levels: usize| "[".repeat(levels) + &"]".repeat(levels);
    let zeros = |count: usize| format!("[{}]", vec!["0"; count].join(","));
    let long = |length: usize| format!("\"{}\"", "a".repeat(length - 2));
    let number = |document: &str, patch: &str| match there_and_back(document, patch) {
        Ok(_) => (0, false),
        Err(Refused::Undo(refusal)) => {
            let wanted = Refusal { number: refusal.number, text: 2, op: 0, place: 0, pointer: 0 };
            assert_eq!(refusal, wanted);
            (refusal.number, true)
        }
        Err(Refused::Patch(refusal)) => (refusal.number, false),
    };
    assert_eq!(number("[1,2]", &format!("[{}]", vec![swap; 128].join(","))), (0, false));
    assert_eq!(number("[1,2]", &format!("[{}]", vec![swap; 129].join(","))), (9, true));
    assert_eq!(number("[1,2]", &format!("[{}]", vec![swap; 257].join(","))), (9, false));
    assert_eq!(number(&nested(30), replace), (0, false));
    assert_eq!(number(&nested(31), replace), (5, true));
    assert_eq!(number(&nested(33), replace), (5, false));
    assert_eq!(number("1", &nested(33)), (5, false));
    assert_eq!(number(&zeros(2_043), replace), (0, false));
    assert_eq!(number(&zeros(2_044), replace), (6, true));
    assert_eq!(number("1", &zeros(2_048)), (6, false));
    assert_eq!(number(&long(32_768 - 37), replace), (0, false));
    assert_eq!(number(&long(32_768 - 36), replace), (2, true));
    assert_eq!(number(&long(32_769), replace), (2, false));
    assert_eq!(number("1", &" ".repeat(32_769)), (2, false));
    assert_eq!(number("{}", r#"[{"op":"remove","path":"/a"}]"#), (11, false));
}

#[test]
fn refusals_print_in_words() {
    let refusal = |number| Refusal { number, text: 2, op: 0, place: 0, pointer: 0 };
    let words = |number| Refused::Undo(refusal(number)).to_string();
    assert_eq!(words(9), "refused 9: undo: more than 256 operations");
    assert_eq!(words(2), "refused 2: undo: the text is longer than 32,768 bytes");
    let refused = there_and_back("{}", r#"[{"op":"remove","path":"/a"}]"#).unwrap_err();
    assert_eq!(refused.to_string(), refused.refusal().to_string());
    assert_eq!(refused.kind(), Some(Kind::LocationMissing));
}

#[test]
fn outputs_that_are_just_enough_and_one_short() {
    let (document, patch) = (b"{}", br#"[{"op":"add","path":"/a","value":1}]"#);
    let mut work = UndoWork::new();
    for (room, undo_room, fits) in [(7, 29, true), (7, 28, false), (6, 29, false), (0, 0, false)] {
        let (mut output, mut undo) = ([b'#'; 8], [b'#'; 30]);
        let (front, front_of_undo) = (&mut output[..room], &mut undo[..undo_room]);
        let written = apply_with_undo(document, patch, front, front_of_undo, &mut work);
        if fits {
            assert_eq!(written, Ok(Written { document: 7, undo: 29 }));
            assert_eq!(&output, br#"{"a":1}#"#);
            assert_eq!(&undo, br#"[{"op":"remove","path":"/a"}]#"#);
        } else {
            assert_eq!(written.map_err(|it| it.kind()), Err(Some(Kind::OutputTooShort)));
            assert_eq!((output, undo), ([b'#'; 8], [b'#'; 30]));
        }
    }
}

#[test]
fn lent_memory_afterwards() {
    const FILLED: Node = Node { tags: 9, ..Node::ZERO };
    let mut nodes = vec![FILLED; WORK_NODES + 3];
    let mut index = vec![9; WORK_ENTRIES + 5];
    let mut text = vec![9; UNDO_BYTES + 7];
    let (mut output, mut undo) = ([b'#'; 4], [b'#'; 4]);

    // A 1: nothing has changed.
    let (n, e, b) = (WORK_NODES, WORK_ENTRIES, UNDO_BYTES);
    for (n, e, b) in [(n - 1, e, b), (n, e - 1, b), (n, e, b - 1), (0, 0, 0)] {
        let refused = apply_with_undo_in(
            b"[]",
            b"[]",
            &mut output,
            &mut undo,
            &mut nodes[..n],
            &mut index[..e],
            &mut text[..b],
        );
        assert_eq!(refused.map_err(|it| it.kind()), Err(Some(Kind::WorkTooShort)));
    }
    assert!(nodes.iter().all(|&node| node == FILLED) && index.iter().all(|&it| it == 9));
    assert!(text.iter().all(|&byte| byte == 9));
    assert_eq!((output, undo), ([b'#'; 4], [b'#'; 4]));

    // Done, and refused: the work area is zero, the rest as it was.
    for document in [&b"[ 1]"[..], b"[1,2]"] {
        nodes.fill(FILLED);
        index.fill(9);
        text.fill(9);
        let done = apply_with_undo_in(
            document,
            b"[]",
            &mut output,
            &mut undo,
            &mut nodes,
            &mut index,
            &mut text,
        );
        assert_eq!(done.is_ok(), document == b"[ 1]");
        assert_eq!((&output, &undo), (b"[1]#", b"[]##"));
        assert!(nodes[..n].iter().all(|&node| node == Node::ZERO));
        assert!(index[..e].iter().all(|&it| it == 0) && text[..b].iter().all(|&it| it == 0));
        assert_eq!(nodes[n..], [FILLED; 3]);
        assert_eq!(index[e..], [9; 5]);
        assert_eq!(text[b..], [9; 7]);
    }
}
