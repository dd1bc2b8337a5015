//! The call through the wrapper: the lines of docs/SPECIFICATION.md, and what is promised
//! of lent memory.

use json_patch::{apply, apply_in, Kind, Node, Pointer, Refusal, Work};
use json_patch::{MAX_BYTES, TOOL_OUTPUT, WORK_ENTRIES, WORK_NODES};
use std::thread;

/// The patch tool's line.
fn line(document: &[u8], patch: &[u8]) -> String {
    let mut output = vec![0; TOOL_OUTPUT];
    match apply(document, patch, &mut output, &mut Work::new()) {
        Ok(length) => String::from_utf8_lossy(&output[..length]).into_owned(),
        Err(refusal) => refusal.line().to_string(),
    }
}

#[test]
fn lines_of_document_01() {
    let profile = br#"{"mAh":3000,"cut":[4.2,3.0]}"#;
    let tail = r#"},{"op":"add","path":"/cut/-","value":2.8}]"#;
    let patch = format!(r#"[{{"op":"test","path":"/mAh","value":3e3{tail}"#);
    assert_eq!(line(profile, patch.as_bytes()), r#"{"mAh":3000,"cut":[4.2,3.0,2.8]}"#);
    let patch = format!(r#"[{{"op":"test","path":"/mAh","value":3001{tail}"#);
    assert_eq!(line(profile, patch.as_bytes()), "refused 15 text 0 op 1 place 0 pointer 0");
    assert_eq!(line(br#"{"a":1,"a":2}"#, b"[]"), "refused 4 text 1 op 0 place 9 pointer 0");
    assert_eq!(line(b"[1,]", b"[]"), "refused 3 text 1 op 0 place 3 pointer 0");
    assert_eq!(line(b"", b"[]"), "refused 3 text 1 op 0 place 0 pointer 0");
    assert_eq!(line(b"[]", b"[1,]"), "refused 3 text 2 op 0 place 3 pointer 0");
    assert_eq!(
        line(br#"{"a":[1,2,3]}"#, br#"[{"op":"move","from":"/a/0","path":"/a/2"}]"#),
        r#"{"a":[2,3,1]}"#
    );
    let long = vec![b' '; MAX_BYTES + 1];
    assert_eq!(line(&long, &long), "refused 2 text 1 op 0 place 0 pointer 0");
    assert_eq!(line(b"[]", &long), "refused 2 text 2 op 0 place 0 pointer 0");
}

#[test]
fn refusals_print_in_words_and_as_their_line() {
    let refusal = |number, text, op, place, pointer| Refusal { number, text, op, place, pointer };
    let words = |number, text, op, place| refusal(number, text, op, place, 0).to_string();
    assert_eq!(
        words(4, 1, 0, 9),
        "refused 4: document, byte 9: a member name is repeated in one object"
    );
    assert_eq!(words(2, 2, 0, 0), "refused 2: patch: the text is longer than 32,768 bytes");
    assert_eq!(words(6, 0, 3, 0), "refused 6: operation 3: more than 2,048 values");
    let lost = refusal(11, 0, 2, 1, 1);
    assert_eq!(
        lost.to_string(),
        "refused 11: operation 2: `path`, after 1 token: the location does not exist"
    );
    assert_eq!(lost.line().to_string(), "refused 11 text 0 op 2 place 1 pointer 1");
    assert_eq!(lost.which(), Some(Pointer::Path));
    let lost = refusal(12, 0, 256, 0, 2);
    assert_eq!(
        lost.to_string(),
        "refused 12: operation 256: `from`, after 0 tokens: a token is not an array index"
    );
    assert_eq!(lost.line().to_string(), "refused 12 text 0 op 256 place 0 pointer 2");
    assert_eq!(lost.which(), Some(Pointer::From));
    for (index, kind) in Kind::ALL.into_iter().enumerate() {
        let refusal = refusal(kind.number(), 0, 0, 0, 0);
        assert_eq!(kind.number() as usize, index + 1);
        assert_eq!(refusal.kind(), Some(kind));
        assert_eq!(refusal.to_string(), format!("refused {}: {kind}", kind.number()));
        let line = format!("refused {} text 0 op 0 place 0 pointer 0", kind.number());
        assert_eq!(refusal.line().to_string(), line);
    }
    let none = refusal(18, 0, 0, 0, 0);
    assert_eq!(none.kind(), None);
    assert_eq!(none.to_string(), "refused 18: unknown answer");
}

/// A record with every field the same.
fn filled(field: u16) -> Node {
    Node {
        name_start: field,
        name_length: field,
        start: field,
        length: field,
        span: field,
        hash: field,
        tags: field,
        origin: field,
    }
}

#[test]
fn lent_memory_afterwards() {
    const N: usize = WORK_NODES;
    const E: usize = WORK_ENTRIES;
    let mut output = [b'#'; 8];
    let mut nodes = vec![filled(u16::MAX); N + 3];
    let mut index = vec![u16::MAX; E + 5];
    let cleared = |nodes: &[Node], index: &[u16]| {
        nodes[..N].iter().all(|&node| node == Node::ZERO) && index[..E].iter().all(|&it| it == 0)
    };

    // Done: the text in front, the rest as it was, the work area zero.
    assert_eq!(apply_in(b"[ 1 ]", b"[]", &mut output, &mut nodes, &mut index), Ok(3));
    assert_eq!(&output, b"[1]#####");
    assert!(cleared(&nodes, &index));
    assert_eq!(nodes[N..], [filled(u16::MAX); 3]);
    assert_eq!(index[E..], [u16::MAX; 5]);

    // Refused: the output as it was.
    nodes.fill(filled(5));
    index.fill(6);
    let refusal = apply_in(b"[0,1,2,3]", b"[]", &mut output, &mut nodes, &mut index);
    assert_eq!(refusal.map_err(|refusal| refusal.kind()), Err(Some(Kind::OutputTooShort)));
    assert_eq!(&output, b"[1]#####");
    assert!(cleared(&nodes, &index));
    assert_eq!(nodes[N..], [filled(5); 3]);
    assert_eq!(index[E..], [6; 5]);

    // A 1: nothing has changed.
    nodes.fill(filled(9));
    index.fill(9);
    for (n, e) in [(N - 1, E), (N, E - 1), (N - 1, E - 1), (0, E), (N, 0), (0, 0)] {
        let refusal = apply_in(b"[]", b"[]", &mut output, &mut nodes[..n], &mut index[..e]);
        assert_eq!(refusal.map_err(|refusal| refusal.kind()), Err(Some(Kind::WorkTooShort)));
    }
    assert_eq!(&output, b"[1]#####");
    assert!(nodes.iter().all(|&node| node == filled(9)));
    assert!(index.iter().all(|&entry| entry == 9));
}

#[test]
fn several_threads_at_once() {
    let patch = br#"[{"op":"add","path":"/0","value":"x"},{"op":"remove","path":"/1"}]"#;
    thread::scope(|scope| {
        for number in 0..4 {
            scope.spawn(move || {
                let document = format!("[{number},{number}]");
                let expected = format!("[\"x\",{number}]");
                let mut output = [0; 64];
                let mut work = Work::new();
                for _ in 0..500 {
                    let length = apply(document.as_bytes(), patch, &mut output, &mut work);
                    assert_eq!(length.map(|length| &output[..length]), Ok(expected.as_bytes()));
                }
            });
        }
    });
}
