//! Merge patches.

use json_patch::{merge, merge_in, Kind, Node, Refusal, Work, WORK_ENTRIES, WORK_NODES};

fn merged(document: &str, patch: &str) -> Result<String, Refusal> {
    let mut output = vec![0; 65_536];
    let length = merge(document.as_bytes(), patch.as_bytes(), &mut output, &mut Work::new())?;
    Ok(String::from_utf8(output[..length].to_vec()).unwrap())
}

/// RFC 7396, appendix A: "ORIGINAL PATCH RESULT".
#[test]
fn the_examples_of_the_rfc() {
    for (original, patch, result) in [
        (r#"{"a":"b"}"#, r#"{"a":"c"}"#, r#"{"a":"c"}"#),
        (r#"{"a":"b"}"#, r#"{"b":"c"}"#, r#"{"a":"b","b":"c"}"#),
        (r#"{"a":"b"}"#, r#"{"a":null}"#, r#"{}"#),
        (r#"{"a":"b","b":"c"}"#, r#"{"a":null}"#, r#"{"b":"c"}"#),
        (r#"{"a":["b"]}"#, r#"{"a":"c"}"#, r#"{"a":"c"}"#),
        (r#"{"a":"c"}"#, r#"{"a":["b"]}"#, r#"{"a":["b"]}"#),
        (r#"{"a":{"b":"c"}}"#, r#"{"a":{"b":"d","c":null}}"#, r#"{"a":{"b":"d"}}"#),
        (r#"{"a":[{"b":"c"}]}"#, r#"{"a":[1]}"#, r#"{"a":[1]}"#),
        (r#"["a","b"]"#, r#"["c","d"]"#, r#"["c","d"]"#),
        (r#"{"a":"b"}"#, r#"["c"]"#, r#"["c"]"#),
        (r#"{"a":"foo"}"#, r#"null"#, r#"null"#),
        (r#"{"a":"foo"}"#, r#""bar""#, r#""bar""#),
        (r#"{"e":null}"#, r#"{"a":1}"#, r#"{"e":null,"a":1}"#),
        (r#"[1,2]"#, r#"{"a":"b","c":null}"#, r#"{"a":"b"}"#),
        (r#"{}"#, r#"{"a":{"bb":{"ccc":null}}}"#, r#"{"a":{"bb":{}}}"#),
    ] {
        assert_eq!(merged(original, patch).as_deref(), Ok(result), "{original} {patch}");
    }
}

/// An object with so many members, named from a number on.
fn members(first: usize, count: usize) -> String {
    let members: Vec<String> = (first..first + count).map(|k| format!("\"{k}\":{k}")).collect();
    format!("{{{}}}", members.join(","))
}

#[test]
fn more_nodes_on_the_way_than_a_result_may_have() {
    // 1,000 members go and 1,040 come: 3,041 nodes where those that come stand first
    let gone: Vec<String> = (0..1_000).map(|k| format!("\"{k}\":null")).collect();
    let come: Vec<String> = (5_000..6_040).map(|k| format!("\"{k}\":1")).collect();
    let patch = format!("{{{},{}}}", come.join(","), gone.join(","));
    let result: Vec<String> = (1_000..2_000)
        .map(|k| format!("\"{k}\":{k}"))
        .chain((5_000..6_040).map(|k| format!("\"{k}\":1")))
        .collect();
    assert_eq!(merged(&members(0, 2_000), &patch), Ok(format!("{{{}}}", result.join(","))));
}

#[test]
fn the_last_result_that_fits() {
    assert!(merged(&members(0, 1_000), &members(1_000, 1_047)).is_ok());
    let refusal = merged(&members(0, 1_000), &members(1_000, 1_048)).unwrap_err();
    assert_eq!(refusal.kind(), Some(Kind::TooManyNodes));
    assert_eq!((refusal.text, refusal.op, refusal.place, refusal.pointer), (0, 0, 0, 0));
}

#[test]
fn the_work_area_is_cleared() {
    let mut output = [0; 16];
    let mut nodes = vec![Node { span: 9, tags: 6, ..Node::ZERO }; WORK_NODES + 1];
    let mut index = vec![7; WORK_ENTRIES + 1];
    let result = merge_in(b"{\"a\":1}", b"{\"b\":2}", &mut output, &mut nodes, &mut index);
    assert_eq!(result, Ok(13));
    assert_eq!(&output[..13], b"{\"a\":1,\"b\":2}");
    assert!(nodes[..WORK_NODES].iter().all(|node| *node == Node::ZERO));
    assert!(index[..WORK_ENTRIES].iter().all(|&entry| entry == 0));
    assert_eq!((nodes[WORK_NODES].span, index[WORK_ENTRIES]), (9, 7));
}
