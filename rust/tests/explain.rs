//! Refusals explained in the two texts that were refused.

use json_patch::{apply, Paint, Work, TOOL_OUTPUT};

fn explained(document: &[u8], patch: &[u8]) -> String {
    let mut output = vec![0; TOOL_OUTPUT];
    let refusal = apply(document, patch, &mut output, &mut Work::new()).expect_err("a refusal");
    refusal.explain(document, patch).named(&"doc.json", &"fix.json").to_string()
}

/// The first line of what is said of a document that is not JSON.
fn fault(document: &[u8]) -> String {
    explained(document, b"[]").lines().next().unwrap_or_default().to_string()
}

/// The hint that is given for a document.
fn hint(document: &[u8]) -> Option<String> {
    let words = explained(document, b"[]");
    words.split_once("\n  hint: ").map(|(_, hint)| hint.to_string())
}

#[test]
fn a_text_that_is_not_json_is_shown_with_a_mark() {
    assert_eq!(
        explained(b"[1,\n 2 3]", b"[]"),
        "doc.json:2:4: not JSON text: unexpected '3'\n  2 |  2 3]\n    |    ^"
    );
    assert_eq!(
        explained(b"[]", b"[{\"op\":\"add\",\"val"),
        "fix.json:1:18: not JSON text: the text ends too early\n  \
           1 | [{\"op\":\"add\",\"val\n    \
             |                  ^"
    );
    assert_eq!(fault(b""), "doc.json:1:1: not JSON text: the text is empty");
    assert_eq!(fault(b" \n"), "doc.json:2:1: not JSON text: the text is empty");
    assert_eq!(fault(b"[\"a\n\"]"), "doc.json:1:4: not JSON text: unexpected end of line");
    assert_eq!(fault(b"[\"\x01\"]"), "doc.json:1:3: not JSON text: unexpected character U+0001");
    assert_eq!(fault(b"[\"\xff\"]"), "doc.json:1:3: not JSON text: byte FF is not UTF-8 here");
    let hidden = "[\u{202e}]".as_bytes();
    assert_eq!(fault(hidden), "doc.json:1:2: not JSON text: unexpected character U+202E");
    assert_eq!(fault(b"[\t\x7f]"), "doc.json:1:3: not JSON text: unexpected character U+007F");
    assert_eq!(fault("[é]".as_bytes()), "doc.json:1:2: not JSON text: unexpected 'é'");
}

#[test]
fn hints_where_they_are_sure() {
    let given = |document: &[u8], words: &str| assert_eq!(hint(document).as_deref(), Some(words));
    given(b"\xef\xbb\xbf{}", "remove the byte order mark");
    given(b"\xff\xfe[\0]\0", "the text is UTF-16; JSON text is UTF-8");
    given(b"\x1f\x8b\x08", "the text is compressed by gzip");
    given(b"[1, ]", "no comma stands before a closing bracket");
    given(b"{\"a\":1,}", "no comma stands before a closing bracket");
    given(b"[1, // one\n2]", "JSON has no comments");
    given(b"{'a':1}", "strings stand between double quotation marks");
    let pairs = r"surrogate escapes come in pairs, as \ud83d\ude00";
    for text in [r#"["\ud800"]"#, r#"["\uDBFFx"]"#, r#"["\ud800\n"]"#, r#"["\ud800\u0041"]"#] {
        given(text.as_bytes(), pairs);
    }
    for text in [r#"["\udc00"]"#, r#"["\\\uDfff"]"#, r#"["\ud800\ud800"]"#] {
        given(text.as_bytes(), pairs);
    }
    for text in ["[1 2]", "[\"\\'\"]", "[tru]", "[\"\\\\ud800\n\"]", "{]", "[\"\\\\udc", "[1/2]"] {
        assert_eq!(hint(text.as_bytes()), None, "{text}");
    }
}

#[test]
fn limits_say_which() {
    assert_eq!(
        fault(b"{\"a\":1,\n \"a\":2}"),
        "doc.json:2:4: a member name is repeated in one object"
    );
    assert_eq!(fault(&[b'['; 40]), "doc.json:1:33: more than 32 nested containers");
    assert_eq!(fault(&[b'1'; 200]), "doc.json:1:129: the number is longer than 128 bytes");
    assert_eq!(fault(b"[1e12345]"), "doc.json:1:8: the number's exponent is over 9,999");
    let many = "[".to_string() + &"1,".repeat(3000) + "1]";
    assert_eq!(fault(many.as_bytes()), "doc.json:1:4096: more than 2,048 values");
    let long = vec![b' '; 40000];
    assert_eq!(explained(&long, b"[]"), "doc.json: the text is longer than 32,768 bytes");
    assert_eq!(explained(b"[]", &long), "fix.json: the text is longer than 32,768 bytes");
}

#[test]
fn operations_are_named_with_their_pointers() {
    let said = |patch: &str, words: &str| {
        let patch = format!("[{{\"op\":\"test\",\"path\":\"/a/0\",\"value\":1}}, {patch}]");
        let found = explained(b"{\"a\":[1,[2]]}", patch.as_bytes());
        assert_eq!(found, format!("fix.json: operation 2{words}"));
    };
    said(
        r#"{"op":"remove","path":"/b"}"#,
        ", remove \"/b\": the location does not exist in doc.json\n  \
         path: the root has no \"b\"",
    );
    said(
        r#"{"value":1,"path":"/a/x","op":"add"}"#,
        ", add \"/a/x\": a token is not an array index\n  \
         path: \"/a\" is an array, and \"x\" is no index",
    );
    said(r#"{"op":"remove","path":""}"#, r#", remove "": the root cannot be removed"#);
    said(
        r#"{"op":"move","from":"/a","path":"/a/0"}"#,
        r#", move from "/a" to "/a/0": a value cannot be moved into its own child"#,
    );
    said(
        r#"{"op":"copy","from":"/x","path":"/y"}"#,
        ", copy from \"/x\" to \"/y\": the location does not exist in doc.json\n  \
         from: the root has no \"x\"",
    );
    said(
        r#"{"\u006fp":"te\u0073t","path":"\/a/0","value":"x\"]"}"#,
        ", test \"\\/a/0\": the test found a difference\n  \
         hint: the patch was made for another document",
    );
    let deep = "[".repeat(30) + &"]".repeat(30);
    said(
        &format!(r#"{{"op":"add","path":"/a/1/0","value":{deep}}}"#),
        r#", add "/a/1/0": more than 32 nested containers in its result"#,
    );
}

#[test]
fn a_pointer_that_leads_nowhere_says_how_far_it_got() {
    let document = br#"{"a":[1,[2],{"b/c":{"":{"x":3}}}]}"#;
    let said = |operation: &str, words: &str| {
        let found = explained(document, format!("[{operation}]").as_bytes());
        assert_eq!(found.split_once("\n  ").map(|(_, line)| line), Some(words), "{found}");
    };
    let at = |path: &str, words: &str| {
        said(&format!(r#"{{"op":"test","path":"{path}","value":1}}"#), words);
    };
    at("/x/y", r#"path: the root has no "x""#);
    at("/a/3", r#"path: "/a" has no "3""#);
    at("/a/-/0", r#"path: "/a" has no "-""#);
    at("/a/18446744073709551616", r#"path: "/a" has no "18446744073709551616""#);
    at("/a/01/0", r#"path: "/a" is an array, and "01" is no index"#);
    at("/a/", r#"path: "/a" is an array, and "" is no index"#);
    at("/a/0/b", r#"path: "/a/0" has no "b""#);
    // As they are written, in whatever spelling.
    at("/a/2/b~1c/d~0", r#"path: "/a/2/b~1c" has no "d~0""#);
    at(r"\/a\u002f2\/b~1c\/\/y", r#"path: "\/a\u002f2\/b~1c\/" has no "y""#);
    at(r"\u002Fz\u002F", r#"path: the root has no "z""#);
    let long = "y".repeat(70);
    let cut = &long[..60];
    at(&format!("/a/1/{long}"), &format!("path: \"/a/1\" is an array, and \"{cut}…\" is no index"));

    said(r#"{"op":"copy","from":"/a/1/1","path":"/b/c"}"#, r#"from: "/a/1" has no "1""#);
    said(r#"{"op":"copy","from":"/a/1","path":"/b/c"}"#, r#"path: the root has no "b""#);
    said(r#"{"op":"move","from":"/a/7","path":"/b/c"}"#, r#"from: "/a" has no "7""#);
    said(
        r#"{"op":"m\u006fve","from":"/a/0","path":"/a/3"}"#,
        r#"path, once from is removed: "/a" has no "3""#,
    );
}

#[test]
fn malformed_operations_say_what_is_wrong() {
    let said = |operation: &str, words: &str| {
        let found = explained(b"[]", format!("[{operation}]").as_bytes());
        assert_eq!(found, format!("fix.json: operation 1{words}"));
    };
    said("7", ": the patch is malformed: it is not an object");
    said("[]", ": the patch is malformed: it is not an object");
    said("{}", ": the patch is malformed: op is missing");
    let unknown = "op is none of add, remove, replace, move, copy, test";
    said(r#"{"op":1}"#, &format!(": the patch is malformed: {unknown}"));
    said(r#"{"op":"ad"}"#, &format!(", ad: the patch is malformed: {unknown}"));
    said(r#"{"op":"add"}"#, ", add: the patch is malformed: path is missing");
    said(r#"{"op":"add","path":1}"#, ", add: the patch is malformed: path is not a string");
    said(r#"{"op":"test","path":""}"#, r#", test "": the patch is malformed: value is missing"#);
    said(r#"{"op":"copy","path":""}"#, r#", copy "": the patch is malformed: from is missing"#);
    said(
        r#"{"op":"move","path":"","from":[]}"#,
        r#", move "": the patch is malformed: from is not a string"#,
    );
    said(
        r#"{"op":"remove","path":"a"}"#,
        r#", remove "a": a pointer is malformed: path does not begin with '/'"#,
    );
    said(
        r#"{"op":"copy","path":"/~1~0","from":"/a~"}"#,
        r#", copy from "/a~" to "/~1~0": a pointer is malformed: from has a '~' without 0 or 1 after it"#,
    );
    let array = "the patch is malformed: it is not an array of operations";
    assert_eq!(explained(b"[]", b"7"), format!("fix.json: {array}"));
    assert_eq!(
        explained(b"[]", b"{\"a\":null}"),
        format!("fix.json: {array}\n  hint: an object is no JSON Patch; a JSON Merge Patch would be one")
    );
    assert_eq!(
        explained(b"[]", b"{\"op\":\"remove\",\"path\":\"/0\"}"),
        format!("fix.json: {array}\n  hint: an array holds the operations, even a single one")
    );
    let many = "[".to_string() + &"1,".repeat(300) + "1]";
    assert_eq!(explained(b"[]", many.as_bytes()), "fix.json: more than 256 operations");
}

/// What is said of every case that the committed vectors refuse: no fault, the
/// text's name first, and nothing that a terminal would obey.
#[test]
fn every_committed_case_can_be_explained() {
    let file = concat!(env!("CARGO_MANIFEST_DIR"), "/../crates/vectors/data/cases");
    let cases = std::fs::read(file).expect("the committed cases");
    let (mut rest, mut refused) = (&cases[..], 0);
    let mut work = Box::new(Work::new());
    while !rest.is_empty() {
        let end = rest.iter().position(|&byte| byte == b'\n').expect("a line");
        let line = std::str::from_utf8(&rest[..end]).expect("a line of text");
        let numbers: Vec<usize> =
            line.split(' ').rev().take(3).map(|word| word.parse().expect("a number")).collect();
        let (document, patch) = (end + 1, end + 2 + numbers[1]);
        let (document, patch) =
            (&rest[document..document + numbers[1]], &rest[patch..patch + numbers[0]]);
        rest = &rest[end + numbers[1] + numbers[0] + 3..];
        if let Err(refusal) = apply(document, patch, &mut vec![0; numbers[2]], &mut work) {
            let words = refusal.explain(document, patch).to_string();
            assert!(words.starts_with("document:") || words.starts_with("patch:"), "{words}");
            assert!(!words.contains(|c: char| c.is_control() && c != '\n'), "{words:?}");
            let lines = ["\n  path: ", "\n  path, once from is removed: ", "\n  from: "];
            let walked = lines.into_iter().any(|line| words.contains(line));
            assert_eq!(walked, refusal.pointer != 0, "{line}: {words}");
            assert_eq!(walked, [11, 12].contains(&refusal.number), "{line}: {words}");
            if refusal.number == 8 && refusal.op > 0 || refusal.number == 10 {
                assert!(words.contains("malformed: "), "{line}: {words}");
            }
            refused += 1;
        }
    }
    assert!(refused > 500, "{refused}");
}

#[test]
fn colours_are_only_added() {
    let (document, patch) = (b"[1,]", b"[]");
    let refusal = apply(document, patch, &mut [0; 8], &mut Work::new()).unwrap_err();
    let plain = refusal.explain(document, patch).to_string();
    let mut painted = refusal.explain(document, patch).painted(Paint::TERMINAL).to_string();
    assert_ne!(plain, painted);
    let Paint { name, fault, hint, off } = Paint::TERMINAL;
    for code in [name, fault, hint, off] {
        painted = painted.replace(code, "");
    }
    assert_eq!(plain, painted);
}
