//! Two texts compared: the declaration, the header and the library's source say
//! the same, and so do `compare` and a `test` in a patch.

use json_patch::compare::{compare, compare_in, Compared};
use json_patch::{apply, Kind, Node, Work, WORK_ENTRIES, WORK_NODES};
use std::fs;
use std::path::{Path, PathBuf};

fn root() -> PathBuf {
    Path::new(env!("CARGO_MANIFEST_DIR")).join("..")
}

fn file(name: &str) -> String {
    fs::read_to_string(root().join(name)).expect("a file of the repository")
}

/// What stands between a beginning and the next end after it.
fn between<'a>(text: &'a str, begin: &str, end: &str) -> &'a str {
    let at = text.find(begin).expect(begin) + begin.len();
    &text[at..at + text[at..].find(end).expect(end)]
}

#[test]
fn the_fields_are_those_of_the_call() {
    let header = file("include/json_patch_compare.h");
    let fields: Vec<&str> = between(&header, "typedef struct json_patch_comparison {", "}")
        .lines()
        .filter_map(|line| line.trim().strip_prefix("uint64_t ")?.split(';').next())
        .collect();
    let source = file("rust/src/compare.rs");
    let of_rust: Vec<&str> = between(&source, "pub struct Comparison {", "}")
        .lines()
        .filter_map(|line| line.trim().strip_prefix("pub ")?.strip_suffix(": u64,"))
        .collect();
    assert_eq!(of_rust, fields);
    let answer = file("crates/compare/src/answer.rt");
    let laid_down: Vec<&str> = between(&answer, "-> [u64; 5] {", "]")
        .lines()
        .filter_map(|line| line.split("r.").nth(1))
        .filter_map(|item| item.split(|c: char| !c.is_alphabetic()).next())
        .collect();
    assert_eq!(laid_down, fields);
    let export = file("crates/compare/src/exports.rt");
    assert!(export.contains(&format!("answer: &mut [u64; {}]", fields.len())));
}

/// An object of n members: their names, and for each its number as a value.
fn object(names: impl Iterator<Item = usize>) -> String {
    let members: Vec<String> = names.map(|name| format!("\"n{name}\":{name}")).collect();
    format!("{{{}}}", members.join(","))
}

#[test]
fn the_count_is_that_of_the_definition() {
    let mut work = Work::new();
    let mut is = |first: &str, second: &str, equal: bool, names: u64| {
        let found = compare(first.as_bytes(), second.as_bytes(), &mut work);
        assert_eq!(found, Ok(Compared { equal, names }), "{first} {second}");
    };
    is(r#"{"a":1,"b":2}"#, r#"{"b":2,"a":1}"#, true, 3);
    is(r#"{"c":1,"b":2}"#, r#"{"a":1,"b":2}"#, false, 2);
    is(r#"{"a":1,"b":2}"#, r#"{"a":9,"b":2}"#, false, 1);
    is(r#"{"a":{"x":1,"y":2},"b":3}"#, r#"{"a":{"y":2,"x":1},"b":3}"#, true, 6);
    // Equal objects of n members cost 1 + 2 + .. + n in either order.
    let (ahead, back) = (object(0..1500), object((0..1500).rev()));
    for second in [&ahead, &back] {
        is(&ahead, second, true, 1500 * 1501 / 2);
    }
    // A name that is nowhere costs as many as there are members.
    is(&object(1..1501), &back, false, (1..1500).map(|k| 1500 - k).sum::<u64>() + 1500);
    // Arrays cost no names, and their lengths differ at once.
    is("[[[]],{}]", "[[[]],{}]", true, 0);
    is(r#"[{"a":1},2]"#, r#"[{"a":1}]"#, false, 0);
}

#[test]
fn equal_as_a_test_is() {
    let mut work = Work::new();
    let texts = [
        "0",
        "-0.0",
        "1e2",
        "100",
        "\"1\"",
        "[1,[]]",
        "{}",
        r#"{"a":{}}"#,
        r#"{"\u0061":{ }}"#,
        "null",
    ];
    for first in texts {
        for second in texts {
            let patch = format!(r#"[{{"op":"test","path":"","value":{second}}}]"#);
            let tested = apply(first.as_bytes(), patch.as_bytes(), &mut [0; 64], &mut work);
            let found = compare(first.as_bytes(), second.as_bytes(), &mut work).expect("two texts");
            assert_eq!(found.equal, tested.is_ok(), "{first} {second}");
        }
    }
}

#[test]
fn the_first_refusal_is_given() {
    let mut work = Work::new();
    let long = vec![b' '; 32_769];
    let mut refused = |first: &[u8], second: &[u8], number: u32, text: u32, place: usize| {
        let refusal = compare(first, second, &mut work).unwrap_err();
        assert_eq!((refusal.number, refusal.text, refusal.place), (number, text, place));
        assert_eq!((refusal.op, refusal.pointer), (0, 0));
    };
    refused(&long, &long, 2, 1, 0);
    refused(b"[", &long, 2, 2, 0);
    refused(b"[", b"", 3, 1, 1);
    refused(b"1", b"", 3, 2, 0);
    refused(br#"{"a":1,"a":2}"#, b"", 4, 1, 9);
    refused(b"1", &[b'['; 33], 5, 2, 32);
    assert!(
        compare(&[b' '; 32_768], b"1", &mut work).is_err_and(|r| r.kind() == Some(Kind::NotJson))
    );
}

/// The work area is zero for its stated length, and otherwise unchanged.
#[test]
fn the_work_area_afterwards() {
    let seven = Node { start: 7, ..Node::ZERO };
    for second in [&b"[]"[..], b"[", br#"{"a":{"b":[1,2]},"c":3}"#, &[b' '; 40_000]] {
        let first = br#"{"c":3,"a":{"b":[1,2]}}"#;
        let mut nodes = vec![seven; WORK_NODES + 1];
        let mut index = vec![7; WORK_ENTRIES + 1];
        let _ = compare_in(first, second, &mut nodes, &mut index);
        assert!(nodes[..WORK_NODES].iter().all(|&node| node == Node::ZERO));
        assert!(index[..WORK_ENTRIES].iter().all(|&entry| entry == 0));
        assert_eq!((nodes[WORK_NODES], index[WORK_ENTRIES]), (seven, 7));
        let mut short = vec![seven; WORK_NODES - 1];
        let refusal = compare_in(first, second, &mut short, &mut index).unwrap_err();
        assert_eq!((refusal.number, refusal.text, refusal.op, refusal.place), (1, 0, 0, 0));
        assert!(short.iter().all(|&node| node == seven));
    }
}
