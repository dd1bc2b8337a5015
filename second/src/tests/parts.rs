//! Small tests of single parts.

use crate::pointer;
use crate::reader::read;
use crate::value::Value;
use crate::vectors;

fn value(text: &str) -> Value {
    read(text.as_bytes()).expect(text)
}

#[test]
fn depth_and_nodes() {
    for (text, depth, nodes) in [
        ("1", 0, 1),
        ("\"[]\"", 0, 1),
        ("[]", 1, 1),
        ("{}", 1, 1),
        (r#"{"a":[1,3]}"#, 2, 4),
        ("[[],[[]],1]", 3, 5),
    ] {
        assert_eq!(value(text).depth(), depth, "{text}");
        assert_eq!(value(text).nodes(), nodes, "{text}");
    }
}

#[test]
fn pointers_go_to_tokens_and_back() {
    for text in ["", "/", "//", "/a", "/a/b", "/~0", "/~1", "/~01", "/a~1b/~0~0/", "/é"] {
        let tokens = pointer::tokens(text).expect(text);
        assert_eq!(pointer::text(&tokens), text);
    }
    assert_eq!(pointer::tokens("/~01"), Some(vec!["~1".to_string()]));
    assert_eq!(pointer::tokens("//"), Some(vec![String::new(), String::new()]));
}

#[test]
fn the_reader_is_not_bound_to_a_length() {
    let long = format!("\"{}\"", "a".repeat(100_000));
    assert!(read(long.as_bytes()).is_ok());
}

/// The documents of short vectors that are refused with a 3, and its place.
fn not_json() -> Vec<(String, Vec<u8>, usize)> {
    let mut found = Vec::new();
    for vector in vectors::all() {
        let case = vector.case;
        match read(&case.document) {
            Err(refusal) if refusal.number == 3 && case.document.len() < 100 => {
                found.push((case.name, case.document, refusal.place));
            }
            _ => {}
        }
    }
    assert!(found.len() > 500);
    found
}

/// The reader goes left to right: what stands after the place has no say.
#[test]
fn a_text_is_refused_at_its_first_bad_byte() {
    for (name, text, place) in not_json() {
        for length in 0..=place {
            if let Err(early) = read(&text[..length]) {
                assert_eq!((early.number, early.place), (3, length), "{name}");
            }
        }
        for length in place + 1..=text.len() {
            let late = read(&text[..length]).map_err(|late| (late.number, late.place));
            assert_eq!(late.err(), Some((3, place)), "{name}");
        }
    }
}

/// The place of a 3 is the length of a prefix that begins some valid text: such
/// a text is found for each, and none is found for a prefix one byte longer.
#[test]
fn what_stands_before_the_place_begins_some_valid_text() {
    for (name, text, place) in not_json() {
        let whole = completed(&text[..place]).unwrap_or_else(|| panic!("{name}: none found"));
        assert!(whole.starts_with(&text[..place]), "{name}");
        assert!(read(&whole).is_ok(), "{name}");
        if place < text.len() {
            assert!(completed(&text[..=place]).is_none(), "{name}");
        }
    }
}

/// A valid text that begins so, found byte by byte: the first byte of a list
/// that leaves a valid text, or one that is only cut short.
fn completed(beginning: &[u8]) -> Option<Vec<u8>> {
    let bytes = b"\"]}:0udceslra\\\x80\x90\xA0";
    let mut text = beginning.to_vec();
    for _ in 0..100 {
        if read(&text).is_ok() {
            return Some(text);
        }
        let next = bytes.iter().find(|&&byte| {
            let longer = [text.as_slice(), &[byte]].concat();
            let length = longer.len();
            read(&longer).map_or_else(|r| (r.number, r.place) == (3, length), |_| true)
        })?;
        text.push(*next);
    }
    None
}
