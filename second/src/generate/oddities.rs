//! Texts that are odd from the start: strings, repeated names, tokens, bytes.

use super::random::Random;
use super::spelling::{put_string, spell, Style};
use super::trees::tree;
use super::Texts;

/// A text as the document with an easy patch, or inside a patch.
pub fn somewhere(random: &mut Random, text: Vec<u8>) -> Texts {
    match random.below(4) {
        0 => {
            let op = random.pick(&["test", "add", "replace"]);
            let before = format!(r#"[{{"op":"{op}","path":"","value":"#);
            (b"[1]".to_vec(), [before.as_bytes(), &text, b"}]"].concat())
        }
        1 => (text, br#"[{"op":"copy","from":"","path":"/-"}]"#.to_vec()),
        _ => (text, b"[]".to_vec()),
    }
}

/// Parts of strings that are good.
#[rustfmt::skip]
const GOOD: &[&[u8]] = &[
    b"a", b"/", b" ", b"\x7F", b"\\\"", b"\\\\", b"\\/", b"\\b", b"\\f", b"\\n", b"\\r", b"\\t",
    b"\\u0000", b"\\u001F", b"\\u0041", b"\\u007f", b"\\u00e9", b"\\u07FF", b"\\u0800", b"\\uD7FF",
    b"\\ue000", b"\\uFEFF", b"\\uffff", b"\\ud800\\udc00", b"\\uDBFF\\uDFFF", b"\\ud83d\\uDE00",
    b"\xC2\x80", b"\xDF\xBF", b"\xE0\xA0\x80", b"\xE0\xBF\xBF", b"\xE1\x80\x80", b"\xEC\xBF\xBF",
    b"\xED\x80\x80", b"\xED\x9F\xBF", b"\xEE\x80\x80", b"\xEF\xBF\xBF", b"\xEF\xBB\xBF",
    b"\xF0\x90\x80\x80", b"\xF0\xBF\xBF\xBF", b"\xF1\x80\x80\x80", b"\xF3\xBF\xBF\xBF",
    b"\xF4\x80\x80\x80", b"\xF4\x8F\xBF\xBF",
];

/// Parts of strings that are not.
#[rustfmt::skip]
const BAD: &[&[u8]] = &[
    b"\n", b"\0", b"\x1F", b"\\x", b"\\u", b"\\u0", b"\\u00", b"\\u000", b"\\u00g0", b"\\U0041",
    b"\\ud800", b"\\ud800\\n", b"\\ud800\\u0041", b"\\ud800\\ud800", b"\\udbff\\ue000", b"\\udc00",
    b"\\uDFFF", b"\\ud83d\\u", b"\\ud83d\\ud", b"\\ud83d\\ude", b"\\ud83d\\ude0",
    b"\\ud83d\\\\ude00", b"\x80", b"\xBF", b"\xC0\x80", b"\xC1\xBF", b"\xC2", b"\xC2\x7F",
    b"\xC2\xC0", b"\xE0\x9F\xBF", b"\xE0\x80\x80", b"\xE1\x7F\x80", b"\xE1\x80\xC0", b"\xE1\x80",
    b"\xED\xA0\x80", b"\xED\xBF\xBF", b"\xEF\xBF", b"\xF0\x8F\xBF\xBF", b"\xF0\x90\x80",
    b"\xF0\x90", b"\xF1\x80\x80\xC0", b"\xF4\x90\x80\x80", b"\xF4\x8F\xBF", b"\xF5\x80\x80\x80",
    b"\xFE", b"\xFF", b"\"",
];

/// Strings of good parts and a few bad ones, as elements or as names.
pub fn strings(random: &mut Random) -> Texts {
    let bad = random.pick(&[0, 3, 15]);
    let mut text = b"[".to_vec();
    for at in 0..random.between(1, 5) {
        if at > 0 {
            text.push(b',');
        }
        let mut string = b"\"".to_vec();
        for _ in 0..random.below(6) {
            let parts = if random.chance(bad) { BAD } else { GOOD };
            string.extend_from_slice(random.pick(parts));
        }
        string.push(b'"');
        if random.chance(30) {
            text.push(b'{');
            text.append(&mut string);
            text.extend_from_slice(b":0}");
        } else {
            text.append(&mut string);
        }
    }
    text.push(b']');
    if random.chance(10) {
        text.truncate(random.between(0, text.len()));
    }
    somewhere(random, text)
}

/// An object whose names often repeat, in one spelling or another.
pub fn repeated_names(random: &mut Random) -> Texts {
    let free = Style::some(random);
    let mut text = String::from("{");
    for at in 0..random.between(1, 6) {
        if at > 0 {
            text.push(',');
        }
        put_name(random, free, &mut text);
        match random.below(4) {
            0 => {
                text.push('{');
                put_name(random, free, &mut text);
                text.push_str("1,");
                put_name(random, free, &mut text);
                text.push_str("2}");
            }
            1 => text.push_str("[]"),
            2 if random.chance(5) => text.push('x'),
            _ => text.push('0'),
        }
    }
    text.push('}');
    somewhere(random, text.into_bytes())
}

/// One of a few names, and a colon.
fn put_name(random: &mut Random, style: Style, text: &mut String) {
    const NAMES: &[&str] = &["", "a", "b", "é", "a/b", "\"", "😀", "\n", "aa", "0", "c", "d", "e"];
    let name = random.pick(NAMES);
    put_string(random, style, name, text);
    text.push(':');
}

/// Tokens of JSON in any order.
pub fn soup(random: &mut Random) -> Texts {
    #[rustfmt::skip]
    const TOKENS: &[&str] = &[
        "{", "}", "[", "]", ":", ",", "\"a\"", "\"\"", "\"b\"", "0", "-1", "1.5", "1e3", "null",
        "true", "false", " ", "\n", "{\"a\":", "[1,", "\"op\":\"add\"", "\"path\":\"\"", "\"", "-",
        "01",
    ];
    let mut text = String::new();
    for _ in 0..random.below(14) {
        text.push_str(random.pick(TOKENS));
    }
    let other = tree(random, 4, 2);
    let other = spell(random, Style::TIGHT, &other);
    if random.chance(50) {
        (text.into_bytes(), b"[]".to_vec())
    } else {
        (other, text.into_bytes())
    }
}

/// Bytes.
pub fn noise(random: &mut Random) -> Texts {
    let mut bytes = || (0..random.below(30)).map(|_| random.byte()).collect::<Vec<u8>>();
    let (left, right) = (bytes(), bytes());
    if random.chance(50) {
        (left, right)
    } else {
        (b"[]".to_vec(), right)
    }
}
