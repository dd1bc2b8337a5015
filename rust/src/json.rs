//! Parts of a JSON text, for messages.
//!
//! These functions look at texts that the library has accepted, so they judge
//! nothing. On any other text the parts are of no use, but there is no fault.

use core::char;
use core::iter;
use core::ops::Range;

/// The elements of the array that a text is, or the members of the object, each
/// as it stands in the text without the blanks around it.
///
/// ```
/// use json_patch::elements;
///
/// let mut parts = elements(br#" [1, {"a":[2,3]}, "],"] "#);
/// assert_eq!(parts.next(), Some(&b"1"[..]));
/// assert_eq!(parts.next(), Some(&br#"{"a":[2,3]}"#[..]));
/// assert_eq!(parts.next(), Some(&br#""],""#[..]));
/// assert_eq!(parts.next(), None);
/// assert_eq!(elements(b"[ ]").count(), 0);
/// assert_eq!(elements(b"17").count(), 0);
/// ```
pub fn elements(text: &[u8]) -> impl Iterator<Item = &[u8]> {
    let text = text.trim_ascii();
    let inside = match text {
        [b'[', inside @ .., b']'] | [b'{', inside @ .., b'}'] => inside.trim_ascii(),
        _ => &[],
    };
    let mut rest = Some(inside).filter(|inside| !inside.is_empty());
    iter::from_fn(move || {
        let text = rest?;
        let end = end_of_item(text);
        rest = text.get(end + 1..);
        Some(text[..end].trim_ascii())
    })
}

/// The value of the member so named, as it stands in an object's text.
pub fn member<'a>(object: &'a [u8], name: &str) -> Option<&'a [u8]> {
    if !matches!(kind(object), Type::Object) {
        return None;
    }
    elements(object).find_map(|item| {
        let (title, rest) = item.split_at_checked(end_of_string(item))?;
        let value = rest.trim_ascii().strip_prefix(b":")?.trim_ascii();
        characters(title).eq(name.chars()).then_some(value)
    })
}

/// What a value is, by its first byte.
#[derive(Clone, Copy, Debug, PartialEq, Eq)]
pub enum Type {
    Object,
    Array,
    String,
    Other,
}

/// What the value of a text is.
pub fn kind(text: &[u8]) -> Type {
    match text.trim_ascii_start().first() {
        Some(b'{') => Type::Object,
        Some(b'[') => Type::Array,
        Some(b'"') => Type::String,
        _ => Type::Other,
    }
}

/// The characters of a string, from its text with the quotation marks.
pub fn characters(string: &[u8]) -> impl Iterator<Item = char> + '_ {
    let inside = string.strip_prefix(b"\"").and_then(|rest| rest.strip_suffix(b"\""));
    let text = inside.and_then(|inside| core::str::from_utf8(inside).ok()).unwrap_or_default();
    let mut rest = text.chars();
    iter::from_fn(move || {
        let first = rest.next()?;
        if first != '\\' {
            return Some(first);
        }
        match rest.next()? {
            'b' => Some('\u{8}'),
            'f' => Some('\u{c}'),
            'n' => Some('\n'),
            'r' => Some('\r'),
            't' => Some('\t'),
            'u' => Some(unescaped(&mut rest)),
            other => Some(other),
        }
    })
}

/// A pointer cut at one of its tokens, counted from 0: what stands before the
/// token's slash, and the token, both as they are written; from the pointer's
/// text with the quotation marks.
pub fn cut_at_token(pointer: &[u8], token: usize) -> Option<(&[u8], &[u8])> {
    let mut slashes = slashes(pointer).skip(token);
    let slash = slashes.next()?;
    let end = slashes.next().map_or(pointer.len() - 1, |next| next.start);
    Some((pointer.get(1..slash.start)?, pointer.get(slash.end..end)?))
}

/// Where a string's text has slashes, however they are spelled.
fn slashes(string: &[u8]) -> impl Iterator<Item = Range<usize>> + '_ {
    let mut at = 1;
    iter::from_fn(move || loop {
        let start = at;
        let (length, slash) = match string.get(start..)? {
            [] => return None,
            [b'\\', b'u', four @ ..] => {
                (6, four.get(..4).is_some_and(|four| four.eq_ignore_ascii_case(b"002f")))
            }
            [b'\\', next, ..] => (2, *next == b'/'),
            [next, ..] => (1, *next == b'/'),
        };
        at += length;
        if slash {
            return Some(start..at);
        }
    })
}

/// The character of four hexadecimal digits, and of four more where the first
/// are half of a surrogate pair.
fn unescaped(rest: &mut core::str::Chars) -> char {
    let mut four = || (0..4).try_fold(0, |n, _| Some(n * 16 + rest.next()?.to_digit(16)?));
    let Some(first) = four() else { return char::REPLACEMENT_CHARACTER };
    if !(0xd800..0xdc00).contains(&first) {
        return char::from_u32(first).unwrap_or(char::REPLACEMENT_CHARACTER);
    }
    rest.nth(1);
    let mut four = || (0..4).try_fold(0, |n, _| Some(n * 16 + rest.next()?.to_digit(16)?));
    let second = four().unwrap_or_default();
    let code = 0x10000 + ((first - 0xd800) << 10) + (second & 0x3ff);
    char::from_u32(code).unwrap_or(char::REPLACEMENT_CHARACTER)
}

/// Where the first item of a list ends: at its comma, or at the end.
fn end_of_item(text: &[u8]) -> usize {
    let (mut at, mut depth) = (0, 0usize);
    while at < text.len() {
        match text[at] {
            b'"' => {
                at += end_of_string(&text[at..]);
                continue;
            }
            b'[' | b'{' => depth += 1,
            b']' | b'}' => depth = depth.saturating_sub(1),
            b',' if depth == 0 => return at,
            _ => {}
        }
        at += 1;
    }
    text.len()
}

/// The length of the string that a text begins with, quotation marks included.
pub(crate) fn end_of_string(text: &[u8]) -> usize {
    let mut at = 1;
    while at < text.len() {
        match text[at] {
            b'"' => return at + 1,
            b'\\' => at += 2,
            _ => at += 1,
        }
    }
    text.len()
}

#[cfg(test)]
mod tests {
    extern crate std;
    use super::*;
    use std::string::String;

    #[test]
    fn members_are_found_by_their_unescaped_names() {
        let object = br#" { "a" : [ 1 , 2 ] , "p\u0061th" : "/x\"," , "" : {} } "#;
        assert_eq!(member(object, "a"), Some(&b"[ 1 , 2 ]"[..]));
        assert_eq!(member(object, "path"), Some(&br#""/x\",""#[..]));
        assert_eq!(member(object, ""), Some(&b"{}"[..]));
        assert_eq!(member(object, "b"), None);
        assert_eq!(member(b"[\"a\",1]", "a"), None);
    }

    #[test]
    fn strings_mean_their_unescaped_text() {
        let text: String = characters(r#""é\n\u00e9\ud83d\ude00\/\"x""#.as_bytes()).collect();
        assert_eq!(text, "é\né😀/\"x");
    }

    #[test]
    fn a_pointer_is_cut_at_its_tokens() {
        let pointer = br#""/a~1b\/\"\u002F\u002fd""#;
        let cut = |token| cut_at_token(pointer, token);
        assert_eq!(cut(0), Some((&b""[..], &b"a~1b"[..])));
        assert_eq!(cut(1), Some((&b"/a~1b"[..], &br#"\""#[..])));
        assert_eq!(cut(2), Some((&br#"/a~1b\/\""#[..], &b""[..])));
        assert_eq!(cut(3), Some((&br#"/a~1b\/\"\u002F"#[..], &b"d"[..])));
        assert_eq!(cut(4), None);
        assert_eq!(cut_at_token(b"\"\"", 0), None);
        assert_eq!(cut_at_token(b"\"/\"", 0), Some((&b""[..], &b""[..])));
    }

    #[test]
    fn no_text_is_a_fault() {
        let pieces =
            [&b"["[..], b"]", b"{", b"}", b"\"", b"\\", b"\\ud800", b",", b":", b"/", b"\xff"];
        for n in 0..pieces.len().pow(4) {
            let mut text = std::vec::Vec::new();
            for power in 0..4 {
                text.extend(pieces[n / pieces.len().pow(power) % pieces.len()]);
            }
            for part in elements(&text) {
                assert!(part.len() <= text.len());
            }
            member(&text, "a");
            characters(&text).count();
            for token in 0..3 {
                cut_at_token(&text, token);
            }
        }
    }
}
