//! Reading a string: UTF-8 and escapes.
//!
//! Both are refused at the first byte after which no valid text can follow. To
//! know that byte, the code points that are still possible are kept as a range
//! while the bytes (or the hex digits) of one come in. When the range no longer
//! touches what is allowed, the byte that caused it is the place.

use crate::cursor::{Cursor, Refusal};
use crate::refusals::NOT_JSON;

/// Ranges of code points, both ends included.
type Ranges = &'static [(u32, u32)];

/// What UTF-8 writes in one, two, three and four bytes; the surrogates are left
/// out, and so is all that fewer bytes could have written.
const ONE_BYTE: Ranges = &[(0x00, 0x7F)];
const TWO_BYTES: Ranges = &[(0x80, 0x7FF)];
const THREE_BYTES: Ranges = &[(0x800, 0xD7FF), (0xE000, 0xFFFF)];
const FOUR_BYTES: Ranges = &[(0x1_0000, 0x10_FFFF)];

/// What a `\u` may say, where no high surrogate stands before it: anything but
/// a low surrogate.
const FIRST_UNIT: Ranges = &[(0x0000, 0xDBFF), (0xE000, 0xFFFF)];
const HIGH_SURROGATE: Ranges = &[(0xD800, 0xDBFF)];
const LOW_SURROGATE: Ranges = &[(0xDC00, 0xDFFF)];

/// Reads the string whose opening quote is next; passes its closing quote.
pub fn string(cursor: &mut Cursor) -> Result<String, Refusal> {
    cursor.step();
    let mut plain = String::new();
    loop {
        match cursor.peek() {
            Some(b'"') => {
                cursor.step();
                return Ok(plain);
            }
            Some(b'\\') => {
                cursor.step();
                plain.push(escape(cursor)?);
            }
            Some(0x20..) => plain.push(character(cursor)?),
            // A raw control character, or the end of the text.
            Some(_) | None => return Err(cursor.refuse(NOT_JSON)),
        }
    }
}

/// Reads one raw character in UTF-8.
fn character(cursor: &mut Cursor) -> Result<char, Refusal> {
    // The lead byte: its bits, how many bytes follow, what those may write.
    let (bits, following, allowed) = match cursor.peek() {
        Some(lead @ 0x00..=0x7F) => (lead, 0, ONE_BYTE),
        Some(lead @ 0xC0..=0xDF) => (lead & 0x1F, 1, TWO_BYTES),
        Some(lead @ 0xE0..=0xEF) => (lead & 0x0F, 2, THREE_BYTES),
        Some(lead @ 0xF0..=0xF7) => (lead & 0x07, 3, FOUR_BYTES),
        _ => return Err(cursor.refuse(NOT_JSON)),
    };
    let mut code = u32::from(bits);
    let mut left = following;
    loop {
        if !still_possible(code, 6 * left, allowed) {
            return Err(cursor.refuse(NOT_JSON));
        }
        if left == 0 {
            return finish(cursor, code);
        }
        cursor.step();
        let Some(next @ 0x80..=0xBF) = cursor.peek() else {
            return Err(cursor.refuse(NOT_JSON));
        };
        code = (code << 6) | u32::from(next & 0x3F);
        left -= 1;
    }
}

/// Reads what stands after a backslash.
fn escape(cursor: &mut Cursor) -> Result<char, Refusal> {
    let plain = match cursor.peek() {
        Some(b'"') => '"',
        Some(b'\\') => '\\',
        Some(b'/') => '/',
        Some(b'b') => '\u{08}',
        Some(b'f') => '\u{0C}',
        Some(b'n') => '\n',
        Some(b'r') => '\r',
        Some(b't') => '\t',
        Some(b'u') => return unicode_escape(cursor),
        _ => return Err(cursor.refuse(NOT_JSON)),
    };
    cursor.step();
    Ok(plain)
}

/// Reads `uXXXX`, or the pair `uXXXX\uXXXX`; the first `u` is next.
fn unicode_escape(cursor: &mut Cursor) -> Result<char, Refusal> {
    let first = unit(cursor, FIRST_UNIT)?;
    if !still_possible(first, 0, HIGH_SURROGATE) {
        return finish(cursor, first);
    }
    cursor.step();
    if !cursor.skip(b'\\') || cursor.peek() != Some(b'u') {
        return Err(cursor.refuse(NOT_JSON));
    }
    let second = unit(cursor, LOW_SURROGATE)?;
    finish(cursor, 0x1_0000 + ((first - 0xD800) << 10) + (second - 0xDC00))
}

/// Reads four hex digits that say something allowed; the `u` before them is
/// next, and the last of them is next afterwards.
fn unit(cursor: &mut Cursor, allowed: Ranges) -> Result<u32, Refusal> {
    let mut code = 0;
    for left in [3, 2, 1, 0] {
        cursor.step();
        let digit = cursor.peek().and_then(|byte| char::from(byte).to_digit(16));
        let Some(digit) = digit else {
            return Err(cursor.refuse(NOT_JSON));
        };
        code = code * 16 + digit;
        if !still_possible(code, 4 * left, allowed) {
            return Err(cursor.refuse(NOT_JSON));
        }
    }
    Ok(code)
}

/// Whether an allowed code point begins with the bits of `begun`, when as many
/// bits as `open` are still to come.
fn still_possible(begun: u32, open: u32, allowed: Ranges) -> bool {
    let lowest = begun << open;
    let highest = lowest + ((1 << open) - 1);
    allowed.iter().any(|&(first, last)| first <= highest && lowest <= last)
}

/// The character of a code point whose last byte is next; passes that byte.
fn finish(cursor: &mut Cursor, code: u32) -> Result<char, Refusal> {
    let character = char::from_u32(code).ok_or(cursor.refuse(NOT_JSON))?;
    cursor.step();
    Ok(character)
}
