//! Pointers as links: SPECIFICATION 12, T-14; RFC 6901, section 6.
//!
//! A link is `#` and the pointer's bytes, those outside a small set of ASCII
//! written as `%` and two hexadecimal digits.

use crate::{pointer, refusals};
use std::str;

pub mod cases;
pub mod generate;
pub mod vectors;

/// The longest link that is read, in bytes.
pub const LONGEST_LINK: usize = 32_768;

/// The marks that are kept as they are, beside ASCII letters and digits.
const MARKS: &[u8] = b"-._~!$&'()*+,;=:@/?";

fn kept(byte: u8) -> bool {
    byte.is_ascii_alphanumeric() || MARKS.contains(&byte)
}

/// The link of a pointer, or the refusal's number.
pub fn write(pointer: &[u8], room: usize) -> Result<Vec<u8>, u32> {
    let text = str::from_utf8(pointer).map_err(|_| refusals::MALFORMED_POINTER)?;
    pointer::tokens(text).ok_or(refusals::MALFORMED_POINTER)?;
    let mut link = String::from("#");
    for &byte in pointer {
        if kept(byte) {
            link.push(char::from(byte));
        } else {
            link.push_str(&format!("%{byte:02X}"));
        }
    }
    fitting(link.into_bytes(), room)
}

/// The pointer of a link, or the refusal's number.
pub fn read(link: &[u8], room: usize) -> Result<Vec<u8>, u32> {
    if link.len() > LONGEST_LINK {
        return Err(refusals::TOO_LONG);
    }
    let bytes = link.strip_prefix(b"#").and_then(decoded).ok_or(refusals::BAD_LINK)?;
    let text = str::from_utf8(&bytes).map_err(|_| refusals::BAD_LINK)?;
    pointer::tokens(text).ok_or(refusals::MALFORMED_POINTER)?;
    fitting(bytes, room)
}

/// What stands between the percents as it is, and for each percent its byte;
/// nothing if a byte may not stand there.
///
/// The text is cut at its percents: every piece but the first begins with the
/// two digits.
fn decoded(fragment: &[u8]) -> Option<Vec<u8>> {
    let mut bytes = Vec::new();
    for (index, piece) in fragment.split(|&byte| byte == b'%').enumerate() {
        let plain = if index == 0 {
            piece
        } else {
            let digits = str::from_utf8(piece.get(..2)?).ok()?;
            if !digits.bytes().all(|digit| digit.is_ascii_hexdigit()) {
                return None;
            }
            bytes.push(u8::from_str_radix(digits, 16).ok()?);
            &piece[2..]
        };
        if !plain.iter().all(|&byte| kept(byte)) {
            return None;
        }
        bytes.extend_from_slice(plain);
    }
    Some(bytes)
}

fn fitting(text: Vec<u8>, room: usize) -> Result<Vec<u8>, u32> {
    if text.len() <= room {
        Ok(text)
    } else {
        Err(refusals::NO_ROOM)
    }
}
