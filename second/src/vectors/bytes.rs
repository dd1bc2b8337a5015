//! Every byte in three places: alone, in a string, and after a backslash.

use super::{reads, refused, Vector};

/// Three cases for each byte.
pub fn vectors() -> Vec<Vector> {
    let mut vectors = Vec::new();
    for byte in 0..=0xFF_u8 {
        vectors.push(reads(format!("byte-{byte:02x}-alone"), [byte], alone(byte)));
        vectors.push(reads(
            format!("byte-{byte:02x}-in-string"),
            [b'"', byte, b'"'],
            in_string(byte),
        ));
        vectors.push(reads(
            format!("byte-{byte:02x}-escaped"),
            [b'"', b'\\', byte, b'"'],
            escaped(byte),
        ));
    }
    vectors
}

/// The line for a document of this one byte.
fn alone(byte: u8) -> Vec<u8> {
    match byte {
        b'0'..=b'9' => vec![byte],
        // A blank, or the first byte of a longer text: cut short.
        b' ' | b'\t' | b'\n' | b'\r' => refused(3, 1).into(),
        b'[' | b'{' | b'"' | b'-' | b'n' | b't' | b'f' => refused(3, 1).into(),
        _ => refused(3, 0).into(),
    }
}

/// The line for this byte between quotes.
fn in_string(byte: u8) -> Vec<u8> {
    match byte {
        0x00..=0x1F => refused(3, 1).into(),
        // The string is over, and another begins.
        b'"' => refused(3, 2).into(),
        // The closing quote is escaped, and none follows.
        b'\\' => refused(3, 3).into(),
        0x20..=0x7F => vec![b'"', byte, b'"'],
        0x80..=0xC1 | 0xF5..=0xFF => refused(3, 1).into(),
        // The beginning of a longer sequence, which the quote breaks off.
        0xC2..=0xF4 => refused(3, 2).into(),
    }
}

/// The line for this byte between a backslash and the closing quote.
fn escaped(byte: u8) -> Vec<u8> {
    match byte {
        b'"' | b'\\' | b'b' | b'f' | b'n' | b'r' | b't' => vec![b'"', b'\\', byte, b'"'],
        b'/' => b"\"/\"".to_vec(),
        b'u' => refused(3, 3).into(),
        _ => refused(3, 2).into(),
    }
}
