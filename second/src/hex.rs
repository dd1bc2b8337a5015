//! A text as Intel HEX: SPECIFICATION 13, T-07.
//!
//! One record a line: a colon, and in hexadecimal digits how many bytes of data,
//! an address in two bytes, a type, the data, and a byte that makes the sum of
//! all a multiple of 256.

use crate::refusals;

pub mod cases;
pub mod generate;
pub mod vectors;

/// The longest text, in bytes.
pub const LONGEST_TEXT: usize = 65_536;

/// Bytes of data in a record that is written.
const BYTES_A_RECORD: usize = 16;

/// The number of a refusal, and its place: a line, counted from 1, or 0.
pub type Refusal = (u32, usize);

/// A text as records, the end record last, or the refusal.
pub fn write(text: &[u8], room: usize) -> Result<Vec<u8>, Refusal> {
    if text.len() > LONGEST_TEXT {
        return Err((refusals::TOO_LONG, 0));
    }
    let mut hex = String::new();
    for (index, bytes) in text.chunks(BYTES_A_RECORD).enumerate() {
        hex.push_str(&record(0, index * BYTES_A_RECORD, bytes));
        hex.push('\n');
    }
    hex.push_str(":00000001FF\n");
    fitting(hex.into_bytes(), room)
}

/// A record, without the ending of its line.
pub fn record(kind: u8, address: usize, bytes: &[u8]) -> String {
    let head = [bytes.len() as u8, (address / 256 % 256) as u8, (address % 256) as u8, kind];
    let sum: u32 = head.iter().chain(bytes).map(|&byte| u32::from(byte)).sum();
    let last = (256 - sum % 256) % 256;
    let mut line = String::from(":");
    for byte in head.iter().chain(bytes) {
        line.push_str(&format!("{byte:02X}"));
    }
    line.push_str(&format!("{last:02X}"));
    line
}

/// The text of a file of records, or the refusal.
pub fn read(hex: &[u8], room: usize) -> Result<Vec<u8>, Refusal> {
    let lines = lines(hex);
    let mut text = Vec::new();
    let mut ended = false;
    for (index, line) in lines.iter().enumerate() {
        let refuse = |number| Err((number, index + 1));
        if ended {
            return refuse(refusals::BAD_END);
        }
        let Some(bytes) = bytes_of(line) else {
            return refuse(refusals::NO_RECORD);
        };
        let [count, high, low, kind, ref data @ .., _] = bytes[..] else {
            return refuse(refusals::NO_RECORD);
        };
        let address = usize::from(high) * 256 + usize::from(low);
        let well_formed = match kind {
            0 => count > 0,
            1 => count == 0 && address == 0,
            _ => false,
        };
        if usize::from(count) != data.len() || !well_formed {
            return refuse(refusals::NO_RECORD);
        }
        if bytes.iter().map(|&byte| u32::from(byte)).sum::<u32>() % 256 != 0 {
            return refuse(refusals::WRONG_SUM);
        }
        if kind == 1 {
            ended = true;
            continue;
        }
        if address != text.len() || text.len() + data.len() > LONGEST_TEXT {
            return refuse(refusals::WRONG_ADDRESS);
        }
        text.extend_from_slice(data);
    }
    if !ended {
        return Err((refusals::BAD_END, lines.len() + 1));
    }
    fitting(text, room)
}

/// The lines without their endings: a line feed, before which a carriage return
/// may stand. What stands behind the last line feed is a line too, if it is
/// anything.
fn lines(hex: &[u8]) -> Vec<&[u8]> {
    let mut pieces: Vec<&[u8]> = hex.split(|&byte| byte == b'\n').collect();
    let behind = pieces.pop().unwrap_or_default();
    let mut lines: Vec<&[u8]> =
        pieces.into_iter().map(|piece| piece.strip_suffix(b"\r").unwrap_or(piece)).collect();
    if !behind.is_empty() {
        lines.push(behind);
    }
    lines
}

/// The bytes of a line of a colon and pairs of digits of either case.
fn bytes_of(line: &[u8]) -> Option<Vec<u8>> {
    let digits = line.strip_prefix(b":")?;
    let values: Option<Vec<u32>> =
        digits.iter().map(|&digit| char::from(digit).to_digit(16)).collect();
    let values = values?;
    if values.len() % 2 != 0 {
        return None;
    }
    Some(values.chunks(2).map(|pair| (pair[0] * 16 + pair[1]) as u8).collect())
}

fn fitting(text: Vec<u8>, room: usize) -> Result<Vec<u8>, Refusal> {
    if text.len() <= room {
        Ok(text)
    } else {
        Err((refusals::NO_ROOM, 0))
    }
}
