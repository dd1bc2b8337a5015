//! Generated texts for both calls: any bytes, and Intel HEX, whole and damaged.

use super::cases::Case;
use super::{read, record, write};
use crate::generate::random::Random;

/// Pieces that do harm in a line, or between lines.
const PIECES: &[&[u8]] = &[
    b"\n",
    b"\r",
    b"\r\n",
    b"\r\r\n",
    b"\n\n",
    b":",
    b"::",
    b" ",
    b"0",
    b"00",
    b"g",
    b"G",
    b"@",
    b"`",
    b"/",
    b"f",
    b"F",
    b"\0",
    b"\xFF",
    b":00000001FF",
    b":00000001FF\n",
    b":00000001ff\r\n",
    b":00000001FE\n",
    b":0000000000\n",
    b":0000010100FE\n",
    b":020000021000EC\n",
    b":020000040000FA\n",
    b":0400000500000000F7\n",
    b":0100000041BE\n",
    b":01FFFF004100\n",
];

/// The case of a seed and an index.
pub fn case(seed: u64, index: u64) -> Case {
    let mut random = Random::new(seed, index);
    let mut text = match random.below(20) {
        0..=12 => file(&mut random),
        13..=14 => write(&bytes(&mut random), usize::MAX).unwrap_or_default(),
        15..=16 => pieces(&mut random),
        _ => bytes(&mut random),
    };
    let damages = match random.below(10) {
        0..=4 => 0,
        5..=8 => 1,
        _ => random.between(1, 4),
    };
    for _ in 0..damages {
        damage(&mut text, &mut random);
    }
    let room = room(&text, &mut random);
    Case { name: format!("g{seed}-{index}"), room, text }
}

/// A text to be written.
fn bytes(random: &mut Random) -> Vec<u8> {
    let length = match random.below(40) {
        0..=9 => random.below(4),
        10..=29 => random.below(40),
        30..=38 => random.between(1, 20) * 16 + random.below(3) - 1,
        _ => random.below(3_000),
    };
    (0..length).map(|_| random.byte()).collect()
}

fn pieces(random: &mut Random) -> Vec<u8> {
    let mut text = Vec::new();
    for _ in 0..random.below(8) {
        text.extend_from_slice(random.pick(PIECES));
    }
    text
}

/// Records that follow on, or nearly: now and then one has another address,
/// type, count or sum.
fn file(random: &mut Random) -> Vec<u8> {
    let mut text = Vec::new();
    let mut address = 0;
    let fault = if random.chance(50) { random.below(8) } else { usize::MAX };
    for index in 0..random.below(7) {
        let count = match random.below(12) {
            0 => 255,
            1 => random.between(1, 255),
            2 => 1,
            _ => random.between(1, 20),
        };
        let data: Vec<u8> = (0..count).map(|_| random.byte()).collect();
        let mut line = record(0, address, &data);
        if index == fault {
            line = faulty(random, address, &data);
        }
        put_line(&mut text, &line, random);
        address += count;
    }
    if random.chance(90) {
        let end = match random.below(20) {
            0 => record(1, random.below(3), &[]),
            1 => record(1, 0, &[random.byte()]),
            2 => ":00000001FE".to_string(),
            _ => record(1, 0, &[]),
        };
        put_line(&mut text, &end, random);
    }
    if random.chance(5) {
        put_line(&mut text, &record(0, address, b"x"), random);
    }
    if random.chance(30) {
        let ending = if text.ends_with(b"\r\n") { random.between(1, 2) } else { 1 };
        text.truncate(text.len().saturating_sub(ending));
    }
    text
}

/// A record with something amiss.
fn faulty(random: &mut Random, address: usize, data: &[u8]) -> String {
    match random.below(8) {
        0 => record(0, address + 1, data),
        1 => record(0, address.saturating_sub(1), data),
        2 => record(0, random.below(65_536), data),
        3 => record(random.between(1, 5) as u8, address, data),
        4 => record(0, address, &[]),
        5 => record(random.byte(), random.below(3), &data[..random.below(3).min(data.len())]),
        6 => {
            let line = record(0, address, data);
            let last = format!("{:02X}", random.byte());
            format!("{}{last}", &line[..line.len() - 2])
        }
        _ => {
            let line = record(0, address, data);
            format!(":{:02X}{}", random.byte(), &line[3..])
        }
    }
}

/// A line in upper case, in lower case or in both, with either ending.
fn put_line(text: &mut Vec<u8>, line: &str, random: &mut Random) {
    let style = random.below(4);
    for byte in line.bytes() {
        let lower = style == 1 || style == 2 && random.chance(50);
        text.push(if lower { byte.to_ascii_lowercase() } else { byte });
    }
    let ending: &[u8] = if random.chance(30) { b"\r\n" } else { b"\n" };
    text.extend_from_slice(ending);
}

/// A byte changed, put in or taken out; a digit changed; a piece put in; the end
/// cut off; a part doubled.
fn damage(text: &mut Vec<u8>, random: &mut Random) {
    let at = random.below(text.len() + 1);
    match random.below(7) {
        0 if at < text.len() => text[at] = random.byte(),
        1 => text.insert(at, random.byte()),
        2 if at < text.len() => {
            text.remove(at);
        }
        3 => {
            let piece = random.pick(PIECES);
            text.splice(at..at, piece.iter().copied());
        }
        4 if at < text.len() => text[at] = random.pick(b"0123456789ABCDEFabcdef"),
        5 => {
            let part = text[at..].to_vec();
            text.extend(part.iter().take(80));
        }
        _ => text.truncate(at),
    }
}

/// Room enough, or just enough, or a byte short, of one of the answers; or any.
fn room(text: &[u8], random: &mut Random) -> usize {
    let answer = if random.chance(50) { write(text, usize::MAX) } else { read(text, usize::MAX) };
    let length = answer.map_or(0, |text| text.len());
    match random.below(8) {
        0 => length,
        1 => length.saturating_sub(1),
        2 => random.below(length + 2),
        _ => length + random.below(40),
    }
}
