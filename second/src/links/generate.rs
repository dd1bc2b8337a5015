//! Generated texts for both calls: pointers and links, whole and damaged.

use super::cases::Case;
use super::{read, write};
use crate::generate::random::Random;

/// Pieces of pointers, of links, and of what is neither.
const PIECES: &[&[u8]] = &[
    b"/",
    b"/",
    b"/",
    b"~0",
    b"~1",
    b"~",
    b"~2",
    b"a",
    b"Z",
    b"0",
    b"9",
    b"-",
    b"?",
    b"+",
    b"%",
    b"%25",
    b"%2f",
    b"%2F",
    b"%7E",
    b"%7e0",
    b"%00",
    b"%4",
    b"%g1",
    b"%C3%A9",
    b"%c3%a9",
    b"%E2%82%AC",
    b"%F0%9F%98%80",
    b"%C0%AF",
    b"%E0%9F%BF",
    b"%ED%A0%80",
    b"%F4%90%80%80",
    b"%80",
    b"%FF",
    b"%E2%82",
    b"#",
    b" ",
    b"\"",
    b"\\",
    b"\xC3\xA9",
    b"\xE2\x82\xAC",
    b"\xF0\x9F\x98\x80",
    b"\xC0\xAF",
    b"\xED\xA0\x80",
    b"\xFF",
    b"\x00",
    b"^",
    b"foo",
    b"cut",
    b"~01",
    b":@!$&'()*,;=",
    b"\xEF\xBF\xBF",
    b"\xF4\x8F\xBF\xBF",
    b"\x7F",
    b"%7F",
];

/// The case of a seed and an index.
pub fn case(seed: u64, index: u64) -> Case {
    let mut random = Random::new(seed, index);
    let mut text = match random.below(10) {
        0..=3 => link(&mut random),
        4..=6 => pointer(&mut random),
        7 => pieces(&mut random),
        8 => respelled(&mut random),
        _ => (0..random.below(12)).map(|_| random.byte()).collect(),
    };
    for _ in 0..damages(&mut random) {
        damage(&mut text, &mut random);
    }
    let room = room(&text, &mut random);
    Case { name: format!("g{seed}-{index}"), room, text }
}

fn damages(random: &mut Random) -> usize {
    match random.below(10) {
        0..=5 => 0,
        6..=7 => 1,
        _ => random.between(1, 3),
    }
}

/// Pieces in any order.
fn pieces(random: &mut Random) -> Vec<u8> {
    let first: &[u8] = if random.chance(70) { b"#" } else { b"" };
    let mut text = first.to_vec();
    for _ in 0..random.below(10) {
        text.extend_from_slice(random.pick(PIECES));
    }
    text
}

/// A pointer: characters of all lengths.
fn pointer(random: &mut Random) -> Vec<u8> {
    let mut text = String::new();
    for _ in 0..random.below(5) {
        text.push('/');
        for _ in 0..random.below(8) {
            match random.below(12) {
                0 => text.push_str("~0"),
                1 => text.push_str("~1"),
                2..=8 => text.push(char::from(random.between(0x20, 0x7D) as u8)),
                _ => text.push(character(random)),
            }
        }
    }
    text.into_bytes()
}

/// Any character; more often one at an end of a row of the table of UTF-8.
fn character(random: &mut Random) -> char {
    const ENDS: &[u32] = &[
        0, 0x1F, 0x7F, 0x80, 0x7FF, 0x800, 0xFFF, 0x1000, 0xD7FF, 0xE000, 0xFFFF, 0x1_0000,
        0x10_FFFF,
    ];
    let code = if random.chance(40) { random.pick(ENDS) } else { random.below(0x11_0000) as u32 };
    char::from_u32(code).unwrap_or('\u{fffd}')
}

/// The link of a pointer.
fn link(random: &mut Random) -> Vec<u8> {
    write(&pointer(random), usize::MAX).unwrap_or_default()
}

/// A link with bytes in percents that need not be, and digits of either case.
fn respelled(random: &mut Random) -> Vec<u8> {
    let mut text = b"#".to_vec();
    for byte in pointer(random) {
        let plain = byte.is_ascii_alphanumeric() || b"-._~!$&'()*+,;=:@/?".contains(&byte);
        if plain && random.chance(60) {
            text.push(byte);
        } else if random.chance(50) {
            text.extend(format!("%{byte:02x}").bytes());
        } else {
            text.extend(format!("%{byte:02X}").bytes());
        }
    }
    text
}

/// A byte changed, put in or taken out; a piece put in; the end cut off.
fn damage(text: &mut Vec<u8>, random: &mut Random) {
    let at = random.below(text.len() + 1);
    match random.below(5) {
        0 if at < text.len() => text[at] = random.byte(),
        1 => text.insert(at, random.byte()),
        2 if at < text.len() => {
            text.remove(at);
        }
        3 => {
            let piece = random.pick(PIECES);
            text.splice(at..at, piece.iter().copied());
        }
        _ => text.truncate(at),
    }
}

/// Room enough, or just enough, or a byte short, of one of the answers; or any.
fn room(text: &[u8], random: &mut Random) -> usize {
    let answer = if random.chance(50) { write(text, usize::MAX) } else { read(text, usize::MAX) };
    let length = answer.map_or(0, |text| text.len());
    match random.below(8) {
        0 => length,
        1 => length.saturating_sub(1),
        2 => random.below(length + 2),
        _ => length + random.below(40),
    }
}
