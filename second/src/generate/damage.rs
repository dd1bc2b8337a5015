//! Damaging a text.

use super::random::Random;

/// Bytes and sequences that often change what a text means.
#[rustfmt::skip]
const PIECES: &[&[u8]] = &[
    b"\"", b"\\", b"/", b"{", b"}", b"[", b"]", b":", b",", b" ", b"\n", b"0", b"9", b"-", b"+",
    b".", b"e", b"E", b"u", b"t", b"n", b"~", b"\0", b"\x1F", b"\x7F", b"\\u", b"\\ud800",
    b"\\udc00", b"\\u0061", b"\\ud83d\\ude00", b"null", b"\xC3\xA9", b"\xC0\xAF", b"\xE0\x80",
    b"\xED\xA0\x80", b"\xEF\xBB\xBF", b"\xF0\x9F\x98\x80", b"\xF4\x90\x80\x80", b"\x80", b"\xFF",
];

/// Changes a text in one place, or in a few.
pub fn damage(random: &mut Random, text: &mut Vec<u8>) {
    let times = if random.chance(70) { 1 } else { random.between(2, 4) };
    for _ in 0..times {
        once(random, text);
    }
}

fn once(random: &mut Random, text: &mut Vec<u8>) {
    let at = random.below(text.len());
    if text.is_empty() || random.chance(25) {
        let place = random.between(0, text.len());
        let piece = random.pick(PIECES);
        text.splice(place..place, piece.iter().copied());
        return;
    }
    match random.below(7) {
        0 => text[at] ^= 1 << random.below(8),
        1 => text[at] = random.byte(),
        2 => text[at] = random.pick(PIECES)[0],
        3 => drop(text.remove(at)),
        4 => text.truncate(at),
        5 => {
            let other = random.below(text.len());
            text.swap(at, other);
        }
        _ => {
            let end = (at + random.between(1, 12)).min(text.len());
            let again = text[at..end].to_vec();
            text.splice(at..at, again);
        }
    }
}
