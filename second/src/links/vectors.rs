//! The committed cases of links, each with what it must give both ways.
//!
//! The answers come from the papers, written by hand or made by a small rule
//! that stands beside them. None is taken from the program; a test checks that
//! the program gives them.

use super::cases::Case;

/// The output that the committed cases lend, where they do not say otherwise.
pub const ROOM: usize = 65_536;

/// A case and its two answers: the text, or the number of the refusal.
#[derive(Clone, Debug)]
pub struct Vector {
    /// The case.
    pub case: Case,
    /// What is written of it as a pointer.
    pub written: Result<Vec<u8>, u32>,
    /// What is read of it as a link.
    pub read: Result<Vec<u8>, u32>,
}

/// Name, text, what is written, what is read.
type Row = (&'static str, &'static [u8], Result<&'static [u8], u32>, Result<&'static [u8], u32>);

/// All committed cases.
pub fn all() -> Vec<Vector> {
    [rows(ROWS), section_6(), every_byte(), limits(), rooms()].concat()
}

fn rows(rows: &[Row]) -> Vec<Vector> {
    rows.iter()
        .map(|&(name, text, written, read)| {
            vector(name, ROOM, text, written.map(<[u8]>::to_vec), read.map(<[u8]>::to_vec))
        })
        .collect()
}

fn vector(
    name: impl Into<String>,
    room: usize,
    text: impl Into<Vec<u8>>,
    written: Result<Vec<u8>, u32>,
    read: Result<Vec<u8>, u32>,
) -> Vector {
    Vector { case: Case { name: name.into(), room, text: text.into() }, written, read }
}

/// The twelve of RFC 6901, section 6: each link names the pointer of section 5,
/// and each pointer is written as that link.
const SECTION_6: &[(&str, &[u8], &[u8])] = &[
    ("root", b"#", b""),
    ("foo", b"#/foo", b"/foo"),
    ("foo-0", b"#/foo/0", b"/foo/0"),
    ("empty-token", b"#/", b"/"),
    ("slash", b"#/a~1b", b"/a~1b"),
    ("percent", b"#/c%25d", b"/c%d"),
    ("caret", b"#/e%5Ef", b"/e^f"),
    ("bar", b"#/g%7Ch", b"/g|h"),
    ("backslash", b"#/i%5Cj", b"/i\\j"),
    ("quote", b"#/k%22l", b"/k\"l"),
    ("blank", b"#/%20", b"/ "),
    ("tilde", b"#/m~0n", b"/m~0n"),
];

fn section_6() -> Vec<Vector> {
    SECTION_6
        .iter()
        .flat_map(|&(name, link, pointer)| {
            // A pointer is no link, since it does not begin with `#`; a link is no
            // pointer, since it does not begin with `/`.
            [
                vector(format!("section-6-{name}"), ROOM, link, Err(10), Ok(pointer.to_vec())),
                vector(format!("section-5-{name}"), ROOM, pointer, Ok(link.to_vec()), Err(22)),
            ]
        })
        .collect()
}

/// Every byte, raw and in percents, behind `#/` and behind `/`.
fn every_byte() -> Vec<Vector> {
    let marks = "-._~!$&'()*+,;=:@/?";
    let mut vectors = Vec::new();
    for byte in 0..=255u8 {
        let character = char::from(byte);
        let kept = character.is_ascii_alphanumeric() || marks.contains(character);
        let pointer = [b"/", &[byte][..]].concat();
        // Alone, a byte above 7F is no UTF-8; a `~` at the end is malformed.
        let names = match byte {
            0x80..=0xFF => Err(22),
            b'~' => Err(10),
            _ => Ok(pointer.clone()),
        };
        let raw = if kept { names.clone() } else { Err(22) };
        vectors.push(vector(
            format!("raw-{byte:02x}"),
            ROOM,
            [b"#/", &[byte][..]].concat(),
            Err(10),
            raw,
        ));
        let (upper, lower) = (format!("%{byte:02X}"), format!("%{byte:02x}"));
        vectors.push(vector(
            format!("percents-{byte:02x}"),
            ROOM,
            format!("#/{upper}"),
            Err(10),
            names.clone(),
        ));
        if upper != lower {
            vectors.push(vector(
                format!("percents-lower-{byte:02x}"),
                ROOM,
                format!("#/{lower}"),
                Err(10),
                names.clone(),
            ));
        }
        let link = match names {
            Err(_) => Err(10),
            Ok(_) if kept => Ok([b"#/", &[byte][..]].concat()),
            Ok(_) => Ok(format!("#/{upper}").into_bytes()),
        };
        vectors.push(vector(format!("pointer-{byte:02x}"), ROOM, pointer, link, Err(22)));
    }
    vectors
}

/// 32,768 and 32,769 bytes; a link is longer than its pointer.
fn limits() -> Vec<Vector> {
    let letters = |n: usize| "a".repeat(n);
    let at = format!("#/{}", letters(32_766));
    let over = format!("#/{}", letters(32_767));
    let read = format!("/{}", letters(32_766));
    let percents = format!("#/{}", "%61".repeat(10_922));
    let bad_and_long = format!("{}%", letters(32_768));
    vec![
        vector("link-of-32768", ROOM, at.as_str(), Err(10), Ok(read.clone().into_bytes())),
        vector("link-of-32769", ROOM, over.as_str(), Err(10), Err(2)),
        vector(
            "percents-of-32768",
            ROOM,
            percents.as_str(),
            Err(10),
            Ok(format!("/{}", letters(10_922)).into_bytes()),
        ),
        vector("long-before-bad", ROOM, bad_and_long.as_str(), Err(10), Err(2)),
        // The pointer whose link has 32,768 bytes, and one whose link has one more:
        // when writing there is no limit but the output.
        vector("pointer-of-32767", ROOM, read.as_str(), Ok(at.clone().into_bytes()), Err(22)),
        vector(
            "pointer-of-32768",
            ROOM,
            format!("/{}", letters(32_767)),
            Ok(over.clone().into_bytes()),
            Err(22),
        ),
        vector(
            "pointer-of-40000",
            ROOM,
            format!("/{}", letters(39_999)),
            Ok(format!("#/{}", letters(39_999)).into_bytes()),
            Err(2),
        ),
        vector(
            "link-too-long-for-output",
            ROOM,
            format!("/{}", " ".repeat(21_845)),
            Err(16),
            Err(22),
        ),
        vector(
            "link-fills-output",
            ROOM - 1,
            format!("/{}", " ".repeat(21_844) + "a"),
            Ok(format!("#/{}a", "%20".repeat(21_844)).into_bytes()),
            Err(22),
        ),
    ]
}

/// Outputs that are just long enough, a byte short, and empty.
fn rooms() -> Vec<Vector> {
    let mut vectors = Vec::new();
    let (pointer, link): (&[u8], &[u8]) = ("/\u{e9} b".as_bytes(), b"#/%C3%A9%20b");
    for (name, text) in [("pointer", pointer), ("link", link)] {
        for room in 0..=link.len() + 1 {
            let fits = |text: &[u8]| if text.len() <= room { Ok(text.to_vec()) } else { Err(16) };
            let (written, read) = match name {
                "pointer" => (fits(link), Err(22)),
                _ => (Err(10), fits(pointer)),
            };
            vectors.push(vector(format!("room-{room}-{name}"), room, text, written, read));
        }
    }
    vectors.push(vector("room-0-root", 0, "", Err(16), Err(22)));
    vectors.push(vector("room-1-root", 1, "", Ok(b"#".to_vec()), Err(22)));
    vectors.push(vector("room-0-root-link", 0, "#", Err(10), Ok(Vec::new())));
    // The other refusals come before 16.
    vectors.push(vector("room-0-malformed", 0, "/~", Err(10), Err(22)));
    vectors.push(vector("room-0-malformed-link", 0, "#/~", Err(10), Err(10)));
    vectors.push(vector("room-0-bad-link", 0, "#/%", Err(10), Err(22)));
    vectors
}

#[rustfmt::skip]
const ROWS: &[Row] = &[
    ("no-hash", b"/a", Ok(b"#/a"), Err(22)),
    ("nothing", b"", Ok(b"#"), Err(22)),
    ("second-hash", b"##", Err(10), Err(22)),
    ("hash-later", b"#/#", Err(10), Err(22)),
    ("hash-in-pointer", b"/#", Ok(b"#/%23"), Err(22)),
    ("hash-in-percents", b"#/%23", Err(10), Ok(b"/#")),
    ("hash-in-front-in-percents", b"%23/a", Err(10), Err(22)),
    ("blank-before-hash", b" #/a", Err(10), Err(22)),
    ("whole-uri", b"http://a/b#/c", Err(10), Err(22)),

    // Malformed, and in which order.
    ("no-slash", b"#a", Err(10), Err(10)),
    ("tilde-alone", b"#/~", Err(10), Err(10)),
    ("tilde-two", b"#/~2", Err(10), Err(10)),
    ("tilde-0", b"#/~0", Err(10), Ok(b"/~0")),
    ("tilde-01", b"#/~01", Err(10), Ok(b"/~01")),
    ("tilde-in-percents", b"#/%7E0", Err(10), Ok(b"/~0")),
    ("tilde-and-digit-in-percents", b"#/%7e%31", Err(10), Ok(b"/~1")),
    ("tilde-in-percents-alone", b"#/a%7E", Err(10), Err(10)),
    ("tilde-in-percents-then-letter", b"#/%7Ea", Err(10), Err(10)),
    ("slash-in-percents", b"#%2Fa%2fb", Err(10), Ok(b"/a/b")),
    ("malformed-and-bad-percent", b"#a%", Err(10), Err(22)),
    ("malformed-and-bad-percent-late", b"#/~/b/c/%4", Err(10), Err(22)),
    ("malformed-and-bad-byte", b"#/~ ", Err(10), Err(22)),
    ("malformed-and-not-utf8", b"#a%FF", Err(10), Err(22)),
    ("malformed-pointer", b"a", Err(10), Err(22)),
    ("malformed-pointer-tilde", b"/a~", Err(10), Err(22)),
    ("malformed-pointer-tilde-slash", b"/a~/b", Err(10), Err(22)),
    ("malformed-pointer-not-utf8", b"/a~\xFF", Err(10), Err(22)),

    // Percents.
    ("percent-cut-0", b"#/%", Err(10), Err(22)),
    ("percent-cut-1", b"#/%2", Err(10), Err(22)),
    ("percent-cut-by-percent", b"#/%%20", Err(10), Err(22)),
    ("percent-cut-by-percent-1", b"#/%2%20", Err(10), Err(22)),
    ("percent-first-bad", b"#/%g0", Err(10), Err(22)),
    ("percent-second-bad", b"#/%0g", Err(10), Err(22)),
    ("percent-sign", b"#/%+1", Err(10), Err(22)),
    ("percent-minus", b"#/%-1", Err(10), Err(22)),
    ("percent-blank", b"#/% 1", Err(10), Err(22)),
    ("percent-x", b"#/%0x41", Err(10), Err(22)),
    ("percent-colon", b"#/%3:", Err(10), Err(22)),
    ("percent-at", b"#/%@1", Err(10), Err(22)),
    ("percent-grave", b"#/%`1", Err(10), Err(22)),
    ("percent-slash", b"#/%/1", Err(10), Err(22)),
    ("percent-both-cases", b"#/%aB%Ab", Err(10), Err(22)),
    ("percent-mixed-case", b"#/%c3%A9%C3%a9", Err(10), Ok(b"/\xC3\xA9\xC3\xA9")),
    ("percent-of-percent", b"#/%25", Err(10), Ok(b"/%")),
    ("percents-once", b"#/%2541", Err(10), Ok(b"/%41")),
    ("percents-once-25", b"#/%252541", Err(10), Ok(b"/%2541")),
    ("percent-in-pointer", b"/%41", Ok(b"#/%2541"), Err(22)),
    ("percent-00", b"#/%00", Err(10), Ok(b"/\x00")),
    ("percent-00-in-pointer", b"/a\x00b", Ok(b"#/a%00b"), Err(22)),
    ("percent-letters", b"#/%61%62", Err(10), Ok(b"/ab")),
    ("plus", b"#/a+b", Err(10), Ok(b"/a+b")),
    ("plus-in-pointer", b"/a+b", Ok(b"#/a+b"), Err(22)),
    ("all-marks", b"#/-._~0!$&'()*+,;=:@/?", Err(10), Ok(b"/-._~0!$&'()*+,;=:@/?")),
    ("all-marks-in-pointer", b"/-._~0!$&'()*+,;=:@/?", Ok(b"#/-._~0!$&'()*+,;=:@/?"), Err(22)),
    ("no-marks-in-pointer", b"/\"#%<>[\\]^`{|}", Ok(b"#/%22%23%25%3C%3E%5B%5C%5D%5E%60%7B%7C%7D"), Err(22)),

    // UTF-8 in percents: table 3-7 of the Unicode standard, each row's ends and what lies beyond.
    ("utf8-2-least", b"#/%C2%80", Err(10), Ok(b"/\xC2\x80")),
    ("utf8-2-most", b"#/%DF%BF", Err(10), Ok(b"/\xDF\xBF")),
    ("utf8-3-least", b"#/%E0%A0%80", Err(10), Ok(b"/\xE0\xA0\x80")),
    ("utf8-3-before-surrogates", b"#/%ED%9F%BF", Err(10), Ok(b"/\xED\x9F\xBF")),
    ("utf8-3-after-surrogates", b"#/%EE%80%80", Err(10), Ok(b"/\xEE\x80\x80")),
    ("utf8-3-most", b"#/%EF%BF%BF", Err(10), Ok(b"/\xEF\xBF\xBF")),
    ("utf8-4-least", b"#/%F0%90%80%80", Err(10), Ok(b"/\xF0\x90\x80\x80")),
    ("utf8-4-most", b"#/%F4%8F%BF%BF", Err(10), Ok(b"/\xF4\x8F\xBF\xBF")),
    ("utf8-overlong-2", b"#/%C0%AF", Err(10), Err(22)),
    ("utf8-overlong-2-c1", b"#/%C1%BF", Err(10), Err(22)),
    ("utf8-overlong-3", b"#/%E0%9F%BF", Err(10), Err(22)),
    ("utf8-overlong-4", b"#/%F0%8F%BF%BF", Err(10), Err(22)),
    ("utf8-overlong-slash", b"#%C0%AFa", Err(10), Err(22)),
    ("utf8-surrogate-least", b"#/%ED%A0%80", Err(10), Err(22)),
    ("utf8-surrogate-most", b"#/%ED%BF%BF", Err(10), Err(22)),
    ("utf8-beyond", b"#/%F4%90%80%80", Err(10), Err(22)),
    ("utf8-f5", b"#/%F5%80%80%80", Err(10), Err(22)),
    ("utf8-cut-2", b"#/%C3", Err(10), Err(22)),
    ("utf8-cut-2-by-ascii", b"#/%C3a", Err(10), Err(22)),
    ("utf8-cut-3", b"#/%E2%82", Err(10), Err(22)),
    ("utf8-cut-3-by-percent-ascii", b"#/%E2%82%41", Err(10), Err(22)),
    ("utf8-cut-4", b"#/%F0%9F%98", Err(10), Err(22)),
    ("utf8-cut-by-character", b"#/%E2%82%C3%A9", Err(10), Err(22)),
    ("utf8-third-bad", b"#/%E2%82%C0", Err(10), Err(22)),
    ("utf8-fourth-bad", b"#/%F0%9F%98%7F", Err(10), Err(22)),
    ("utf8-later-first", b"#/%80", Err(10), Err(22)),
    ("utf8-half-raw", b"#/%C3\xA9", Err(10), Err(22)),
    ("utf8-raw", b"#/\xC3\xA9", Err(10), Err(22)),
    ("utf8-mark", b"#/%EF%BB%BF", Err(10), Ok(b"/\xEF\xBB\xBF")),
    ("utf8-mark-in-front", b"#%EF%BB%BF/a", Err(10), Err(10)),
    ("utf8-pointer", b"/\xF0\x9F\x98\x80/\xE2\x82\xAC/\xC3\xA9", Ok(b"#/%F0%9F%98%80/%E2%82%AC/%C3%A9"), Err(22)),
    ("utf8-pointer-overlong", b"/\xC0\xAF", Err(10), Err(22)),
    ("utf8-pointer-surrogate", b"/\xED\xA0\x80", Err(10), Err(22)),
    ("utf8-pointer-cut", b"/\xE2\x82", Err(10), Err(22)),
    ("utf8-pointer-beyond", b"/\xF4\x90\x80\x80", Err(10), Err(22)),
    ("utf8-pointer-first", b"\xC3\xA9", Err(10), Err(22)),
    ("utf8-after-tilde", b"/~\xC3\xA9", Err(10), Err(22)),
    ("utf8-first-in-link", b"#%C3%A9", Err(10), Err(10)),
    ("utf8-after-tilde-in-link", b"#/~%C3%A9", Err(10), Err(10)),
    ("bench-note", b"#/cut/0", Err(10), Ok(b"/cut/0")),
];
