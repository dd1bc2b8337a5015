//! Strings: escapes, surrogate pairs, UTF-8 and what is written.

use super::{reads, refused, Row, Vector};

/// Escapes, with an empty patch.
#[rustfmt::skip]
pub const ROWS: &[Row] = &[
    ("empty", r#""""#, "[]", r#""""#),
    ("short-escapes", r#""\"\\\/\b\f\n\r\t""#, "[]", r#""\"\\/\b\f\n\r\t""#),
    ("short-escapes-by-number", r#""\u0022\u005c\u002f\u0008\u000c\u000a\u000d\u0009""#, "[]", r#""\"\\/\b\f\n\r\t""#),
    ("hex-cases", r#""\u00e9\u00E9\uABCD\uabcd""#, "[]", "\"éé\u{ABCD}\u{ABCD}\""),
    ("letters-by-number", r#""\u0041\u007a\u007f\u0080""#, "[]", "\"Az\u{7F}\u{80}\""),
    ("line-separators-raw", r#""\u2028\u2029""#, "[]", "\"\u{2028}\u{2029}\""),
    ("noncharacters", r#""\ufffe\uffff\ufdd0""#, "[]", "\"\u{FFFE}\u{FFFF}\u{FDD0}\""),
    ("mark-by-number", r#""\ufeff""#, "[]", "\"\u{FEFF}\""),
    ("around-surrogates", r#""\ud7ff\ue000""#, "[]", "\"\u{D7FF}\u{E000}\""),
    ("nul-in-middle", r#""a\u0000b""#, "[]", r#""a\u0000b""#),
    ("names-escaped", r#"{"\u0000\"\\\u00e9":1}"#, "[]", r#"{"\u0000\"\\é":1}"#),

    // Pairs.
    ("pair", r#""\ud83d\ude00""#, "[]", "\"😀\""),
    ("pair-upper", r#""\uD83D\uDE00""#, "[]", "\"😀\""),
    ("pair-mixed", r#""\uD83d\udE00""#, "[]", "\"😀\""),
    ("pair-lowest", r#""\ud800\udc00""#, "[]", "\"\u{10000}\""),
    ("pair-highest", r#""\udbff\udfff""#, "[]", "\"\u{10FFFF}\""),
    ("pair-two", r#""\ud83d\ude00\ud83d\ude00""#, "[]", "\"😀😀\""),

    // Controls must be escaped, and the string must end.
    ("raw-newline", "\"a\nb\"", "[]", "refused 3 text 1 op 0 place 2 pointer 0"),
    ("raw-tab", "\"\t\"", "[]", "refused 3 text 1 op 0 place 1 pointer 0"),
    ("raw-nul", "\"\0\"", "[]", "refused 3 text 1 op 0 place 1 pointer 0"),
    ("raw-newline-in-name", "{\"a\n\":1}", "[]", "refused 3 text 1 op 0 place 3 pointer 0"),
    ("raw-delete", "\"\u{7F}\"", "[]", "\"\u{7F}\""),
    ("raw-c1-control", "\"\u{80}\u{9F}\"", "[]", "\"\u{80}\u{9F}\""),
    ("open", "\"", "[]", "refused 3 text 1 op 0 place 1 pointer 0"),
    ("cut", "\"abc", "[]", "refused 3 text 1 op 0 place 4 pointer 0"),
    ("end-escaped", r#""abc\""#, "[]", "refused 3 text 1 op 0 place 6 pointer 0"),
    ("single-quotes", "'a'", "[]", "refused 3 text 1 op 0 place 0 pointer 0"),
    ("something-after", r#""a"b"#, "[]", "refused 3 text 1 op 0 place 3 pointer 0"),

    // Wrong escapes.
    ("escape-cut", "\"\\", "[]", "refused 3 text 1 op 0 place 2 pointer 0"),
    ("escape-x", r#""\x41""#, "[]", "refused 3 text 1 op 0 place 2 pointer 0"),
    ("escape-apostrophe", r#""\'""#, "[]", "refused 3 text 1 op 0 place 2 pointer 0"),
    ("escape-upper-n", r#""\N""#, "[]", "refused 3 text 1 op 0 place 2 pointer 0"),
    ("escape-upper-u", r#""\U0041""#, "[]", "refused 3 text 1 op 0 place 2 pointer 0"),
    ("escape-v", r#""\v""#, "[]", "refused 3 text 1 op 0 place 2 pointer 0"),
    ("escape-0", r#""\0""#, "[]", "refused 3 text 1 op 0 place 2 pointer 0"),
    ("escape-newline", "\"\\\n\"", "[]", "refused 3 text 1 op 0 place 2 pointer 0"),
    ("escape-letter-beyond-ascii", "\"\\é\"", "[]", "refused 3 text 1 op 0 place 2 pointer 0"),
    ("u-cut-0", r#""\u"#, "[]", "refused 3 text 1 op 0 place 3 pointer 0"),
    ("u-cut-1", r#""\u0"#, "[]", "refused 3 text 1 op 0 place 4 pointer 0"),
    ("u-cut-2", r#""\u00"#, "[]", "refused 3 text 1 op 0 place 5 pointer 0"),
    ("u-cut-3", r#""\u004"#, "[]", "refused 3 text 1 op 0 place 6 pointer 0"),
    ("u-quote-0", r#""\u""#, "[]", "refused 3 text 1 op 0 place 3 pointer 0"),
    ("u-quote-3", r#""\u004""#, "[]", "refused 3 text 1 op 0 place 6 pointer 0"),
    ("u-blank", r#""\u 041""#, "[]", "refused 3 text 1 op 0 place 3 pointer 0"),
    ("u-plus", r#""\u+041""#, "[]", "refused 3 text 1 op 0 place 3 pointer 0"),
    ("u-letter-g", r#""\u00g0""#, "[]", "refused 3 text 1 op 0 place 5 pointer 0"),
    ("u-last-bad", r#""\u004x""#, "[]", "refused 3 text 1 op 0 place 6 pointer 0"),
    ("u-braces", r#""\u{41}""#, "[]", "refused 3 text 1 op 0 place 3 pointer 0"),
    ("u-fullwidth-digit", "\"\\u\u{FF10}041\"", "[]", "refused 3 text 1 op 0 place 3 pointer 0"),

    // A high surrogate and no low one after it.
    ("high-then-quote", r#""\ud800""#, "[]", "refused 3 text 1 op 0 place 7 pointer 0"),
    ("high-then-letter", r#""\ud800x""#, "[]", "refused 3 text 1 op 0 place 7 pointer 0"),
    ("high-then-raw-pair", r#""\ud800😀""#, "[]", "refused 3 text 1 op 0 place 7 pointer 0"),
    ("high-then-newline-escape", r#""\ud800\n""#, "[]", "refused 3 text 1 op 0 place 8 pointer 0"),
    ("high-then-backslash-escape", r#""\ud800\\udc00""#, "[]", "refused 3 text 1 op 0 place 8 pointer 0"),
    ("high-then-quote-escape", r#""\ud800\"""#, "[]", "refused 3 text 1 op 0 place 8 pointer 0"),
    ("high-then-ascii-number", r#""\ud800\u0041""#, "[]", "refused 3 text 1 op 0 place 9 pointer 0"),
    ("high-then-e000", r#""\ud800\ue000""#, "[]", "refused 3 text 1 op 0 place 9 pointer 0"),
    ("high-then-high", r#""\ud800\ud800""#, "[]", "refused 3 text 1 op 0 place 10 pointer 0"),
    ("high-then-last-high", r#""\ud800\udbff""#, "[]", "refused 3 text 1 op 0 place 10 pointer 0"),
    ("high-then-d7ff", r#""\ud800\ud7ff""#, "[]", "refused 3 text 1 op 0 place 10 pointer 0"),
    ("high-then-high-then-low", r#""\ud83d\ud83d\ude00""#, "[]", "refused 3 text 1 op 0 place 10 pointer 0"),
    ("last-high-alone", r#""\uDBFF""#, "[]", "refused 3 text 1 op 0 place 7 pointer 0"),
    ("high-cut-6", r#""\ud800"#, "[]", "refused 3 text 1 op 0 place 7 pointer 0"),
    ("high-cut-7", "\"\\ud800\\", "[]", "refused 3 text 1 op 0 place 8 pointer 0"),
    ("high-cut-8", r#""\ud800\u"#, "[]", "refused 3 text 1 op 0 place 9 pointer 0"),
    ("high-cut-9", r#""\ud800\ud"#, "[]", "refused 3 text 1 op 0 place 10 pointer 0"),
    ("high-cut-10", r#""\ud800\udc"#, "[]", "refused 3 text 1 op 0 place 11 pointer 0"),
    ("high-cut-11", r#""\ud800\udc0"#, "[]", "refused 3 text 1 op 0 place 12 pointer 0"),
    ("high-quote-9", r#""\ud800\u""#, "[]", "refused 3 text 1 op 0 place 9 pointer 0"),
    ("high-quote-10", r#""\ud800\ud""#, "[]", "refused 3 text 1 op 0 place 10 pointer 0"),
    ("high-quote-11", r#""\ud800\udc""#, "[]", "refused 3 text 1 op 0 place 11 pointer 0"),
    ("high-quote-12", r#""\ud800\udc0""#, "[]", "refused 3 text 1 op 0 place 12 pointer 0"),
    ("high-bad-hex", r#""\ud800\udcg0""#, "[]", "refused 3 text 1 op 0 place 11 pointer 0"),
    ("high-in-name", r#"{"\ud800":1}"#, "[]", "refused 3 text 1 op 0 place 8 pointer 0"),

    // A low surrogate and no high one before it.
    ("low-first", r#""\udc00""#, "[]", "refused 3 text 1 op 0 place 4 pointer 0"),
    ("low-last", r#""\uDFFF""#, "[]", "refused 3 text 1 op 0 place 4 pointer 0"),
    ("low-then-high", r#""\udc00\ud800""#, "[]", "refused 3 text 1 op 0 place 4 pointer 0"),
    ("low-after-pair", r#""\ud83d\ude00\ude00""#, "[]", "refused 3 text 1 op 0 place 16 pointer 0"),
    ("low-begun-then-bad", r#""\udz""#, "[]", "refused 3 text 1 op 0 place 4 pointer 0"),
    ("low-cut", r#""\udc"#, "[]", "refused 3 text 1 op 0 place 4 pointer 0"),
    ("d-cut", r#""\ud"#, "[]", "refused 3 text 1 op 0 place 4 pointer 0"),
];

/// Unicode's table 3-7 from the row of two bytes on: the range of each byte of
/// a well-formed sequence.
#[rustfmt::skip]
const WELL_FORMED: &[&[(u8, u8)]] = &[
    &[(0xC2, 0xDF), (0x80, 0xBF)],
    &[(0xE0, 0xE0), (0xA0, 0xBF), (0x80, 0xBF)],
    &[(0xE1, 0xEC), (0x80, 0xBF), (0x80, 0xBF)],
    &[(0xED, 0xED), (0x80, 0x9F), (0x80, 0xBF)],
    &[(0xEE, 0xEF), (0x80, 0xBF), (0x80, 0xBF)],
    &[(0xF0, 0xF0), (0x90, 0xBF), (0x80, 0xBF), (0x80, 0xBF)],
    &[(0xF1, 0xF3), (0x80, 0xBF), (0x80, 0xBF), (0x80, 0xBF)],
    &[(0xF4, 0xF4), (0x80, 0x8F), (0x80, 0xBF), (0x80, 0xBF)],
];

/// Sequences that are refused, and the place inside them.
#[rustfmt::skip]
const ILL_FORMED: &[(&str, &[u8], usize)] = &[
    ("overlong-nul-2", &[0xC0, 0x80], 0),
    ("overlong-slash-2", &[0xC0, 0xAF], 0),
    ("overlong-delete-2", &[0xC1, 0xBF], 0),
    ("overlong-slash-3", &[0xE0, 0x80, 0xAF], 1),
    ("overlong-07FF-3", &[0xE0, 0x9F, 0xBF], 1),
    ("overlong-slash-4", &[0xF0, 0x80, 0x80, 0xAF], 1),
    ("overlong-FFFF-4", &[0xF0, 0x8F, 0xBF, 0xBF], 1),
    ("surrogate-D800", &[0xED, 0xA0, 0x80], 1),
    ("surrogate-DBFF", &[0xED, 0xAF, 0xBF], 1),
    ("surrogate-DC00", &[0xED, 0xB0, 0x80], 1),
    ("surrogate-DFFF", &[0xED, 0xBF, 0xBF], 1),
    ("surrogate-pair", &[0xED, 0xA0, 0xBD, 0xED, 0xB8, 0x80], 1),
    ("beyond-10FFFF", &[0xF4, 0x90, 0x80, 0x80], 1),
    ("lead-F5", &[0xF5, 0x80, 0x80, 0x80], 0),
    ("lead-F7", &[0xF7, 0xBF, 0xBF, 0xBF], 0),
    ("lead-F8", &[0xF8, 0x88, 0x80, 0x80, 0x80], 0),
    ("lead-FE", &[0xFE], 0),
    ("lead-FF", &[0xFF], 0),
    ("continuation-alone", &[0x80], 0),
    ("continuation-extra", &[0xC3, 0xA9, 0xA9], 2),
    ("lead-lead", &[0xC3, 0xC3, 0xA9], 1),
    ("backslash-for-continuation", &[0xC3, b'\\', b'n'], 1),
    ("latin-1", &[b'a', 0xE9, b'b'], 2),
    ("utf-16", &[0x00, b'a'], 0),
];

/// UTF-8 sequences in a string, and the controls in writing.
pub fn vectors() -> Vec<Vector> {
    let mut vectors = Vec::new();
    for row in WELL_FORMED {
        of_row(row, &mut vectors);
    }
    for (name, bytes, place) in ILL_FORMED {
        let document = [b"\"", *bytes, b"\""].concat();
        vectors.push(reads(format!("utf8-{name}"), document, refused(3, 1 + place)));
    }
    for control in 0x00..=0x1F_u8 {
        let escaped = format!("\"\\u{control:04X}\"");
        let written = match control {
            0x08 => r#""\b""#.to_string(),
            0x09 => r#""\t""#.to_string(),
            0x0A => r#""\n""#.to_string(),
            0x0C => r#""\f""#.to_string(),
            0x0D => r#""\r""#.to_string(),
            _ => format!("\"\\u{control:04x}\""),
        };
        vectors.push(reads(format!("control-{control:02x}"), escaped, written));
    }
    // Ill-formed bytes outside a string.
    vectors.push(reads("utf8-outside-string", [b'[', 0xC3, 0xA9, b']'], refused(3, 1)));
    vectors.push(reads("utf8-outside-after", [b'1', b' ', 0xFF], refused(3, 2)));
    vectors.push(reads("utf8-in-name", [b'{', b'"', 0xE2, 0x82, b'"'], refused(3, 4)));
    vectors
}

/// Both ends of a row of the table, one step beyond each end of each byte after
/// the first, and the sequence cut short after each byte.
fn of_row(row: &[(u8, u8)], vectors: &mut Vec<Vector>) {
    let lowest: Vec<u8> = row.iter().map(|range| range.0).collect();
    let highest: Vec<u8> = row.iter().map(|range| range.1).collect();
    let quoted = |bytes: &[u8]| [b"\"", bytes, b"\""].concat();
    let row_name = format!("utf8-{:02X}", row[0].0);

    vectors.push(reads(format!("{row_name}-lowest"), quoted(&lowest), quoted(&lowest)));
    vectors.push(reads(format!("{row_name}-highest"), quoted(&highest), quoted(&highest)));
    for at in 1..row.len() {
        let place = 1 + at;
        let mut below = lowest.clone();
        below[at] -= 1;
        let name = format!("{row_name}-below-{at}");
        vectors.push(reads(name, quoted(&below), refused(3, place)));
        let mut above = highest.clone();
        above[at] += 1;
        let name = format!("{row_name}-above-{at}");
        vectors.push(reads(name, quoted(&above), refused(3, place)));

        let name = format!("{row_name}-quote-{at}");
        vectors.push(reads(name, quoted(&lowest[..at]), refused(3, place)));
        let name = format!("{row_name}-cut-{at}");
        let cut = [b"\"", &lowest[..at]].concat();
        vectors.push(reads(name, cut, refused(3, place)));
    }
}
