//! Numbers: grammar, length and exponent.

use super::{reads, refused, vector, Row, Vector};

/// Grammar, with an empty patch.
#[rustfmt::skip]
pub const ROWS: &[Row] = &[
    ("source-kept", "[0,-0,1,-1,10,0.0,-0.0,0.50,1e1,1E1,1e+1,1e-1,1.0e01,0e0,0e-00,12.34E+056]", "[]",
        "[0,-0,1,-1,10,0.0,-0.0,0.50,1e1,1E1,1e+1,1e-1,1.0e01,0e0,0e-00,12.34E+056]"),
    ("minus-zero", "-0", "[]", "-0"),
    ("leading-zero", "01", "[]", "refused 3 text 1 op 0 place 1 pointer 0"),
    ("two-zeros", "00", "[]", "refused 3 text 1 op 0 place 1 pointer 0"),
    ("minus-leading-zero", "-01", "[]", "refused 3 text 1 op 0 place 2 pointer 0"),
    ("plus", "+1", "[]", "refused 3 text 1 op 0 place 0 pointer 0"),
    ("minus-alone", "-", "[]", "refused 3 text 1 op 0 place 1 pointer 0"),
    ("minus-letter", "-a", "[]", "refused 3 text 1 op 0 place 1 pointer 0"),
    ("minus-minus", "--1", "[]", "refused 3 text 1 op 0 place 1 pointer 0"),
    ("minus-infinity", "-Infinity", "[]", "refused 3 text 1 op 0 place 1 pointer 0"),
    ("minus-blank", "- 1", "[]", "refused 3 text 1 op 0 place 1 pointer 0"),
    ("point-first", ".5", "[]", "refused 3 text 1 op 0 place 0 pointer 0"),
    ("minus-point", "-.5", "[]", "refused 3 text 1 op 0 place 1 pointer 0"),
    ("point-last", "1.", "[]", "refused 3 text 1 op 0 place 2 pointer 0"),
    ("point-exponent", "1.e5", "[]", "refused 3 text 1 op 0 place 2 pointer 0"),
    ("point-in-array", "[1.]", "[]", "refused 3 text 1 op 0 place 3 pointer 0"),
    ("two-points", "1.2.3", "[]", "refused 3 text 1 op 0 place 3 pointer 0"),
    ("exponent-cut", "1e", "[]", "refused 3 text 1 op 0 place 2 pointer 0"),
    ("exponent-plus-cut", "1e+", "[]", "refused 3 text 1 op 0 place 3 pointer 0"),
    ("exponent-minus-cut", "1e-", "[]", "refused 3 text 1 op 0 place 3 pointer 0"),
    ("exponent-letter", "1ea", "[]", "refused 3 text 1 op 0 place 2 pointer 0"),
    ("exponent-two-signs", "1e+-1", "[]", "refused 3 text 1 op 0 place 3 pointer 0"),
    ("exponent-point", "1e5.5", "[]", "refused 3 text 1 op 0 place 3 pointer 0"),
    ("exponent-twice", "1e5e5", "[]", "refused 3 text 1 op 0 place 3 pointer 0"),
    ("exponent-in-array", "[1e]", "[]", "refused 3 text 1 op 0 place 3 pointer 0"),
    ("hex", "0x10", "[]", "refused 3 text 1 op 0 place 1 pointer 0"),
    ("underscore", "1_000", "[]", "refused 3 text 1 op 0 place 1 pointer 0"),
    ("suffix", "1f", "[]", "refused 3 text 1 op 0 place 1 pointer 0"),
    ("difference", "1-2", "[]", "refused 3 text 1 op 0 place 1 pointer 0"),
    ("arabic-digit", "\u{663}", "[]", "refused 3 text 1 op 0 place 0 pointer 0"),
    ("fullwidth-digit-after", "1\u{FF11}", "[]", "refused 3 text 1 op 0 place 1 pointer 0"),

    // The exponent's size.
    ("exponent-9999", "1e9999", "[]", "1e9999"),
    ("exponent-minus-9999", "1e-9999", "[]", "1e-9999"),
    ("exponent-plus-9999", "1E+9999", "[]", "1E+9999"),
    ("exponent-zeros-9999", "1e00009999", "[]", "1e00009999"),
    ("exponent-10000", "1e10000", "[]", "refused 7 text 1 op 0 place 6 pointer 0"),
    ("exponent-minus-10000", "1e-10000", "[]", "refused 7 text 1 op 0 place 7 pointer 0"),
    ("exponent-plus-10000", "1e+10000", "[]", "refused 7 text 1 op 0 place 7 pointer 0"),
    ("exponent-zeros-10000", "1e0010000", "[]", "refused 7 text 1 op 0 place 8 pointer 0"),
    ("exponent-zeros-99999", "1e0099999", "[]", "refused 7 text 1 op 0 place 8 pointer 0"),
    ("exponent-123456", "1E123456", "[]", "refused 7 text 1 op 0 place 6 pointer 0"),
    ("exponent-of-zero", "0e10000", "[]", "refused 7 text 1 op 0 place 6 pointer 0"),
    ("exponent-of-minus-zero", "-0.0e-12345", "[]", "refused 7 text 1 op 0 place 10 pointer 0"),
    ("exponent-2-to-32", "1e4294967296", "[]", "refused 7 text 1 op 0 place 6 pointer 0"),
    ("exponent-10000-then-bad", "1e10000x", "[]", "refused 7 text 1 op 0 place 6 pointer 0"),
    ("exponent-9999-then-bad", "1e9999x", "[]", "refused 3 text 1 op 0 place 6 pointer 0"),
    ("exponent-10000-then-cut", "[1e10000", "[]", "refused 7 text 1 op 0 place 7 pointer 0"),
];

/// Numbers of 128 bytes and more.
pub fn vectors() -> Vec<Vector> {
    let ones = |count: usize| "1".repeat(count);
    let zeros = |count: usize| "0".repeat(count);
    let fits =
        |name: &str, number: String| reads(format!("number-length-{name}"), number.clone(), number);
    let refuses = |name: &str, document: String, number: u32, place: usize| {
        reads(format!("number-length-{name}"), document, refused(number, place))
    };
    vec![
        fits("128", ones(128)),
        refuses("129", ones(129), 7, 128),
        refuses("300", ones(300), 7, 128),
        fits("minus-128", format!("-{}", ones(127))),
        refuses("minus-129", format!("-{}", ones(128)), 7, 128),
        fits("fraction-128", format!("1.{}", zeros(126))),
        refuses("fraction-129", format!("1.{}", zeros(127)), 7, 128),
        fits("zero-128", format!("0.{}", zeros(126))),
        refuses("zero-129", format!("0.{}", zeros(127)), 7, 128),
        fits("exponent-128", format!("{}e5", ones(126))),
        refuses("exponent-129", format!("{}e5", ones(127)), 7, 128),
        // Leading zeros of the exponent count for the length, not for the size.
        fits("exponent-zeros-128", format!("1e{}9999", zeros(122))),
        refuses("exponent-zeros-129", format!("1e{}9999", zeros(123)), 7, 128),
        refuses("exponent-10000-at-128", format!("1e{}10000", zeros(121)), 7, 127),
        refuses("exponent-10000-at-129", format!("1e{}10000", zeros(122)), 7, 128),
        refuses("exponent-zeros-only", format!("1e{}", zeros(127)), 7, 128),
        // Byte 129 goes on with the number, which would be unfinished.
        refuses("129-point-then-cut", format!("{}.", ones(128)), 7, 128),
        refuses("129-point-then-bad", format!("{}.x", ones(128)), 7, 128),
        refuses("129-exponent-then-cut", format!("{}e", ones(128)), 7, 128),
        refuses("129-sign-then-cut", format!("{}e-", ones(127)), 7, 128),
        refuses("129-digit-after-point", format!("{}.5", ones(127)), 7, 128),
        refuses("129-digit-after-sign", format!("{}e-5", ones(126)), 7, 128),
        // Byte 129 does not go on with the number.
        refuses("128-then-letter", format!("{}x", ones(128)), 3, 128),
        refuses("128-then-minus", format!("{}-", ones(128)), 3, 128),
        refuses("128-then-comma", format!("{},", ones(128)), 3, 128),
        refuses("128-point-then-letter", format!("{}.x", ones(127)), 3, 128),
        refuses("128-point-then-cut", format!("{}.", ones(127)), 3, 128),
        refuses("128-exponent-then-cut", format!("{}e", ones(127)), 3, 128),
        refuses("128-exponent-then-bad", format!("{}e]", ones(127)), 3, 128),
        refuses("128-sign-then-bad", format!("{}e-x", ones(126)), 3, 128),
        refuses("128-fraction-then-point", format!("1.{}.", ones(126)), 3, 128),
        refuses("leading-zero-first", format!("0{}", ones(200)), 3, 1),
        reads("number-length-128-blank", format!("{} ", ones(128)), ones(128)),
        // In an array, and in a patch.
        fits("128-in-array", format!("[{},2]", ones(128))),
        refuses("129-in-array", format!("[{},2]", ones(129)), 7, 129),
        refuses("129-second-in-array", format!("[{},{}]", ones(128), ones(129)), 7, 258),
        vector(
            "number-length-128-in-patch",
            ones(128),
            format!(r#"[{{"op":"test","path":"","value":{}}}]"#, ones(128)),
            ones(128),
        ),
        vector(
            "number-length-129-in-patch",
            "1",
            format!(r#"[{{"zz":{}}}]"#, ones(129)),
            "refused 7 text 2 op 0 place 135 pointer 0",
        ),
    ]
}
