//! The committed cases of Intel HEX, each with what it must give.
//!
//! The answers come from the papers, written by hand or made by a small rule
//! that stands beside them. None is taken from the program; a test checks that
//! the program gives them.

use super::cases::Case;
use super::{record, Refusal, LONGEST_TEXT};

/// The output that the committed cases lend, where they do not say otherwise.
pub const ROOM: usize = 180_240;

/// A case, and one or both of its answers.
#[derive(Clone, Debug)]
pub struct Vector {
    /// The case.
    pub case: Case,
    /// What is written of it.
    pub written: Option<Result<Vec<u8>, Refusal>>,
    /// What is read of it.
    pub read: Option<Result<Vec<u8>, Refusal>>,
}

/// All committed cases.
pub fn all() -> Vec<Vector> {
    [written(), read_rows(), bad_lines(), endings(), limits(), rooms()].concat()
}

fn reads(
    name: impl Into<String>,
    text: impl Into<Vec<u8>>,
    read: Result<&[u8], Refusal>,
) -> Vector {
    let case = Case { name: name.into(), room: ROOM, text: text.into() };
    Vector { case, written: None, read: Some(read.map(<[u8]>::to_vec)) }
}

fn writes(
    name: impl Into<String>,
    text: impl Into<Vec<u8>>,
    written: Result<Vec<u8>, Refusal>,
) -> Vector {
    let case = Case { name: name.into(), room: ROOM, text: text.into() };
    Vector { case, written: Some(written), read: None }
}

/// Texts and their records, made with another program's help or by hand.
#[rustfmt::skip]
const WRITTEN: &[(&str, &[u8], &str)] = &[
    ("empty", b"", ":00000001FF\n"),
    ("braces", b"{}", ":020000007B7D06\n:00000001FF\n"),
    ("one-byte", b"A", ":0100000041BE\n:00000001FF\n"),
    ("zero-byte", b"\0", ":0100000000FF\n:00000001FF\n"),
    ("last-byte", b"\xFF", ":01000000FF00\n:00000001FF\n"),
    ("sixteen", b"0123456789abcdef", ":10000000303132333435363738396162636465668E\n:00000001FF\n"),
    ("seventeen", b"0123456789abcdef!", ":10000000303132333435363738396162636465668E\n:0100100021CE\n:00000001FF\n"),
];

fn written() -> Vec<Vector> {
    let mut vectors: Vec<Vector> = WRITTEN
        .iter()
        .flat_map(|&(name, text, hex)| {
            [
                writes(format!("written-{name}"), text, Ok(hex.as_bytes().to_vec())),
                reads(format!("read-{name}"), hex, Ok(text)),
            ]
        })
        .collect();
    // Each line of sixteen zeros differs from the one before it in its address and
    // its last byte alone.
    for length in [65_535, 65_536] {
        let mut hex = String::new();
        for address in (0..length).step_by(16) {
            let count = 16.min(length - address);
            let sum = count + address / 256 + address % 256;
            let last = (256 - sum % 256) % 256;
            hex.push_str(&format!(":{count:02X}{address:04X}00{}{last:02X}\n", "00".repeat(count)));
        }
        hex.push_str(":00000001FF\n");
        vectors.push(writes(format!("written-{length}"), vec![0; length], Ok(hex.clone().into())));
        if length == LONGEST_TEXT {
            vectors.push(reads("read-65536", hex, Ok(&vec![0; length])));
        }
    }
    vectors.push(writes("written-65537", vec![0; 65_537], Err((2, 0))));
    vectors
}

/// A file of lines, each ended by a line feed.
fn file(lines: &[&str]) -> String {
    lines.iter().map(|line| format!("{line}\n")).collect()
}

const END: &str = ":00000001FF";

#[rustfmt::skip]
const READ: &[(&str, &str, Result<&[u8], Refusal>)] = &[
    ("nothing", "", Err((21, 1))),
    ("line-feed", "\n", Err((18, 1))),
    ("carriage-return", "\r", Err((18, 1))),
    ("both", "\r\n", Err((18, 1))),
    ("end", ":00000001FF\n", Ok(b"")),
    ("end-alone", ":00000001FF", Ok(b"")),
    ("end-lower", ":00000001ff\n", Ok(b"")),
    ("end-mixed", ":00000001fF\n", Ok(b"")),
    ("data-lower", ":020000007b7d06\n:00000001ff\n", Ok(b"{}")),
    ("data-mixed", ":020000007b7D06\n:00000001Ff\n", Ok(b"{}")),
    ("no-end", ":020000007B7D06\n", Err((21, 2))),
    ("no-end-no-ending", ":020000007B7D06", Err((21, 2))),
    ("two-ends", ":00000001FF\n:00000001FF\n", Err((21, 2))),
    ("empty-after-end", ":00000001FF\n\n", Err((21, 2))),
    ("return-after-end", ":00000001FF\n\r", Err((21, 2))),
    ("data-after-end", ":00000001FF\n:020000007B7D06\n", Err((21, 2))),
    ("anything-after-end", ":00000001FF\nx", Err((21, 2))),
    ("blank-behind-end", ":00000001FF \n", Err((18, 1))),
    ("digits-behind-end", ":00000001FF00\n", Err((18, 1))),
    ("end-twice-on-a-line", ":00000001FF:00000001FF\n", Err((18, 1))),
    ("blank-before", " :00000001FF\n", Err((18, 1))),
    // Sum, type and address at once: 18 before 19 before 20.
    ("type-and-sum", ":020000047B7D00\n", Err((18, 1))),
    ("zero-length-and-sum", ":0000000001\n", Err((18, 1))),
    ("end-address-and-sum", ":0000010100\n", Err((18, 1))),
    ("sum-and-address", ":020001007B7D06\n", Err((19, 1))),
    ("end-sum", ":00000001FE\n", Err((19, 1))),
    ("end-sum-and-behind", ":00000001FE\n\n", Err((19, 1))),
    ("ending-and-sum", ":020000007B7D05\r", Err((18, 1))),
];

fn read_rows() -> Vec<Vector> {
    READ.iter().map(|&(name, text, read)| reads(name, text, read)).collect()
}

/// Lines that are refused wherever they stand as the next line at address 2 of
/// the file `0000`, `0002`: with 18, 19 or 20.
#[rustfmt::skip]
const BAD: &[(&str, &str, u32)] = &[
    ("empty", "", 18),
    ("colon", ":", 18),
    ("no-colon", "020002007B7D04", 18),
    ("other-mark", ";020002007B7D04", 18),
    ("odd", ":020002007B7D0", 18),
    ("odd-more", ":020002007B7D040", 18),
    ("short", ":020002007B04", 18),
    ("long", ":020002007B7D0400", 18),
    ("count-less", ":010002007B7D04", 18),
    ("count-more", ":030002007B7D04", 18),
    ("letter-in-count", ":0G0002007B7D04", 18),
    ("letter-in-address", ":02000g007B7D04", 18),
    ("mark-in-type", ":0200020/7B7D04", 18),
    ("mark-in-data", ":020002007@7D04", 18),
    ("mark-in-sum", ":020002007B7D`4", 18),
    ("high-byte", ":020002007\u{e9}D04", 18),
    ("blank", ":020002007B7D04 ", 18),
    ("no-data", ":00000200FE", 18),
    ("no-data-no-sum", ":0000020000", 18),
    ("type-2", ":020002027B7D02", 18),
    ("type-3", ":020002037B7D01", 18),
    ("type-4", ":020002047B7D00", 18),
    ("type-5", ":020002057B7DFF", 18),
    ("type-1-with-data", ":020002017B7D03", 18),
    ("type-ff", ":020002FF7B7D05", 18),
    ("end-with-byte", ":0100000100FE", 18),
    ("end-with-address", ":00000101FE", 18),
    ("end-with-high-address", ":00010001FE", 18),
    ("sum", ":020002007B7D03", 19),
    ("sum-zero", ":020002007B7D00", 19),
    ("end-sum", ":00000001FE", 19),
    ("gap", ":020003007B7D03", 20),
    ("overlap", ":020001007B7D05", 20),
    ("high", ":020102007B7D03", 20),
    ("last-address", ":02FFFF007B7D08", 20),
];

/// The bad lines as the first, in the middle, and last. On line 1 an address that
/// should be 2 is wrong too; the refusal of the line is the same.
fn bad_lines() -> Vec<Vector> {
    let (one, two) = (":0200000041427B", ":02000400414277");
    BAD.iter()
        .flat_map(|&(name, line, number)| {
            [
                reads(format!("{name}-first"), file(&[line, END]), Err((number, 1))),
                reads(format!("{name}-middle"), file(&[one, line, two, END]), Err((number, 2))),
                reads(format!("{name}-last"), file(&[one, line]), Err((number, 2))),
                // The first line may itself be refused as the last of a file.
                reads(format!("{name}-cut"), format!("{one}\n{line}"), cut(line, number)),
            ]
        })
        .collect()
}

/// An empty line that lacks its ending is no line: the end record is missing.
fn cut(line: &str, number: u32) -> Result<&'static [u8], Refusal> {
    if line.is_empty() {
        Err((21, 2))
    } else {
        Err((number, 2))
    }
}

/// Both endings, and what is none.
fn endings() -> Vec<Vector> {
    let (one, two) = (":0200000041427B", ":02000200414279");
    let mut vectors = Vec::new();
    for (name, ending) in [("lf", "\n"), ("crlf", "\r\n")] {
        for (last_name, last) in [("lf", "\n"), ("crlf", "\r\n"), ("none", "")] {
            let text = format!("{one}{ending}{two}\n{END}{last}");
            vectors.push(reads(format!("ending-{name}-{last_name}"), text, Ok(b"ABAB")));
        }
    }
    for (name, ending) in [("cr", "\r"), ("crcrlf", "\r\r\n"), ("lfcr", "\n\r"), ("ff", "\x0C\n")] {
        let line = if name == "lfcr" { 2 } else { 1 };
        let text = format!("{one}{ending}{two}\n{END}\n");
        vectors.push(reads(format!("no-ending-{name}"), text, Err((18, line))));
    }
    vectors.push(reads("end-cr", format!("{one}\n{END}\r"), Err((18, 2))));
    vectors.push(reads("end-crcrlf", format!("{one}\n{END}\r\r\n"), Err((18, 2))));
    vectors
}

/// Counts of 1 and 255, and the last addresses.
fn limits() -> Vec<Vector> {
    let long = record(0, 0, &[7; 255]);
    let mut vectors = vec![
        reads("count-1", file(&[":0100000041BE", ":0100010042BC", END]), Ok(b"AB")),
        reads("count-255", file(&[&long, END]), Ok(&[7; 255])),
        reads(
            "count-255-then-1",
            file(&[&long, &record(0, 255, b"A"), END]),
            Ok(&[&[7; 255][..], b"A"].concat()),
        ),
    ];
    // 257 records of 255 bytes are 65,535 bytes; then one byte, and no more.
    let most: String = (0..257).map(|index| record(0, index * 255, &[9; 255]) + "\n").collect();
    let all = vec![9; LONGEST_TEXT];
    let one = record(0, 65_535, &[9]);
    let rows: [(&str, String, Result<&[u8], Refusal>); 4] = [
        ("limit-65535", file(&[END]), Ok(&all[1..])),
        ("limit-65536", file(&[&one, END]), Ok(&all)),
        ("limit-past", file(&[&record(0, 65_535, &[9, 9]), END]), Err((20, 258))),
        ("limit-wrapped", file(&[&one, &record(0, 0, &[9]), END]), Err((20, 259))),
    ];
    vectors
        .extend(rows.into_iter().map(|(name, text, read)| reads(name, most.clone() + &text, read)));
    vectors
}

/// Room to the byte, a byte short, and none.
fn rooms() -> Vec<Vector> {
    let hex = ":020000007B7D06\n:00000001FF\n";
    let mut vectors = Vec::new();
    for room in [0, 1, 2, 27, 28, 29] {
        let written = if room < 28 { Err((16, 0)) } else { Ok(hex.as_bytes().to_vec()) };
        let case = Case { name: format!("room-{room}-written"), room, text: b"{}".to_vec() };
        vectors.push(Vector { case, written: Some(written), read: None });
        let read = if room < 2 { Err((16, 0)) } else { Ok(b"{}".to_vec()) };
        let case = Case { name: format!("room-{room}-read"), room, text: hex.into() };
        vectors.push(Vector { case, written: None, read: Some(read) });
        // 16 is the last: a bad line is told first.
        let case =
            Case { name: format!("room-{room}-bad"), room, text: b":020000007B7D06\n".to_vec() };
        vectors.push(Vector { case, written: None, read: Some(Err((21, 2))) });
        let case = Case { name: format!("room-{room}-long"), room, text: vec![b'0'; 65_537] };
        if room == 0 {
            vectors.push(Vector { case, written: Some(Err((2, 0))), read: Some(Err((18, 1))) });
        }
    }
    for room in [11, 12] {
        let written = if room < 12 { Err((16, 0)) } else { Ok(b":00000001FF\n".to_vec()) };
        let case = Case { name: format!("room-{room}-empty"), room, text: Vec::new() };
        vectors.push(Vector { case, written: Some(written), read: Some(Err((21, 1))) });
    }
    vectors
}
