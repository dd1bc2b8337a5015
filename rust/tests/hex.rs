//! The two calls of Intel HEX: the declaration here, the C header and the library's
//! source say the same, as far as their texts can be compared.

use json_patch::hex::{length, read, write, Reason, Refusal, MAX_TEXT};
use std::fs;
use std::path::Path;

/// A file of the repository.
fn file(name: &str) -> String {
    let path = Path::new(env!("CARGO_MANIFEST_DIR")).join("..").join(name);
    fs::read_to_string(&path).unwrap_or_else(|error| panic!("{}: {error}", path.display()))
}

/// What stands between a beginning and the next end after it.
fn between<'a>(text: &'a str, begin: &str, end: &str) -> &'a str {
    let at = text.find(begin).unwrap_or_else(|| panic!("no {begin:?}")) + begin.len();
    let length = text[at..].find(end).unwrap_or_else(|| panic!("no {end:?} after {begin:?}"));
    &text[at..at + length]
}

fn items(list: &str) -> Vec<&str> {
    list.split(',').map(str::trim).filter(|item| !item.is_empty()).collect()
}

/// The parameters of a call, each as a name and a type of the source's.
type Parameters = Vec<(String, String)>;

/// As the header has them.
fn of_header(call: &str) -> Parameters {
    let header = file("include/json_patch_hex.h");
    items(between(&header, &format!("uint32_t {call}("), ")"))
        .into_iter()
        .filter_map(|item| {
            let words: Vec<&str> = item.split_whitespace().collect();
            let (name, kind) = match words[..] {
                ["const", "uint8_t", name] => (name, "&[u8]"),
                ["uint8_t", name] => (name, "&mut [u8]"),
                ["json_patch_hex_answer", name] => (name, "&mut [u64; 6]"),
                ["size_t", _] => return None,
                _ => panic!("a parameter of C: {item:?}"),
            };
            Some((name.trim_start_matches('*').to_string(), kind.to_string()))
        })
        .collect()
}

/// As the library's source has them.
fn of_source(call: &str) -> Parameters {
    let source = file("crates/intel_hex_c/src/lib.rt");
    items(between(&source, &format!("fn {call}("), ") -> u32"))
        .into_iter()
        .filter_map(|item| item.split_once(':'))
        .map(|(name, kind)| (name.trim().to_string(), kind.trim().to_string()))
        .collect()
}

/// As the declaration in Rust has them.
fn of_rust(call: &str) -> Parameters {
    let source = file("rust/src/hex.rs");
    items(between(&source, &format!("pub fn {call}("), ") -> u32;"))
        .into_iter()
        .filter_map(|item| {
            let (name, kind) = item.split_once(':')?;
            let kind = match kind.trim() {
                "*const u8" => "&[u8]",
                "*mut u8" => "&mut [u8]",
                "*mut Answer" => "&mut [u64; 6]",
                "usize" => return None,
                other => panic!("a type: {other}"),
            };
            Some((name.trim().to_string(), kind.to_string()))
        })
        .collect()
}

#[test]
fn the_calls_are_declared_alike() {
    for call in ["json_patch_write_hex", "json_patch_read_hex"] {
        let source = of_source(call);
        assert_eq!(source.len(), 3, "{call}");
        assert_eq!(of_header(call), source, "{call}");
        assert_eq!(of_rust(call), source, "{call}");
    }
}

#[test]
fn the_answers_fields_are_in_the_same_order() {
    let header = file("include/json_patch_hex.h");
    let of_header: Vec<&str> = between(&header, "struct json_patch_hex_answer {", "}")
        .lines()
        .filter_map(|line| line.trim().strip_prefix("uint64_t ")?.split(';').next())
        .collect();
    let source = file("rust/src/hex.rs");
    let of_rust: Vec<&str> = between(&source, "pub struct Answer {", "}")
        .lines()
        .filter_map(|line| line.trim().strip_prefix("pub ")?.strip_suffix(": u64,"))
        .collect();
    assert_eq!(of_rust, of_header);
    let exports = file("crates/intel_hex/src/exports.rt");
    let laid_down = items(between(&exports, "*answer = [", "]"));
    assert_eq!(laid_down, ["u64::from(r.number)", "0", "0", "r.place as u64", "0", "r.length as u64"]);
    assert_eq!((of_header[0], of_header[5], of_header.len()), ("number", "length", 6));
}

#[test]
fn refusals_have_the_numbers_of_the_header_and_the_definitions() {
    let header = file("include/json_patch_hex.h");
    let mut numbers: Vec<u32> = between(&header, "enum json_patch_hex_number {", "}")
        .lines()
        .filter_map(|line| line.split('=').nth(1)?.trim().split([' ', ',']).next()?.parse().ok())
        .collect();
    assert_eq!(numbers.remove(0), 0);
    assert_eq!(numbers, Reason::ALL.map(Reason::number));
    let reading = file("crates/intel_hex/specs/Reading.antt");
    let named = [("not_a_record", 18), ("wrong_sum", 19), ("wrong_address", 20), ("wrong_end", 21)];
    for (name, number) in named {
        assert!(reading.contains(&format!("{name} = {number}\n")), "{name}");
    }
    assert!(header.contains(&format!("#define JSON_PATCH_HEX_MAX_TEXT {MAX_TEXT}\n")));
}

#[test]
fn the_output_afterwards() {
    let refusal = |reason, line| Err(Refusal { reason, line });
    let mut output = [9; 14];
    assert_eq!(write(b"A", &mut output), refusal(Reason::OutputTooShort, 0));
    assert_eq!(output, [9; 14]);
    assert_eq!(write(b"", &mut output), Ok(12));
    assert_eq!(&output, b":00000001FF\n\x09\x09");
    assert_eq!(read(b":0100000041BF\n", &mut output), refusal(Reason::WrongSum, 1));
    assert_eq!(read(b":0100010041BD\n", &mut output), refusal(Reason::WrongAddress, 1));
    assert_eq!(read(b"", &mut output), refusal(Reason::WrongEnd, 1));
    assert_eq!(read(b":00000001FF\n\n", &mut output), refusal(Reason::WrongEnd, 2));
    assert_eq!(read(b"x", &mut output), refusal(Reason::NotARecord, 1));
    assert_eq!(&output, b":00000001FF\n\x09\x09");
    assert_eq!(read(b":00000001FF", &mut []), Ok(0));
    assert_eq!(write(&vec![0; MAX_TEXT + 1], &mut []), refusal(Reason::TooLong, 0));
    let mut long = vec![0; length(MAX_TEXT)];
    assert_eq!(write(&vec![7; MAX_TEXT], &mut long), Ok(180_236));
    let mut text = vec![0; MAX_TEXT];
    assert_eq!(read(&long, &mut text), Ok(MAX_TEXT));
    assert_eq!(text, vec![7; MAX_TEXT]);
}
