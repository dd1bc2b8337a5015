//! The declaration here, the C header and the library's source say the same, as
//! far as their texts can be compared: the parameters' number, order, names and
//! types, the fields of the answer and of a node, the refusals' names, numbers
//! and words, the limits, the version. So does the manual.

use json_patch::{Kind, Pointer};
use std::collections::BTreeMap;
use std::fs;
use std::path::Path;

/// A file of the repository.
fn file(name: &str) -> String {
    let path = Path::new(env!("CARGO_MANIFEST_DIR")).join("..").join(name);
    fs::read_to_string(&path).unwrap_or_else(|error| panic!("{}: {error}", path.display()))
}

fn header() -> String {
    file("include/json_patch.h")
}

/// A function at the level of C: names and types of its parameters, in Rust's
/// words, and the type of its result.
#[derive(Debug, PartialEq, Eq)]
struct Signature {
    parameters: Vec<(String, String)>,
    result: String,
}

/// What stands between a beginning and the next end after it.
fn between<'a>(text: &'a str, begin: &str, end: &str) -> &'a str {
    let at = text.find(begin).unwrap_or_else(|| panic!("no {begin:?}")) + begin.len();
    let length = text[at..].find(end).unwrap_or_else(|| panic!("no {end:?} after {begin:?}"));
    &text[at..at + length]
}

/// The items of a list with commas, blanks trimmed.
fn items(list: &str) -> Vec<&str> {
    list.split(',').map(str::trim).filter(|item| !item.is_empty()).collect()
}

/// A name and a type with a colon between them.
fn typed(item: &str) -> (String, String) {
    let (name, kind) = item.split_once(':').unwrap_or_else(|| panic!("no type: {item:?}"));
    (name.trim().to_string(), kind.trim().to_string())
}

/// As the library's source has it: a slice is a pointer and a length, or a count
/// where it is no slice of bytes.
fn of_source(name: &str, source: &str) -> Signature {
    let source = file(source);
    let text = between(&source, &format!("pub extern \"C\" fn {name}<"), "{");
    let mut parameters = Vec::new();
    for (name, kind) in items(between(text, "(", ")")).into_iter().map(typed) {
        let kind: Vec<&str> =
            kind[1..].split_whitespace().filter(|word| !word.starts_with('\'')).collect();
        let (pointer, target) = match kind.join(" ") {
            kind if kind.starts_with("mut ") => ("*mut", kind["mut ".len()..].to_string()),
            kind => ("*const", kind),
        };
        match target.strip_prefix('[').and_then(|target| target.strip_suffix(']')) {
            Some(element) if !element.contains(';') => {
                parameters.push((name.clone(), format!("{pointer} {element}")));
                let much = if element == "u8" { "_length" } else { "_count" };
                parameters.push((name + much, "usize".to_string()));
            }
            _ => parameters.push((name, format!("{pointer} {target}"))),
        }
    }
    let result = text[text.find("->").expect("a result") + 2..].split_whitespace().next();
    Signature { parameters, result: result.expect("a result").to_string() }
}

/// As the header has it.
fn of_header(name: &str) -> Signature {
    let header = header();
    let answer = fields_of_header("answer", "uint64_t").len();
    let words = |name: &str| match name {
        "uint8_t" => "u8".to_string(),
        "uint16_t" => "u16".to_string(),
        "size_t" => "usize".to_string(),
        "json_patch_node" => "Node".to_string(),
        "json_patch_answer" => answer_in_words(answer),
        "json_patch_undo_answer" => answer_in_words(answer + 1),
        other => panic!("a type of C: {other}"),
    };
    let parameters = items(between(&header, &format!("uint32_t {name}("), ")"))
        .into_iter()
        .map(|item| match item.split_once('*') {
            Some((kind, name)) => match kind.trim().strip_prefix("const ") {
                Some(kind) => (name.to_string(), format!("*const {}", words(kind))),
                None => (name.to_string(), format!("*mut {}", words(kind.trim()))),
            },
            None => {
                let (kind, name) = item.split_once(' ').expect("a type and a name");
                (name.to_string(), words(kind))
            }
        })
        .collect();
    Signature { parameters, result: "u32".to_string() }
}

/// As the declaration in Rust has it.
fn of_rust(name: &str, source: &str) -> Signature {
    let source = file(source);
    let text = between(&source, &format!("pub fn {name}("), ";");
    let text = &format!("({text}");
    let answer = fields_of("rust/src/raw.rs", "Answer", "u64").len();
    let (plain, with_undo) = (answer_in_words(answer), answer_in_words(answer + 1));
    let parameters = items(between(text, "(", ")"))
        .into_iter()
        .map(typed)
        .map(|(name, kind)| {
            (name, kind.replace("UndoAnswer", &with_undo).replace("Answer", &plain))
        })
        .collect();
    Signature { parameters, result: text[text.find("->").expect("a result") + 2..].trim().into() }
}

/// The answer's type, as the library's source has it: so many words.
fn answer_in_words(fields: usize) -> String {
    format!("[u64; {fields}]")
}

/// The names of the fields of a struct in the header, all of one type.
fn fields_of_header(name: &str, kind: &str) -> Vec<String> {
    let header = header();
    let mut names = Vec::new();
    for line in between(&header, &format!("typedef struct json_patch_{name} {{"), "}").lines() {
        if line.trim().is_empty() {
            continue;
        }
        let field = line.trim().strip_prefix(&format!("{kind} ")).expect("a field of that type");
        names.push(field.split(';').next().unwrap_or_default().to_string());
    }
    names
}

/// The same of a struct in a file of Rust or Rattle.
fn fields_of(source: &str, name: &str, kind: &str) -> Vec<String> {
    let source = file(source);
    let mut names = Vec::new();
    for line in between(&source, &format!("pub struct {name} {{"), "}").lines() {
        if let Some(line) = line.trim().strip_prefix("pub ") {
            let field = line.strip_suffix(&format!(": {kind},"));
            names.push(field.expect("a field of that type").to_string());
        }
    }
    names
}

/// Where the calls that list origins are declared.
const ORIGINS: &str = "rust/src/origins.rs";

#[test]
fn the_functions_are_declared_alike() {
    let calls = [
        ("json_patch_apply", "crates/json_patch_c/src/lib.rt", "rust/src/raw.rs", 11),
        ("json_patch_apply_within", "crates/region_call_c/src/lib.rt", "rust/src/raw.rs", 13),
        ("json_patch_apply_with_undo", "crates/undo_c/src/lib.rt", "rust/src/undo.rs", 15),
        ("json_patch_merge", "crates/merge_c/src/lib.rt", "rust/src/raw.rs", 11),
        ("json_patch_apply_origins", "crates/listing_c/src/lib.rt", ORIGINS, 13),
        ("json_patch_apply_within_origins", "crates/region_listing_c/src/lib.rt", ORIGINS, 15),
        ("json_patch_merge_origins", "crates/merge_listing_c/src/lib.rt", ORIGINS, 13),
        ("json_patch_apply_with_undo_origins", "crates/undo_listing_c/src/lib.rt", ORIGINS, 17),
    ];
    for (name, source, rust, parameters) in calls {
        let source = of_source(name, source);
        assert_eq!(of_header(name), source);
        assert_eq!(of_rust(name, rust), source);
        assert_eq!(source.parameters.len(), parameters);
    }
}

#[test]
fn the_undos_length_is_the_last_field() {
    let header = header();
    let fields = "\n    json_patch_answer answer;\n    uint64_t undo;\n";
    assert_eq!(between(&header, "typedef struct json_patch_undo_answer {", "}"), fields);
    let source = file("crates/undo/src/answer.rt");
    // the answer's fields by their names, as `From<Answer>` lays them down, and then the undo's length
    let laid_down: Vec<&str> = items(between(&source, "r.answer.into();\n        [", "]"))
        .into_iter()
        .map(|item| item.trim_start_matches("r.").trim_end_matches(" as u64"))
        .collect();
    let mut wanted = fields_of_header("answer", "uint64_t");
    wanted.push("undo".to_string());
    assert_eq!(laid_down, wanted);
}

#[test]
fn an_undos_buffer_is_as_long_as_a_patch_may_be() {
    let limits = defined("crates/spec/specs/Limits.antt");
    assert_eq!(in_header()["UNDO_BYTES"], limits["MAX_BYTES"]);
    assert_eq!(json_patch::undo::UNDO_BYTES as u64, limits["MAX_BYTES"]);
}

#[test]
fn the_answers_fields_are_those_of_the_call() {
    let fields = fields_of_header("answer", "uint64_t");
    assert_eq!(fields_of("rust/src/raw.rs", "Answer", "u64"), fields);
    let source = file("crates/json_patch/src/answer.rt");
    let of_call: Vec<String> = between(&source, "pub struct Answer {", "}")
        .lines()
        .filter_map(|line| line.trim().strip_prefix("pub "))
        .map(|field| typed(field).0)
        .collect();
    assert_eq!(of_call, fields);
    let laid_down: Vec<&str> = items(between(&source, "-> [u64; 6] {", "]"))
        .into_iter()
        .map(|item| between(item, "r.", " as u64"))
        .collect();
    assert_eq!(laid_down, fields);
}

#[test]
fn a_nodes_fields_are_those_of_the_table() {
    let fields = fields_of_header("node", "uint16_t");
    assert_eq!(fields_of("rust/src/raw.rs", "Node", "u16"), fields);
    assert_eq!(fields_of("crates/record/src/lib.rt", "Node", "u16"), fields);
    // The engine's row: as many fields, by their positions.
    let layout = constants("crates/tape/src/layout.rt");
    for (position, field) in fields.iter().enumerate() {
        assert_eq!(layout.get(&constant(field)), Some(&(position as u64)), "{field}");
    }
    let row = format!("pub type Node = [u16; {}];", fields.len());
    assert!(file("crates/tape/src/layout.rt").contains(&row), "{row}");
}

#[test]
fn a_nodes_tags_have_the_numbers_of_the_table() {
    let layout = constants("crates/tape/src/layout.rt");
    // The names in the header, and in the table's source.
    let pairs = [
        ("KIND_NULL", "NULL"),
        ("KIND_TRUE", "TRUE"),
        ("KIND_FALSE", "FALSE"),
        ("KIND_NUMBER", "NUMBER"),
        ("KIND_STRING", "STRING"),
        ("KIND_ARRAY", "ARRAY"),
        ("KIND_OBJECT", "OBJECT"),
        ("FORM_NONE", "NO_TEXT"),
        ("FORM_PLAIN", "PLAIN_STRING"),
        ("FORM_ESCAPED", "ESCAPED_STRING"),
        ("FORM_TOKEN", "TOKEN"),
        ("FORM_NUMBER", "NUMERAL"),
        ("SOURCE_DOCUMENT", "IN_DOCUMENT"),
        ("SOURCE_PATCH", "IN_PATCH"),
    ];
    let wanted: BTreeMap<String, u64> =
        pairs.into_iter().map(|(here, there)| (here.to_string(), layout[there])).collect();
    let mut here = enumeration("kind");
    here.extend(enumeration("form"));
    here.extend(enumeration("source"));
    assert_eq!(here, wanted);
}

#[test]
fn the_work_area_has_the_rows_of_the_table_and_the_slots_of_the_index() {
    let (header, layout) = (in_header(), constants("crates/tape/src/layout.rt"));
    for part in ["DOCUMENT", "PATCH", "SCRATCH"] {
        assert_eq!(header[&format!("ROW_{part}")], layout[part], "{part}");
    }
    assert_eq!(header["WORK_NODES"], layout["ROWS"]);
    assert_eq!(header["WORK_ENTRIES"], constants("crates/index/src/slots.rt")["SLOTS"]);
}

/// The prototypes of the functions on one record, in the header and in crate
/// record, both in C's words.
#[test]
fn the_functions_on_a_record_are_declared_alike() {
    let (header, source) = (header(), file("crates/record_c/src/lib.rt"));
    let c = |name: &str, kind: &str| match kind {
        "&[Node]" => format!("const json_patch_node *{name}, size_t {name}_count"),
        "&mut [Node]" => format!("json_patch_node *{name}, size_t {name}_count"),
        "usize" => format!("size_t {name}"),
        "Node" => format!("json_patch_node {name}"),
        other => panic!("a type of Rattle: {other}"),
    };
    let functions: Vec<&str> = source.split("pub extern \"C\" fn ").skip(1).collect();
    assert_eq!(functions.len(), 3);
    for function in functions {
        let (name, rest) = function.split_once('(').expect("parameters");
        let (list, rest) = rest.split_once(')').expect("parameters");
        let list: Vec<String> =
            items(list).into_iter().map(typed).map(|(name, kind)| c(&name, &kind)).collect();
        let result =
            if rest.trim_start().starts_with("-> Node") { "json_patch_node" } else { "void" };
        let wanted = format!("\n{result} {name}({});\n", list.join(", "));
        assert!(header.contains(&wanted), "{wanted}");
    }
}

/// A name with capitals or hyphens inside, as a constant.
fn constant(name: &str) -> String {
    let mut made = String::new();
    for character in name.replace('-', "_").chars() {
        if character.is_uppercase() && !made.is_empty() && !made.ends_with('_') {
            made.push('_');
        }
        made.extend(character.to_uppercase());
    }
    made
}

fn number(text: &str) -> Option<u64> {
    text.replace('_', "").parse().ok()
}

/// The numbers that a file of definitions gives names to, the names as constants.
fn defined(name: &str) -> BTreeMap<String, u64> {
    let text = file(name);
    let equations = text.lines().filter_map(|line| line.split_once(" = "));
    equations.filter_map(|(name, value)| Some((constant(name), number(value)?))).collect()
}

/// The constants with a plain number in a file of Rattle.
fn constants(name: &str) -> BTreeMap<String, u64> {
    file(name)
        .lines()
        .filter_map(|line| {
            let line = line.strip_prefix("pub const ").or_else(|| line.strip_prefix("const "))?;
            let (name, rest) = line.split_once(": ")?;
            let (_, value) = rest.strip_suffix(';')?.split_once(" = ")?;
            Some((name.to_string(), number(value)?))
        })
        .collect()
}

/// A name and its number without the prefix, if the line's words are that.
fn prefixed(name: &str, value: &str) -> Option<(String, u64)> {
    Some((name.strip_prefix("JSON_PATCH_")?.to_string(), number(value)?))
}

/// An enumeration of the header: its numbers, their names without the prefix.
fn enumeration(name: &str) -> BTreeMap<String, u64> {
    between(&header(), &format!("enum json_patch_{name} {{"), "}")
        .lines()
        .filter_map(|line| line.split("/*").next()?.trim().trim_end_matches(',').split_once(" = "))
        .filter_map(|(name, value)| prefixed(name, value.trim()))
        .collect()
}

/// The numbers that the header defines, their names without the prefix.
fn in_header() -> BTreeMap<String, u64> {
    header()
        .lines()
        .filter_map(|line| line.split("/*").next()?.strip_prefix("#define ")?.split_once(' '))
        .filter_map(|(name, value)| prefixed(name, value.trim()))
        .collect()
}

#[test]
fn refusals_have_the_numbers_and_names_of_the_definitions() {
    let mut refusals = defined("crates/spec/specs/Refusal.antt");
    assert_eq!(refusals.len(), 18);
    assert_eq!(enumeration("number"), refusals);
    refusals.remove("DONE");
    let here: BTreeMap<String, u64> = Kind::ALL
        .into_iter()
        .map(|kind| (constant(&format!("{kind:?}")), u64::from(kind.number())))
        .collect();
    assert_eq!(here, refusals);
}

#[test]
fn the_pointers_have_the_numbers_of_the_header() {
    let header = in_header();
    assert_eq!(header.keys().filter(|name| name.starts_with("POINTER_")).count(), 2);
    for pointer in [Pointer::Path, Pointer::From] {
        let name = format!("POINTER_{}", pointer.name().to_uppercase());
        assert_eq!(header[&name], pointer as u64, "{name}");
    }
}

#[test]
fn limits_are_those_of_the_definitions() {
    let limits = defined("crates/spec/specs/Limits.antt");
    assert_eq!(limits.len(), 8);
    let here: BTreeMap<String, u64> = (file("rust/src/lib.rs") + &file("rust/src/raw.rs"))
        .lines()
        .filter_map(|line| line.strip_prefix("pub const ")?.split_once(": usize = "))
        .filter_map(|(name, value)| Some((name.to_string(), number(value.strip_suffix(';')?)?)))
        .collect();
    let header = in_header();
    for (name, value) in limits {
        assert_eq!(header.get(&name), Some(&value), "{name}");
        assert_eq!(here.get(&name), Some(&value), "{name}");
    }
    assert_eq!(header.get("TOOL_OUTPUT"), here.get("TOOL_OUTPUT"));
}

#[test]
fn refusals_have_the_same_words_in_c() {
    let header = header();
    let messages = between(&header, "*json_patch_message(uint64_t number) {", "default:");
    let words: Vec<(&str, &str)> = messages
        .lines()
        .filter_map(|line| line.trim().strip_prefix("case JSON_PATCH_")?.split_once(": return \""))
        .map(|(name, rest)| (name, rest.strip_suffix("\";").expect("a string")))
        .collect();
    assert_eq!(words[0], ("DONE", "done"));
    let names: Vec<String> =
        Kind::ALL.into_iter().map(|kind| constant(&format!("{kind:?}"))).collect();
    let here: Vec<(&str, &str)> =
        names.iter().zip(Kind::ALL).map(|(name, kind)| (&name[..], kind.meaning())).collect();
    assert_eq!(words[1..], here);
}

#[test]
fn the_version_is_that_of_the_header() {
    let header = header();
    let version = between(&header, "#define JSON_PATCH_VERSION \"", "\"");
    assert_eq!(version, env!("CARGO_PKG_VERSION"));
}

#[test]
fn the_manual_has_the_headers_structs_prototypes_and_numbers() {
    let (header, manual) = (header(), file("man/json_patch.3"));
    for name in ["answer", "node", "undo_answer"] {
        let (begin, end) =
            (format!("typedef struct json_patch_{name} {{"), format!("}} json_patch_{name};"));
        let body = between(&header, &begin, &end);
        assert!(manual.contains(&format!("{begin}{body}{end}")), "{name}");
    }
    for (name, number) in &enumeration("number") {
        assert!(manual.contains(&format!("\nJSON_PATCH_{name}|{number}\n")), "{name}");
    }
    // Without the marks of the manual, and with one blank for many.
    let plain = |text: &str| text.split_whitespace().collect::<Vec<_>>().join(" ");
    let mut synopsis = between(&manual, ".SH SYNOPSIS", ".SH DESCRIPTION").to_string();
    for (mark, with) in [("\n.BI", "\n"), ("\"", " "), (" ,", ","), (" )", ")")] {
        synopsis = synopsis.replace(mark, with);
    }
    let synopsis = plain(&synopsis).replace("* ", "*").replace(" ,", ",");
    let on_a_record = ["node_read", "node_store", "node_clear"];
    let with_undo = ["apply_with_undo", "undo_with", "undo_refused", "undo_describe"];
    let functions = ["apply", "apply_with", "message", "describe"].into_iter();
    let merging = ["merge", "merge_with"];
    let listing = ["apply", "apply_within", "merge"].map(|call| format!("{call}_origins"));
    let listing_with = listing.clone().map(|call| format!("{call}_with"));
    let undo_listing = ["apply_with_undo_origins", "undo_origins_with"].map(str::to_string);
    let plain_ones = functions.chain(on_a_record).chain(with_undo).chain(merging);
    let all = plain_ones.map(str::to_string).chain(listing).chain(listing_with).chain(undo_listing);
    for function in all {
        let begin = format!("json_patch_{function}(");
        let code = &header[header.find("extern \"C\"").expect("declarations")..];
        let wanted = format!("{begin}{})", plain(between(code, &begin, ")")));
        assert!(synopsis.contains(&wanted), "{wanted}\n{synopsis}");
    }
}
