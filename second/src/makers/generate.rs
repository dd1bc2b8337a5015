//! Generated cases with a region: the same for the same seed and index.

use super::apply;
use super::cases::Case;
use crate::generate;
use crate::generate::damage::damage;
use crate::generate::random::Random;
use crate::limits::TOOL_ROOM;
use crate::pointer;
use crate::reader;
use crate::value::{Member, Value};
use crate::writer;

/// The case of that number: the document and the patch of a plain case, made
/// into a maker's in some region of the document, and then often spoiled.
pub fn case(seed: u64, index: u64) -> Case {
    let mut random = Random::new(seed, index ^ 1 << 61);
    let plain = generate::case(seed, index);
    let (document, patch, tokens) = match random.below(10) {
        0 => (plain.document, plain.patch, some_region(&mut random)),
        _ => makers(&mut random, plain.document, plain.patch),
    };
    let mut region = pointer::text(&tokens).into_bytes();
    if random.chance(12) {
        spoil(&mut random, &mut region);
    }
    let mut case =
        Case { name: format!("m{seed}-{index}"), room: TOOL_ROOM, document, patch, region };
    if random.chance(10) {
        let written = apply(&case.document, &case.patch, &case.region, usize::MAX).written.len();
        case.room = random.pick(&[written, written.saturating_sub(1), written + 1]);
    }
    case
}

/// Tokens that occur in documents, or hardly do.
const TOKENS: &[&str] =
    &["a", "b", "0", "1", "", "~", "/", "~1", "\u{e9}", "\u{20ac}", "\u{1f50b}", "\\", "\"", "-"];

fn some_region(random: &mut Random) -> Vec<String> {
    (0..random.below(4)).map(|_| random.pick(TOKENS).to_string()).collect()
}

/// The document put under a region, and the patch's operations moved there, a
/// test before them; at times one is left as it was.
fn makers(
    random: &mut Random,
    document: Vec<u8>,
    patch: Vec<u8>,
) -> (Vec<u8>, Vec<u8>, Vec<String>) {
    let region = some_region(random);
    let (Ok(inner), Ok(Value::Array(elements))) = (reader::read(&document), reader::read(&patch))
    else {
        return (document, patch, region);
    };
    let test = first_test(&inner, &region);
    let document = region.iter().rev().fold(inner, |value, token| wrapped(random, value, token));
    let mut list: Vec<Value> = Vec::new();
    if !random.chance(5) {
        list.extend(test);
    }
    for mut element in elements {
        if !random.chance(3) {
            narrow(random, &mut element, &region);
        }
        list.push(element);
    }
    (writer::write(&document), writer::write(&Value::Array(list)), region)
}

/// A value as the member, or the element, that a token names.
fn wrapped(random: &mut Random, value: Value, token: &str) -> Value {
    if token == "0" && random.chance(70) {
        return Value::Array(vec![value]);
    }
    Value::Object(vec![Member { name: token.to_string(), value }])
}

/// A test of the first child, which holds.
fn first_test(inner: &Value, region: &[String]) -> Option<Value> {
    let (token, value) = match inner {
        Value::Array(elements) => ("0".to_string(), elements.first()?.clone()),
        Value::Object(members) => {
            let member = members.first()?;
            (member.name.clone(), member.value.clone())
        }
        _ => return None,
    };
    let path = pointer::text(region) + &pointer::text(&[token]);
    Some(operation("test", path, value))
}

fn operation(op: &str, path: String, value: Value) -> Value {
    let member = |name: &str, value: Value| Member { name: name.to_string(), value };
    Value::Object(vec![
        member("op", Value::Text(op.to_string())),
        member("path", Value::Text(path)),
        member("value", value),
    ])
}

/// An operation of a maker: its path under the region, and its kind mostly one
/// that makers send.
fn narrow(random: &mut Random, element: &mut Value, region: &[String]) {
    let Value::Object(members) = element else {
        return;
    };
    for member in &mut *members {
        match (member.name.as_str(), &mut member.value) {
            ("path" | "from", Value::Text(path)) => *path = pointer::text(region) + path,
            ("op", Value::Text(op)) if !random.chance(4) => {
                if matches!(op.as_str(), "remove" | "move" | "copy") {
                    *op = random.pick(&["add", "replace", "test"]).to_string();
                }
            }
            _ => {}
        }
    }
    if !members.iter().any(|member| member.name == "value") && !random.chance(5) {
        members.push(Member { name: "value".to_string(), value: Value::Null });
    }
}

/// A region changed in some place, made longer or shorter, or too long.
fn spoil(random: &mut Random, region: &mut Vec<u8>) {
    match random.below(6) {
        0 => region.extend_from_slice(b"/x"),
        1 => drop(region.pop()),
        2 => region.push(b'~'),
        3 => region.resize(random.pick(&[32_768, 32_769]), b'a'),
        _ => damage(random, region),
    }
}
