//! Generated cases of merge patches: the same for the same seed and index.

use super::merge;
use crate::cases::Case;
use crate::generate;
use crate::generate::damage::damage;
use crate::generate::random::Random;
use crate::generate::spelling::{spell, Style};
use crate::generate::trees;
use crate::limits::TOOL_ROOM;
use crate::reader;
use crate::value::{Member, Value};

/// The case of that number: the document of a plain case, or a wide one, and a patch
/// that is like the document here and there.
pub fn case(seed: u64, index: u64) -> Case {
    let mut random = Random::new(seed, index ^ 1 << 62);
    let plain = generate::case(seed, index);
    let (document, patch) = match random.below(12) {
        0 => (plain.document, plain.patch),
        1 => wide(&mut random),
        _ => like(&mut random, plain.document, plain.patch),
    };
    let mut case = Case { name: format!("e{seed}-{index}"), room: TOOL_ROOM, document, patch };
    if random.chance(5) {
        damage(&mut random, &mut case.patch);
    }
    if random.chance(8) {
        let written = merge(&case.document, &case.patch, usize::MAX).written.len();
        case.room = random.pick(&[written, written.saturating_sub(1), written + 1]);
    }
    case
}

/// A patch for the document that was read; else both as they are.
fn like(random: &mut Random, document: Vec<u8>, patch: Vec<u8>) -> (Vec<u8>, Vec<u8>) {
    let Ok(value) = reader::read(&document) else {
        return (document, patch);
    };
    let made = patch_for(random, &value, 8);
    let style = Style::some(random);
    (document, spell(random, style, &made))
}

/// A patch for a value: some of an object's members in any order, changed, merged or
/// null, and some others.
fn patch_for(random: &mut Random, value: &Value, levels: usize) -> Value {
    let Value::Object(members) = value else {
        return if random.chance(50) { fresh(random, levels) } else { trees::scalar(random) };
    };
    if levels == 0 || random.chance(6) {
        return trees::scalar(random);
    }
    let mut made: Vec<Member> = Vec::new();
    for Member { name, value } in members {
        if random.chance(45) {
            continue;
        }
        let value = match random.below(4) {
            0 => Value::Null,
            1 => trees::scalar(random),
            _ => patch_for(random, value, levels - 1),
        };
        made.push(Member { name: name.clone(), value });
    }
    for _ in 0..random.below(4) {
        let name = trees::name(random);
        if made.iter().all(|member| member.name != name) {
            let value = fresh(random, levels - 1);
            made.push(Member { name, value });
        }
    }
    random.shuffle(&mut made);
    Value::Object(made)
}

/// A value with nulls in it, also in objects in objects.
fn fresh(random: &mut Random, levels: usize) -> Value {
    if levels == 0 || random.chance(30) {
        return if random.chance(30) { Value::Null } else { trees::scalar(random) };
    }
    let nodes = random.between(1, 12);
    let tree = trees::tree(random, nodes, levels.min(5));
    nulled(random, tree)
}

/// Some of its values made null.
fn nulled(random: &mut Random, value: Value) -> Value {
    if random.chance(15) {
        return Value::Null;
    }
    match value {
        Value::Object(members) => Value::Object(
            members
                .into_iter()
                .map(|Member { name, value }| Member { name, value: nulled(random, value) })
                .collect(),
        ),
        Value::Array(items) => {
            Value::Array(items.into_iter().map(|item| nulled(random, item)).collect())
        }
        other => other,
    }
}

/// Two objects with many members, about as many as a result may have.
fn wide(random: &mut Random) -> (Vec<u8>, Vec<u8>) {
    let common = random.below(1_200);
    let own = random.below(900);
    let new = random.between(900, 1_100).saturating_sub(own / 4);
    let mut first: Vec<usize> = (0..common + own).collect();
    let mut second: Vec<usize> = (0..common).chain(5_000..5_000 + new).collect();
    random.shuffle(&mut first);
    random.shuffle(&mut second);
    let nulls = random.below(100);
    let document: Vec<String> = first.iter().map(|k| format!("\"{k}\":{}", k % 7)).collect();
    let patch: Vec<String> = second
        .iter()
        .map(|k| format!("\"{k}\":{}", if random.chance(nulls) { "null" } else { "8" }))
        .collect();
    (format!("{{{}}}", document.join(",")).into(), format!("{{{}}}", patch.join(",")).into())
}
