//! Generated cases of two texts to compare: the same for the same seed and index.

use super::cases::Case;
use crate::generate::random::Random;
use crate::generate::{self, spell, trees, Style};
use crate::reader;
use crate::value::{Member, Value};

/// The case of that number: a document, and often an equal one, or one that is
/// nearly so, in another spelling.
pub fn case(seed: u64, index: u64) -> Case {
    let mut random = Random::new(seed, index ^ 1 << 60);
    let plain = generate::case(seed, index);
    let (first, second) = match random.below(10) {
        0 => (plain.document, plain.patch),
        1 => (plain.patch, plain.document),
        2 => flat(&mut random),
        _ => {
            let value = match reader::read(&plain.document) {
                Ok(value) => value,
                Err(_) => grown(&mut random),
            };
            beside(&mut random, plain.document, &value)
        }
    };
    let rubbish = random.bits() as u16;
    Case { name: format!("e{seed}-{index}"), rubbish, first, second }
}

/// A tree of some size.
fn grown(random: &mut Random) -> Value {
    let (nodes, levels) = (random.between(1, 200), random.between(0, 8));
    trees::tree(random, nodes, levels)
}

/// A text, and another of a value that is like the first one's.
fn beside(random: &mut Random, document: Vec<u8>, value: &Value) -> (Vec<u8>, Vec<u8>) {
    let mut other = match random.below(4) {
        0 => trees::nearly(random, value),
        _ => trees::equal_to(random, value),
    };
    if random.chance(70) {
        reorder(random, &mut other);
    }
    let style = Style::some(random);
    let second = spell(random, style, &other);
    let first = match random.below(3) {
        0 => document,
        _ => spell(random, Style::TIGHT, value),
    };
    (first, second)
}

/// Members in another order, at some depths.
fn reorder(random: &mut Random, value: &mut Value) {
    match value {
        Value::Array(items) => items.iter_mut().for_each(|item| reorder(random, item)),
        Value::Object(members) => {
            members.iter_mut().for_each(|member| reorder(random, &mut member.value));
            match random.below(4) {
                0 => {}
                1 => members.reverse(),
                _ => random.shuffle(members),
            }
        }
        _ => {}
    }
}

/// Two objects with many members: in step, in reverse or in any order; the last
/// one, or one in between, may differ.
fn flat(random: &mut Random) -> (Vec<u8>, Vec<u8>) {
    let count = random.between(0, 400);
    let members = |count: usize| -> Vec<Member> {
        (0..count)
            .map(|k| Member { name: format!("n{k}"), value: Value::Number(k.to_string()) })
            .collect()
    };
    let (mut first, mut second) = (members(count), members(count));
    match random.below(3) {
        0 => {}
        1 => second.reverse(),
        _ => random.shuffle(&mut second),
    }
    if random.chance(30) {
        random.shuffle(&mut first);
    }
    if count > 0 && random.chance(50) {
        let at = random.below(count);
        match random.below(3) {
            0 => second[at].name.push('x'),
            1 => second[at].value = Value::Null,
            _ => drop(second.remove(at)),
        }
    }
    let texts = [first, second].map(Value::Object);
    (spell(random, Style::TIGHT, &texts[0]), spell(random, Style::TIGHT, &texts[1]))
}
