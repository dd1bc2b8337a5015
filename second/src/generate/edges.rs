//! Cases near the limits of depth, nodes, lengths, operations and output.

use super::drafts::{drafts, patch, slot, target, Draft};
use super::random::Random;
use super::regions::innermost;
use super::trees::{nest, tree};
use super::{finish, Texts};
use crate::value::Value;

/// Documents and values near 32 levels, and operations that go deeper.
pub fn depth(random: &mut Random) -> Texts {
    let levels = random.between(20, 33);
    let mut document = nest(random, levels);
    if random.chance(60) {
        document = beside_zeros(random, document);
    }
    let mut drafts = Vec::new();
    for _ in 0..random.below(5) {
        let deep = innermost(random, &document);
        let path = if random.chance(50) { deep } else { slot(random, &document, true) };
        let from = target(random, &document, false);
        drafts.push(match random.below(5) {
            0 | 1 => {
                let (least, most) = random.pick(&[(0, 1), (1, 5), (2, 12), (29, 31)]);
                let levels = random.between(least, most);
                Draft { op: "add", path, from: None, value: Some(nest(random, levels)) }
            }
            2 => {
                let levels = random.between(1, 8);
                Draft { op: "replace", path: from, from: None, value: Some(nest(random, levels)) }
            }
            3 => Draft { op: "move", path, from: Some(from), value: None },
            _ => Draft { op: "copy", path, from: Some(from), value: None },
        });
    }
    finish(random, &document, &drafts)
}

/// An array of a value and of zeros: a few, or so many that there are about
/// 2,048 nodes.
fn beside_zeros(random: &mut Random, value: Value) -> Value {
    let count = if random.chance(60) {
        random.below(4)
    } else {
        random.between(2_040, 2_050).saturating_sub(value.nodes())
    };
    let mut items = vec![Value::Number("0".to_string()); count];
    let at = random.pick(&[0, count, count / 2]);
    items.insert(at, value);
    Value::Array(items)
}

/// Documents and patches near 2,048 nodes, and operations that add to them.
pub fn nodes(random: &mut Random) -> Texts {
    if random.chance(25) {
        // A patch of that many: its own five and the value's.
        let size = random.between(2_036, 2_048);
        let value = small_tree(random, size);
        let draft = Draft { op: "test", path: String::new(), from: None, value: Some(value) };
        let document = draft.value.clone().unwrap_or(Value::Null);
        return finish(random, &document, &[draft]);
    }
    let size = random.between(2_036, 2_051);
    let document = small_tree(random, size);
    let count = random.between(1, 12);
    let drafts = drafts(random, &document, count, 2);
    finish(random, &document, &drafts)
}

/// A tree of that many nodes with short names and scalars, so that its text is
/// not too long.
fn small_tree(random: &mut Random, nodes: usize) -> Value {
    let zero = || Value::Number("0".to_string());
    let mut items = Vec::new();
    let mut left = nodes - 1;
    while left > 0 {
        let size = if random.chance(60) { 1 } else { random.between(1, 40).min(left) };
        items.push(match size {
            1 => zero(),
            _ if random.chance(30) => tree(random, size, 3),
            _ => Value::Array(vec![zero(); size - 1]),
        });
        left -= size;
    }
    Value::Array(items)
}

/// Texts near 32,768 bytes.
pub fn lengths(random: &mut Random) -> Texts {
    let document = tree(random, 5, 2);
    let drafts = drafts(random, &document, 2, 5);
    let (mut document, mut patch) = finish(random, &document, &drafts);
    let which = random.below(5);
    if which < 3 {
        lengthen(random, &mut document);
    }
    if which > 1 {
        lengthen(random, &mut patch);
    }
    (document, patch)
}

/// Brings a text to about the greatest length, by blanks around it or by a long
/// string in place of it.
fn lengthen(random: &mut Random, text: &mut Vec<u8>) {
    let length = random.between(32_764, 32_772);
    let missing = length.saturating_sub(text.len());
    match random.below(4) {
        0 => {
            let after = text.split_off(0);
            *text = vec![b' '; missing];
            text.extend(after);
        }
        1 => {
            *text = vec![b'a'; length];
            text[0] = b'"';
            text[length - 1] = b'"';
        }
        _ => text.resize(text.len() + missing, b'\n'),
    }
}

/// Patches of about 256 operations.
pub fn counts(random: &mut Random) -> Texts {
    let count = random.between(253, 259);
    let mut elements = Vec::new();
    for at in 0..count {
        elements.push(match random.below(2_000) {
            0 => b"{}".to_vec(),
            1 => br#"{"op":"remove","path":"/x"}"#.to_vec(),
            2 => br#"{"op":"test","path":"/0","value":1}"#.to_vec(),
            3..=200 => br#"{"op":"remove","path":"/1"}"#.to_vec(),
            201..=300 => br#"{"op":"move","from":"/1","path":"/2"}"#.to_vec(),
            301..=400 => br#"{"op":"copy","from":"/0","path":"/-"}"#.to_vec(),
            _ => format!(r#"{{"op":"add","path":"/1","value":{at}}}"#).into_bytes(),
        });
    }
    let document = br#"["first","second","third"]"#.to_vec();
    (document, patch(random, &elements))
}

/// Copies of a long string that come to about the patch tool's room.
pub fn output(random: &mut Random) -> Texts {
    let copies = random.between(2, 40);
    // So many strings and one more, a comma before each copy, two brackets.
    let room = 65_536 - 2 - copies;
    let length = room / (copies + 1) - 2;
    let rest = room % (copies + 1);
    let text = "x".repeat(length);
    // A number fills up what is left, to a byte or two more or less.
    let digits = (rest + random.between(0, 3)).saturating_sub(2);
    let document = match digits {
        0 => format!("[\"{text}\"]"),
        _ => format!("[\"{text}\",{}]", "1".repeat(digits)),
    };
    let copy = br#"{"op":"copy","from":"/0","path":"/0"}"#.to_vec();
    (document.into_bytes(), patch(random, &vec![copy; copies]))
}
