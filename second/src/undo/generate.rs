//! Generated cases of undos: mostly patches that succeed, and undos near every
//! limit.

use super::apply_with_undo;
use super::cases::Case;
use crate::generate::drafts::{drafts, patch, slot, target, Draft};
use crate::generate::random::Random;
use crate::generate::{self, nest, spell, tree, Style};
use crate::limits::{LONGEST_TEXT, MOST_OPERATIONS, TOOL_ROOM};
use crate::operations::step;
use crate::value::Value;

/// A document and a patch.
type Texts = (Vec<u8>, Vec<u8>);

/// The case of a seed and an index.
pub fn case(seed: u64, index: u64) -> Case {
    let mut random = Random::new(seed, index ^ 1 << 60);
    let random = &mut random;
    let (document, patch) = match random.below(20) {
        0..=4 => generate::texts(random),
        5..=10 => runs(random),
        11..=14 => moves(random),
        15 => many_operations(random),
        16 => deep_values(random),
        17 => many_nodes(random),
        18 => many_bytes(random),
        _ => long_text(random),
    };
    let (room, undo_room) = rooms(random, &document, &patch);
    Case { name: format!("u{seed}-{index}"), room, undo_room, document, patch }
}

/// Mostly the most that is of use, else one near what is written.
fn rooms(random: &mut Random, document: &[u8], patch: &[u8]) -> (usize, usize) {
    if random.chance(85) {
        return (TOOL_ROOM, LONGEST_TEXT);
    }
    let answer = apply_with_undo(document, patch, usize::MAX, usize::MAX);
    let mut near = |length: usize| match random.below(6) {
        0 | 1 => length.saturating_sub(1),
        2 => random.below(length),
        3 => length + 1,
        _ => length,
    };
    (near(answer.answer.written.len()), near(answer.undo.len()))
}

/// The operations that succeed, one after another.
fn succeeding(document: &Value, drafts: Vec<Draft>) -> Vec<Draft> {
    let mut document = document.clone();
    let mut kept = Vec::new();
    for draft in drafts {
        let Some(operation) = draft.operation() else {
            continue;
        };
        // A move into its own child is no operation, though its step is.
        let own = |from: &String| draft.op == "move" && inside_itself(from, &draft.path);
        if draft.from.as_ref().is_some_and(own) {
            continue;
        }
        match step(document.clone(), &operation) {
            Ok(next) if next.nodes() <= 2_048 => {
                document = next;
                kept.push(draft);
            }
            _ => {}
        }
    }
    kept
}

fn inside_itself(from: &str, path: &str) -> bool {
    path.len() > from.len() && path.starts_with(&format!("{from}/"))
}

/// Any document, and operations that all succeed.
fn runs(random: &mut Random) -> Texts {
    let size = random.pick(&[3, 10, 30, 60]);
    let document = tree(random, size, 6);
    let count = random.between(1, 14);
    let drafts = drafts(random, &document, count, 0);
    finish(random, &document, succeeding(&document, drafts))
}

/// Moves and copies: within arrays, to themselves, over ancestors and beside them.
fn moves(random: &mut Random) -> Texts {
    let size = random.between(3, 25);
    let document = tree(random, size, 5);
    let mut now = document.clone();
    let mut drafts = Vec::new();
    for _ in 0..random.between(1, 10) {
        let from = target(random, &now, true);
        let parent = from[..from.rfind('/').unwrap_or(0)].to_string();
        let path = match random.below(10) {
            0 => from.clone(),
            1 => parent,
            2 => parent[..parent.rfind('/').unwrap_or(0)].to_string(),
            3 => format!("{parent}/-"),
            4 => format!("{parent}/{}", random.below(6)),
            5 => format!("{parent}/{}", from.len()),
            _ => slot(random, &now, true),
        };
        let op = random.pick(&["move", "move", "copy"]);
        let draft = Draft { op, path, from: Some(from), value: None };
        let kept = succeeding(&now, vec![draft]);
        for draft in kept {
            if let Some(Ok(next)) = draft.operation().map(|it| step(now.clone(), &it)) {
                now = next;
                drafts.push(draft);
            }
        }
    }
    finish(random, &document, drafts)
}

/// Undos of about 256 operations.
fn many_operations(random: &mut Random) -> Texts {
    let moves = random.between(100, 130);
    let others = (MOST_OPERATIONS + random.below(7) - 3).saturating_sub(2 * moves);
    let mut elements = vec![br#"{"op":"move","from":"/0","path":"/-"}"#.to_vec(); moves];
    for at in 0..others {
        elements.push(match random.below(4) {
            0 => br#"{"op":"copy","from":"/0","path":"/1"}"#.to_vec(),
            1 => br#"{"op":"replace","path":"/0","value":[]}"#.to_vec(),
            _ => format!(r#"{{"op":"add","path":"/-","value":{at}}}"#).into_bytes(),
        });
    }
    random.shuffle(&mut elements);
    for _ in 0..random.below(3) {
        let at = random.below(elements.len() + 1);
        elements.insert(at, br#"{"op":"move","from":"","path":""}"#.to_vec());
    }
    elements.truncate(MOST_OPERATIONS);
    (br#"["a",{"b":0},[1,2]]"#.to_vec(), patch(random, &elements))
}

/// Old values about 30 deep.
fn deep_values(random: &mut Random) -> Texts {
    let levels = random.between(27, 32);
    let below = random.chance(60) && levels < 32;
    let deep = nest(random, levels);
    let document = if below { Value::Array(vec![deep, Value::Null]) } else { deep };
    let path = if below { "/0" } else { "" };
    let elements = match random.below(5) {
        0 if below => vec![br#"{"op":"remove","path":"/0"}"#.to_vec()],
        1 if below => vec![br#"{"op":"move","from":"/0","path":"/1"}"#.to_vec()],
        2 => vec![format!(r#"{{"op":"add","path":"{path}","value":0}}"#).into_bytes()],
        3 if below => vec![br#"{"op":"copy","from":"/1","path":""}"#.to_vec()],
        _ => vec![format!(r#"{{"op":"replace","path":"{path}","value":0}}"#).into_bytes()],
    };
    let style = Style::some(random);
    (spell(random, style, &document), patch(random, &elements))
}

/// Undos of about 2,048 nodes.
fn many_nodes(random: &mut Random) -> Texts {
    let removes = random.between(1, 60);
    // The array, three for each operation, and the values: the first is an array.
    let wanted = 2_048 + random.below(7) - 3;
    let zeros = wanted - 1 - 3 * removes - removes;
    let document = format!("[[{}]{}]", vec!["0"; zeros].join(","), ",1".repeat(removes - 1));
    let mut elements = vec![br#"{"op":"remove","path":"/0"}"#.to_vec(); removes];
    if random.chance(30) {
        elements.push(br#"{"op":"test","path":"","value":[]}"#.to_vec());
    }
    (document.into_bytes(), patch(random, &elements))
}

/// Undos of about 32,768 bytes, of one operation or several; in the names at
/// times what is escaped twice.
fn many_bytes(random: &mut Random) -> Texts {
    let letter = random.pick(&["a", "~", "/", "\\\"", "\\u0001", "é"]);
    let name = letter.repeat(random.below(40));
    let token = name.replace('~', "~0").replace('/', "~1");
    let removes = random.between(1, 6);
    let each = format!(r#"{{"op":"add","path":"/{token}/0","value":""}}"#).len() + 1;
    let left = (LONGEST_TEXT + random.below(7) - 3).saturating_sub(1 + removes * each);
    let mut strings = Vec::new();
    for at in 0..removes {
        let share = if at + 1 == removes { left - left / removes * at } else { left / removes };
        strings.push(format!("\"{}\"", "x".repeat(share)));
    }
    random.shuffle(&mut strings);
    let document = format!("{{\"{name}\":[{}]}}", strings.join(","));
    let remove = format!(r#"{{"op":"remove","path":"/{token}/0"}}"#).into_bytes();
    (document.into_bytes(), patch(random, &vec![remove; removes]))
}

/// Patched texts about as long as a document may be; and undos far too long.
fn long_text(random: &mut Random) -> Texts {
    let copies = random.between(1, 3);
    let length = (LONGEST_TEXT + random.below(9) - 4 - 2 - copies) / (copies + 1) - 2;
    let document = format!("[\"{}\"]", "x".repeat(length));
    let mut elements = vec![br#"{"op":"copy","from":"/0","path":"/-"}"#.to_vec(); copies];
    for _ in 0..random.pick(&[0, 0, 1, 2, 8]) {
        elements.push(br#"{"op":"replace","path":"/1","value":0}"#.to_vec());
        elements.push(br#"{"op":"move","from":"/0","path":"/-"}"#.to_vec());
    }
    (document.into_bytes(), patch(random, &elements))
}

/// The texts of a document and of its operations.
fn finish(random: &mut Random, document: &Value, drafts: Vec<Draft>) -> Texts {
    let style = Style::some(random);
    let document = spell(random, style, document);
    let elements: Vec<Vec<u8>> = drafts.iter().map(|draft| draft.text(random)).collect();
    (document, patch(random, &elements))
}
