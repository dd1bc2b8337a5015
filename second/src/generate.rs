//! Generated cases: the same for the same seed and index.

pub mod damage;
pub mod drafts;
mod edges;
mod numbers;
mod oddities;
pub mod pairs;
pub mod random;
pub mod regions;
pub mod shelves;
pub(crate) mod spelling;
pub(crate) mod trees;

use crate::cases::Case;
use crate::limits::TOOL_ROOM;
use crate::value::{Member, Value};
use damage::damage;
use drafts::{bend, drafts, patch, slot, target, Draft};
use random::Random;
pub(crate) use spelling::{spell, Style};
use trees::{equal_to, nearly};
pub(crate) use trees::{nest, tree};

/// A document and a patch.
type Texts = (Vec<u8>, Vec<u8>);

/// Makes the texts of a case of some kind.
type Kind = fn(&mut Random) -> Texts;

/// The kinds of cases, and the share of each.
const KINDS: &[(usize, Kind)] = &[
    (16, plain),
    (5, large),
    (7, tests),
    (3, crowds),
    (7, moves),
    (6, pointers),
    (7, shapes),
    (6, oddities::strings),
    (4, oddities::repeated_names),
    (4, numbers::numbers),
    (3, numbers::number_pairs),
    (7, edges::depth),
    (6, edges::nodes),
    (3, edges::lengths),
    (3, edges::counts),
    (2, edges::output),
    (8, shuffles),
    (4, oddities::soup),
    (2, oddities::noise),
    (4, mixed),
];

/// The case of that number.
pub fn case(seed: u64, index: u64) -> Case {
    let mut random = Random::new(seed, index);
    let (mut document, mut patch) = texts(&mut random);
    match random.below(100) {
        0..=6 => damage(&mut random, &mut document),
        7..=13 => damage(&mut random, &mut patch),
        _ => {}
    }
    let room = room(&mut random, &document, &patch);
    Case { name: format!("g{seed}-{index}"), room, document, patch }
}

/// Two texts of some kind.
pub(crate) fn texts(random: &mut Random) -> Texts {
    let mut left = random.below(KINDS.iter().map(|(share, _)| share).sum());
    for (share, kind) in KINDS {
        if left < *share {
            return kind(random);
        }
        left -= share;
    }
    plain(random)
}

/// Mostly the patch tool's room, else one near the length of what is written.
fn room(random: &mut Random, document: &[u8], patch: &[u8]) -> usize {
    if random.chance(88) {
        return TOOL_ROOM;
    }
    let length = crate::apply(document, patch, usize::MAX).written.len();
    match random.below(5) {
        0 => length.saturating_sub(1),
        1 => length + 1,
        2 => random.below(length),
        _ => length,
    }
}

/// Any document, and operations that mostly hit.
fn plain(random: &mut Random) -> Texts {
    let size = match random.below(4) {
        0 => random.between(1, 5),
        1 | 2 => random.between(3, 30),
        _ => random.between(10, 100),
    };
    let document = tree(random, size, 6);
    let count = random.below(12);
    let bent = random.pick(&[0, 0, 5, 20]);
    let drafts = drafts(random, &document, count, bent);
    finish(random, &document, &drafts)
}

/// A larger document, and more operations.
fn large(random: &mut Random) -> Texts {
    let size = random.between(100, 900);
    let document = tree(random, size, 12);
    let count = random.between(5, 40);
    let drafts = drafts(random, &document, count, 1);
    finish(random, &document, &drafts)
}

/// Tests, of what is there in another spelling or of something near it.
fn tests(random: &mut Random) -> Texts {
    let size = random.between(1, 30);
    let document = tree(random, size, 5);
    let mut drafts = Vec::new();
    for _ in 0..random.between(1, 6) {
        let path = target(random, &document, false);
        let tokens = crate::pointer::tokens(&path).unwrap_or_default();
        let Ok(there) = crate::walk::find(&document, &tokens) else {
            continue;
        };
        let value = if random.chance(80) { equal_to(random, there) } else { nearly(random, there) };
        drafts.push(Draft { op: "test", path, from: None, value: Some(value) });
    }
    finish(random, &document, &drafts)
}

/// Objects of many members, tested in another order, sometimes after a move; now
/// and then with a name repeated.
fn crowds(random: &mut Random) -> Texts {
    const ENDS: &[(&str, &str)] =
        &[("", ""), ("m", ""), ("", "mAh"), ("a-long-beginning-", "-end")];
    let mut members = Vec::new();
    let (before, after) = random.pick(ENDS);
    for at in 0..random.between(30, 250) {
        let value =
            if random.chance(5) { tree(random, 12, 3) } else { Value::Number(at.to_string()) };
        members.push(Member { name: format!("{before}{at}{after}"), value });
    }
    random.shuffle(&mut members);
    if random.chance(10) {
        let name = members[random.below(members.len())].name.clone();
        members.push(Member { name, value: Value::Null });
    }
    let crowd = Value::Object(members);
    let mut drafts = Vec::new();
    let mut path = "/a".to_string();
    if random.chance(40) {
        let op = random.pick(&["move", "copy"]);
        drafts.push(Draft { op, path: "/b".to_string(), from: Some(path), value: None });
        path = "/b".to_string();
    }
    for _ in 0..random.between(1, 3) {
        let value =
            if random.chance(75) { equal_to(random, &crowd) } else { nearly(random, &crowd) };
        drafts.push(Draft { op: "test", path: path.clone(), from: None, value: Some(value) });
    }
    let document = Value::Object(vec![Member { name: "a".to_string(), value: crowd }]);
    finish(random, &document, &drafts)
}

/// Moves and copies: anywhere, to themselves, into and out of one another, from
/// the root and to it; and removals of the root.
fn moves(random: &mut Random) -> Texts {
    let size = random.between(2, 20);
    let document = tree(random, size, 5);
    let mut drafts = Vec::new();
    for _ in 0..random.between(1, 4) {
        let strictly = random.chance(85);
        let from = target(random, &document, strictly);
        let path = match random.below(10) {
            0 => from.clone(),
            1 => from.clone() + &slot(random, &Value::Null, true),
            2 => from[..from.rfind('/').unwrap_or(0)].to_string(),
            3 => from.clone() + "x",
            4 => String::new(),
            _ => slot(random, &document, true),
        };
        drafts.push(match random.below(12) {
            0 => Draft { op: "remove", path: String::new(), from: Some(from), value: None },
            1..=4 => Draft { op: "copy", path, from: Some(from), value: None },
            _ => Draft { op: "move", path, from: Some(from), value: None },
        });
    }
    finish(random, &document, &drafts)
}

/// Bent pointers.
fn pointers(random: &mut Random) -> Texts {
    let size = random.between(3, 15);
    let children = (0..size).map(|_| tree(random, 4, 2)).collect();
    let document =
        if random.chance(30) { Value::Array(children) } else { trees::object(random, children) };
    let count = random.between(1, 4);
    let mut drafts = drafts(random, &document, count, 0);
    for draft in &mut drafts {
        if random.chance(50) {
            bend(random, draft, false);
        }
    }
    finish(random, &document, &drafts)
}

/// Patches that are not of the right shape.
fn shapes(random: &mut Random) -> Texts {
    let document = tree(random, 6, 3);
    let count = random.between(1, 4);
    let mut elements: Vec<Value> = drafts(random, &document, count, 5)
        .iter()
        .map(|draft| crate::reader::read(&draft.text(random)).unwrap_or(Value::Null))
        .collect();
    for element in &mut elements {
        if random.chance(40) {
            misshape(random, element);
        }
    }
    let top = match random.below(20) {
        0 => elements.pop().unwrap_or(Value::Null),
        1 => tree(random, 3, 2),
        _ => Value::Array(elements),
    };
    let style = Style::some(random);
    (spell(random, style, &document), spell(random, style, &top))
}

/// Takes something from an operation, or gives it something wrong.
fn misshape(random: &mut Random, element: &mut Value) {
    let Value::Object(members) = element else {
        return;
    };
    let at = random.below(members.len());
    match random.below(8) {
        0 | 1 => drop(members.remove(at)),
        2 | 3 => members[at].value = tree(random, 2, 1),
        4 => members[at].name.push(' '),
        5 => {
            let ops = ["add", "remove", "replace", "move", "copy", "test", "Test", "", "ad"];
            let op = Value::Text(random.pick(&ops).to_string());
            members.retain(|member| member.name != "op");
            members.push(Member { name: "op".to_string(), value: op });
        }
        6 => *element = tree(random, 3, 2),
        _ => members.clear(),
    }
}

/// A shuffle of two patches in separate regions.
fn shuffles(random: &mut Random) -> Texts {
    let shuffle = regions::shuffle(random);
    let patch = patch(random, &shuffle.elements());
    (shuffle.document, patch)
}

/// The document of one case and the patch of another, which is not mixed itself:
/// this kind is the last.
fn mixed(random: &mut Random) -> Texts {
    let (document, _) = plain(random);
    let (_, kind) = KINDS[random.below(KINDS.len() - 1)];
    let (_, patch) = kind(random);
    (document, patch)
}

/// The texts of a document and of its operations.
fn finish(random: &mut Random, document: &Value, drafts: &[Draft]) -> Texts {
    let style = Style::some(random);
    let document = spell(random, style, document);
    let elements: Vec<Vec<u8>> = drafts.iter().map(|draft| draft.text(random)).collect();
    (document, patch(random, &elements))
}
