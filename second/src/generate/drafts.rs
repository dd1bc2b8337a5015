//! Random operations for a document, whose pointers mostly hit.

use super::random::Random;
use super::spelling::{spell, Style};
use super::trees::{self, equal_to, nearly, tree};
use crate::operations::step;
use crate::patch::Operation;
use crate::pointer;
use crate::value::{Member, Value};
use crate::walk::find;

/// An operation before it is spelled. Its pointers are text and may be
/// malformed.
#[derive(Clone)]
pub struct Draft {
    /// The value of `op`.
    pub op: &'static str,
    /// The value of `path`.
    pub path: String,
    /// The value of `from`.
    pub from: Option<String>,
    /// The value of `value`.
    pub value: Option<Value>,
}

impl Draft {
    /// The element of a patch, in some spelling, its members in some order and
    /// at times with others beside them.
    pub fn text(&self, random: &mut Random) -> Vec<u8> {
        let member = |name: &str, value: Value| Member { name: name.to_string(), value };
        let mut members = vec![
            member("op", Value::Text(self.op.to_string())),
            member("path", Value::Text(self.path.clone())),
        ];
        if let Some(from) = &self.from {
            members.push(member("from", Value::Text(from.clone())));
        } else if random.chance(3) {
            members.push(member("from", trees::scalar(random)));
        }
        if let Some(value) = &self.value {
            members.push(member("value", value.clone()));
        } else if random.chance(3) {
            members.push(member("value", trees::scalar(random)));
        }
        if random.chance(5) {
            members.push(member("other", tree(random, 3, 2)));
        }
        if random.chance(30) {
            random.shuffle(&mut members);
        }
        let style = Style::some(random);
        spell(random, style, &Value::Object(members))
    }

    /// The operation, if all its pointers are good.
    pub fn operation(&self) -> Option<Operation> {
        let path = pointer::tokens(&self.path)?;
        let from = || self.from.as_deref().and_then(pointer::tokens);
        let value = || self.value.clone();
        Some(match self.op {
            "add" => Operation::Add { path, value: value()? },
            "remove" => Operation::Remove { path },
            "replace" => Operation::Replace { path, value: value()? },
            "move" => Operation::Move { from: from()?, path },
            "copy" => Operation::Copy { from: from()?, path },
            _ => Operation::Test { path, value: value()? },
        })
    }

    /// The same operation, in a part of a larger document.
    pub(super) fn under(mut self, region: &str) -> Self {
        self.path = region.to_string() + &self.path;
        self.from = self.from.map(|from| region.to_string() + &from);
        self
    }
}

/// A patch of these elements.
pub fn patch(random: &mut Random, elements: &[Vec<u8>]) -> Vec<u8> {
    let gap = random.pick(&["", "", " ", "\n", "\t\r "]);
    let comma = format!("{gap},{gap}");
    [b"[".as_slice(), &elements.join(comma.as_bytes()), b"]"].concat()
}

/// So many operations for a document, each for what the ones before leave.
/// About so many in a hundred have a pointer that is bent.
pub fn drafts(random: &mut Random, document: &Value, count: usize, bent: usize) -> Vec<Draft> {
    inside(random, document, &[], count, bent)
}

/// The same, all strictly inside a region; in the root's region, the root
/// itself is used too.
pub fn inside(
    random: &mut Random,
    document: &Value,
    region: &[String],
    count: usize,
    bent: usize,
) -> Vec<Draft> {
    let mut document = document.clone();
    let mut drafts = Vec::new();
    for _ in 0..count {
        let strictly = !region.is_empty();
        let mut draft = match find(&document, region) {
            Ok(part) => draft(random, part, strictly),
            Err(_) => draft(random, &Value::Null, strictly),
        };
        if random.chance(bent) {
            bend(random, &mut draft, strictly);
        }
        let draft = draft.under(&pointer::text(region));
        // What a refused operation would leave does not matter: nothing that
        // comes after it is reached.
        if let Some(Ok(next)) = draft.operation().map(|op| step(document.clone(), &op)) {
            if next.nodes() <= 5_000 {
                document = next;
            }
        }
        drafts.push(draft);
    }
    drafts
}

/// One operation for a document. Strictly inside it, no pointer is empty.
fn draft(random: &mut Random, document: &Value, strictly: bool) -> Draft {
    let op = random.pick(&["add", "remove", "replace", "move", "copy", "test"]);
    // A remove or a move of the root is seldom of use.
    let not_root = strictly || (matches!(op, "remove" | "move") && random.chance(97));
    let there = target(random, document, not_root);
    let free = slot(random, document, strictly);
    let (path, from) = match op {
        "add" => (free, None),
        "move" | "copy" => (free, Some(there)),
        _ => (there, None),
    };
    let value = match op {
        "add" | "replace" => {
            let size = if random.chance(80) { 1 } else { random.between(1, 6) };
            Some(tree(random, size, 4))
        }
        "test" => Some(tested(random, document, &path)),
        _ => None,
    };
    Draft { op, path, from, value }
}

/// A value to test a place for, mostly one that is equal to what is there.
pub(super) fn tested(random: &mut Random, document: &Value, path: &str) -> Value {
    match pointer::tokens(path).and_then(|tokens| find(document, &tokens).ok()) {
        Some(there) if random.chance(90) => equal_to(random, there),
        Some(there) => nearly(random, there),
        None => trees::scalar(random),
    }
}

/// A pointer to a value that is there; not to the root, if it must not be, and
/// then to something missing in a document that has nothing else.
pub fn target(random: &mut Random, document: &Value, strictly: bool) -> String {
    let mut tokens = Vec::new();
    let mut here = document;
    while random.chance(75) || (strictly && tokens.is_empty()) {
        match child(random, here) {
            Some((token, inner)) => {
                tokens.push(token);
                here = inner;
            }
            None => break,
        }
    }
    if strictly && tokens.is_empty() {
        tokens.push(trees::name(random));
    }
    pointer::text(&tokens)
}

/// A pointer to where a value can be added.
pub fn slot(random: &mut Random, document: &Value, strictly: bool) -> String {
    if !strictly && random.chance(3) {
        return String::new();
    }
    let mut tokens = Vec::new();
    let mut here = document;
    while random.chance(60) {
        match child(random, here) {
            Some((token, inner @ (Value::Array(_) | Value::Object(_)))) => {
                tokens.push(token);
                here = inner;
            }
            _ => break,
        }
    }
    match here {
        Value::Array(_) if random.chance(30) => tokens.push("-".to_string()),
        Value::Array(items) => tokens.push(random.between(0, items.len()).to_string()),
        Value::Object(members) if !members.is_empty() && random.chance(30) => {
            tokens.push(members[random.below(members.len())].name.clone());
        }
        Value::Object(_) => tokens.push(trees::name(random)),
        _ if strictly => tokens.push(trees::name(random)),
        _ => {}
    }
    pointer::text(&tokens)
}

/// A child of a container, with its token.
fn child<'a>(random: &mut Random, value: &'a Value) -> Option<(String, &'a Value)> {
    match value {
        Value::Array(items) if !items.is_empty() => {
            let at = random.below(items.len());
            Some((at.to_string(), &items[at]))
        }
        Value::Object(members) if !members.is_empty() => {
            let member = &members[random.below(members.len())];
            Some((member.name.clone(), &member.value))
        }
        _ => None,
    }
}

/// Tokens that are seldom good.
#[rustfmt::skip]
const ODD_TOKENS: &[&str] = &[
    "-", "00", "01", "+1", "-1", "1.0", "1e0", "", " ", "x", "99", "65536", "4294967296",
    "18446744073709551616", "18446744073709551617", "100000000000000000000000000000", "~0", "~1",
    "~01", "~00001", "0", "1", "2", "a", "%61", "１", "missing",
];

/// Malformed ends of pointers.
const MALFORMED: &[&str] = &["~", "~2", "/~", "~/x", "/~~", "/a~a", "~0~", "/\u{7E}9"];

/// Bends a pointer of an operation.
pub fn bend(random: &mut Random, draft: &mut Draft, strictly: bool) {
    let pointer = match &mut draft.from {
        Some(from) if random.chance(50) => from,
        _ => &mut draft.path,
    };
    match random.below(10) {
        0..=3 => {
            let cut = pointer.rfind('/').unwrap_or(0);
            pointer.truncate(cut);
            pointer.push('/');
            pointer.push_str(random.pick(ODD_TOKENS));
        }
        4..=6 => {
            pointer.push('/');
            pointer.push_str(random.pick(ODD_TOKENS));
        }
        7 => pointer.push('0'),
        8 if !strictly => pointer.push_str(random.pick(MALFORMED)),
        9 if !strictly && !pointer.is_empty() => drop(pointer.remove(0)),
        _ => pointer.push('x'),
    }
    // A pointer strictly inside must keep a token, and be one.
    if strictly && !pointer.starts_with('/') {
        pointer.insert(0, '/');
    }
}
