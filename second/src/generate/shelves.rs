//! A maker's patch, and two documents that have the same value in its region:
//! T-06.

use super::drafts::{bend, patch, slot, target, tested, Draft};
use super::random::Random;
use super::regions::well_formed;
use super::spelling::{spell, Style};
use super::trees::{nest, object, tree};
use crate::limits::{MOST_LEVELS, MOST_NODES};
use crate::operations::step;
use crate::pointer;
use crate::value::{Member, Value};
use crate::writer::write;

/// Two documents, a region and a patch that keeps to it.
pub struct Shelves {
    /// The documents' texts.
    pub documents: [Vec<u8>; 2],
    /// What is written of each document where nothing changes.
    pub written: [Vec<u8>; 2],
    /// The region's tokens.
    pub region: Vec<String>,
    /// The patch's text.
    pub patch: Vec<u8>,
}

/// Tokens of regions. Some are elements of an array in one document and members
/// of an object in the other.
const TOKENS: &[&str] =
    &["0", "0", "1", "2", "a", "b", "", "~", "/", "\u{e9}", "\u{1f50b}", "\\", "\"", "-", "packs"];

/// The shelves of that number.
pub fn shelves(seed: u64, index: u64) -> Shelves {
    let mut random = Random::new(seed, index ^ 1 << 60);
    let random = &mut random;
    // In the root's region nothing is outside.
    let length = if random.chance(2) { 0 } else { random.between(1, 3) };
    let region: Vec<String> = (0..length).map(|_| random.pick(TOKENS).to_string()).collect();
    let held = held(random, MOST_LEVELS - region.len());
    let values = [(); 2].map(|()| around(random, &held, &region));
    let documents = [0, 1].map(|which| {
        let style = Style::some(random);
        spell(random, style, &values[which])
    });
    let written = [0, 1].map(|which| write(&values[which]));
    let elements: Vec<Vec<u8>> = operations(random, &held, &pointer::text(&region))
        .iter()
        .map(|draft| draft.text(random))
        .collect();
    let patch = patch(random, &elements);
    Shelves { documents, written, region, patch }
}

/// The value that both have in the region; at times as deep as it may be.
fn held(random: &mut Random, levels: usize) -> Value {
    if random.chance(5) {
        let fewer = random.below(3);
        return nest(random, levels - fewer);
    }
    let size = random.between(1, 40);
    tree(random, size, 6)
}

/// A document with the value at the region, and others beside the way to it; at
/// times nearly as many as there may be.
fn around(random: &mut Random, held: &Value, region: &[String]) -> Value {
    let inside = region.iter().rev();
    let mut document = inside.fold(held.clone(), |value, token| wrapped(random, value, token));
    if random.chance(4) {
        let left = MOST_NODES.saturating_sub(document.nodes() + 1 + random.below(8));
        let crowd = Value::Array(vec![Value::Number("0".to_string()); left]);
        match &mut document {
            Value::Array(items) if !region.is_empty() => items.push(crowd),
            Value::Object(members) if !region.is_empty() => {
                members.push(Member { name: "a crowd of zeros".to_string(), value: crowd });
            }
            _ => {}
        }
    }
    document
}

/// A value as the element or the member that a token names, with others beside
/// it.
fn wrapped(random: &mut Random, value: Value, token: &str) -> Value {
    let mut beside = |count: usize| -> Vec<Value> {
        (0..count)
            .map(|_| {
                let size = random.between(1, 6);
                tree(random, size, 3)
            })
            .collect()
    };
    let place = ["0", "1", "2"].iter().position(|&index| index == token);
    let (before, after) = (beside(place.unwrap_or(0)), beside(3));
    match place {
        Some(_) if random.chance(50) => {
            let after = after.into_iter().take(random.below(4));
            Value::Array(before.into_iter().chain([value]).chain(after).collect())
        }
        _ => {
            let others = after.into_iter().take(random.below(4)).collect();
            let mut members = match object(random, others) {
                Value::Object(members) => members,
                _ => Vec::new(),
            };
            members.retain(|member| member.name != token);
            let at = random.between(0, members.len());
            members.insert(at, Member { name: token.to_string(), value });
            Value::Object(members)
        }
    }
}

/// A test, and then some of test, replace and add, each for what the ones before
/// leave; now and then one misses.
fn operations(random: &mut Random, held: &Value, region: &str) -> Vec<Draft> {
    let mut here = held.clone();
    let mut drafts = Vec::new();
    for op in 0..random.between(1, 10) {
        let op = if op == 0 { "test" } else { random.pick(&["test", "replace", "add"]) };
        let path =
            if op == "add" { slot(random, &here, true) } else { target(random, &here, true) };
        let value = match op {
            "test" => tested(random, &here, &path),
            _ if random.chance(3) => {
                let levels = random.between(MOST_LEVELS - 6, MOST_LEVELS - 2);
                nest(random, levels)
            }
            _ => {
                let size = random.between(1, 6);
                tree(random, size, 3)
            }
        };
        let mut draft = Draft { op, path, from: None, value: Some(value) };
        if random.chance(5) {
            bend(random, &mut draft, true);
        }
        if let Some(Ok(next)) = draft.operation().map(|op| step(here.clone(), &op)) {
            here = next;
        }
        drafts.push(draft.under(region));
    }
    drafts.retain(well_formed);
    drafts
}
