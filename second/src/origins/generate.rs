//! Generated cases of calls that list origins: those of each call, with a list.

use super::cases::{Call, Case};
use super::Lent;
use crate::generate::random::Random;
use crate::limits::{MOST_NODES, TOOL_ROOM};
use crate::{generate, makers, merges, undo};

/// The case of a seed and an index. Half of the plain ones have the texts of an undo's
/// case, whose operations mostly succeed.
pub fn case(seed: u64, index: u64) -> Case {
    let mut random = Random::new(seed, index ^ 1 << 59);
    let mut case = match random.below(8) {
        0 => plain(seed, index),
        1 | 2 => Case { call: Call::Apply, undo_room: 0, ..undone(seed, index) },
        3 | 4 => within(seed, index),
        5 | 6 => merged(seed, index),
        _ => undone(seed, index),
    };
    case.name = format!("o{seed}-{index}");
    if random.chance(30) {
        let needed = case.answer().origins.len();
        case.lent.list = match random.below(6) {
            0 | 1 => needed.saturating_sub(1),
            2 => random.below(needed + 1),
            3 => needed + 1,
            _ => needed,
        };
    }
    case
}

fn plain(seed: u64, index: u64) -> Case {
    let made = generate::case(seed, index);
    texts(Call::Apply, made.room, made.document, made.patch)
}

fn merged(seed: u64, index: u64) -> Case {
    let made = merges::generate::case(seed, index);
    texts(Call::Merge, made.room, made.document, made.patch)
}

fn within(seed: u64, index: u64) -> Case {
    let made = makers::generate::case(seed, index);
    Case { region: made.region, ..texts(Call::Within, made.room, made.document, made.patch) }
}

fn undone(seed: u64, index: u64) -> Case {
    let made = undo::generate::case(seed, index);
    let case = texts(Call::Undo, made.room.min(TOOL_ROOM), made.document, made.patch);
    Case { undo_room: made.undo_room, ..case }
}

/// A case with the longest list that is of use.
fn texts(call: Call, room: usize, document: Vec<u8>, patch: Vec<u8>) -> Case {
    let lent = Lent { room, list: MOST_NODES };
    let (name, region) = (String::new(), Vec::new());
    Case { call, name, lent, undo_room: 0, document, patch, region }
}
