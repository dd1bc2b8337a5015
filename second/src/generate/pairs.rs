//! Two patches in a row and the joined one, and the law on them: SPECIFICATION 11, T-13.

use super::drafts::{drafts, patch};
use super::random::Random;
use super::regions::{shuffle, well_formed};
use super::spelling::{spell, Style};
use super::trees::tree;
use crate::limits::{LONGEST_TEXT, MOST_NODES, MOST_OPERATIONS};
use crate::refusals::NO_ROOM;
use crate::{patch::shape, reader::read, Answer};

/// A document, two patches, and the patch that has the elements of both.
pub struct Pair {
    /// The document's text.
    pub document: Vec<u8>,
    /// The patches' texts, and the joined one's.
    pub first: Vec<u8>,
    /// The second patch's text.
    pub second: Vec<u8>,
    /// The joined patch's text.
    pub joined: Vec<u8>,
}

/// What came of a pair.
#[derive(Clone, Copy, Debug, PartialEq, Eq, PartialOrd, Ord)]
pub enum Came {
    /// Both ways gave the same text.
    Text,
    /// The second patch was refused, and the joined one at the same operation.
    SecondRefused,
    /// The first patch was refused, and the joined one in the same way.
    FirstRefused,
    /// The law says nothing: the first's text is too long for a document.
    TextTooLong,
    /// The law says nothing: a patch is over a limit.
    OverLimits,
    /// The law does not hold.
    Broken,
}

impl Pair {
    /// Holds the answers of an engine to the law.
    pub fn law(&self, mut apply: impl FnMut(&[u8], &[u8]) -> Answer) -> Came {
        let Some(operations) = self.within_limits() else {
            return Came::OverLimits;
        };
        let first = apply(&self.document, &self.first);
        let joined = apply(&self.document, &self.joined);
        if first.number == NO_ROOM || first.written.len() > LONGEST_TEXT {
            return Came::TextTooLong;
        }
        if first.number != 0 {
            return if joined == first { Came::FirstRefused } else { Came::Broken };
        }
        let mut second = apply(&first.written, &self.second);
        if second.number == 0 {
            return if joined == second { Came::Text } else { Came::Broken };
        }
        second.op += operations;
        if joined == second {
            Came::SecondRefused
        } else {
            Came::Broken
        }
    }

    /// The number of the first's operations, where both patches are well formed
    /// and the joined one is within the limits.
    fn within_limits(&self) -> Option<u32> {
        let (nodes, operations) = counts(&self.first)?;
        let (more_nodes, more_operations) = counts(&self.second)?;
        // The joined text has one array where there were two.
        let few = nodes + more_nodes <= MOST_NODES + 1;
        let few_operations = operations + more_operations <= MOST_OPERATIONS;
        (few && few_operations && self.joined.len() <= LONGEST_TEXT).then_some(operations as u32)
    }
}

/// The nodes and the operations of a patch that is well formed.
fn counts(patch: &[u8]) -> Option<(usize, usize)> {
    if patch.len() > LONGEST_TEXT {
        return None;
    }
    let value = read(patch).ok()?;
    let operations = shape(&value).ok()?;
    Some((value.nodes(), operations.len()))
}

/// The pair of that number.
pub fn pair(seed: u64, index: u64) -> Pair {
    let mut random = Random::new(seed, index ^ 1 << 61);
    let random = &mut random;
    let (document, [first, second]) = match random.below(20) {
        0..=9 => ordinary(random),
        10..=15 => regions(random),
        16 => long_text(random),
        17 => many_operations(random),
        18 => many_nodes(random),
        _ => many_bytes(random),
    };
    let all = [first.clone(), second.clone()].concat();
    let mut text = |elements: &[Vec<u8>]| patch(random, elements);
    let (first, second, joined) = (text(&first), text(&second), text(&all));
    Pair { document, first, second, joined }
}

/// A document, and the elements of two patches.
type Parts = (Vec<u8>, [Vec<Vec<u8>>; 2]);

/// Operations that mostly hit, cut in two somewhere.
fn ordinary(random: &mut Random) -> Parts {
    let size = random.between(1, 80);
    let document = tree(random, size, 6);
    let count = random.below(14);
    let bent = random.pick(&[0, 0, 0, 5, 15]);
    let mut drafts = drafts(random, &document, count, bent);
    drafts.retain(well_formed);
    let mut first: Vec<Vec<u8>> = drafts.iter().map(|draft| draft.text(random)).collect();
    let second = first.split_off(random.between(0, first.len()));
    let style = Style::some(random);
    (spell(random, style, &document), [first, second])
}

/// Two patches in regions of their own, which also go over the limits of depth
/// and nodes.
fn regions(random: &mut Random) -> Parts {
    let shuffle = shuffle(random);
    (shuffle.document, shuffle.patches)
}

/// A text between the two that is about as long as a document may be.
fn long_text(random: &mut Random) -> Parts {
    let copies = random.between(1, 3);
    let length = (LONGEST_TEXT + random.below(9) - 4 - 2 - copies) / (copies + 1) - 2;
    let document = format!("[\"{}\"]", "x".repeat(length)).into_bytes();
    let copy = br#"{"op":"copy","from":"/0","path":"/-"}"#.to_vec();
    let remove = br#"{"op":"remove","path":"/1"}"#.to_vec();
    (document, [vec![copy; copies], vec![remove; random.below(4)]])
}

/// About as many operations as a patch may have.
fn many_operations(random: &mut Random) -> Parts {
    let count = MOST_OPERATIONS + random.below(5) - 2;
    let add = br#"{"op":"add","path":"/-","value":0}"#.to_vec();
    let mut first = vec![add; count];
    if random.chance(30) {
        let at = random.below(count);
        first[at] = br#"{"op":"remove","path":"/999"}"#.to_vec();
    }
    let second = first.split_off(random.between(0, count));
    (b"[]".to_vec(), [first, second])
}

/// About as many nodes as a patch may have.
fn many_nodes(random: &mut Random) -> Parts {
    let fill = |count: usize| {
        let zeros = vec!["0"; count].join(",");
        format!("{{\"op\":\"replace\",\"path\":\"\",\"value\":[{zeros}]}}").into_bytes()
    };
    // The array, and for each operation its object, op, path and value.
    let zeros = MOST_NODES - 1 - 8 + random.below(5) - 2;
    let some = random.between(1, zeros - 1);
    (b"null".to_vec(), [vec![fill(some)], vec![fill(zeros - some)]])
}

/// About as many bytes as a patch may have.
fn many_bytes(random: &mut Random) -> Parts {
    let fill = |count: usize| {
        let text = "x".repeat(count);
        format!("{{\"op\":\"replace\",\"path\":\"\",\"value\":\"{text}\"}}").into_bytes()
    };
    let letters = LONGEST_TEXT - 3 - 2 * fill(0).len() + random.below(5) - 2;
    let some = random.between(0, letters);
    (b"null".to_vec(), [vec![fill(some)], vec![fill(letters - some)]])
}
