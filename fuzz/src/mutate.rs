//! Cases made of other cases: bytes changed, two spliced, parts exchanged.

use crate::parts::parts;
use second::cases::Case;
use second::generate::damage::damage;
use second::generate::random::Random;
use second::limits::TOOL_ROOM;

/// A case made of some of these.
pub fn mutant(seed: u64, index: u64, pool: &[Case]) -> Case {
    // The index is set apart from those of generated cases.
    let mut random = Random::new(seed, index ^ 1 << 63);
    let random = &mut random;
    let mut case = pool[random.below(pool.len())].clone();
    let other = &pool[random.below(pool.len())];
    match random.below(8) {
        0 => case.patch = other.patch.clone(),
        1 => case.document = splice(random, &case.document, &other.document),
        2 => case.patch = splice(random, &case.patch, &other.patch),
        3 => case.document = exchange(random, &case.document, &other.document),
        4 => case.patch = exchange(random, &case.patch, &other.patch),
        5 => case.patch = exchange(random, &case.patch, &other.document),
        _ => {}
    }
    match random.below(6) {
        0 | 1 => damage(random, &mut case.document),
        2 | 3 => damage(random, &mut case.patch),
        4 => {
            damage(random, &mut case.document);
            damage(random, &mut case.patch);
        }
        _ => {}
    }
    let room = if random.chance(90) { TOOL_ROOM } else { random.below(200) };
    Case { name: format!("m{seed}-{index}"), room, ..case }
}

/// The beginning of one text and the end of another.
fn splice(random: &mut Random, one: &[u8], other: &[u8]) -> Vec<u8> {
    let begin = random.between(0, one.len());
    let end = random.between(0, other.len());
    [&one[..begin], &other[end..]].concat()
}

/// One part of a text, mostly an element or a member, in place of another.
fn exchange(random: &mut Random, one: &[u8], other: &[u8]) -> Vec<u8> {
    let (places, pieces) = (parts(one), parts(other));
    if places.is_empty() || pieces.is_empty() {
        return splice(random, one, other);
    }
    let place = &places[random.below(places.len())];
    let piece = &pieces[random.below(pieces.len())];
    [&one[..place.start], &other[piece.clone()], &one[place.end..]].concat()
}
