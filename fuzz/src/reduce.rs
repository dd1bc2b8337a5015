//! Making a case smaller while something stays wrong with it.

use crate::parts::parts;
use second::cases::Case;
use second::limits::TOOL_ROOM;

/// The smallest case found for which `wrong` still holds.
pub fn reduce(case: &Case, mut wrong: impl FnMut(&Case) -> bool) -> Case {
    let mut best = case.clone();
    if best.room != TOOL_ROOM {
        let roomy = Case { room: TOOL_ROOM, ..best.clone() };
        if wrong(&roomy) {
            best = roomy;
        }
    }
    loop {
        let before = best.document.len() + best.patch.len();
        for which in [patch_of, document_of] {
            drop_parts(&mut best, which, &mut wrong);
            drop_bytes(&mut best, which, &mut wrong);
        }
        if best.document.len() + best.patch.len() == before {
            return best;
        }
    }
}

/// One of the two texts.
type Which = fn(&mut Case) -> &mut Vec<u8>;

fn document_of(case: &mut Case) -> &mut Vec<u8> {
    &mut case.document
}

fn patch_of(case: &mut Case) -> &mut Vec<u8> {
    &mut case.patch
}

/// Drops elements and members, with a comma beside them, large ones first.
fn drop_parts(best: &mut Case, which: Which, wrong: &mut dyn FnMut(&Case) -> bool) {
    let mut next = 0;
    while let Some(part) = parts(which(best)).get(next).cloned() {
        let text = which(best);
        let (mut start, mut end) = (part.start, part.end);
        if text.get(end) == Some(&b',') {
            end += 1;
        } else if start > 0 && text[start - 1] == b',' {
            start -= 1;
        }
        if !without(best, which, start, end, wrong) {
            next += 1;
        }
    }
}

/// Drops runs of bytes, long ones first.
fn drop_bytes(best: &mut Case, which: Which, wrong: &mut dyn FnMut(&Case) -> bool) {
    let mut length = which(best).len() / 2;
    while length > 0 {
        let mut start = 0;
        while start + length <= which(best).len() {
            if !without(best, which, start, start + length, wrong) {
                start += length;
            }
        }
        length /= 2;
    }
}

/// Drops these bytes if something is wrong without them too.
fn without(
    best: &mut Case,
    which: Which,
    start: usize,
    end: usize,
    wrong: &mut dyn FnMut(&Case) -> bool,
) -> bool {
    let mut smaller = best.clone();
    which(&mut smaller).drain(start..end);
    let still = wrong(&smaller);
    if still {
        *best = smaller;
    }
    still
}
