//! Two patches in a row are one.

use crate::generate::pairs::{pair, Came};
use crate::limits::TOOL_ROOM;
use std::collections::BTreeMap;

#[test]
fn two_patches_in_a_row_are_one() {
    let mut seen: BTreeMap<Came, usize> = BTreeMap::new();
    for index in 0..4_000 {
        let came = pair(13, index).law(|document, patch| crate::apply(document, patch, TOOL_ROOM));
        assert_ne!(came, Came::Broken, "{index}");
        *seen.entry(came).or_default() += 1;
    }
    let all =
        [Came::Text, Came::SecondRefused, Came::FirstRefused, Came::TextTooLong, Came::OverLimits];
    assert!(all.iter().all(|came| seen.get(came).is_some_and(|&times| times >= 40)), "{seen:?}");
}

#[test]
fn op_is_less_by_the_first_patchs_operations() {
    // An engine that counts one operation too few or too many breaks the law.
    for by in [-1, 1] {
        let broken = (0..500).any(|index| {
            let pair = pair(13, index);
            let came = pair.law(|document, patch| {
                let mut answer = crate::apply(document, patch, TOOL_ROOM);
                if patch == pair.joined && answer.op > 0 {
                    answer.op = answer.op.wrapping_add_signed(by);
                }
                answer
            });
            came == Came::Broken
        });
        assert!(broken, "{by}");
    }
}
