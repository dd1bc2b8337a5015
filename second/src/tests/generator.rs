//! The generated cases: the same each time, and of every kind.

use crate::generate::case;
use std::collections::BTreeMap;

#[test]
fn every_refusal_occurs_in_five_thousand_cases() {
    let mut numbers: BTreeMap<u32, usize> = BTreeMap::new();
    for index in 0..5_000 {
        let case = case(7, index);
        // The patch tool's room, and the case's own, must not matter for this.
        let number = crate::apply(&case.document, &case.patch, 65_536).number;
        *numbers.entry(number).or_default() += 1;
    }
    for number in [0].into_iter().chain(2..=16) {
        let times = numbers.get(&number).copied().unwrap_or(0);
        assert!(times >= 10, "{number} occurs {times} times: {numbers:?}");
    }
}

#[test]
fn both_pointers_fail_at_every_one_of_four_tokens() {
    let mut seen: BTreeMap<(u32, u32, usize), usize> = BTreeMap::new();
    for index in 0..20_000 {
        let case = case(7, index);
        let answer = crate::apply(&case.document, &case.patch, 65_536);
        if answer.pointer != 0 {
            *seen.entry((answer.number, answer.pointer, answer.place)).or_default() += 1;
        }
    }
    for number in [11, 12] {
        for pointer in [1, 2] {
            for place in 0..4 {
                let times = seen.get(&(number, pointer, place)).copied().unwrap_or(0);
                assert!(times >= 1, "{number} {pointer} {place}: {seen:?}");
            }
        }
    }
}

#[test]
fn the_same_seed_gives_the_same_cases() {
    for index in 0..200 {
        assert_eq!(case(3, index), case(3, index));
        assert_ne!(case(3, index).name, case(4, index).name);
    }
}
