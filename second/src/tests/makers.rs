//! Patches of makers, in a region.

use crate::makers::{apply, cases, generate, vectors};
use std::collections::{BTreeMap, BTreeSet, HashSet};

#[test]
fn every_case_gives_its_line() {
    for vector in vectors::all() {
        let given = vector.case.line();
        assert_eq!(given, vector.expected, "{}: {}", vector.case.name, given.escape_ascii());
    }
}

#[test]
fn names_are_unique() {
    let mut names = HashSet::new();
    for vector in vectors::all() {
        let name = vector.case.name.clone();
        assert!(!name.contains(char::is_whitespace), "{name}");
        assert!(names.insert(name.clone()), "{name} twice");
    }
}

#[test]
fn a_file_of_all_cases_reads_back() {
    let all: Vec<cases::Case> = vectors::all().into_iter().map(|vector| vector.case).collect();
    let file: Vec<u8> = all.iter().flat_map(cases::Case::file).collect();
    assert!(file.len() < 1_000_000, "{} bytes", file.len());
    assert_eq!(cases::parse(&file), Ok(all));
}

/// What passes gives the answer of a plain patch; and nothing else but the
/// region's own refusals comes before it.
#[test]
fn what_is_not_refused_for_the_region_is_as_plain() {
    let mut numbers = BTreeMap::new();
    for index in 0..20_000 {
        let case = generate::case(5, index);
        let given = apply(&case.document, &case.patch, &case.region, case.room);
        *numbers.entry(given.number).or_insert(0) += 1;
        let own = given.number == 17 || given.number == 10 && given.op == 0;
        let long = given.number == 2 && given.text == 0;
        if !own && !long {
            assert_eq!(given, crate::apply(&case.document, &case.patch, case.room), "{index}");
        }
    }
    let found: BTreeSet<u32> = numbers.keys().copied().collect();
    let wanted = BTreeSet::from([0, 2, 3, 4, 6, 7, 8, 9, 10, 11, 12, 14, 15, 16, 17]);
    assert!(found.is_superset(&wanted), "{numbers:?}");
    assert!(numbers[&0] > 1_000, "{numbers:?}");
}
