//! Merge patches.

use crate::merges::{generate, line_of, merge, vectors};
use crate::{cases, reader};
use std::collections::{BTreeMap, BTreeSet, HashSet};

#[test]
fn every_case_gives_its_line() {
    for vector in vectors::all() {
        let given = line_of(&vector.case);
        assert_eq!(given, vector.expected, "{}: {}", vector.case.name, given.escape_ascii());
    }
}

#[test]
fn names_are_unique() {
    let mut names = HashSet::new();
    for vector in vectors::all() {
        let name = vector.case.name.clone();
        assert!(!name.contains(char::is_whitespace), "{name}");
        assert!(names.insert(name.clone()), "{name} twice");
    }
}

#[test]
fn a_file_of_all_cases_reads_back() {
    let all: Vec<cases::Case> = vectors::all().into_iter().map(|vector| vector.case).collect();
    let file: Vec<u8> = all.iter().flat_map(cases::Case::text).collect();
    assert!(file.len() < 1_000_000, "{} bytes", file.len());
    assert_eq!(cases::parse(&file), Ok(all));
}

/// A result is no deeper than the deeper of the two, and every refusal comes up.
#[test]
fn a_result_is_never_too_deep() {
    let mut numbers = BTreeMap::new();
    for index in 0..20_000 {
        let case = generate::case(7, index);
        let given = merge(&case.document, &case.patch, case.room);
        *numbers.entry(given.number).or_insert(0) += 1;
        if given.number != 0 {
            continue;
        }
        let depth = |text: &[u8]| reader::read(text).expect("it was read").depth();
        if given.written.len() <= 32_768 {
            assert!(
                depth(&given.written) <= depth(&case.document).max(depth(&case.patch)),
                "{index}"
            );
        }
    }
    let found: BTreeSet<u32> = numbers.keys().copied().collect();
    let wanted = BTreeSet::from([0, 2, 3, 4, 6, 7, 16]);
    assert!(found.is_superset(&wanted), "{numbers:?}");
    assert!(numbers[&0] > 5_000, "{numbers:?}");
}
