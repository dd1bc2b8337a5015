//! Two texts compared.

use crate::equal::{cases, compare, generate, values, vectors};
use crate::reader;
use crate::value::equal;
use std::collections::{BTreeMap, BTreeSet, HashSet};

#[test]
fn every_case_gives_its_line() {
    for vector in vectors::all() {
        let given = vector.case.line();
        let expected = vector.expected.escape_ascii();
        assert_eq!(given, vector.expected, "{}: {expected}", vector.case.name);
    }
}

#[test]
fn names_are_unique() {
    let mut names = HashSet::new();
    for vector in vectors::all() {
        let name = vector.case.name.clone();
        assert!(!name.contains(char::is_whitespace), "{name}");
        assert!(names.insert(name.clone()), "{name} twice");
    }
}

#[test]
fn a_file_of_all_cases_reads_back() {
    let all: Vec<cases::Case> = vectors::all().into_iter().map(|vector| vector.case).collect();
    let file: Vec<u8> = all.iter().flat_map(cases::Case::file).collect();
    assert!(file.len() < 1_000_000, "{} bytes", file.len());
    assert_eq!(cases::parse(&file), Ok(all));
}

/// The verdict is equality's, the count is at most a times b, and both come out
/// equal often.
#[test]
fn the_bound_holds() {
    let (mut outcomes, mut numbers) = (BTreeMap::new(), BTreeSet::new());
    for index in 0..5_000 {
        let case = generate::case(10, index);
        match compare(&case.first, &case.second) {
            Ok(found) => {
                let read = |text: &[u8]| reader::read(text).expect("a value");
                let (first, second) = (read(&case.first), read(&case.second));
                assert_eq!(values(&first, &second), found, "{index}");
                assert_eq!(found.equal, equal(&first, &second), "{index}");
                assert!(found.names <= (first.nodes() * second.nodes()) as u64, "{index}");
                *outcomes.entry((found.equal, found.names > 0)).or_insert(0) += 1;
            }
            Err(refusal) => drop(numbers.insert((refusal.number, refusal.text))),
        }
    }
    assert!(outcomes.len() == 4 && outcomes.values().all(|&count| count > 100), "{outcomes:?}");
    for number in [2, 3, 4, 5, 6, 7] {
        assert!(numbers.contains(&(number, 1)), "{numbers:?}");
    }
}
