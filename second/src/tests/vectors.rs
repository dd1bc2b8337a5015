//! Every committed case gives the line written beside it.

use crate::cases::{self, Case};
use crate::vectors::{self, examples, Vector};
use std::collections::{BTreeSet, HashSet};

/// What is told of a line when it is not the one expected.
fn shown(line: &[u8]) -> String {
    String::from_utf8_lossy(line).chars().take(200).collect()
}

fn check(vectors: &[Vector]) {
    for Vector { case, expected } in vectors {
        let got = case.line(case.room);
        assert!(
            got == *expected,
            "{}: expected {}, got {}",
            case.name,
            shown(expected),
            shown(&got)
        );
    }
}

#[test]
fn every_vector_gives_its_line() {
    check(&vectors::all());
}

#[test]
fn examples_of_the_scope_paper() {
    for (name, document, patch, expected) in examples::ROWS {
        let answer = crate::apply(document.as_bytes(), patch.as_bytes(), 65_536);
        assert_eq!(shown(&crate::line(&answer)), *expected, "{name}");
        assert_eq!(answer.number == 0, !answer.written.is_empty(), "{name}");
    }
}

#[test]
fn names_are_unique_and_without_blanks() {
    let mut names = HashSet::new();
    for vector in vectors::all() {
        let name = vector.case.name;
        assert!(!name.contains(char::is_whitespace), "{name}");
        assert!(names.insert(name.clone()), "{name} twice");
    }
}

#[test]
fn every_refusal_but_the_first_occurs() {
    let numbers: BTreeSet<u32> = vectors::all()
        .iter()
        .map(|v| crate::apply(&v.case.document, &v.case.patch, v.case.room).number)
        .collect();
    let wanted: BTreeSet<u32> = [0].into_iter().chain(2..=16).collect();
    assert_eq!(numbers, wanted);
}

#[test]
fn a_file_of_all_cases_reads_back_and_is_small() {
    let cases: Vec<Case> = vectors::all().into_iter().map(|v| v.case).collect();
    let file: Vec<u8> = cases.iter().flat_map(Case::text).collect();
    assert!(file.len() < 700_000, "{} bytes", file.len());
    assert_eq!(cases::parse(&file), Ok(cases));
}

#[test]
fn a_broken_file_of_cases_is_refused() {
    let good = b"case a 5 1 2\n1\n[]\n";
    assert_eq!(cases::parse(good).map(|cases| cases.len()), Ok(1));
    assert_eq!(cases::parse(b""), Ok(Vec::new()));
    for cut in 1..good.len() {
        assert!(cases::parse(&good[..cut]).is_err(), "cut at {cut}");
    }
    assert!(cases::parse(b"case a 5 1 3\n1\n[]\n").is_err());
    assert!(cases::parse(b"case a x 1 2\n1\n[]\n").is_err());
    assert!(cases::parse(b"case a 5 99999999999999999999 2\n1\n[]\n").is_err());
}
