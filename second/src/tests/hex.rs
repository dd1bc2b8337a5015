//! Intel HEX.

use crate::hex::{cases, generate, read, vectors, write};
use std::collections::{BTreeSet, HashSet};

#[test]
fn every_case_gives_its_answers() {
    for vector in vectors::all() {
        let cases::Case { name, room, text } = &vector.case;
        if let Some(written) = vector.written {
            assert_eq!(write(text, *room), written, "{name} written");
        }
        if let Some(answer) = vector.read {
            assert_eq!(read(text, *room), answer, "{name} read");
        }
    }
}

#[test]
fn names_are_unique_and_every_number_occurs() {
    let (mut names, mut numbers) = (HashSet::new(), BTreeSet::new());
    for vector in vectors::all() {
        let name = vector.case.name.clone();
        assert!(!name.contains(char::is_whitespace), "{name}");
        assert!(names.insert(name.clone()), "{name} twice");
        for answer in [vector.written, vector.read].into_iter().flatten() {
            numbers.extend(answer.err().map(|(number, _)| number));
        }
    }
    assert_eq!(numbers, BTreeSet::from([2, 16, 18, 19, 20, 21]));
}

#[test]
fn a_file_of_all_cases_reads_back() {
    let all: Vec<cases::Case> = vectors::all().into_iter().map(|vector| vector.case).collect();
    let file: Vec<u8> = all.iter().flat_map(cases::Case::file).collect();
    assert!(file.len() < 1_048_576, "{} bytes", file.len());
    assert_eq!(cases::parse(&file), Ok(all));
}

#[test]
fn what_is_written_is_read_back() {
    for index in 0..5_000 {
        let text = generate::case(7, index).text;
        if let Ok(hex) = write(&text, usize::MAX) {
            assert_eq!(read(&hex, text.len()), Ok(text));
        }
    }
}

#[test]
fn generated_cases_meet_every_refusal() {
    let mut numbers = BTreeSet::new();
    for index in 0..5_000 {
        let case = generate::case(8, index);
        numbers.extend(write(&case.text, case.room).err().map(|(number, _)| number));
        numbers.extend(read(&case.text, case.room).err().map(|(number, _)| number));
    }
    assert_eq!(numbers, BTreeSet::from([16, 18, 19, 20, 21]));
}
