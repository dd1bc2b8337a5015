//! Links.

use crate::links::{cases, generate, read, vectors, write};
use std::collections::{BTreeSet, HashSet};

#[test]
fn every_case_gives_both_answers() {
    for vector in vectors::all() {
        let cases::Case { name, room, text } = &vector.case;
        assert_eq!(write(text, *room), vector.written, "{name} written");
        assert_eq!(read(text, *room), vector.read, "{name} read");
    }
}

#[test]
fn names_are_unique_and_every_number_occurs() {
    let (mut names, mut numbers) = (HashSet::new(), BTreeSet::new());
    for vector in vectors::all() {
        let name = vector.case.name.clone();
        assert!(!name.contains(char::is_whitespace), "{name}");
        assert!(names.insert(name.clone()), "{name} twice");
        numbers.extend([vector.written.err(), vector.read.err()].into_iter().flatten());
    }
    assert_eq!(numbers, BTreeSet::from([2, 10, 16, 22]));
}

#[test]
fn a_file_of_all_cases_reads_back() {
    let all: Vec<cases::Case> = vectors::all().into_iter().map(|vector| vector.case).collect();
    let file: Vec<u8> = all.iter().flat_map(cases::Case::file).collect();
    assert!(file.len() < 1_000_000, "{} bytes", file.len());
    assert_eq!(cases::parse(&file), Ok(all));
}

#[test]
fn what_is_written_is_read_back() {
    let mut written = 0;
    for index in 0..20_000 {
        let text = generate::case(14, index).text;
        if let Ok(link) = write(&text, usize::MAX) {
            written += 1;
            assert_eq!(read(&link, text.len()), Ok(text));
        }
    }
    assert!(written > 2_000, "{written}");
}

#[test]
fn links_with_one_pointer_are_written_alike() {
    for index in 0..20_000 {
        let text = generate::case(15, index).text;
        if let Ok(pointer) = read(&text, usize::MAX) {
            let link = write(&pointer, usize::MAX);
            assert_eq!(link.and_then(|link| read(&link, usize::MAX)), Ok(pointer));
        }
    }
}
