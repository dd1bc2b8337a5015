//! Origins.

use crate::origins::cases::{Call, CALLS};
use crate::origins::{cases, generate, vectors, Listed};
use crate::{makers, merges, reader, undo, Answer};
use std::collections::{BTreeMap, BTreeSet, HashSet};

/// What is told of lines that are not those expected.
fn shown(lines: &[u8]) -> String {
    String::from_utf8_lossy(lines).chars().take(600).collect()
}

#[test]
fn every_case_gives_its_lines() {
    for vector in vectors::all() {
        let (given, wanted) = (vector.case.lines(), vector.lines());
        assert!(given == wanted, "expected {}got {}", shown(&wanted), shown(&given));
    }
}

#[test]
fn names_are_unique_and_every_refusal_of_each_call_occurs() {
    let (mut names, mut seen) = (HashSet::new(), BTreeSet::new());
    for vector in vectors::all() {
        let name = vector.case.name.clone();
        assert!(!name.contains(char::is_whitespace), "{name}");
        assert!(names.insert(name.clone()), "{name} twice");
        let Listed { answer, undo, origins } = vector.case.answer();
        assert_eq!(origins.is_empty(), answer.number != 0, "{name}");
        assert!(undo.is_empty() || answer.number == 0, "{name}");
        seen.insert((vector.case.call, answer.number, answer.text, answer.op > 0));
    }
    let patch: &[(u32, u32, bool)] = &[
        (0, 0, false),
        (2, 1, false),
        (2, 2, false),
        (3, 1, false),
        (3, 2, false),
        (4, 1, false),
        (4, 2, false),
        (5, 1, false),
        (5, 2, false),
        (6, 1, false),
        (6, 2, false),
        (7, 1, false),
        (7, 2, false),
        (16, 0, false),
    ];
    let shape: &[(u32, u32, bool)] =
        &[(8, 0, false), (8, 0, true), (10, 0, true), (11, 0, true), (12, 0, true), (15, 0, true)];
    let run: &[(u32, u32, bool)] =
        &[(5, 0, true), (6, 0, true), (9, 0, false), (13, 0, true), (14, 0, true)];
    let own: [&[(u32, u32, bool)]; 4] = [
        &[],
        &[(2, 0, false), (10, 0, false), (17, 0, false), (17, 0, true)],
        &[(6, 0, false)],
        &[(9, 2, false), (5, 2, false), (6, 2, false), (2, 2, false)],
    ];
    for ((call, _), own) in CALLS.into_iter().zip(own) {
        let mut wanted = [patch, own].concat();
        if call != Call::Merge {
            wanted.extend(shape);
        }
        if call == Call::Apply || call == Call::Undo {
            wanted.extend(run);
        }
        for (number, text, op) in wanted {
            assert!(seen.contains(&(call, number, text, op)), "{call:?} {number} {text} {op}");
        }
    }
}

#[test]
fn a_file_of_all_cases_reads_back() {
    let all: Vec<cases::Case> = vectors::all().into_iter().map(|vector| vector.case).collect();
    let file: Vec<u8> = all.iter().flat_map(cases::Case::file).collect();
    assert!(file.len() < 1_000_000, "{} bytes", file.len());
    assert_eq!(cases::parse(&file), Ok(all));
    assert!(cases::parse(b"apply a 1 0 1 1 2 0\n1\n[\n\n").is_err());
    assert!(cases::parse(b"patch a 1 0 1 1 2 0\n1\n[]\n\n").is_err());
}

/// The answer without a list.
fn without_list(case: &cases::Case) -> (Answer, Vec<u8>) {
    let (document, patch, room) = (&case.document, &case.patch, case.lent.room);
    match case.call {
        Call::Apply => (crate::apply(document, patch, room), Vec::new()),
        Call::Within => (makers::apply(document, patch, &case.region, room), Vec::new()),
        Call::Merge => (merges::merge(document, patch, room), Vec::new()),
        Call::Undo => {
            let given = undo::apply_with_undo(document, patch, room, case.undo_room);
            (given.answer, given.undo)
        }
    }
}

/// The answer is that without a list; but 16 where that is a success, or a refusal of the
/// undo, and the list is short. A list has one entry for each value, at most the
/// operations' number.
#[test]
fn the_answer_is_that_without_a_list() {
    let mut seen: BTreeMap<(Call, &str), usize> = BTreeMap::new();
    for index in 0..8_000 {
        let case = generate::case(3, index);
        let (plain, undo) = without_list(&case);
        let given = case.answer();
        let what = if given.answer == plain {
            assert_eq!(given.undo, undo, "{}", case.name);
            if plain.number == 0 {
                "done"
            } else {
                "refused"
            }
        } else {
            assert_eq!(given.answer.number, 16, "{}", case.name);
            assert!(plain.number == 0 || case.call == Call::Undo, "{}", case.name);
            "short"
        };
        *seen.entry((case.call, what)).or_default() += 1;
        if given.answer.number != 0 {
            assert!(given.origins.is_empty(), "{}", case.name);
            continue;
        }
        if given.answer.written.len() <= 32_768 {
            let nodes = reader::read(&given.answer.written).expect("it was written").nodes();
            assert_eq!(given.origins.len(), nodes, "{}", case.name);
        }
        let most = match (case.call, reader::read(&case.patch)) {
            (Call::Merge, _) => 1,
            (_, Ok(patch)) => patch.children().len(),
            _ => 0,
        };
        assert!(given.origins.iter().all(|&k| usize::from(k) <= most), "{}", case.name);
    }
    for (call, _) in CALLS {
        for what in ["done", "refused", "short"] {
            let times = seen.get(&(call, what)).copied().unwrap_or(0);
            assert!(times >= 8, "{call:?} {what}: {seen:?}");
        }
    }
}
