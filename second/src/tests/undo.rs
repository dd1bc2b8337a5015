//! Undos.

use crate::undo::law::{law, Came};
use crate::undo::{apply_with_undo, cases, generate, vectors, UndoAnswer};
use crate::{apply, limits::TOOL_ROOM};
use std::collections::{BTreeMap, BTreeSet, HashSet};

/// What is told of lines that are not those expected.
fn shown(lines: &[u8]) -> String {
    String::from_utf8_lossy(lines).chars().take(600).collect()
}

#[test]
fn every_case_gives_its_lines() {
    for vector in vectors::all() {
        let (given, wanted) = (vector.case.lines(), vector.lines());
        assert!(given == wanted, "expected {}got {}", shown(&wanted), shown(&given));
    }
}

#[test]
fn names_are_unique_and_every_refusal_of_an_undo_occurs() {
    let (mut names, mut refused) = (HashSet::new(), BTreeSet::new());
    for vector in vectors::all() {
        let name = vector.case.name.clone();
        assert!(!name.contains(char::is_whitespace), "{name}");
        assert!(names.insert(name.clone()), "{name} twice");
        let UndoAnswer { answer, undo } = vector.case.answer();
        assert_eq!(undo.is_empty(), answer.number != 0, "{name}");
        assert_eq!(answer.written.is_empty(), answer.number != 0, "{name}");
        refused.insert((answer.number, answer.text));
    }
    for each in [(0, 0), (9, 0), (9, 2), (5, 2), (6, 2), (2, 2), (16, 0)] {
        assert!(refused.contains(&each), "{each:?}");
    }
}

#[test]
fn a_file_of_all_cases_reads_back() {
    let all: Vec<cases::Case> = vectors::all().into_iter().map(|vector| vector.case).collect();
    let file: Vec<u8> = all.iter().flat_map(cases::Case::file).collect();
    assert!(file.len() < 1_000_000, "{} bytes", file.len());
    assert_eq!(cases::parse(&file), Ok(all));
    assert!(cases::parse(b"case a 1 1 1 2\n1\n[\n").is_err());
}

/// What came of so many generated cases.
fn came(seed: u64, count: u64) -> BTreeMap<Came, usize> {
    let mut seen = BTreeMap::new();
    for index in 0..count {
        let case = generate::case(seed, index);
        let came = law(&case.document, &case.patch, &case.answer(), |document, patch| {
            apply(document, patch, TOOL_ROOM)
        });
        assert!(!came.broken(), "{} {came:?}", case.name);
        *seen.entry(came).or_default() += 1;
    }
    seen
}

#[test]
fn the_undo_takes_the_patch_back() {
    let seen = came(9, 8_000);
    let all =
        [Came::Restored, Came::SameOrder, Came::PatchRefused, Came::UndoRefused, Came::TextTooLong];
    assert!(all.iter().all(|came| seen.get(came).is_some_and(|&times| times >= 20)), "{seen:?}");
}

#[test]
fn the_committed_undos_take_the_patch_back() {
    for vector in vectors::all() {
        let case = vector.case;
        let came = law(&case.document, &case.patch, &case.answer(), |document, patch| {
            apply(document, patch, TOOL_ROOM)
        });
        assert!(!came.broken(), "{} {came:?}", case.name);
    }
}

#[test]
fn the_document_and_the_patchs_refusals_are_those_of_the_plain_call() {
    for index in 0..3_000 {
        let case = generate::case(10, index);
        let (given, plain) = (case.answer().answer, apply(&case.document, &case.patch, case.room));
        if plain.number != 0 || given.number == 0 {
            assert_eq!(given, plain, "{}", case.name);
        }
    }
}

#[test]
fn every_refusal_of_an_undo_is_generated() {
    let mut seen: BTreeMap<(u32, u32), usize> = BTreeMap::new();
    for index in 0..8_000 {
        let answer = generate::case(11, index).answer().answer;
        *seen.entry((answer.number, answer.text)).or_default() += 1;
    }
    for each in [(9, 2), (5, 2), (6, 2), (2, 2), (16, 0)] {
        assert!(seen.get(&each).is_some_and(|&times| times >= 20), "{each:?}: {seen:?}");
    }
}

/// Readings of the request under which its law does not hold: a document, a patch,
/// the undo that the reading gives, and what comes of it.
#[rustfmt::skip]
const NOT_OURS: &[(&str, &str, &str, &str)] = &[
    // An add over a member is newly put in; so is one at the root.
    (r#"{"a":1}"#, r#"[{"op":"add","path":"/a","value":2}]"#, r#"[{"op":"remove","path":"/a"}]"#, "{}"),
    ("1", r#"[{"op":"add","path":"","value":2}]"#, r#"[{"op":"remove","path":""}]"#, "refused 13 text 0 op 1 place 0 pointer 0"),
    // `-` is kept, or is the index before the removal of a move.
    ("[1]", r#"[{"op":"add","path":"/-","value":2}]"#, r#"[{"op":"remove","path":"/-"}]"#, "refused 11 text 0 op 1 place 0 pointer 1"),
    ("[1,2]", r#"[{"op":"move","from":"/0","path":"/-"}]"#, r#"[{"op":"remove","path":"/2"},{"op":"add","path":"/0","value":1}]"#, "refused 11 text 0 op 1 place 0 pointer 1"),
    // An inserted element replaces what it shifts.
    ("[1,3]", r#"[{"op":"add","path":"/1","value":2}]"#, r#"[{"op":"replace","path":"/1","value":3}]"#, "[1,3,3]"),
    // `from` is added before `path` is mended.
    ("[1,2,3]", r#"[{"op":"move","from":"/0","path":"/2"}]"#, r#"[{"op":"add","path":"/0","value":1},{"op":"remove","path":"/2"}]"#, "[1,2,1]"),
    // The first operation first.
    (r#"{"a":1}"#, r#"[{"op":"add","path":"/a","value":2},{"op":"add","path":"/a","value":3}]"#, r#"[{"op":"replace","path":"/a","value":1},{"op":"replace","path":"/a","value":2}]"#, r#"{"a":2}"#),
    // Over an ancestor, the value after the removal; or `from` is added as well.
    (r#"{"a":{"b":1}}"#, r#"[{"op":"move","from":"/a/b","path":"/a"}]"#, r#"[{"op":"replace","path":"/a","value":{}}]"#, r#"{"a":{}}"#),
    (r#"[{"a":[7]}]"#, r#"[{"op":"move","from":"/0/a/0","path":"/0/a"}]"#, r#"[{"op":"replace","path":"/0/a","value":[7]},{"op":"add","path":"/0/a/0","value":7}]"#, r#"[{"a":[7,7]}]"#),
    // "Had held `from`" by the tokens alone.
    (r#"{"0":[{"1":1}]}"#, r#"[{"op":"move","from":"/0/0/1","path":"/0/0"}]"#, r#"[{"op":"replace","path":"/0/0","value":{"1":1}}]"#, r#"{"0":[{"1":1},{}]}"#),
];

#[test]
fn other_readings_break_the_law() {
    for (document, patch, undo, line) in NOT_OURS {
        let (document, patch) = (document.as_bytes(), patch.as_bytes());
        let mut answer = apply_with_undo(document, patch, TOOL_ROOM, 32_768);
        let engine = |document: &[u8], patch: &[u8]| apply(document, patch, TOOL_ROOM);
        assert!(!law(document, patch, &answer, engine).broken(), "{undo}");
        answer.undo = undo.as_bytes().to_vec();
        assert!(law(document, patch, &answer, engine).broken(), "{undo}");
        let back = crate::line(&engine(&answer.answer.written, &answer.undo));
        assert_eq!(String::from_utf8_lossy(&back), *line, "{undo}");
    }
}
