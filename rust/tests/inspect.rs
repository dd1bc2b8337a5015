//! What a patch comes to: the declaration, the header and the library's source
//! say the same, and so do `inspect` and `apply`.

use json_patch::inspect::{inspect, inspect_in, Counts};
use json_patch::{apply, Kind, Node, Work, WORK_ENTRIES, WORK_NODES};
use std::fs;
use std::path::{Path, PathBuf};

fn root() -> PathBuf {
    Path::new(env!("CARGO_MANIFEST_DIR")).join("..")
}

fn file(name: &str) -> String {
    fs::read_to_string(root().join(name)).expect("a file of the repository")
}

/// What stands between a beginning and the next end after it.
fn between<'a>(text: &'a str, begin: &str, end: &str) -> &'a str {
    let at = text.find(begin).expect(begin) + begin.len();
    &text[at..at + text[at..].find(end).expect(end)]
}

#[test]
fn the_fields_are_those_of_the_call() {
    let header = file("include/json_patch_inspect.h");
    let fields: Vec<&str> = between(&header, "typedef struct json_patch_inspection {", "}")
        .lines()
        .filter_map(|line| line.trim().strip_prefix("uint64_t ")?.split(';').next())
        .collect();
    let source = file("rust/src/inspect.rs");
    let of_rust: Vec<&str> = between(&source, "pub struct Inspection {", "}")
        .lines()
        .filter_map(|line| line.trim().strip_prefix("pub ")?.strip_suffix(": u64,"))
        .collect();
    assert_eq!(of_rust, fields);
    let answer = file("crates/inspect/src/answer.rt");
    let laid_down: Vec<&str> = between(&answer, "let c = r.counts;", "]")
        .split(',')
        .filter_map(|item| item.trim().strip_suffix(" as u64")?.split('.').nth(1))
        .collect();
    assert_eq!(laid_down, fields);
    let export = file("crates/inspect/src/exports.rt");
    assert!(export.contains(&format!("answer: &mut [u64; {}]", fields.len())));
}

/// The committed patches: each that is refused is named by its number, and `apply`
/// refuses it in the same way.
#[test]
fn refused_as_apply_refuses() {
    let mut work = Work::new();
    let mut refused = 0;
    for entry in fs::read_dir(root().join("crates/patch_count/data")).expect("the patches") {
        let path = entry.expect("an entry").path();
        if path.is_dir() {
            continue;
        }
        let patch = fs::read(&path).expect("a patch");
        let name = path.file_stem().expect("a name").to_string_lossy().into_owned();
        let found = inspect(&patch, &mut work);
        match name.strip_prefix("refused-") {
            Some(number) => {
                let number: u32 =
                    number.split('-').next().expect("a number").parse().expect("a number");
                assert_eq!(found.map_err(|refusal| refusal.number), Err(number), "{name}");
                assert_eq!(apply(b"0", &patch, &mut [0; 64], &mut work), Err(found.unwrap_err()));
                refused += 1;
            }
            None if name == "empty" => assert_eq!(found.unwrap_err().kind(), Some(Kind::NotJson)),
            None => assert!(found.is_ok(), "{name}"),
        }
    }
    assert_eq!(refused, 11);
}

#[test]
fn every_operation_is_counted() {
    let mut work = Work::new();
    let six = fs::read(root().join("crates/patch_count/data/six.json")).expect("a patch");
    let counts = Counts { adds: 1, removes: 2, replaces: 3, moves: 4, copies: 5, tests: 6 };
    assert_eq!(inspect(&six, &mut work), Ok(counts));
    assert_eq!(counts.operations(), 21);
    let most = fs::read(root().join("crates/patch_count/data/most.json")).expect("a patch");
    assert_eq!(inspect(&most, &mut work), Ok(Counts { removes: 256, ..Counts::default() }));
}

/// The work area is zero for its stated length, and otherwise unchanged.
#[test]
fn the_work_area_afterwards() {
    let seven = Node { start: 7, ..Node::ZERO };
    for patch in [&b"[]"[..], b"[", b"{}", br#"[{"op":"remove","path":"/a"}]"#, &[b' '; 40_000]] {
        let mut nodes = vec![seven; WORK_NODES + 1];
        let mut index = vec![7; WORK_ENTRIES + 1];
        let _ = inspect_in(patch, &mut nodes, &mut index);
        assert!(nodes[..WORK_NODES].iter().all(|&node| node == Node::ZERO));
        assert!(index[..WORK_ENTRIES].iter().all(|&entry| entry == 0));
        assert_eq!((nodes[WORK_NODES], index[WORK_ENTRIES]), (seven, 7));
        let mut short = vec![seven; WORK_NODES - 1];
        let refusal = inspect_in(patch, &mut short, &mut index).unwrap_err();
        assert_eq!((refusal.number, refusal.text, refusal.op, refusal.place), (1, 0, 0, 0));
        assert!(short.iter().all(|&node| node == seven));
    }
}
