//! The region statement: two patches in separate regions, in any shuffle.

use crate::generate::drafts::patch;
use crate::generate::random::Random;
use crate::generate::regions::{shuffle, Shuffle};
use crate::operations::{bare_run, step};
use crate::patch::{shape, Operation, Refusal};
use crate::pointer::strictly_inside;
use crate::reader::read;
use crate::value::Value;
use crate::writer::write;

/// How often each thing happened, so that none is tested in words only.
#[derive(Default, Debug)]
struct Seen {
    both_succeed: usize,
    one_fails: usize,
    both_fail: usize,
    too_deep: usize,
    too_many_nodes: usize,
    too_many_nodes_then_failure: usize,
    lost: usize,
}

#[test]
fn shuffles_of_patches_in_separate_regions() {
    let mut seen = Seen::default();
    for index in 0..4_000 {
        let mut random = Random::new(2_024, index);
        let shuffle = shuffle(&mut random);
        check(index, &mut random, &shuffle, &mut seen);
    }
    let Seen { both_succeed, one_fails, both_fail, too_deep, too_many_nodes, .. } = seen;
    let least = [both_succeed, one_fails, both_fail, too_deep, too_many_nodes];
    assert!(least.into_iter().all(|times| times >= 50), "{seen:?}");
    assert!(seen.too_many_nodes_then_failure > 0, "{seen:?}");
    assert!(seen.lost >= 50, "{seen:?}");
}

fn check(index: u64, random: &mut Random, shuffle: &Shuffle, seen: &mut Seen) {
    let document = read(&shuffle.document).expect("the document is accepted");
    let texts = [0, 1].map(|which| patch(random, &shuffle.patches[which]));
    let lists = texts.map(|text| operations(&text));
    let text = patch(random, &shuffle.elements());
    let list = operations(&text);

    // What the statement asks of regions and patches.
    let [left, right] = &shuffle.regions;
    assert!(!left.starts_with(right) && !right.starts_with(left), "{index}");
    for which in [0, 1] {
        for operation in &lists[which] {
            for location in locations(operation) {
                assert!(strictly_inside(&shuffle.regions[which], location), "{index}");
            }
        }
    }
    assert_eq!(list.len(), shuffle.turns.len(), "{index}");

    // The bare runs.
    let alone = [0, 1].map(|which| bare_run(document.clone(), &lists[which]));
    let bare = bare_run(document.clone(), &list);
    match (&alone[0], &alone[1]) {
        (Ok(_), Ok(_)) => {
            seen.both_succeed += 1;
            let written = write(bare.as_ref().expect("succeeds as both do alone"));
            for order in [[0, 1], [1, 0]] {
                let joined = order.map(|which| lists[which].clone()).concat();
                let joined = bare_run(document.clone(), &joined).expect("succeeds");
                assert_eq!(write(&joined), written, "{index}");
            }
        }
        (Err(_), Err(_)) => seen.both_fail += 1,
        _ => seen.one_fails += 1,
    }
    let ends = alone.map(|run| run.err());
    let end = expected_end(&shuffle.turns, &ends);
    assert_eq!(bare.as_ref().err().copied(), end, "{index}");
    seen.too_deep += usize::from(end.is_some_and(|end| end.number == 5));

    // The answer.
    let answer = crate::apply(&shuffle.document, &text, usize::MAX);
    match (first_too_large(document, &list), bare) {
        (Some(op), bare) => {
            seen.too_many_nodes += 1;
            seen.too_many_nodes_then_failure += usize::from(bare.is_err());
            assert_eq!((answer.number, answer.op), (6, op), "{index}");
            assert_eq!((answer.place, answer.pointer), (0, 0), "{index}");
        }
        (None, Ok(result)) => {
            assert_eq!(answer.number, 0, "{index}");
            assert_eq!(answer.written, write(&result), "{index}");
        }
        (None, Err(end)) => {
            let Refusal { number, op, place, pointer } = end;
            assert_eq!((answer.number, answer.op), (number, op), "{index}");
            assert_eq!((answer.place, answer.pointer), (place, pointer), "{index}");
            seen.lost += usize::from(pointer != 0);
        }
    }
    assert_eq!(answer.text, 0, "{index}");
}

/// The operations of a patch that must be well formed.
fn operations(text: &[u8]) -> Vec<Operation> {
    assert!(text.len() <= 32_768);
    shape(&read(text).expect("the patch is read")).expect("the patch is well formed")
}

/// The pointers an operation uses.
fn locations(operation: &Operation) -> Vec<&[String]> {
    match operation {
        Operation::Add { path, .. }
        | Operation::Remove { path }
        | Operation::Replace { path, .. }
        | Operation::Test { path, .. } => vec![path],
        Operation::Move { from, path } | Operation::Copy { from, path } => vec![from, path],
    }
}

/// The first operation of the shuffle at which its own patch ends alone.
fn expected_end(turns: &[usize], ends: &[Option<Refusal>; 2]) -> Option<Refusal> {
    let mut next = [0, 0];
    for (op, &turn) in (1..).zip(turns) {
        next[turn] += 1;
        if let Some(end) = ends[turn] {
            if end.op == next[turn] {
                return Some(Refusal { op, ..end });
            }
        }
    }
    None
}

/// The first operation of a bare run that leaves more than 2,048 nodes.
fn first_too_large(document: Value, list: &[Operation]) -> Option<u32> {
    let mut document = document;
    for (op, operation) in (1..).zip(list) {
        document = step(document, operation).ok()?;
        if document.nodes() > 2_048 {
            return Some(op);
        }
    }
    None
}
