//! A patch inspected: the second program against the static library, in one
//! process.
//!
//!     cargo run --release --offline --manifest-path fuzz/Cargo.toml --bin inspect [SEED [COUNT]]
//!
//! Both texts of each case, committed or generated, are inspected as patches. The
//! whole answer is compared, and the work area, which holds rubbish before, must
//! be zero for its stated length and otherwise as it was. The patch and both
//! lists end where a page begins that may not be touched. It ends with status 0
//! if there is no difference.

#[path = "../arena.rs"]
mod arena;

use arena::Arena;
use json_patch::inspect::{json_patch_inspect, Inspection};
use json_patch::{Node, WORK_ENTRIES, WORK_NODES};
use second::count;
use second::{generate, vectors};
use std::env;
use std::process::ExitCode;
use std::time::{SystemTime, UNIX_EPOCH};

/// The longest text that is lent.
const LONGEST: usize = 65_536;

/// Records and entries that are lent beyond the stated length.
const BEYOND: usize = 3;

/// Enough is told after so many differences.
const MOST_TOLD: u64 = 10;

struct Judge {
    patch: Arena<u8>,
    nodes: Arena<Node>,
    index: Arena<u16>,
}

impl Judge {
    /// How the two differ on a patch, if they do.
    fn difference(&mut self, text: &[u8], rubbish: u16) -> Option<String> {
        let patch = self.patch.last(text.len());
        patch.copy_from_slice(text);
        let nodes = self.nodes.last(WORK_NODES + BEYOND);
        let node = Node { start: rubbish, span: rubbish, tags: rubbish, ..Node::ZERO };
        nodes.fill(node);
        let index = self.index.last(WORK_ENTRIES + BEYOND);
        index.fill(rubbish);
        let mut found = Inspection { number: 77, adds: 77, tests: 77, ..Inspection::default() };
        // Safety: pointers and lengths of slices that do not overlap.
        let number = unsafe {
            json_patch_inspect(
                patch.as_ptr(),
                patch.len(),
                nodes.as_mut_ptr(),
                nodes.len(),
                index.as_mut_ptr(),
                index.len(),
                &mut found,
            )
        };
        let wanted = match count::inspect(text) {
            count::Inspection::Counts([adds, removes, replaces, moves, copies, tests]) => {
                Inspection {
                    adds,
                    removes,
                    replaces,
                    moves,
                    copies,
                    tests,
                    ..Inspection::default()
                }
            }
            count::Inspection::Refused(number, text, op, place) => Inspection {
                number: number.into(),
                text: text.into(),
                op: op.into(),
                place: place as u64,
                ..Inspection::default()
            },
        };
        if found != wanted || u64::from(number) != found.number {
            return Some(format!("{number} returned, {found:?}, wanted {wanted:?}"));
        }
        let (work, beyond) = nodes.split_at(WORK_NODES);
        let (entries, others) = index.split_at(WORK_ENTRIES);
        if work.iter().any(|&row| row != Node::ZERO) || entries.iter().any(|&entry| entry != 0) {
            return Some("the work area is not all zero".to_string());
        }
        if beyond.iter().any(|&row| row != node) || others.iter().any(|&entry| entry != rubbish) {
            return Some("the part beyond the work area is changed".to_string());
        }
        (patch != text).then(|| "the patch is changed".to_string())
    }
}

fn main() -> ExitCode {
    let mut numbers = env::args().skip(1).map(|word| word.parse::<u64>());
    let clock = SystemTime::now().duration_since(UNIX_EPOCH).map_or(0, |time| time.as_secs());
    let (Ok(seed), Ok(count)) =
        (numbers.next().unwrap_or(Ok(clock)), numbers.next().unwrap_or(Ok(100_000)))
    else {
        eprintln!("usage: inspect [SEED [COUNT]]");
        return ExitCode::from(2);
    };
    let mut judge = Judge {
        patch: Arena::new(LONGEST),
        nodes: Arena::new(WORK_NODES + BEYOND),
        index: Arena::new(WORK_ENTRIES + BEYOND),
    };
    let committed = vectors::all();
    println!("{} committed cases, {count} generated, seed {seed}", committed.len());
    let mut differences = 0;
    let (mut accepted, mut all) = (0_u64, 0_u64);
    let cases = committed.into_iter().map(|vector| vector.case);
    for case in cases.chain((0..count).map(|index| generate::case(seed, index))) {
        for text in [&case.patch, &case.document] {
            let text = &text[..text.len().min(LONGEST)];
            all += 1;
            accepted += u64::from(matches!(count::inspect(text), count::Inspection::Counts(_)));
            if let Some(difference) = judge.difference(text, all as u16) {
                differences += 1;
                if differences <= MOST_TOLD {
                    println!("DIFFERENCE in {}, text {}", case.name, text.escape_ascii());
                    println!("  {difference}");
                }
            }
        }
    }
    println!("{all} texts, {accepted} of them patches, {differences} differences");
    if differences == 0 {
        ExitCode::SUCCESS
    } else {
        ExitCode::from(1)
    }
}
