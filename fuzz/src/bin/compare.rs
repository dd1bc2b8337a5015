//! Two texts compared: the second program against the static library, in one
//! process.
//!
//!     cargo run --release --offline --manifest-path fuzz/Cargo.toml --bin compare [SEED [COUNT]]
//!
//! Each case, committed or generated, is compared both ways round, and its first
//! text with itself. The whole answer is compared, and the work area, which holds
//! rubbish before, must be zero for its stated length and otherwise as it was. The
//! texts and both lists end where a page begins that may not be touched. It ends
//! with status 0 if there is no difference.

#[path = "../arena.rs"]
mod arena;

use arena::Arena;
use json_patch::compare::{json_patch_compare, Comparison};
use json_patch::{Node, WORK_ENTRIES, WORK_NODES};
use second::equal;
use second::equal::{generate, vectors};
use std::env;
use std::process::ExitCode;
use std::time::{SystemTime, UNIX_EPOCH};

/// The longest text that is lent.
const LONGEST: usize = 65_536;

/// Records and entries that are lent beyond the stated length.
const BEYOND: usize = 3;

/// Enough is told after so many differences.
const MOST_TOLD: u64 = 10;

struct Judge {
    first: Arena<u8>,
    second: Arena<u8>,
    nodes: Arena<Node>,
    index: Arena<u16>,
}

/// What the second program answers.
fn wanted(first: &[u8], second: &[u8]) -> Comparison {
    match equal::compare(first, second) {
        Ok(found) => {
            Comparison { equal: found.equal.into(), names: found.names, ..Comparison::default() }
        }
        Err(refusal) => Comparison {
            number: refusal.number.into(),
            text: refusal.text.into(),
            place: refusal.place as u64,
            ..Comparison::default()
        },
    }
}

impl Judge {
    /// What the library answers, or how it and the second program differ.
    fn judged(&mut self, texts: [&[u8]; 2], rubbish: u16) -> Result<Comparison, String> {
        let first = self.first.last(texts[0].len());
        first.copy_from_slice(texts[0]);
        let second = self.second.last(texts[1].len());
        second.copy_from_slice(texts[1]);
        let nodes = self.nodes.last(WORK_NODES + BEYOND);
        let node = Node { start: rubbish, span: rubbish, tags: rubbish, ..Node::ZERO };
        nodes.fill(node);
        let index = self.index.last(WORK_ENTRIES + BEYOND);
        index.fill(rubbish);
        let mut found = Comparison { number: 77, equal: 77, names: 77, ..Comparison::default() };
        // Safety: pointers and lengths of slices that do not overlap.
        let number = unsafe {
            json_patch_compare(
                first.as_ptr(),
                first.len(),
                second.as_ptr(),
                second.len(),
                nodes.as_mut_ptr(),
                nodes.len(),
                index.as_mut_ptr(),
                index.len(),
                &mut found,
            )
        };
        let wanted = wanted(texts[0], texts[1]);
        if found != wanted || u64::from(number) != found.number {
            return Err(format!("{number} returned, {found:?}, wanted {wanted:?}"));
        }
        let (work, beyond) = nodes.split_at(WORK_NODES);
        let (entries, others) = index.split_at(WORK_ENTRIES);
        if work.iter().any(|&row| row != Node::ZERO) || entries.iter().any(|&entry| entry != 0) {
            return Err("the work area is not all zero".to_string());
        }
        if beyond.iter().any(|&row| row != node) || others.iter().any(|&entry| entry != rubbish) {
            return Err("the part beyond the work area is changed".to_string());
        }
        if first != texts[0] || second != texts[1] {
            return Err("a text is changed".to_string());
        }
        Ok(found)
    }
}

fn main() -> ExitCode {
    let mut numbers = env::args().skip(1).map(|word| word.parse::<u64>());
    let clock = SystemTime::now().duration_since(UNIX_EPOCH).map_or(0, |time| time.as_secs());
    let (Ok(seed), Ok(count)) =
        (numbers.next().unwrap_or(Ok(clock)), numbers.next().unwrap_or(Ok(100_000)))
    else {
        eprintln!("usage: compare [SEED [COUNT]]");
        return ExitCode::from(2);
    };
    let mut judge = Judge {
        first: Arena::new(LONGEST),
        second: Arena::new(LONGEST),
        nodes: Arena::new(WORK_NODES + BEYOND),
        index: Arena::new(WORK_ENTRIES + BEYOND),
    };
    let committed = vectors::all();
    println!("{} committed cases, {count} generated, seed {seed}", committed.len());
    let [mut differences, mut all, mut equal, mut different, mut named] = [0_u64; 5];
    let cases = committed.into_iter().map(|vector| vector.case);
    for case in cases.chain((0..count).map(|index| generate::case(seed, index))) {
        let [first, second] =
            [&case.first, &case.second].map(|text| &text[..text.len().min(LONGEST)]);
        for texts in [[first, second], [second, first], [first, first]] {
            all += 1;
            match judge.judged(texts, case.rubbish) {
                Ok(found) => {
                    equal += found.equal;
                    different += u64::from(found.number == 0 && found.equal == 0);
                    named += u64::from(found.names > 0);
                }
                Err(difference) => {
                    differences += 1;
                    if differences <= MOST_TOLD {
                        println!("DIFFERENCE in {}: {}", case.name, texts[0].escape_ascii());
                        println!("  and {}", texts[1].escape_ascii());
                        println!("  {difference}");
                    }
                }
            }
        }
    }
    println!(
        "{all} comparisons: {equal} equal, {different} different, {named} with names compared; \
         {differences} differences"
    );
    if differences == 0 {
        ExitCode::SUCCESS
    } else {
        ExitCode::from(1)
    }
}
