//! Merge patches: the second program against the static library, in one process.
//!
//!     cargo run --release --offline --manifest-path fuzz/Cargo.toml --bin merge [SEED [COUNT]]
//!
//! Each case, committed or generated, is put to both, and the whole answer is
//! compared. The output behind the written text, or all of it after a refusal,
//! must be as it was, the work area all zero, and the inputs unchanged. Every
//! buffer ends where a page begins that may not be touched. Now and then the
//! output is just long enough, or a byte too short, or a list of the work area
//! is. It ends with status 0 if there is no difference.

#[path = "../arena.rs"]
mod arena;

use arena::Arena;
use json_patch::{merge_in, Node, Refusal, WORK_ENTRIES, WORK_NODES};
use second::cases::Case;
use second::generate::random::Random;
use second::merges::{generate, merge, vectors};
use second::Answer;
use std::env;
use std::process::ExitCode;
use std::time::{SystemTime, UNIX_EPOCH};

/// The longest text and the longest output that are lent.
const LONGEST: usize = 1 << 17;

/// A byte that no text has.
const UNWRITTEN: u8 = 0xFF;

/// Enough is told after so many differences.
const MOST_TOLD: u64 = 10;

struct Judge {
    document: Arena<u8>,
    patch: Arena<u8>,
    output: Arena<u8>,
    nodes: Arena<Node>,
    index: Arena<u16>,
}

impl Judge {
    fn new() -> Self {
        Judge {
            document: Arena::new(LONGEST),
            patch: Arena::new(LONGEST),
            output: Arena::new(LONGEST),
            nodes: Arena::new(WORK_NODES),
            index: Arena::new(WORK_ENTRIES),
        }
    }

    /// How the two differ on a case, if they do.
    fn difference(&mut self, case: &Case, random: &mut Random) -> Option<String> {
        let wanted = merge(&case.document, &case.patch, case.room);
        let found = self.call(case, case.room, [0, 0], &wanted, random);
        if found.is_some() {
            return found;
        }
        match random.below(8) {
            0 if wanted.number == 0 => {
                let room = wanted.written.len();
                let exact = self.call(case, room, [0, 0], &wanted, random);
                let short = |judge: &mut Self, random: &mut Random| {
                    judge.call(case, room.checked_sub(1)?, [0, 0], &refusal(16), random)
                };
                exact.or_else(|| short(self, random))
            }
            1 => self.call(case, case.room, random.pick(&[[1, 0], [0, 1]]), &refusal(1), random),
            _ => None,
        }
    }

    /// One call, with lists shorter by so many, and the answer that it must give.
    fn call(
        &mut self,
        case: &Case,
        room: usize,
        shorter: [usize; 2],
        wanted: &Answer,
        random: &mut Random,
    ) -> Option<String> {
        let document = self.document.last(case.document.len());
        document.copy_from_slice(&case.document);
        let patch = self.patch.last(case.patch.len());
        patch.copy_from_slice(&case.patch);
        let output = self.output.last(room);
        output.fill(UNWRITTEN);
        let rubbish = random.bits() as u16;
        let node = Node { span: rubbish, tags: rubbish, start: rubbish, ..Node::ZERO };
        let nodes = self.nodes.last(WORK_NODES - shorter[0]);
        nodes.fill(node);
        let index = self.index.last(WORK_ENTRIES - shorter[1]);
        index.fill(rubbish);
        let given = merge_in(document, patch, output, nodes, index);
        let expected = match wanted {
            Answer { number: 0, written, .. } => Ok(written.len()),
            &Answer { number, text, op, place, pointer, .. } => {
                Err(Refusal { number, text, op: op as usize, place, pointer })
            }
        };
        if given != expected {
            return Some(format!("{given:?}, wanted {expected:?}"));
        }
        let (text, rest) = output.split_at(wanted.written.len());
        if *text != wanted.written {
            return Some(format!("wrote {}", text.escape_ascii()));
        }
        if rest.iter().any(|&byte| byte != UNWRITTEN) {
            return Some("the output is changed behind the text".to_string());
        }
        if *document != case.document || *patch != case.patch {
            return Some("an input is changed".to_string());
        }
        let (zero, entry) = if wanted.number == 1 { (node, rubbish) } else { (Node::ZERO, 0) };
        if nodes.iter().any(|&node| node != zero) || index.iter().any(|&it| it != entry) {
            return Some("the work area is not as it must be".to_string());
        }
        None
    }
}

fn refusal(number: u32) -> Answer {
    Answer { number, text: 0, op: 0, place: 0, pointer: 0, written: Vec::new() }
}

fn main() -> ExitCode {
    let mut numbers = env::args().skip(1).map(|word| word.parse::<u64>());
    let clock = SystemTime::now().duration_since(UNIX_EPOCH).map_or(0, |time| time.as_secs());
    let (Ok(seed), Ok(count)) =
        (numbers.next().unwrap_or(Ok(clock)), numbers.next().unwrap_or(Ok(100_000)))
    else {
        eprintln!("usage: merge [SEED [COUNT]]");
        return ExitCode::from(2);
    };
    let mut judge = Judge::new();
    let committed = vectors::all();
    println!("{} committed cases, {count} generated, seed {seed}", committed.len());
    let mut differences = 0;
    let cases = committed.into_iter().map(|vector| vector.case);
    for (index, mut case) in
        (0..).zip(cases.chain((0..count).map(|index| generate::case(seed, index))))
    {
        case.document.truncate(LONGEST);
        case.patch.truncate(LONGEST);
        case.room = case.room.min(LONGEST);
        let mut random = Random::new(seed, index ^ 1 << 62);
        if let Some(difference) = judge.difference(&case, &mut random) {
            differences += 1;
            if differences <= MOST_TOLD {
                println!("DIFFERENCE in {}, room {}: {difference}", case.name, case.room);
                println!("  document {}", case.document.escape_ascii());
                println!("  patch    {}", case.patch.escape_ascii());
            }
        }
    }
    println!("{differences} differences");
    if differences == 0 {
        ExitCode::SUCCESS
    } else {
        ExitCode::from(1)
    }
}
