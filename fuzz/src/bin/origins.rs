//! Origins: the second program against the static libraries, in one process, for the
//! four calls that list them.
//!
//!     cargo run --release --offline --manifest-path fuzz/Cargo.toml --bin origins [SEED [COUNT]]
//!
//! Each case, committed or generated, is put to both, and the whole answer, the written
//! texts and the list are compared. The outputs and the list behind what is written, or
//! all of them after a refusal, must be as they were, the work area all zero, and the
//! inputs unchanged. Every buffer ends where a page begins that may not be touched. Now
//! and then the list, the output or the undo's output is just long enough, or one short,
//! or a part of the work area is. It ends with status 0 if there is no difference.

#[path = "../arena.rs"]
mod arena;

use arena::Arena;
use json_patch::origins::{apply_in, apply_with_undo_in, apply_within_in, merge_in, Listed};
use json_patch::undo::{Refused, UNDO_BYTES};
use json_patch::{Node, Refusal, MAX_NODES, WORK_ENTRIES, WORK_NODES};
use second::generate::random::Random;
use second::origins::cases::{Call, Case};
use second::origins::{self, generate, vectors};
use second::Answer;
use std::collections::BTreeMap;
use std::env;
use std::process::ExitCode;
use std::time::{SystemTime, UNIX_EPOCH};

/// The longest text and the longest output that are lent.
const LONGEST: usize = 1 << 17;

/// The longest list that is lent.
const ENTRIES: usize = 1 << 12;

/// A byte that no text has, and an entry that no list has.
const UNWRITTEN: u8 = 0xFF;
const UNLISTED: u16 = 0xFFFF;

/// Enough is told after so many differences.
const MOST_TOLD: u64 = 10;

/// By how much the node table, the index and the undo's buffer are too short.
type Shorter = [usize; 3];

/// What a call must give.
struct Wanted {
    answer: Answer,
    undo: Vec<u8>,
    origins: Vec<u16>,
}

impl Wanted {
    fn of(case: &Case) -> Self {
        let origins::Listed { answer, undo, origins } = case.answer();
        Wanted { answer, undo, origins }
    }

    /// A refusal with nothing but its number.
    fn refusal(number: u32) -> Self {
        let written = Vec::new();
        let answer = Answer { number, text: 0, op: 0, place: 0, pointer: 0, written };
        Wanted { answer, undo: Vec::new(), origins: Vec::new() }
    }
}

struct Judge {
    document: Arena<u8>,
    patch: Arena<u8>,
    region: Arena<u8>,
    output: Arena<u8>,
    undo: Arena<u8>,
    origins: Arena<u16>,
    nodes: Arena<Node>,
    index: Arena<u16>,
    work: Arena<u8>,
}

impl Judge {
    fn new() -> Self {
        Judge {
            document: Arena::new(LONGEST),
            patch: Arena::new(LONGEST),
            region: Arena::new(LONGEST),
            output: Arena::new(LONGEST),
            undo: Arena::new(LONGEST),
            origins: Arena::new(ENTRIES),
            nodes: Arena::new(WORK_NODES),
            index: Arena::new(WORK_ENTRIES),
            work: Arena::new(UNDO_BYTES),
        }
    }

    /// How the two differ on a case, if they do.
    fn difference(&mut self, case: &Case, random: &mut Random) -> Option<String> {
        let wanted = Wanted::of(case);
        let found = self.call(case, [0, 0, 0], &wanted, random);
        if found.is_some() {
            return found;
        }
        match random.below(6) {
            0 | 1 if wanted.answer.number == 0 => self.exact(case, &wanted, random),
            2 => {
                let parts = if case.call == Call::Undo { 3 } else { 2 };
                let mut shorter = [0, 0, 0];
                shorter[random.below(parts)] = 1;
                self.call(case, shorter, &Wanted::refusal(1), random)
            }
            _ => None,
        }
    }

    /// All that is written to just long enough, and then each in turn one short.
    fn exact(&mut self, case: &Case, wanted: &Wanted, random: &mut Random) -> Option<String> {
        let mut exact = case.clone();
        exact.lent.room = wanted.answer.written.len();
        exact.lent.list = wanted.origins.len();
        exact.undo_room = wanted.undo.len();
        let mut found = self.call(&exact, [0, 0, 0], wanted, random);
        let parts = if case.call == Call::Undo { 3 } else { 2 };
        for part in 0..parts {
            let mut short = exact.clone();
            match part {
                0 => short.lent.room -= 1,
                1 => short.lent.list -= 1,
                _ => short.undo_room -= 1,
            }
            if found.is_none() {
                found = self
                    .call(&short, [0, 0, 0], &Wanted::refusal(16), random)
                    .map(|difference| format!("part {part} one short: {difference}"));
            }
        }
        found
    }

    /// One call, with a work area shorter by so much, and what it must give.
    fn call(
        &mut self,
        case: &Case,
        shorter: Shorter,
        wanted: &Wanted,
        random: &mut Random,
    ) -> Option<String> {
        let Wanted { answer, undo: wanted_undo, origins: wanted_list } = wanted;
        let (document, patch) =
            (filled(&mut self.document, &case.document), filled(&mut self.patch, &case.patch));
        let region = filled(&mut self.region, &case.region);
        let output = self.output.last(case.lent.room);
        output.fill(UNWRITTEN);
        let undo = self.undo.last(case.undo_room);
        undo.fill(UNWRITTEN);
        let list = self.origins.last(case.lent.list);
        list.fill(UNLISTED);
        let rubbish = random.bits() as u16;
        let node = Node { span: rubbish, tags: rubbish, origin: rubbish, ..Node::ZERO };
        let nodes = self.nodes.last(WORK_NODES - shorter[0]);
        nodes.fill(node);
        let index = self.index.last(WORK_ENTRIES - shorter[1]);
        index.fill(rubbish);
        let work = self.work.last(UNDO_BYTES - shorter[2]);
        work.fill(rubbish as u8);
        let plain = |listed: Result<Listed, Refusal>| listed.map(|listed| (listed, 0));
        let given = match case.call {
            Call::Apply => plain(apply_in(document, patch, output, list, nodes, index)),
            Call::Within => {
                plain(apply_within_in(document, patch, region, output, list, nodes, index))
            }
            Call::Merge => plain(merge_in(document, patch, output, list, nodes, index)),
            Call::Undo => {
                apply_with_undo_in(document, patch, output, undo, list, nodes, index, work)
                    .map(|written| (written.document, written.undo))
                    .map_err(|refused: Refused| refused.refusal())
            }
        };
        let expected = match answer {
            Answer { number: 0, written, .. } => {
                let listed = Listed { length: written.len(), values: wanted_list.len() };
                Ok((listed, wanted_undo.len()))
            }
            &Answer { number, text, op, place, pointer, .. } => {
                Err(Refusal { number, text, op: op as usize, place, pointer })
            }
        };
        if given != expected {
            return Some(format!("{given:?}, wanted {expected:?}"));
        }
        let texts = [(&*output, &answer.written, "output"), (&*undo, wanted_undo, "undo")];
        for (buffer, text, name) in texts {
            if !begins(buffer, text, UNWRITTEN) {
                return Some(format!("{name} {}", buffer.escape_ascii()));
            }
        }
        if !begins(list, wanted_list, UNLISTED) {
            return Some(format!("list {list:?}, wanted {wanted_list:?}"));
        }
        if *document != case.document || *patch != case.patch || *region != case.region {
            return Some("an input is changed".to_string());
        }
        let kept = answer.number == 1;
        let (zero, entry) = if kept { (node, rubbish) } else { (Node::ZERO, 0) };
        if nodes.iter().any(|&node| node != zero) || index.iter().any(|&it| it != entry) {
            return Some("the work area is not as it must be".to_string());
        }
        let byte = if kept || case.call != Call::Undo { rubbish as u8 } else { 0 };
        if work.iter().any(|&it| it != byte) {
            return Some("the buffer is not as it must be".to_string());
        }
        None
    }
}

/// A buffer with these bytes, at its end.
fn filled<'a>(arena: &'a mut Arena<u8>, bytes: &[u8]) -> &'a mut [u8] {
    let buffer = arena.last(bytes.len());
    buffer.copy_from_slice(bytes);
    buffer
}

/// Whether a buffer has what was written, and behind it nothing.
fn begins<T: PartialEq>(buffer: &[T], written: &[T], unwritten: T) -> bool {
    buffer.starts_with(written) && buffer[written.len()..].iter().all(|it| *it == unwritten)
}

fn main() -> ExitCode {
    let mut numbers = env::args().skip(1).map(|word| word.parse::<u64>());
    let clock = SystemTime::now().duration_since(UNIX_EPOCH).map_or(0, |time| time.as_secs());
    let (Ok(seed), Ok(count)) =
        (numbers.next().unwrap_or(Ok(clock)), numbers.next().unwrap_or(Ok(100_000)))
    else {
        eprintln!("usage: origins [SEED [COUNT]]");
        return ExitCode::from(2);
    };
    let mut judge = Judge::new();
    let committed = vectors::all();
    println!("{} committed cases, {count} generated, seed {seed}", committed.len());
    let (mut differences, mut seen) = (0, BTreeMap::new());
    let cases = committed.into_iter().map(|vector| vector.case);
    for (index, mut case) in
        (0..).zip(cases.chain((0..count).map(|index| generate::case(seed, index))))
    {
        case.document.truncate(LONGEST);
        case.patch.truncate(LONGEST);
        case.region.truncate(LONGEST);
        case.lent.room = case.lent.room.min(LONGEST);
        case.lent.list = case.lent.list.min(ENTRIES);
        case.undo_room = case.undo_room.min(LONGEST);
        let mut random = Random::new(seed, index ^ 1 << 62);
        if random.chance(5) {
            // More entries than any result has values.
            case.lent.list = MAX_NODES + random.below(ENTRIES - MAX_NODES);
        }
        *seen.entry((case.call, case.answer().answer.number == 0)).or_insert(0) += 1;
        if let Some(difference) = judge.difference(&case, &mut random) {
            differences += 1;
            if differences <= MOST_TOLD {
                println!(
                    "DIFFERENCE in {} {:?} {:?}: {difference}",
                    case.name, case.call, case.lent
                );
                println!("  document {}", case.document.escape_ascii());
                println!("  patch    {}", case.patch.escape_ascii());
                println!("  region   {}", case.region.escape_ascii());
            }
        }
    }
    for ((call, done), times) in seen {
        println!("{call:?} {}: {times}", if done { "done" } else { "refused" });
    }
    println!("{differences} differences");
    if differences == 0 {
        ExitCode::SUCCESS
    } else {
        ExitCode::from(1)
    }
}
