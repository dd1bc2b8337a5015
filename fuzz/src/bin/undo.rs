//! Undos: the second program against the static library, and the law on the library,
//! in one process.
//!
//!     cargo run --release --offline --manifest-path fuzz/Cargo.toml --bin undo [SEED [COUNT [THREADS]]]
//!
//! Each case, committed or generated, is put to both. The whole answer is compared;
//! both outputs behind their texts, or all of them after a refusal, must be as they
//! were; the work area, which held rubbish, must be zero, and what is lent beyond it
//! as it was. Now and then an output is as long as its text or a byte shorter, and a
//! list or the buffer is too short. All lent memory ends where a page begins that may
//! not be touched.
//!
//! Then the law of SPECIFICATION 16, T-09, is held on the library's own texts: the undo is
//! applied by the library to the patched text, and the result must be equal to the
//! original and the same but for the order of members. Where the original fits into a
//! patch, the library also tests the result against it.
//!
//! It ends with status 0 if there is no difference and the law holds.

#[path = "../arena.rs"]
mod arena;
#[path = "../crash.rs"]
mod crash;

use arena::Arena;
use json_patch::undo::raw::{json_patch_apply_with_undo, UndoAnswer as Laid};
use json_patch::undo::UNDO_BYTES;
use json_patch::{raw, Node, Work, WORK_ENTRIES, WORK_NODES};
use second::generate::random::Random;
use second::undo::cases::Case;
use second::undo::law::{law, Came};
use second::undo::{generate, vectors, UndoAnswer};
use second::Answer;
use std::collections::BTreeMap;
use std::env;
use std::process::ExitCode;
use std::sync::atomic::{AtomicU64, Ordering};
use std::sync::Mutex;
use std::thread;
use std::time::{Instant, SystemTime, UNIX_EPOCH};

/// The longest text and output that are lent.
const LONGEST: usize = 1 << 17;
/// Items lent behind the work area at times, which must not change.
const MARGIN: usize = 16;
/// What outputs hold before a call: a byte that no text has.
const UNWRITTEN: u8 = 0xFF;
/// Enough is told after so many differences.
const MOST_TOLD: u64 = 10;

/// The lent memory of one thread.
struct Judge {
    document: Arena<u8>,
    patch: Arena<u8>,
    output: Arena<u8>,
    undo: Arena<u8>,
    nodes: Arena<Node>,
    index: Arena<u16>,
    work: Arena<u8>,
}

/// How much is lent.
#[derive(Clone, Copy)]
struct Lent {
    room: usize,
    undo_room: usize,
    nodes: usize,
    entries: usize,
    bytes: usize,
}

impl Lent {
    fn suffices(&self) -> bool {
        self.nodes >= WORK_NODES && self.entries >= WORK_ENTRIES && self.bytes >= UNDO_BYTES
    }
}

impl Judge {
    fn new() -> Self {
        Judge {
            document: Arena::new(LONGEST),
            patch: Arena::new(LONGEST),
            output: Arena::new(LONGEST),
            undo: Arena::new(LONGEST),
            nodes: Arena::new(WORK_NODES + MARGIN),
            index: Arena::new(WORK_ENTRIES + MARGIN),
            work: Arena::new(UNDO_BYTES + MARGIN),
        }
    }

    /// What the library answers, or what is wrong with it.
    fn answer(&mut self, case: &Case, lent: Lent, rubbish: u16) -> Result<UndoAnswer, String> {
        let document = self.document.last(case.document.len());
        document.copy_from_slice(&case.document);
        let patch = self.patch.last(case.patch.len());
        patch.copy_from_slice(&case.patch);
        let output = self.output.last(lent.room);
        output.fill(UNWRITTEN);
        let undo = self.undo.last(lent.undo_room);
        undo.fill(UNWRITTEN);
        let node = Node { span: rubbish, tags: rubbish, start: rubbish, ..Node::ZERO };
        let nodes = self.nodes.last(lent.nodes);
        nodes.fill(node);
        let index = self.index.last(lent.entries);
        index.fill(rubbish);
        let work = self.work.last(lent.bytes);
        work.fill(rubbish as u8);
        let seven = raw::Answer { number: 7, text: 7, op: 7, place: 7, pointer: 7, length: 7 };
        let mut laid = Laid { answer: seven, undo: 7 };
        // Safety: pointers and lengths of slices that do not overlap.
        let number = unsafe {
            json_patch_apply_with_undo(
                document.as_ptr(),
                document.len(),
                patch.as_ptr(),
                patch.len(),
                output.as_mut_ptr(),
                output.len(),
                undo.as_mut_ptr(),
                undo.len(),
                nodes.as_mut_ptr(),
                nodes.len(),
                index.as_mut_ptr(),
                index.len(),
                work.as_mut_ptr(),
                work.len(),
                &mut laid,
            )
        };
        let Laid { answer, undo: undo_length } = laid;
        let (length, undo_length) = (answer.length as usize, undo_length as usize);
        if u64::from(number) != answer.number {
            return Err(format!("{number} returned, {laid:?} laid down"));
        }
        if length > lent.room || undo_length > lent.undo_room {
            return Err(format!("longer than the output: {laid:?}"));
        }
        if number != 0 && (length, undo_length) != (0, 0) {
            return Err(format!("a refusal with a length: {laid:?}"));
        }
        let unwritten = |bytes: &[u8]| bytes.iter().all(|&byte| byte == UNWRITTEN);
        if !unwritten(&output[length..]) || !unwritten(&undo[undo_length..]) {
            return Err("an output is changed behind its text".to_string());
        }
        if *document != case.document || *patch != case.patch {
            return Err("an input is changed".to_string());
        }
        let cleared = lent.suffices();
        let fits = after(nodes, if cleared { WORK_NODES } else { 0 }, Node::ZERO, node)
            && after(index, if cleared { WORK_ENTRIES } else { 0 }, 0, rubbish)
            && after(work, if cleared { UNDO_BYTES } else { 0 }, 0, rubbish as u8);
        if !fits {
            return Err("the work area is not as it must be".to_string());
        }
        let written = output[..length].to_vec();
        let (text, op, pointer) = (answer.text as u32, answer.op as u32, answer.pointer as u32);
        let place = answer.place as usize;
        let answer = Answer { number, text, op, place, pointer, written };
        Ok(UndoAnswer { answer, undo: undo[..undo_length].to_vec() })
    }

    /// What is wrong with one call, if anything.
    fn fault(
        &mut self,
        case: &Case,
        lent: Lent,
        rubbish: u16,
        wanted: &UndoAnswer,
    ) -> Option<String> {
        match self.answer(case, lent, rubbish) {
            Err(fault) => Some(fault),
            Ok(given) if given == *wanted => None,
            Ok(given) => Some(format!("gives {}\n  wanted {}", shown(&given), shown(wanted))),
        }
    }

    /// What is wrong with the library's answers to a case, if anything, and what came
    /// of the law.
    fn judge(&mut self, case: &Case, random: &mut Random) -> (Came, Option<String>) {
        let wanted = case.answer();
        let rubbish = random.bits() as u16;
        let mut more = || if random.chance(10) { random.below(MARGIN) } else { 0 };
        let mut lent = Lent {
            room: case.room,
            undo_room: case.undo_room,
            nodes: WORK_NODES + more(),
            entries: WORK_ENTRIES + more(),
            bytes: UNDO_BYTES + more(),
        };
        let given = match self.answer(case, lent, rubbish) {
            Err(fault) => return (Came::PatchRefused, Some(fault)),
            Ok(given) => given,
        };
        if given != wanted {
            let words = format!("gives {}\n  wanted {}", shown(&given), shown(&wanted));
            return (Came::PatchRefused, Some(words));
        }
        let mut tested = None;
        let came = law(&case.document, &case.patch, &given, |text, undo| {
            let back = plain(text, undo);
            tested = test_of(&case.document).map(|patch| plain(&back.written, &patch).number);
            back
        });
        if came.broken()
            || (came == Came::SameOrder || came == Came::Restored)
                && tested.is_some_and(|it| it != 0)
        {
            let words = format!("the law: {came:?}, tested with {tested:?}: {}", shown(&given));
            return (came, Some(words));
        }
        (came, self.other_lengths(case, &mut lent, &wanted, rubbish, random))
    }

    /// The same case with outputs as long as the texts, a byte shorter, and with a work
    /// area that is too short: now and then.
    fn other_lengths(
        &mut self,
        case: &Case,
        lent: &mut Lent,
        wanted: &UndoAnswer,
        rubbish: u16,
        random: &mut Random,
    ) -> Option<String> {
        let done = wanted.answer.number == 0;
        match random.below(8) {
            0 | 1 if done => {
                (lent.room, lent.undo_room) = (wanted.answer.written.len(), wanted.undo.len());
                let fault = self.fault(case, *lent, rubbish, wanted);
                if random.chance(50) {
                    lent.room -= 1;
                } else {
                    lent.undo_room -= 1;
                }
                fault.or_else(|| self.fault(case, *lent, rubbish, &refused(16)))
            }
            2 => {
                let which = random.between(1, 7);
                let mut short = |most| if random.chance(50) { 1 } else { random.between(1, most) };
                if which & 1 != 0 {
                    lent.nodes = WORK_NODES - short(WORK_NODES);
                }
                if which & 2 != 0 {
                    lent.entries = WORK_ENTRIES - short(WORK_ENTRIES);
                }
                if which & 4 != 0 {
                    lent.bytes = UNDO_BYTES - short(UNDO_BYTES);
                }
                self.fault(case, *lent, rubbish, &refused(1))
            }
            _ => None,
        }
    }
}

/// Whether so many items are zero, and all others as they were.
fn after<T: Copy + PartialEq>(list: &[T], cleared: usize, zero: T, before: T) -> bool {
    let (work, beyond) = list.split_at(cleared);
    work.iter().all(|&item| item == zero) && beyond.iter().all(|&item| item == before)
}

fn refused(number: u32) -> UndoAnswer {
    let answer = Answer { number, text: 0, op: 0, place: 0, pointer: 0, written: Vec::new() };
    UndoAnswer { answer, undo: Vec::new() }
}

/// The library's plain call.
fn plain(document: &[u8], patch: &[u8]) -> Answer {
    let mut output = vec![0; LONGEST];
    match json_patch::apply(document, patch, &mut output, &mut Work::new()) {
        Ok(length) => {
            output.truncate(length);
            Answer { number: 0, text: 0, op: 0, place: 0, pointer: 0, written: output }
        }
        Err(it) => Answer {
            number: it.number,
            text: it.text,
            op: it.op as u32,
            place: it.place,
            pointer: it.pointer,
            written: Vec::new(),
        },
    }
}

/// A patch that tests a document for being equal to this text, where the text fits
/// into one.
fn test_of(document: &[u8]) -> Option<Vec<u8>> {
    let patch = [br#"[{"op":"test","path":"","value":"#, document, b"}]"].concat();
    let readable = plain(b"null", &patch);
    (readable.number == 15 || readable.number == 0).then_some(patch)
}

fn shown(given: &UndoAnswer) -> String {
    let text = |bytes: &[u8]| bytes[..bytes.len().min(200)].escape_ascii().to_string();
    let UndoAnswer { answer, undo } = given;
    format!("{} and {}", text(&second::line(answer)), text(undo))
}

/// What is asked for: a seed, how many cases, and on how many threads.
fn asked() -> Option<(u64, u64, usize)> {
    let clock = SystemTime::now().duration_since(UNIX_EPOCH).map_or(0, |time| time.as_secs());
    let most = thread::available_parallelism().map_or(1, |number| number.get()) as u64;
    let mut numbers = [clock, 100_000, most];
    let words: Vec<String> = env::args().skip(1).collect();
    if words.len() > numbers.len() {
        return None;
    }
    for (number, word) in numbers.iter_mut().zip(words) {
        *number = word.parse().ok()?;
    }
    Some((numbers[0], numbers[1], (numbers[2] as usize).clamp(1, crash::THREADS)))
}

fn main() -> ExitCode {
    let Some((seed, count, threads)) = asked() else {
        eprintln!("usage: undo [SEED [COUNT [THREADS]]]");
        return ExitCode::from(2);
    };
    crash::watch();
    let start = Instant::now();
    let committed: Vec<Case> = vectors::all().into_iter().map(|vector| vector.case).collect();
    let all = committed.len() as u64 + count;
    println!(
        "{} committed cases, {count} generated, seed {seed}, {threads} threads",
        committed.len()
    );
    let (next, differences) = (AtomicU64::new(0), AtomicU64::new(0));
    let seen = Mutex::new(BTreeMap::<Came, u64>::new());
    thread::scope(|scope| {
        for number in 0..threads {
            let (next, differences, seen, committed) = (&next, &differences, &seen, &committed);
            scope.spawn(move || {
                let mut judge = Judge::new();
                let mut mine = BTreeMap::<Came, u64>::new();
                loop {
                    let at = next.fetch_add(1, Ordering::Relaxed);
                    if at >= all {
                        break;
                    }
                    crash::at(number, at);
                    let mut case = match committed.get(at as usize) {
                        Some(case) => case.clone(),
                        None => generate::case(seed, at - committed.len() as u64),
                    };
                    case.document.truncate(LONGEST);
                    case.patch.truncate(LONGEST);
                    case.room = case.room.min(LONGEST);
                    case.undo_room = case.undo_room.min(LONGEST);
                    let (came, fault) = judge.judge(&case, &mut Random::new(seed, at ^ 1 << 62));
                    *mine.entry(came).or_default() += 1;
                    if let Some(fault) = fault {
                        if differences.fetch_add(1, Ordering::Relaxed) < MOST_TOLD {
                            tell(&case, &fault);
                        }
                    }
                }
                crash::done(number);
                if let Ok(mut seen) = seen.lock() {
                    for (came, times) in mine {
                        *seen.entry(came).or_default() += times;
                    }
                }
            });
        }
    });
    for (came, times) in seen.into_inner().unwrap_or_default() {
        println!("{times} times: {came:?}");
    }
    let differences = differences.into_inner();
    println!("{differences} differences, {:.1} s", start.elapsed().as_secs_f64());
    if differences == 0 {
        ExitCode::SUCCESS
    } else {
        ExitCode::from(1)
    }
}

/// Tells a difference; the case comes again with its seed and index.
fn tell(case: &Case, fault: &str) {
    let text = |bytes: &[u8]| bytes[..bytes.len().min(400)].escape_ascii().to_string();
    let Case { name, room, undo_room, document, patch } = case;
    println!("DIFFERENCE in {name}, rooms {room} and {undo_room}: {fault}");
    println!("  document {}", text(document));
    println!("  patch    {}", text(patch));
}
