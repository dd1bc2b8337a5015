//! One case put to both engines, and what the call promises of lent memory.

use crate::arena::Arena;
use json_patch::{apply_in, Node, Refusal, WORK_ENTRIES, WORK_NODES};
use second::cases::Case;
use second::generate::random::Random;
use second::{apply, Answer};
use std::fmt;

/// The longest input and output that is lent; longer cases are cut.
pub const LONGEST: usize = 1 << 17;
/// Items lent in front of a buffer and behind it, which must not change.
const MARGIN: usize = 64;
/// Records that fill the node table before a call.
const GARBAGE_NODES: usize = 2 * (WORK_NODES + 3 * MARGIN);
/// Entries that fill the index before a call.
const GARBAGE_ENTRIES: usize = 2 * (WORK_ENTRIES + 3 * MARGIN);

/// The lent memory of one thread.
pub struct Judge {
    document: Arena<u8>,
    patch: Arena<u8>,
    output: Arena<u8>,
    nodes: Arena<Node>,
    index: Arena<u16>,
    /// What the output holds before a call.
    blank: Vec<u8>,
    /// What the work area may hold before a call.
    garbage_nodes: Vec<Node>,
    garbage_entries: Vec<u16>,
}

/// What is wrong with an answer. Two faults are of one kind if what is wrong and
/// both numbers are the same.
#[derive(Clone, Debug)]
pub struct Fault {
    what: &'static str,
    given: Result<usize, Refusal>,
    wanted: Result<usize, Refusal>,
}

impl Fault {
    /// What is wrong, the number given and the one wanted.
    pub fn kind(&self) -> (&'static str, u32, u32) {
        let number = |answer: &Result<usize, Refusal>| answer.err().map_or(0, |it| it.number);
        (self.what, number(&self.given), number(&self.wanted))
    }
}

impl fmt::Display for Fault {
    fn fmt(&self, f: &mut fmt::Formatter) -> fmt::Result {
        let Fault { what, given, wanted } = self;
        if given == wanted {
            return write!(f, "{what}, after {}", shown(given));
        }
        write!(f, "{what} {}, not {}", shown(given), shown(wanted))
    }
}

fn shown(answer: &Result<usize, Refusal>) -> String {
    match answer {
        Ok(length) => format!("0 length {length}"),
        Err(refusal) => refusal.line().to_string(),
    }
}

/// How the buffers of a call are lent.
struct Lent {
    room: usize,
    nodes: usize,
    entries: usize,
}

impl Judge {
    /// Lent memory, to be used for many cases.
    pub fn new() -> Self {
        let mut random = Random::new(6902, 0);
        Judge {
            document: Arena::new(LONGEST),
            patch: Arena::new(LONGEST),
            output: Arena::new(LONGEST + MARGIN),
            nodes: Arena::new(WORK_NODES + 3 * MARGIN),
            index: Arena::new(WORK_ENTRIES + 3 * MARGIN),
            blank: (0..LONGEST + MARGIN).map(|_| random.byte()).collect(),
            garbage_nodes: (0..GARBAGE_NODES).map(|_| any_node(&mut random)).collect(),
            garbage_entries: (0..GARBAGE_ENTRIES).map(|_| random.bits() as u16).collect(),
        }
    }

    /// What is wrong with the library's answer to a case, if anything. The random
    /// numbers decide how the buffers are lent, and what they hold.
    pub fn fault(&mut self, case: &Case, random: &mut Random) -> Option<Fault> {
        let room = case.room.min(LONGEST);
        let mut expected = apply(&case.document, &case.patch, room);
        let mut longer = || if random.chance(10) { random.below(MARGIN) } else { 0 };
        let (nodes, entries) = (WORK_NODES + longer(), WORK_ENTRIES + longer());
        let mut lent = Lent { room, nodes, entries };
        let fault = self.call(case, &lent, &expected, random);
        if fault.is_some() {
            return fault;
        }
        match random.below(8) {
            // The output as long as the text, and one byte shorter.
            0 | 1 if expected.number == 0 => {
                lent.room = expected.written.len();
                let fault = self.call(case, &lent, &expected, random);
                if fault.is_some() || lent.room == 0 {
                    return fault;
                }
                lent.room -= 1;
                expected = refusal(16);
            }
            // A list that is too short, or both; often by one.
            2 => {
                let mut short = |most| if random.chance(50) { 1 } else { random.between(1, most) };
                let (nodes, entries) = (short(WORK_NODES), short(WORK_ENTRIES));
                let which = random.below(3);
                if which != 1 {
                    lent.nodes = WORK_NODES - nodes;
                }
                if which != 0 {
                    lent.entries = WORK_ENTRIES - entries;
                }
                expected = refusal(1);
            }
            _ => return None,
        }
        self.call(case, &lent, &expected, random)
    }

    /// The second engine's answer to a case, and what is wrong with the library's:
    /// where nothing is, it is the library's answer too.
    pub fn agreed(&mut self, case: &Case, random: &mut Random) -> (Answer, Option<Fault>) {
        let fault = self.fault(case, random);
        (apply(&case.document, &case.patch, case.room.min(LONGEST)), fault)
    }

    /// One call, with the answer that it must give.
    fn call(
        &mut self,
        case: &Case,
        lent: &Lent,
        expected: &Answer,
        random: &mut Random,
    ) -> Option<Fault> {
        let Judge { document, patch, output, nodes, index, blank, .. } = self;
        let (garbage_nodes, garbage_entries) = (&self.garbage_nodes, &self.garbage_entries);
        let document = document.last(case.document.len());
        document.copy_from_slice(&case.document);
        let patch = patch.last(case.patch.len());
        patch.copy_from_slice(&case.patch);

        // The output's margin is in front: behind it nothing may be touched at all.
        let output = output.last(MARGIN + lent.room);
        let blank = &blank[..output.len()];
        output.copy_from_slice(blank);
        let nodes = nodes.last(MARGIN + lent.nodes);
        let index = index.last(MARGIN + lent.entries);
        let nodes_before = any_part(garbage_nodes, nodes.len(), random);
        let index_before = any_part(garbage_entries, index.len(), random);
        nodes.copy_from_slice(nodes_before);
        index.copy_from_slice(index_before);

        let given = apply_in(
            document,
            patch,
            &mut output[MARGIN..],
            &mut nodes[MARGIN..],
            &mut index[MARGIN..],
        );

        let wanted = match expected {
            Answer { number: 0, written, .. } => Ok(written.len()),
            &Answer { number, text, op, place, pointer, .. } => {
                Err(Refusal { number, text, op: op as usize, place, pointer })
            }
        };
        let fault = |what| Some(Fault { what, given, wanted });
        if given != wanted {
            return fault("answers");
        }
        let (text, rest) = output[MARGIN..].split_at(expected.written.len());
        if *text != expected.written {
            return fault("writes another text");
        }
        if output[..MARGIN] != blank[..MARGIN] || *rest != blank[MARGIN + text.len()..] {
            return fault("changes the output beyond the written text");
        }
        if *document != case.document || *patch != case.patch {
            return fault("changes an input");
        }
        let touched = expected.number != 1;
        let (of_nodes, of_index) = if touched { (WORK_NODES, WORK_ENTRIES) } else { (0, 0) };
        after(nodes, nodes_before, of_nodes, Node::ZERO)
            .or(after(index, index_before, of_index, 0))
            .and_then(fault)
    }
}

/// What is wrong with a list after a call: as many items behind the margin must
/// be zero, and all others as they were.
fn after<T: Copy + PartialEq>(
    list: &[T],
    before: &[T],
    cleared: usize,
    zero: T,
) -> Option<&'static str> {
    let (work, beyond) = list[MARGIN..].split_at(cleared);
    if work.iter().any(|&item| item != zero) {
        return Some("leaves the work area not zero");
    }
    if list[..MARGIN] != before[..MARGIN] || *beyond != before[MARGIN + cleared..] {
        return Some("changes memory outside the work area");
    }
    None
}

/// Any part of a list, of that length.
fn any_part<'a, T>(list: &'a [T], length: usize, random: &mut Random) -> &'a [T] {
    let at = random.below(list.len() - length + 1);
    &list[at..at + length]
}

fn any_node(random: &mut Random) -> Node {
    let mut field = || random.bits() as u16;
    Node {
        name_start: field(),
        name_length: field(),
        start: field(),
        length: field(),
        span: field(),
        hash: field(),
        tags: field(),
        origin: field(),
    }
}

fn refusal(number: u32) -> Answer {
    Answer { number, text: 0, op: 0, place: 0, pointer: 0, written: Vec::new() }
}
