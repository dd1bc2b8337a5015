//! Intel HEX: the second program against the static library, in one process.
//!
//!     cargo run --release --offline --manifest-path fuzz/Cargo.toml --bin hex [SEED [COUNT]]
//!
//! Each text, committed or generated, is put to both calls. The whole answer is
//! compared, and the output behind the written text, or all of it after a
//! refusal, must be as it was. Input and output end where a page begins that may
//! not be touched. It ends with status 0 if there is no difference.

#[path = "../arena.rs"]
mod arena;

use arena::Arena;
use json_patch::hex::raw::{json_patch_read_hex, json_patch_write_hex, Answer, Call};
use second::hex::cases::Case;
use second::hex::{generate, read, vectors, write, Refusal};
use std::env;
use std::process::ExitCode;
use std::time::{SystemTime, UNIX_EPOCH};

/// The longest text and the longest output that are lent.
const LONGEST: usize = 262_144;

/// What the output holds before a call.
const UNWRITTEN: u8 = 0xFF;

/// Enough is told after so many differences.
const MOST_TOLD: u64 = 10;

/// A text, or a refusal: its number and its place.
type Answered = Result<Vec<u8>, Refusal>;

struct Judge {
    input: Arena<u8>,
    output: Arena<u8>,
}

impl Judge {
    /// What the library answers to one call, or what is wrong with it.
    fn answer(&mut self, way: Call, text: &[u8], room: usize) -> Result<Answered, String> {
        let input = self.input.last(text.len());
        input.copy_from_slice(text);
        let output = self.output.last(room);
        output.fill(UNWRITTEN);
        let mut answer = Answer { number: 7, text: 7, op: 7, place: 7, pointer: 7, length: 7 };
        // Safety: pointers and lengths of slices that do not overlap.
        let number =
            unsafe { way(input.as_ptr(), input.len(), output.as_mut_ptr(), room, &mut answer) };
        let Answer { number: same, text: zero, op, place, pointer, length } = answer;
        if u64::from(number) != same || [zero, op, pointer] != [0; 3] {
            return Err(format!("{number} returned, {answer:?} laid down"));
        }
        let length = length as usize;
        if number != 0 && length != 0 || number == 0 && place != 0 || length > room {
            return Err(format!("length {length}, place {place} with number {number}"));
        }
        if output[length..].iter().any(|&byte| byte != UNWRITTEN) {
            return Err("the output is changed behind the text".to_string());
        }
        if input != text {
            return Err("the input is changed".to_string());
        }
        Ok(if number == 0 { Ok(output[..length].to_vec()) } else { Err((number, place as usize)) })
    }

    /// How the two differ on a case, if they do.
    fn difference(&mut self, case: &Case) -> Option<String> {
        let Case { room, text, .. } = case;
        let calls: [(&str, Call, Answered); 2] = [
            ("written", json_patch_write_hex, write(text, *room)),
            ("read", json_patch_read_hex, read(text, *room)),
        ];
        for (name, call, wanted) in calls {
            match self.answer(call, text, *room) {
                Ok(given) if given == wanted => {}
                Ok(given) => return Some(format!("{name}: {given:?}, wanted {wanted:?}")),
                Err(fault) => return Some(format!("{name}: {fault}")),
            }
        }
        None
    }
}

fn main() -> ExitCode {
    let mut numbers = env::args().skip(1).map(|word| word.parse::<u64>());
    let clock = SystemTime::now().duration_since(UNIX_EPOCH).map_or(0, |time| time.as_secs());
    let (Ok(seed), Ok(count)) =
        (numbers.next().unwrap_or(Ok(clock)), numbers.next().unwrap_or(Ok(100_000)))
    else {
        eprintln!("usage: hex [SEED [COUNT]]");
        return ExitCode::from(2);
    };
    let mut judge = Judge { input: Arena::new(LONGEST), output: Arena::new(LONGEST) };
    let committed = vectors::all();
    println!("{} committed cases, {count} generated, seed {seed}", committed.len());
    let mut differences = 0;
    let cases = committed.into_iter().map(|vector| vector.case);
    for mut case in cases.chain((0..count).map(|index| generate::case(seed, index))) {
        case.text.truncate(LONGEST);
        case.room = case.room.min(LONGEST);
        if let Some(difference) = judge.difference(&case) {
            differences += 1;
            if differences <= MOST_TOLD {
                let Case { name, room, text } = case;
                println!("DIFFERENCE in {name}, room {room}, text {}", text.escape_ascii());
                println!("  {difference}");
            }
        }
    }
    println!("{differences} differences");
    if differences == 0 {
        ExitCode::SUCCESS
    } else {
        ExitCode::from(1)
    }
}
