//! Nobody else's shelf decides, on the library: T-06.
//!
//!     cargo run --release --offline --manifest-path fuzz/Cargo.toml --bin isolation [SEED [COUNT]]
//!
//! Each case is a maker's patch and two documents that have the same value in
//! its region and differ elsewhere. Both calls must give the same number, text,
//! op, place and pointer. On success the region must be written with the same
//! bytes in both results, and what stands before it and behind it must be as it
//! is in each document, written. It tells how many pairs were written, how many
//! were refused and with which number, and of how many the law says nothing. It
//! ends with status 0 if the law held.

#[path = "../cut.rs"]
mod cut;

use cut::cut;
use json_patch::{apply_within, Refusal, Work};
use second::generate::shelves::{shelves, Shelves};
use second::pointer;
use std::collections::BTreeMap;
use std::env;
use std::process::ExitCode;
use std::time::{SystemTime, UNIX_EPOCH};

/// Enough is told after so many pairs.
const MOST_TOLD: u64 = 10;

/// Room for every result: a document and a patch are in it.
const ROOM: usize = 1 << 17;

/// What came of a pair.
#[derive(Clone, Copy, Debug, PartialEq, Eq, PartialOrd, Ord)]
enum Came {
    /// Both were written, as the law says.
    Written,
    /// Both were refused alike, with that number.
    Refused(u32),
    /// The law says nothing: a run met 6.
    TooManyNodes,
    /// The law says nothing: a text was not accepted, the patch keeps no rule, or
    /// a buffer is too short.
    NotAccepted(u32),
    /// The law does not hold.
    Broken(&'static str),
}

/// What a call gives: the text that it wrote, or its refusal.
type Given = Result<Vec<u8>, Refusal>;

/// Whether the law says nothing of a call that is refused so.
fn silent(refusal: &Refusal) -> Option<Came> {
    match refusal {
        Refusal { number: 6, text: 0, .. } => Some(Came::TooManyNodes),
        Refusal { number, text: 1 | 2, .. } => Some(Came::NotAccepted(*number)),
        Refusal { number: number @ (1 | 2 | 8 | 9 | 10 | 14 | 16 | 17), .. } => {
            Some(Came::NotAccepted(*number))
        }
        _ => None,
    }
}

/// Holds what the two calls gave to the law.
fn law(shelves: &Shelves, given: &[Given; 2]) -> Came {
    let refusals = given.iter().filter_map(|one| one.as_ref().err());
    if let Some(came) = refusals.filter_map(silent).next() {
        return came;
    }
    match given {
        [Err(first), Err(second)] if first == second => Came::Refused(first.number),
        [Ok(first), Ok(second)] => results(shelves, [first, second]),
        _ => Came::Broken("the answers differ"),
    }
}

/// The law on two results.
fn results(shelves: &Shelves, results: [&[u8]; 2]) -> Came {
    let mut regions = Vec::new();
    for (result, document) in results.iter().zip(&shelves.written) {
        let (Some(after), Some(before)) =
            (cut(result, &shelves.region), cut(document, &shelves.region))
        else {
            return Came::Broken("no value in the region");
        };
        if after.front != before.front || after.back != before.back {
            return Came::Broken("the outside is not as before");
        }
        regions.push(after.value);
    }
    if regions[0] != regions[1] {
        return Came::Broken("the regions are not written alike");
    }
    Came::Written
}

/// Whether one document has an array on the way where the other has an object.
fn mixed(shelves: &Shelves) -> bool {
    (0..shelves.region.len()).any(|length| {
        let way = &shelves.region[..length];
        let [first, second] = [0, 1].map(|which| cut(&shelves.written[which], way));
        first.map(|it| it.value[0]) != second.map(|it| it.value[0])
    })
}

fn call(shelves: &Shelves, which: usize, work: &mut Work) -> Given {
    let mut output = vec![0; ROOM];
    let region = pointer::text(&shelves.region);
    let length = apply_within(
        &shelves.documents[which],
        &shelves.patch,
        region.as_bytes(),
        &mut output,
        work,
    )?;
    output.truncate(length);
    Ok(output)
}

fn main() -> ExitCode {
    let mut numbers = env::args().skip(1).map(|word| word.parse::<u64>());
    let clock = SystemTime::now().duration_since(UNIX_EPOCH).map_or(0, |time| time.as_secs());
    let (Ok(seed), Ok(count)) =
        (numbers.next().unwrap_or(Ok(clock)), numbers.next().unwrap_or(Ok(100_000)))
    else {
        eprintln!("usage: isolation [SEED [COUNT]]");
        return ExitCode::from(2);
    };
    println!("{count} pairs of documents, seed {seed}");
    let mut work = Work::new();
    let mut seen = BTreeMap::<Came, u64>::new();
    let (mut broken, mut differ, mut arrays) = (0, 0, 0);
    for index in 0..count {
        let shelves = shelves(seed, index);
        let given = [0, 1].map(|which| call(&shelves, which, &mut work));
        let came = law(&shelves, &given);
        *seen.entry(came).or_default() += 1;
        differ += u64::from(shelves.written[0] != shelves.written[1]);
        arrays += u64::from(mixed(&shelves));
        if let Came::Broken(how) = came {
            broken += 1;
            if broken <= MOST_TOLD {
                println!("BROKEN (seed {seed} index {index}): {how}, {given:?}");
                for text in [&shelves.documents[0], &shelves.documents[1], &shelves.patch] {
                    println!("  {}", text.escape_ascii());
                }
                println!("  region {:?}", shelves.region);
            }
        }
    }
    println!("{differ} pairs of documents differ, {arrays} by an array on the way to the region");
    for (came, times) in seen {
        println!("{times} times: {came:?}");
    }
    println!("{broken} times the law was broken");
    if broken == 0 {
        ExitCode::SUCCESS
    } else {
        ExitCode::from(1)
    }
}

#[cfg(test)]
mod tests {
    use super::*;

    fn some() -> Shelves {
        Shelves {
            documents: [br#"[1,{"a":2}]"#.to_vec(), br#"{"x":[],"1":{"a":2}}"#.to_vec()],
            written: [br#"[1,{"a":2}]"#.to_vec(), br#"{"x":[],"1":{"a":2}}"#.to_vec()],
            region: vec!["1".to_string()],
            patch: Vec::new(),
        }
    }

    fn came(first: &str, second: &str) -> Came {
        law(&some(), &[first, second].map(|text| Ok(text.as_bytes().to_vec())))
    }

    fn refused(op: usize, place: usize) -> Given {
        Err(Refusal { number: 11, text: 0, op, place, pointer: 1 })
    }

    #[test]
    fn a_law_that_holds() {
        assert_eq!(came(r#"[1,{"a":3}]"#, r#"{"x":[],"1":{"a":3}}"#), Came::Written);
        assert_eq!(law(&some(), &[refused(2, 1), refused(2, 1)]), Came::Refused(11));
    }

    #[test]
    fn broken_laws_are_noticed() {
        let outside = Came::Broken("the outside is not as before");
        assert_eq!(came(r#"[0,{"a":3}]"#, r#"{"x":[],"1":{"a":3}}"#), outside);
        assert_eq!(came(r#"[1,{"a":3}]"#, r#"{"1":{"a":3},"x":[]}"#), outside);
        assert_eq!(came(r#"[1,{"a":3}]"#, r#"{"x":[],"1":{"a":3},"y":0}"#), outside);
        let unlike = Came::Broken("the regions are not written alike");
        assert_eq!(came(r#"[1,{"a":3}]"#, r#"{"x":[],"1":{"a":3.0}}"#), unlike);
        let gone = Came::Broken("no value in the region");
        assert_eq!(came(r#"[1]"#, r#"{"x":[],"1":{"a":3}}"#), gone);
        let differ = Came::Broken("the answers differ");
        assert_eq!(law(&some(), &[refused(2, 1), refused(3, 1)]), differ);
        assert_eq!(law(&some(), &[refused(2, 1), refused(2, 2)]), differ);
        assert_eq!(law(&some(), &[refused(2, 1), Ok(Vec::new())]), differ);
    }
}
