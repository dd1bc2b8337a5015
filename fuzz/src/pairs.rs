//! Two patches in a row are one, on the library: SPECIFICATION 11, T-13.

use crate::judge::{Fault, Judge};
use crate::{crash, lending, Options};
use second::cases::Case;
use second::generate::pairs::{pair, Came};
use second::limits::TOOL_ROOM;
use std::collections::BTreeMap;
use std::sync::atomic::{AtomicU64, Ordering};
use std::sync::Mutex;
use std::thread;

/// What came of one pair: the law on the library's answers, and how they differ
/// from the second engine's, if one does.
fn judge_pair(judge: &mut Judge, seed: u64, index: u64) -> (Came, Option<Fault>) {
    let mut random = lending(seed, index);
    let mut found = None;
    let came = pair(seed, index).law(|document, patch| {
        let name = format!("p{seed}-{index}");
        let (document, patch) = (document.to_vec(), patch.to_vec());
        let case = Case { name, room: TOOL_ROOM, document, patch };
        let (answer, fault) = judge.agreed(&case, &mut random);
        found = found.take().or(fault);
        answer
    });
    (came, found)
}

/// Judges so many pairs on all threads, tells what came of them, and gives the
/// number of pairs with a difference or a law that does not hold.
pub fn judge_pairs(options: &Options) -> u64 {
    let &Options { seed, count, threads, .. } = options;
    println!("{count} pairs of patches, seed {seed}, {threads} threads");
    let (next, bad) = (AtomicU64::new(0), AtomicU64::new(0));
    let seen = Mutex::new(BTreeMap::<Came, u64>::new());
    thread::scope(|scope| {
        for number in 0..threads {
            let (next, bad, seen) = (&next, &bad, &seen);
            scope.spawn(move || {
                let mut judge = Judge::new();
                let mut mine = BTreeMap::<Came, u64>::new();
                loop {
                    let index = next.fetch_add(1, Ordering::Relaxed);
                    if index >= count {
                        break;
                    }
                    crash::at(number, index);
                    let (came, fault) = judge_pair(&mut judge, seed, index);
                    *mine.entry(came).or_default() += 1;
                    if came == Came::Broken || fault.is_some() {
                        bad.fetch_add(1, Ordering::Relaxed);
                        let told = fault.map_or("no difference".to_string(), |it| it.to_string());
                        println!("PAIR (seed {seed} index {index}): {came:?}, {told}");
                    }
                }
                crash::done(number);
                if let Ok(mut seen) = seen.lock() {
                    for (came, times) in mine {
                        *seen.entry(came).or_default() += times;
                    }
                }
            });
        }
    });
    for (came, times) in seen.into_inner().unwrap_or_default() {
        println!("{times} times: {came:?}");
    }
    bad.into_inner()
}
