//! The second engine against the static library, in one process: see README.md.

mod arena;
mod crash;
mod heap;
mod judge;
mod mutate;
mod pairs;
mod parts;
mod reduce;

use judge::{Judge, LONGEST};
use second::cases::{self, Case};
use second::generate::random::Random;
use second::{generate, vectors};
use std::collections::BTreeMap;
use std::path::{Path, PathBuf};
use std::process::ExitCode;
use std::sync::atomic::{AtomicU64, Ordering};
use std::sync::Mutex;
use std::time::{Instant, SystemTime, UNIX_EPOCH};
use std::{env, fs, io, thread};

const USAGE: &str =
    "usage: fuzz [--seed N] [--count N] [--threads N] [--mutate | --pairs] [FILE...]
With files of cases, only these are judged.";

/// Enough is known after so many differences; of one kind, so many are told.
const MOST_FOUND: u64 = 1_000;
const MOST_TOLD: u64 = 2;

/// How often each kind of fault was found.
type Kinds = BTreeMap<(&'static str, u32, u32), u64>;

struct Options {
    seed: u64,
    count: u64,
    threads: usize,
    mutate: bool,
    pairs: bool,
    files: Vec<PathBuf>,
}

fn options() -> Option<Options> {
    let clock = SystemTime::now().duration_since(UNIX_EPOCH).map_or(0, |time| time.as_secs());
    let threads = thread::available_parallelism().map_or(1, |number| number.get());
    let mut options = Options {
        seed: clock,
        count: 100_000,
        threads,
        mutate: false,
        pairs: false,
        files: Vec::new(),
    };
    let mut arguments = env::args_os().skip(1);
    while let Some(argument) = arguments.next() {
        let mut number = || arguments.next()?.to_str()?.parse::<u64>().ok();
        match argument.to_str() {
            Some("--seed") => options.seed = number()?,
            Some("--count") => options.count = number()?,
            Some("--threads") => options.threads = number()? as usize,
            Some("--mutate") => options.mutate = true,
            Some("--pairs") => options.pairs = true,
            Some(word) if word.starts_with('-') => return None,
            _ => options.files.push(argument.into()),
        }
    }
    options.threads = options.threads.clamp(1, crash::THREADS);
    Some(options)
}

fn main() -> ExitCode {
    let Some(options) = options() else {
        eprintln!("{USAGE}");
        return ExitCode::from(2);
    };
    match run(&options) {
        Ok(0) => ExitCode::SUCCESS,
        Ok(_) => ExitCode::from(1),
        Err(error) => {
            eprintln!("fuzz: {error}");
            ExitCode::from(2)
        }
    }
}

/// Judges all that is asked for; gives the number of differences.
fn run(options: &Options) -> io::Result<u64> {
    crash::watch();
    let start = Instant::now();
    if !options.files.is_empty() {
        let mut found = Vec::new();
        for file in &options.files {
            found.extend(cases_of(file)?);
        }
        let count = found.len() as u64;
        let differences = judge_all("cases of files", options, count, |i| pick(&found, i));
        println!("{differences} differences");
        return Ok(differences);
    }
    let pool = committed()?;
    let mut differences =
        judge_all("committed cases", options, pool.len() as u64, |i| pick(&pool, i));
    let &Options { seed, count, .. } = options;
    differences += if options.pairs {
        pairs::judge_pairs(options)
    } else if options.mutate {
        judge_all("mutated cases", options, count, |i| mutate::mutant(seed, i, &pool))
    } else {
        judge_all("generated cases", options, count, |i| generate::case(seed, i))
    };
    println!("{differences} differences, {:.1} s", start.elapsed().as_secs_f64());
    Ok(differences)
}

fn pick(cases: &[Case], index: u64) -> Case {
    cases[index as usize].clone()
}

/// The committed cases: the second program's, and those kept from earlier runs.
fn committed() -> io::Result<Vec<Case>> {
    let mut cases: Vec<Case> = vectors::all().into_iter().map(|vector| vector.case).collect();
    let mut files: Vec<PathBuf> = match fs::read_dir(folder("kept")) {
        Ok(entries) => entries.filter_map(|entry| Some(entry.ok()?.path())).collect(),
        Err(_) => Vec::new(),
    };
    files.sort();
    for file in files {
        cases.extend(cases_of(&file)?);
    }
    Ok(cases)
}

fn cases_of(file: &Path) -> io::Result<Vec<Case>> {
    let told = |problem: String| io::Error::other(format!("{}: {problem}", file.display()));
    let bytes = fs::read(file).map_err(|error| told(error.to_string()))?;
    cases::parse(&bytes).map_err(told)
}

/// A folder beside this program's sources.
fn folder(name: &str) -> PathBuf {
    Path::new(env!("CARGO_MANIFEST_DIR")).join(name)
}

/// Judges so many cases on all threads, tells what it finds, and gives the
/// number of differences.
fn judge_all(what: &str, options: &Options, count: u64, make: impl Fn(u64) -> Case + Sync) -> u64 {
    let &Options { seed, threads, .. } = options;
    println!("{count} {what}, seed {seed}, {threads} threads");
    let (next, found) = (AtomicU64::new(0), AtomicU64::new(0));
    let kinds = Mutex::new(Kinds::new());
    thread::scope(|scope| {
        for number in 0..threads {
            let (next, found, kinds, make) = (&next, &found, &kinds, &make);
            scope.spawn(move || {
                let mut judge = Judge::new();
                while found.load(Ordering::Relaxed) < MOST_FOUND {
                    let index = next.fetch_add(1, Ordering::Relaxed);
                    if index >= count {
                        break;
                    }
                    crash::at(number, index);
                    let make = || cut(make(index));
                    let kind = heap::at_once(|| {
                        judge.fault(&make(), &mut lending(seed, index)).map(|fault| fault.kind())
                    });
                    if let Some(kind) = kind {
                        found.fetch_add(1, Ordering::Relaxed);
                        if let Ok(mut kinds) = kinds.lock() {
                            let times = kinds.entry(kind).or_default();
                            *times += 1;
                            if *times <= MOST_TOLD {
                                tell(&mut judge, seed, index, &make());
                            }
                        }
                    }
                }
                crash::done(number);
            });
        }
    });
    for ((what, given, wanted), times) in kinds.into_inner().unwrap_or_default() {
        println!("{times} times: {what} {given}, wanted {wanted}");
    }
    found.into_inner()
}

/// The case, no longer than memory is lent for.
fn cut(mut case: Case) -> Case {
    case.document.truncate(LONGEST);
    case.patch.truncate(LONGEST);
    case
}

/// The random numbers that say how memory is lent for a case.
fn lending(seed: u64, index: u64) -> Random {
    Random::new(seed, index ^ 1 << 62)
}

/// Tells a difference, makes its case smaller and writes it to a file.
fn tell(judge: &mut Judge, seed: u64, index: u64, case: &Case) {
    let mut fault = |case: &Case| judge.fault(case, &mut lending(seed, index));
    let Some(first) = fault(case) else {
        return;
    };
    println!("DIFFERENCE in {} (seed {seed} index {index}): {first}", case.name);
    let kind = first.kind();
    let small = reduce::reduce(case, |case| fault(case).is_some_and(|it| it.kind() == kind));
    if let Some(fault) = fault(&small) {
        println!("  reduced  {fault}");
    }
    println!("  document {}", small.document.escape_ascii());
    println!("  patch    {}", small.patch.escape_ascii());
    println!("  second   {}", small.line(small.room).escape_ascii());
    let file = folder("found").join(format!("{}.case", small.name));
    let written = fs::create_dir_all(folder("found")).and_then(|()| fs::write(&file, small.text()));
    match written {
        Ok(()) => println!("  written to fuzz/found/{}.case", small.name),
        Err(error) => println!("  not written: {error}"),
    }
}
