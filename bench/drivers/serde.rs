//! A stand-in: serde_json (librust-serde-json-dev) has no JSON Patch, so the
//! operations here are our own. What it prints: driver.h.

use serde_json::Value;
use std::borrow::Cow;
use std::hint::black_box;
use std::time::Instant;

#[repr(C)]
struct Timespec {
    seconds: i64,
    nanoseconds: i64,
}

extern "C" {
    fn clock_gettime(clock: i32, time: *mut Timespec) -> i32;
}

/// Nanoseconds of processor time.
fn processor() -> f64 {
    const CLOCK_PROCESS_CPUTIME_ID: i32 = 2;
    let mut time = Timespec { seconds: 0, nanoseconds: 0 };
    unsafe { clock_gettime(CLOCK_PROCESS_CPUTIME_ID, &mut time) };
    time.seconds as f64 * 1e9 + time.nanoseconds as f64
}

type Outcome<T> = Result<T, String>;

fn index(token: &str, limit: usize) -> Outcome<usize> {
    let digits = !token.is_empty() && token.bytes().all(|b| b.is_ascii_digit());
    if !digits || (token.len() > 1 && token.starts_with('0')) {
        return Err("no index".into());
    }
    match token.parse() {
        Ok(index) if index <= limit => Ok(index),
        _ => Err("index out of range".into()),
    }
}

fn unescaped(token: &str) -> Cow<'_, str> {
    if token.contains('~') {
        token.replace("~1", "/").replace("~0", "~").into()
    } else {
        token.into()
    }
}

fn split(pointer: &str) -> Outcome<(&str, &str)> {
    let at = pointer.rfind('/').ok_or("malformed pointer")?;
    Ok((&pointer[..at], &pointer[at + 1..]))
}

fn add(document: &mut Value, pointer: &str, value: Value) -> Outcome<()> {
    if pointer.is_empty() {
        *document = value;
        return Ok(());
    }
    let (parent, last) = split(pointer)?;
    match document.pointer_mut(parent) {
        Some(Value::Object(members)) => {
            members.insert(unescaped(last).into_owned(), value);
        }
        Some(Value::Array(elements)) => {
            let length = elements.len();
            elements.insert(if last == "-" { length } else { index(last, length)? }, value);
        }
        _ => return Err("no container".into()),
    }
    Ok(())
}

fn remove(document: &mut Value, pointer: &str) -> Outcome<Value> {
    let (parent, last) = split(pointer)?;
    match document.pointer_mut(parent) {
        Some(Value::Object(members)) => {
            members.remove(unescaped(last).as_ref()).ok_or("nothing there".into())
        }
        Some(Value::Array(elements)) => {
            let at = index(last, elements.len())?;
            if at == elements.len() {
                return Err("nothing there".into());
            }
            Ok(elements.remove(at))
        }
        _ => Err("no container".into()),
    }
}

fn text<'a>(operation: &'a Value, name: &str) -> Outcome<&'a str> {
    Ok(operation.get(name).and_then(Value::as_str).ok_or("missing member")?)
}

fn value(operation: &Value) -> Outcome<&Value> {
    Ok(operation.get("value").ok_or("missing value")?)
}

fn perform(document: &mut Value, operation: &Value) -> Outcome<()> {
    let path = text(operation, "path")?;
    match text(operation, "op")? {
        "add" => add(document, path, value(operation)?.clone())?,
        "remove" => drop(remove(document, path)?),
        "replace" => {
            *document.pointer_mut(path).ok_or("nothing there")? = value(operation)?.clone();
        }
        "move" => {
            let moved = remove(document, text(operation, "from")?)?;
            add(document, path, moved)?;
        }
        "copy" => {
            let copied = document.pointer(text(operation, "from")?).ok_or("nothing there")?.clone();
            add(document, path, copied)?;
        }
        "test" if document.pointer(path) == Some(value(operation)?) => {}
        "test" => return Err("test found a difference".into()),
        _ => return Err("unknown op".into()),
    }
    Ok(())
}

fn once(document: &str, patch: &str) -> Outcome<String> {
    let mut document: Value = serde_json::from_str(document).map_err(|e| e.to_string())?;
    let patch: Value = serde_json::from_str(patch).map_err(|e| e.to_string())?;
    for operation in patch.as_array().ok_or("patch is not an array")? {
        perform(&mut document, operation)?;
    }
    serde_json::to_string(&document).map_err(|e| e.to_string())
}

fn main() {
    let arguments: Vec<String> = std::env::args().collect();
    let (rounds, files) = arguments[1..].split_last().unwrap();
    let rounds: u32 = rounds.parse().unwrap();
    let texts: Vec<String> = files.iter().map(|name| std::fs::read_to_string(name).unwrap()).collect();
    let run = |pair: &[String]| {
        once(&pair[0], &pair[1]).unwrap_or_else(|error| {
            eprintln!("error: {error}");
            std::process::exit(1)
        })
    };
    let round = || texts.chunks(2).for_each(|pair| drop(black_box(run(pair))));
    let results: Vec<String> = texts.chunks(2).map(run).collect();
    if rounds == 0 {
        print!("{}", results.join("\n"));
        return;
    }
    (0..rounds / 10).for_each(|_| round());
    let (elapsed, cpu) = (Instant::now(), processor());
    (0..rounds).for_each(|_| round());
    let calls = f64::from(rounds) * results.len() as f64;
    let cpu = (processor() - cpu) / calls;
    let elapsed = elapsed.elapsed().as_nanos() as f64 / calls;
    let all = results.concat();
    let hash = all
        .bytes()
        .fold(14695981039346656037u64, |h, b| (h ^ u64::from(b)).wrapping_mul(1099511628211));
    println!("{elapsed:.0} {} {hash:016x} {cpu:.0}", all.len());
}
