//! Random trees, and values equal to a given one.

use super::random::Random;
use crate::value::{Member, Value};

/// Names that give pointers and comparisons something to do.
#[rustfmt::skip]
const NAMES: &[&str] = &[
    "a", "b", "c", "foo", "bar", "", "0", "1", "2", "-", "01", "~", "/", "a/b", "m~n", "~1", "~01",
    " ", "\"", "\\", "é", "e\u{301}", "€", "𝄞", "\0", "\u{1F}", "\u{7F}", "\u{FEFF}", "op", "path",
];

/// Pieces of strings.
#[rustfmt::skip]
const PIECES: &[&str] = &[
    "a", "b", "Z", "0", " ", "/", "~", "\"", "\\", "\u{08}", "\t", "\n", "\u{0C}", "\r", "\0",
    "\u{1F}", "\u{7F}", "\u{80}", "é", "ß", "\u{7FF}", "\u{800}", "€", "\u{D7FF}", "\u{E000}",
    "\u{FEFF}", "\u{FFFF}", "\u{10000}", "😀", "\u{10FFFF}", "word", "two words",
];

/// Numbers that meet one another in comparisons.
#[rustfmt::skip]
const NUMERALS: &[&str] = &[
    "0", "-0", "0.0", "-0e5", "0E-9999", "1", "-1", "1.0", "10e-1", "0.1e1", "10", "1e1",
    "100", "1E2", "1e+2", "0.10", "1e-1", "4400", "4.4e3", "9007199254740993", "9007199254740992",
    "1e9999", "10e9998", "1e-9999", "0.1e-9998", "3.0", "3", "12345678901234567890", "1.5e300",
    "1.5e-300", "18446744073709551616", "0.000000000000000000000000000001", "1e0", "1e00",
    "123.456",
];

/// A tree of exactly so many nodes with at most so many levels. (One level at
/// least is taken where there is more than one node.)
pub fn tree(random: &mut Random, nodes: usize, levels: usize) -> Value {
    if nodes <= 1 {
        return match random.below(12) {
            0 if levels > 0 => Value::Array(Vec::new()),
            1 if levels > 0 => Value::Object(Vec::new()),
            _ => scalar(random),
        };
    }
    let mut children = Vec::new();
    let mut left = nodes - 1;
    while left > 0 {
        let size = if levels < 2 || random.chance(50) { 1 } else { random.between(1, left) };
        children.push(tree(random, size, levels.saturating_sub(1)));
        left -= size;
    }
    random.shuffle(&mut children);
    if random.chance(50) {
        Value::Array(children)
    } else {
        object(random, children)
    }
}

/// An object of these values, under names that are all different.
pub fn object(random: &mut Random, values: Vec<Value>) -> Value {
    let mut members: Vec<Member> = Vec::new();
    for value in values {
        let mut name = name(random);
        while members.iter().any(|member| member.name == name) {
            name.push_str(&random.below(10_000).to_string());
        }
        members.push(Member { name, value });
    }
    Value::Object(members)
}

/// So many containers in one another, with something beside them here and
/// there.
pub fn nest(random: &mut Random, levels: usize) -> Value {
    let mut value = match random.below(3) {
        0 if levels > 0 => Value::Array(Vec::new()),
        1 if levels > 0 => Value::Object(Vec::new()),
        _ => scalar(random),
    };
    while value.depth() < levels {
        let mut children = vec![value];
        if random.chance(20) {
            children.push(scalar(random));
            random.shuffle(&mut children);
        }
        value = if random.chance(60) { Value::Array(children) } else { object(random, children) };
    }
    value
}

/// A name.
pub fn name(random: &mut Random) -> String {
    if random.chance(90) {
        random.pick(NAMES).to_string()
    } else {
        text(random)
    }
}

/// A scalar.
pub fn scalar(random: &mut Random) -> Value {
    match random.below(10) {
        0 => Value::Null,
        1 => Value::Bool(true),
        2 => Value::Bool(false),
        3..=5 => Value::Text(text(random)),
        _ => Value::Number(numeral(random)),
    }
}

/// A string, mostly short.
pub fn text(random: &mut Random) -> String {
    let most = if random.chance(3) { 60 } else { 5 };
    (0..random.below(most)).map(|_| random.pick(PIECES)).collect()
}

/// A number within its limits.
pub fn numeral(random: &mut Random) -> String {
    match random.below(20) {
        0..=9 => random.pick(NUMERALS).to_string(),
        10..=14 => random.below(1000).to_string(),
        15 => zero(random),
        _ => {
            let sign = random.pick(&["", "-"]);
            let whole = random.below(100_000);
            let fraction = random.pick(&["", ".0", ".5", ".25", ".00700"]);
            let exponent = match random.below(4) {
                0 => format!("e{}", random.below(10_000)),
                1 => format!("E-{}", random.below(10_000)),
                2 => format!("e+0{}", random.below(20)),
                _ => String::new(),
            };
            format!("{sign}{whole}{fraction}{exponent}")
        }
    }
}

/// A zero of either sign, with any exponent.
fn zero(random: &mut Random) -> String {
    let sign = random.pick(&["", "-"]);
    let fraction = random.pick(&["", ".0", ".000"]);
    let exponent = match random.below(3) {
        0 => String::new(),
        1 => format!("{}{}", random.pick(&["e", "E", "e+", "e-", "E-00"]), random.below(10_000)),
        _ => random.pick(&["e0", "E-9999", "e9999", "e5"]).to_string(),
    };
    format!("{sign}0{fraction}{exponent}")
}

/// A value equal to the given one: numbers spelled otherwise, members in another
/// order.
pub fn equal_to(random: &mut Random, value: &Value) -> Value {
    match value {
        Value::Number(source) => Value::Number(respelled(random, source)),
        Value::Array(items) => {
            Value::Array(items.iter().map(|item| equal_to(random, item)).collect())
        }
        Value::Object(members) => {
            let mut members: Vec<Member> = members
                .iter()
                .map(|m| Member { name: m.name.clone(), value: equal_to(random, &m.value) })
                .collect();
            random.shuffle(&mut members);
            Value::Object(members)
        }
        other => other.clone(),
    }
}

/// A value that is mostly a little different from the given one.
pub fn nearly(random: &mut Random, value: &Value) -> Value {
    let mut other = equal_to(random, value);
    match &mut other {
        Value::Array(items) if !items.is_empty() && random.chance(80) => {
            let at = random.below(items.len());
            match random.below(4) {
                0 => drop(items.remove(at)),
                1 => items.push(scalar(random)),
                2 => items.reverse(),
                _ => items[at] = nearly(random, &items[at]),
            }
        }
        Value::Object(members) if !members.is_empty() && random.chance(80) => {
            let at = random.below(members.len());
            match random.below(4) {
                0 => drop(members.remove(at)),
                1 => members[at].name.push('x'),
                _ => members[at].value = nearly(random, &members[at].value),
            }
        }
        Value::Text(text) if random.chance(70) => text.push('x'),
        Value::Number(source) if random.chance(70) => *source = other_number(random, source),
        _ => other = scalar(random),
    }
    other
}

/// A number that is mostly near the given one.
fn other_number(random: &mut Random, source: &str) -> String {
    match random.below(3) {
        0 => source.strip_prefix('-').map_or(format!("-{source}"), str::to_string),
        1 if !source.contains(['.', 'e', 'E']) => format!("{source}.1"),
        _ => numeral(random),
    }
}

/// Another spelling of a number, if one is found within the limits.
fn respelled(random: &mut Random, source: &str) -> String {
    let (sign, size) = match source.strip_prefix('-') {
        Some(size) => ("-", size),
        None => ("", source),
    };
    let (plain, exponent) = size.split_once(['e', 'E']).unwrap_or((size, "0"));
    let (whole, fraction) = plain.split_once('.').unwrap_or((plain, ""));
    let Ok(exponent) = exponent.parse::<i64>() else {
        return source.to_string();
    };
    // All digits as one whole number with a power of ten.
    let digits = format!("{whole}{fraction}");
    let mut digits = digits.trim_start_matches('0').to_string();
    if digits.is_empty() {
        return zero(random);
    }
    let mut power = exponent - fraction.len() as i64;
    for _ in 0..random.below(4) {
        if digits.len() > 1 && digits.ends_with('0') && random.chance(50) {
            digits.pop();
            power += 1;
        } else {
            digits.push('0');
            power -= 1;
        }
    }
    // The point somewhere in them, and the exponent that makes up for it.
    let point = random.between(1, digits.len());
    let (whole, fraction) = digits.split_at(point);
    let exponent = power + fraction.len() as i64;
    let fraction = if fraction.is_empty() { String::new() } else { format!(".{fraction}") };
    let exponent = match exponent {
        0 if random.chance(70) => String::new(),
        0.. => format!("{}{}{exponent}", random.pick(&["e", "E", "e+"]), random.pick(&["", "0"])),
        _ => format!("e-{}{}", random.pick(&["", "00"]), -exponent),
    };
    let number = format!("{sign}{whole}{fraction}{exponent}");
    let size = exponent.trim_start_matches(['e', 'E', '+', '-', '0']).len();
    if number.len() > 128 || size > 4 {
        source.to_string()
    } else {
        number
    }
}
