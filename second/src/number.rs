//! Comparing numbers by exact value, from their source text.
//!
//! A number is the list of its digits that are not zero, each with its place
//! and with the number's sign: place 0 is the ones, place 1 the tens, place -1
//! the tenths, and `-1.5` is -1 at place 0 and -5 at place -1. No number has two
//! such lists, so two numbers are equal when the lists are. A zero's list is
//! empty, whatever its sign and its exponent.

/// Whether two numbers in JSON's grammar have the same exact value.
pub fn equal(left: &str, right: &str) -> bool {
    exact(left) == exact(right)
}

/// The exact value of a number: its digits other than zero, signed, from the
/// highest place down.
fn exact(source: &str) -> Vec<(i64, i8)> {
    let (sign, size) = match source.strip_prefix('-') {
        Some(size) => (-1, size),
        None => (1, source),
    };
    let (plain, exponent) = match size.split_once(['e', 'E']) {
        Some((plain, written)) => (plain, signed(written)),
        None => (size, 0),
    };
    let (whole, fraction) = plain.split_once('.').unwrap_or((plain, ""));

    // The last digit of the whole part stands at the place the exponent says.
    let highest = exponent + whole.len() as i64 - 1;
    whole
        .bytes()
        .chain(fraction.bytes())
        .enumerate()
        .filter(|&(_, digit)| digit != b'0')
        .map(|(steps, digit)| (highest - steps as i64, sign * (digit - b'0') as i8))
        .collect()
}

/// The value of an exponent such as `7`, `+07` or `-7`. The reader lets none
/// beyond 9,999 through, so nothing overflows.
fn signed(written: &str) -> i64 {
    let mut size: i64 = 0;
    for digit in written.bytes().filter(u8::is_ascii_digit) {
        size = size.saturating_mul(10).saturating_add(i64::from(digit - b'0'));
    }
    if written.starts_with('-') {
        -size
    } else {
        size
    }
}
