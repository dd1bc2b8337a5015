//! Reading a number: its grammar, its length and its exponent's size.

use crate::cursor::{Cursor, Refusal};
use crate::limits::{LARGEST_EXPONENT, LONGEST_NUMBER};
use crate::refusals::{NOT_JSON, NUMBER_LIMIT};

/// Reads the number whose first byte is next, and gives its source text.
pub fn numeral(cursor: &mut Cursor) -> Result<String, Refusal> {
    let mut source = String::new();

    if let Some(b'-') = cursor.peek() {
        take(cursor, &mut source)?;
    }

    if let Some(b'0') = cursor.peek() {
        take(cursor, &mut source)?;
    } else {
        digits(cursor, &mut source)?;
    }

    if let Some(b'.') = cursor.peek() {
        take(cursor, &mut source)?;
        digits(cursor, &mut source)?;
    }

    if let Some(b'e' | b'E') = cursor.peek() {
        take(cursor, &mut source)?;
        if let Some(b'+' | b'-') = cursor.peek() {
            take(cursor, &mut source)?;
        }
        exponent(cursor, &mut source)?;
    }

    Ok(source)
}

/// Takes the next byte, which the grammar allows here, into the number; refused
/// if the number is as long as may be already.
fn take(cursor: &mut Cursor, source: &mut String) -> Result<(), Refusal> {
    if source.len() == LONGEST_NUMBER {
        return Err(cursor.refuse(NUMBER_LIMIT));
    }
    if let Some(byte) = cursor.peek() {
        source.push(char::from(byte));
        cursor.step();
    }
    Ok(())
}

/// The next byte, if it is a digit.
fn digit(cursor: &Cursor) -> Option<u8> {
    cursor.peek().filter(u8::is_ascii_digit)
}

/// Takes one digit or more.
fn digits(cursor: &mut Cursor, source: &mut String) -> Result<(), Refusal> {
    if digit(cursor).is_none() {
        return Err(cursor.refuse(NOT_JSON));
    }
    while digit(cursor).is_some() {
        take(cursor, source)?;
    }
    Ok(())
}

/// Takes the digits of an exponent, one or more, watching its size.
fn exponent(cursor: &mut Cursor, source: &mut String) -> Result<(), Refusal> {
    if digit(cursor).is_none() {
        return Err(cursor.refuse(NOT_JSON));
    }
    let mut size = 0;
    while let Some(digit) = digit(cursor) {
        size = size * 10 + u32::from(digit - b'0');
        if size > LARGEST_EXPONENT {
            return Err(cursor.refuse(NUMBER_LIMIT));
        }
        take(cursor, source)?;
    }
    Ok(())
}
