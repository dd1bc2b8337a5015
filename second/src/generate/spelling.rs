//! Writing a tree as a text that is not the compact one: with blanks, and with
//! escapes where none are needed.

use super::random::Random;
use crate::value::Value;

/// How freely a text is spelled, in so many of a hundred places.
#[derive(Clone, Copy)]
pub struct Style {
    blanks: usize,
    escapes: usize,
}

impl Style {
    /// No blanks, and only the escapes that must be.
    pub const TIGHT: Style = Style { blanks: 0, escapes: 0 };

    /// Some style.
    pub fn some(random: &mut Random) -> Self {
        match random.below(4) {
            0 | 1 => Style::TIGHT,
            2 => Style { blanks: 10, escapes: 5 },
            _ => Style { blanks: 40, escapes: 40 },
        }
    }
}

/// The text of a value.
pub fn spell(random: &mut Random, style: Style, value: &Value) -> Vec<u8> {
    let mut out = String::new();
    blanks(random, style, &mut out);
    put(random, style, value, &mut out);
    blanks(random, style, &mut out);
    out.into_bytes()
}

fn put(random: &mut Random, style: Style, value: &Value, out: &mut String) {
    match value {
        Value::Null => out.push_str("null"),
        Value::Bool(true) => out.push_str("true"),
        Value::Bool(false) => out.push_str("false"),
        Value::Number(source) => out.push_str(source),
        Value::Text(text) => put_string(random, style, text, out),
        Value::Array(items) => {
            out.push('[');
            blanks(random, style, out);
            for (at, item) in items.iter().enumerate() {
                if at > 0 {
                    sign(random, style, ',', out);
                }
                put(random, style, item, out);
            }
            blanks(random, style, out);
            out.push(']');
        }
        Value::Object(members) => {
            out.push('{');
            blanks(random, style, out);
            for (at, member) in members.iter().enumerate() {
                if at > 0 {
                    sign(random, style, ',', out);
                }
                put_string(random, style, &member.name, out);
                sign(random, style, ':', out);
                put(random, style, &member.value, out);
            }
            blanks(random, style, out);
            out.push('}');
        }
    }
}

/// A comma or a colon, with blanks around it.
fn sign(random: &mut Random, style: Style, sign: char, out: &mut String) {
    blanks(random, style, out);
    out.push(sign);
    blanks(random, style, out);
}

fn blanks(random: &mut Random, style: Style, out: &mut String) {
    while random.chance(style.blanks) {
        out.push(random.pick(&[' ', '\t', '\n', '\r']));
    }
}

/// A string in quotes.
pub fn put_string(random: &mut Random, style: Style, text: &str, out: &mut String) {
    out.push('"');
    for character in text.chars() {
        let short = match character {
            '"' => Some("\\\""),
            '\\' => Some("\\\\"),
            '/' => Some("\\/"),
            '\u{08}' => Some("\\b"),
            '\u{0C}' => Some("\\f"),
            '\n' => Some("\\n"),
            '\r' => Some("\\r"),
            '\t' => Some("\\t"),
            _ => None,
        };
        let must = character < ' ' || character == '"' || character == '\\';
        if !must && !random.chance(style.escapes) {
            out.push(character);
            continue;
        }
        match short {
            Some(short) if random.chance(60) => out.push_str(short),
            _ => put_units(random, character, out),
        }
    }
    out.push('"');
}

/// A character as `\u` and four hex digits, or as a pair of those.
fn put_units(random: &mut Random, character: char, out: &mut String) {
    for unit in character.encode_utf16(&mut [0; 2]) {
        out.push_str("\\u");
        for digit in format!("{unit:04x}").chars() {
            out.push(if random.chance(50) { digit.to_ascii_uppercase() } else { digit });
        }
    }
}
