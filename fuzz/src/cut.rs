//! The value that a pointer's tokens lead to, cut out of a JSON text. This is a
//! reader of its own: it finds where values end, and knows neither the library
//! nor the second engine.

/// A text in three: what stands in front of a value, the value, and what stands
/// behind it.
#[derive(Debug, PartialEq, Eq)]
pub struct Cut<'a> {
    pub front: &'a [u8],
    pub value: &'a [u8],
    pub back: &'a [u8],
}

/// The value at the tokens, if there is one, in a text without blanks.
pub fn cut<'a>(text: &'a [u8], tokens: &[String]) -> Option<Cut<'a>> {
    let mut at = 0;
    for token in tokens {
        at = child(text, at, token)?;
    }
    let end = value_end(text, at)?;
    Some(Cut { front: &text[..at], value: &text[at..end], back: &text[end..] })
}

/// Where the child of that token begins, in the container at a place.
fn child(text: &[u8], at: usize, token: &str) -> Option<usize> {
    let object = match text.get(at)? {
        b'{' => true,
        b'[' => false,
        _ => return None,
    };
    let mut at = at + 1;
    for count in 0.. {
        if matches!(text.get(at)?, b'}' | b']') {
            return None;
        }
        let mut here = count.to_string() == token;
        if object {
            let end = string_end(text, at)?;
            here = name(&text[at + 1..end - 1])? == token;
            at = end + 1;
        }
        if here {
            return Some(at);
        }
        at = value_end(text, at)?;
        if text.get(at) == Some(&b',') {
            at += 1;
        }
    }
    None
}

/// Where the value at a place ends: brackets are counted, and strings passed.
fn value_end(text: &[u8], at: usize) -> Option<usize> {
    let mut open = 0;
    let mut at = at;
    loop {
        match text.get(at)? {
            b'"' => at = string_end(text, at)?,
            b'{' | b'[' => {
                open += 1;
                at += 1;
            }
            b'}' | b']' => {
                open -= 1;
                at += 1;
            }
            b',' | b':' => at += 1,
            _ => at += text[at..].iter().take_while(|byte| !b",]}".contains(byte)).count(),
        }
        if open == 0 {
            return Some(at);
        }
    }
}

/// Where the string at a place ends, behind its quotation mark.
fn string_end(text: &[u8], at: usize) -> Option<usize> {
    let mut at = at + 1;
    loop {
        match text.get(at)? {
            b'"' => return Some(at + 1),
            b'\\' => at += 2,
            _ => at += 1,
        }
    }
}

/// What a name says, between its quotation marks.
fn name(part: &[u8]) -> Option<String> {
    let mut out = String::new();
    let mut rest = std::str::from_utf8(part).ok()?.chars();
    while let Some(character) = rest.next() {
        if character != '\\' {
            out.push(character);
            continue;
        }
        out.push(match rest.next()? {
            'b' => '\u{8}',
            'f' => '\u{c}',
            'n' => '\n',
            'r' => '\r',
            't' => '\t',
            'u' => {
                let digits: String = rest.by_ref().take(4).collect();
                char::from_u32(u32::from_str_radix(&digits, 16).ok()?)?
            }
            other => other,
        });
    }
    Some(out)
}
