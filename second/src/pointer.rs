//! Pointers: from text to tokens and back.

/// The tokens of a pointer, or nothing if it is malformed. The empty pointer
/// has no tokens and means the root.
pub fn tokens(pointer: &str) -> Option<Vec<String>> {
    if pointer.is_empty() {
        return Some(Vec::new());
    }
    pointer.strip_prefix('/')?.split('/').map(unescape).collect()
}

/// One token's meaning, read from left to right so that `~01` is `~1`.
fn unescape(token: &str) -> Option<String> {
    let mut plain = String::new();
    let mut characters = token.chars();
    while let Some(character) = characters.next() {
        if character != '~' {
            plain.push(character);
            continue;
        }
        match characters.next() {
            Some('0') => plain.push('~'),
            Some('1') => plain.push('/'),
            _ => return None,
        }
    }
    Some(plain)
}

/// The text of a pointer with these tokens.
pub fn text(tokens: &[String]) -> String {
    let mut pointer = String::new();
    for token in tokens {
        pointer.push('/');
        pointer.push_str(&token.replace('~', "~0").replace('/', "~1"));
    }
    pointer
}

/// Whether the second location lies strictly inside the first.
pub fn strictly_inside(outer: &[String], inner: &[String]) -> bool {
    outer.len() < inner.len() && inner.starts_with(outer)
}
