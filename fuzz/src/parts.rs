//! The elements and members of a text, by a look at brackets, commas and quotes;
//! the text need not be JSON.

use std::ops::Range;

/// Where elements and members stand, without the commas between them, outer ones
/// before inner ones.
pub fn parts(text: &[u8]) -> Vec<Range<usize>> {
    let mut found = Vec::new();
    let mut open = Vec::new();
    let mut quoted = false;
    let mut at = 0;
    while at < text.len() {
        match text[at] {
            b'\\' if quoted => at += 1,
            b'"' => quoted = !quoted,
            _ if quoted => {}
            b'[' | b'{' => open.push(at + 1),
            b',' => {
                if let Some(start) = open.last_mut() {
                    found.push(*start..at);
                    *start = at + 1;
                }
            }
            b']' | b'}' => {
                if let Some(start) = open.pop() {
                    found.push(start..at);
                }
            }
            _ => {}
        }
        at += 1;
    }
    found.retain(|part| !part.is_empty());
    found.sort_by_key(|part| (part.start, usize::MAX - part.end));
    found
}
