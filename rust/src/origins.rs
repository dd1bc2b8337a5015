//! Which operation put this here? Patches applied with the origins of the result's
//! values listed: SPECIFICATION 19, T-11.
//!
//! ```
//! # fn main() -> Result<(), json_patch::Refusal> {
//! use json_patch::origins::{apply, values, Listed};
//! use json_patch::{Work, MAX_NODES};
//!
//! let document = br#"{"mAh":3000,"cut":[4.2,3.0]}"#;
//! let patch = br#"[{"op":"test","path":"/mAh","value":3e3},
//!                  {"op":"add","path":"/cut/-","value":2.8}]"#;
//! let (mut output, mut origins) = ([0; 1024], [0; MAX_NODES]);
//!
//! let Listed { length, values: count } =
//!     apply(document, patch, &mut output, &mut origins, &mut Work::new())?;
//! assert_eq!(&output[..length], br#"{"mAh":3000,"cut":[4.2,3.0,2.8]}"#);
//! // The object, the capacity, the array and its three numbers: the last is operation 2's.
//! assert_eq!(&origins[..count], [0, 0, 0, 0, 0, 2]);
//!
//! let last = values(&output[..length]).last().unwrap();
//! assert_eq!((last.location.to_string().as_str(), last.text), ("/cut/2", Some(&b"2.8"[..])));
//! # Ok(())
//! # }
//! ```
//!
//! An origin is 0 for a value from the document, and k for one that operation k put
//! in, be it by add, replace or copy, and for all values in it. A moved value keeps its
//! own, and a container keeps its origin when a child changes. A merge patch counts as
//! operation 1, also for the objects that it makes. There is one entry for each value,
//! in the order of their first written bytes. A list of
//! [`MAX_NODES`](crate::MAX_NODES) entries is always long enough; one that is too short
//! is refused with 16, as a short output is. That each call answers and lists as the
//! definitions say is proved; [`values`], which goes through the written text, is not
//! part of that.

use crate::json::end_of_string;
use crate::raw::{Answer, Node};
use crate::undo::{self, Refused, UndoWork};
use crate::{Refusal, Work, MAX_DEPTH};
use core::fmt::{self, Write};

/// How much was written.
#[derive(Clone, Copy, Debug, PartialEq, Eq, Hash)]
pub struct Listed {
    /// The written length.
    pub length: usize,
    /// The result's values, and as many entries of the list.
    pub values: usize,
}

impl Listed {
    /// What an answer says, and the values of the written text counted.
    fn of(answer: Answer, output: &[u8]) -> Result<Self, Refusal> {
        let length = answer.result()?;
        Ok(Listed { length, values: values(&output[..length]).count() })
    }
}

/// Applies the patch as [`apply`](crate::apply) does, and lists the origins of the
/// result's values.
///
/// Gives how much was written: the first entries of `origins` are those of the values,
/// and the rest is unchanged. Or gives the refusal, and all of it is unchanged.
///
/// ```
/// use json_patch::{origins::apply, Kind, Work};
///
/// // One array and two numbers, and a list of two entries.
/// let (mut output, mut origins) = ([7; 8], [7; 2]);
/// let patch = br#"[{"op":"add","path":"/-","value":2}]"#;
/// let refusal = apply(b"[1]", patch, &mut output, &mut origins, &mut Work::new()).unwrap_err();
/// assert_eq!(refusal.kind(), Some(Kind::OutputTooShort));
/// assert_eq!((output, origins), ([7; 8], [7; 2]));
/// ```
pub fn apply(
    document: &[u8],
    patch: &[u8],
    output: &mut [u8],
    origins: &mut [u16],
    work: &mut Work,
) -> Result<Listed, Refusal> {
    let (nodes, index) = work.lists();
    apply_in(document, patch, output, origins, nodes, index)
}

/// The same in any two lists, as [`apply_in`](crate::apply_in).
pub fn apply_in(
    document: &[u8],
    patch: &[u8],
    output: &mut [u8],
    origins: &mut [u16],
    nodes: &mut [Node],
    index: &mut [u16],
) -> Result<Listed, Refusal> {
    let mut answer = Answer::default();
    // Safety: every pointer and length is of a slice, and the borrows keep those
    // that are written apart from all others.
    unsafe {
        raw::json_patch_apply_origins(
            document.as_ptr(),
            document.len(),
            patch.as_ptr(),
            patch.len(),
            output.as_mut_ptr(),
            output.len(),
            origins.as_mut_ptr(),
            origins.len(),
            nodes.as_mut_ptr(),
            nodes.len(),
            index.as_mut_ptr(),
            index.len(),
            &mut answer,
        );
    }
    Listed::of(answer, output)
}

/// Applies the patch of a pack maker as [`apply_within`](crate::apply_within) does, and
/// lists the origins.
///
/// ```
/// # fn main() -> Result<(), json_patch::Refusal> {
/// use json_patch::{origins::apply_within, Work};
///
/// let document = br#"{"packs":{"acme":{"mAh":3000}}}"#;
/// let patch = br#"[{"op":"test","path":"/packs/acme/mAh","value":3e3},
///                  {"op":"replace","path":"/packs/acme/mAh","value":3100}]"#;
/// let (mut output, mut origins) = ([0; 64], [0; 16]);
/// let listed = apply_within(
///     document, patch, b"/packs/acme", &mut output, &mut origins, &mut Work::new())?;
/// assert_eq!(&origins[..listed.values], [0, 0, 0, 2]);
/// # Ok(())
/// # }
/// ```
pub fn apply_within(
    document: &[u8],
    patch: &[u8],
    region: &[u8],
    output: &mut [u8],
    origins: &mut [u16],
    work: &mut Work,
) -> Result<Listed, Refusal> {
    let (nodes, index) = work.lists();
    apply_within_in(document, patch, region, output, origins, nodes, index)
}

/// The same in any two lists, as [`apply_in`](crate::apply_in).
pub fn apply_within_in(
    document: &[u8],
    patch: &[u8],
    region: &[u8],
    output: &mut [u8],
    origins: &mut [u16],
    nodes: &mut [Node],
    index: &mut [u16],
) -> Result<Listed, Refusal> {
    let mut answer = Answer::default();
    // Safety: as above.
    unsafe {
        raw::json_patch_apply_within_origins(
            document.as_ptr(),
            document.len(),
            patch.as_ptr(),
            patch.len(),
            region.as_ptr(),
            region.len(),
            output.as_mut_ptr(),
            output.len(),
            origins.as_mut_ptr(),
            origins.len(),
            nodes.as_mut_ptr(),
            nodes.len(),
            index.as_mut_ptr(),
            index.len(),
            &mut answer,
        );
    }
    Listed::of(answer, output)
}

/// Applies a merge patch as [`merge`](crate::merge) does, and lists the origins: 1 for
/// what it puts in and for the objects that it makes, else 0.
///
/// ```
/// # fn main() -> Result<(), json_patch::Refusal> {
/// use json_patch::{origins::merge, Work};
///
/// let (mut output, mut origins) = ([0; 64], [0; 16]);
/// let patch = br#"{"maker":{"name":"acme"}}"#;
/// let listed = merge(br#"{"mAh":3000}"#, patch, &mut output, &mut origins, &mut Work::new())?;
/// assert_eq!(&output[..listed.length], br#"{"mAh":3000,"maker":{"name":"acme"}}"#);
/// assert_eq!(&origins[..listed.values], [0, 0, 1, 1]);
/// # Ok(())
/// # }
/// ```
pub fn merge(
    document: &[u8],
    patch: &[u8],
    output: &mut [u8],
    origins: &mut [u16],
    work: &mut Work,
) -> Result<Listed, Refusal> {
    let (nodes, index) = work.lists();
    merge_in(document, patch, output, origins, nodes, index)
}

/// The same in any two lists, as [`apply_in`](crate::apply_in).
pub fn merge_in(
    document: &[u8],
    patch: &[u8],
    output: &mut [u8],
    origins: &mut [u16],
    nodes: &mut [Node],
    index: &mut [u16],
) -> Result<Listed, Refusal> {
    let mut answer = Answer::default();
    // Safety: as above.
    unsafe {
        raw::json_patch_merge_origins(
            document.as_ptr(),
            document.len(),
            patch.as_ptr(),
            patch.len(),
            output.as_mut_ptr(),
            output.len(),
            origins.as_mut_ptr(),
            origins.len(),
            nodes.as_mut_ptr(),
            nodes.len(),
            index.as_mut_ptr(),
            index.len(),
            &mut answer,
        );
    }
    Listed::of(answer, output)
}

/// How much was written, with an undo.
#[derive(Clone, Copy, Debug, PartialEq, Eq, Hash)]
pub struct Written {
    /// The patched document, and its values.
    pub document: Listed,
    /// The undo's length.
    pub undo: usize,
}

/// Applies the patch as [`apply_with_undo`](crate::undo::apply_with_undo) does, and lists
/// the origins of the patched document's values. A short list comes before the undo's
/// own refusals.
///
/// ```
/// # fn main() -> Result<(), json_patch::undo::Refused> {
/// use json_patch::origins::apply_with_undo;
/// use json_patch::undo::UndoWork;
///
/// let (mut output, mut undo, mut origins) = ([0; 64], [0; 64], [0; 16]);
/// let patch = br#"[{"op":"replace","path":"/mAh","value":3100}]"#;
/// let written = apply_with_undo(
///     br#"{"mAh":3000}"#, patch, &mut output, &mut undo, &mut origins, &mut UndoWork::new())?;
/// assert_eq!(&undo[..written.undo], br#"[{"op":"replace","path":"/mAh","value":3000}]"#);
/// assert_eq!(&origins[..written.document.values], [0, 1]);
/// # Ok(())
/// # }
/// ```
pub fn apply_with_undo(
    document: &[u8],
    patch: &[u8],
    output: &mut [u8],
    undo: &mut [u8],
    origins: &mut [u16],
    work: &mut UndoWork,
) -> Result<Written, Refused> {
    let (nodes, index, text) = work.lists();
    apply_with_undo_in(document, patch, output, undo, origins, nodes, index, text)
}

/// The same in any two lists and any buffer, as
/// [`apply_with_undo_in`](crate::undo::apply_with_undo_in).
#[allow(clippy::too_many_arguments)]
pub fn apply_with_undo_in(
    document: &[u8],
    patch: &[u8],
    output: &mut [u8],
    undo: &mut [u8],
    origins: &mut [u16],
    nodes: &mut [Node],
    index: &mut [u16],
    work: &mut [u8],
) -> Result<Written, Refused> {
    let mut answer = undo::raw::UndoAnswer::default();
    // Safety: as above.
    unsafe {
        raw::json_patch_apply_with_undo_origins(
            document.as_ptr(),
            document.len(),
            patch.as_ptr(),
            patch.len(),
            output.as_mut_ptr(),
            output.len(),
            undo.as_mut_ptr(),
            undo.len(),
            origins.as_mut_ptr(),
            origins.len(),
            nodes.as_mut_ptr(),
            nodes.len(),
            index.as_mut_ptr(),
            index.len(),
            work.as_mut_ptr(),
            work.len(),
            &mut answer,
        );
    }
    match Listed::of(answer.answer, output) {
        Ok(document) => Ok(Written { document, undo: answer.undo as usize }),
        Err(refusal) => Err(Refused::of(refusal, patch)),
    }
}

/// The values of a text that the library wrote, in the order of their first bytes: the
/// order in which a list has their origins.
///
/// ```
/// use json_patch::origins::values;
///
/// let mut of = values(br#"{"cut":[4.2],"a/b":{}}"#).map(|value| (value.location, value.text));
/// let mut next = || of.next().map(|(location, text)| (location.to_string(), text));
/// assert_eq!(next(), Some(("".to_string(), None)));
/// assert_eq!(next(), Some(("/cut".to_string(), None)));
/// assert_eq!(next(), Some(("/cut/0".to_string(), Some(&b"4.2"[..]))));
/// assert_eq!(next(), Some(("/a~1b".to_string(), Some(&b"{}"[..]))));
/// assert_eq!(next(), None);
/// ```
pub fn values(text: &[u8]) -> Values<'_> {
    let location = Location { steps: [Step::Index(0); MAX_DEPTH], depth: 0 };
    Values { text, at: 0, location }
}

/// A value of a written text.
#[derive(Clone, Copy, Debug)]
pub struct Value<'a> {
    /// Where it stands.
    pub location: Location<'a>,
    /// Its text, where no other value is in it: a scalar, `[]` or `{}`.
    pub text: Option<&'a [u8]>,
}

/// Where a value stands. It is shown as its pointer (RFC 6901).
#[derive(Clone, Copy, Debug)]
pub struct Location<'a> {
    steps: [Step<'a>; MAX_DEPTH],
    depth: usize,
}

/// One step to a value: an index, or a name with its quotation marks.
#[derive(Clone, Copy, Debug)]
enum Step<'a> {
    Index(usize),
    Name(&'a [u8]),
}

impl Location<'_> {
    /// The pointer as a JSON string, as a patch would have it: with its quotation marks,
    /// and with the escapes that the written names have.
    ///
    /// ```
    /// use json_patch::origins::values;
    ///
    /// let last = values(br#"{"a~\n":[1]}"#).last().unwrap();
    /// assert_eq!(last.location.quoted().to_string(), r#""/a~0\n/0""#);
    /// assert_eq!(last.location.to_string(), "/a~0\n/0");
    /// ```
    pub fn quoted(&self) -> impl fmt::Display + '_ {
        Quoted(self)
    }

    /// Writes the steps, each after a slash; a name's characters as they are given.
    fn put(
        &self,
        f: &mut fmt::Formatter,
        name: impl Fn(&[u8], &mut dyn FnMut(char) -> fmt::Result) -> fmt::Result,
    ) -> fmt::Result {
        for step in &self.steps[..self.depth] {
            f.write_char('/')?;
            match step {
                Step::Index(at) => write!(f, "{at}")?,
                Step::Name(text) => name(text, &mut |character| match character {
                    '~' => f.write_str("~0"),
                    '/' => f.write_str("~1"),
                    other => f.write_char(other),
                })?,
            }
        }
        Ok(())
    }
}

impl fmt::Display for Location<'_> {
    fn fmt(&self, f: &mut fmt::Formatter) -> fmt::Result {
        self.put(f, |name, put| crate::json::characters(name).try_for_each(put))
    }
}

/// A pointer as a JSON string. No escape that the library writes has a `~` or a `/`.
struct Quoted<'a>(&'a Location<'a>);

impl fmt::Display for Quoted<'_> {
    fn fmt(&self, f: &mut fmt::Formatter) -> fmt::Result {
        f.write_char('"')?;
        self.0.put(f, |name, put| {
            let inside = name.get(1..name.len().max(2) - 1).unwrap_or_default();
            core::str::from_utf8(inside).unwrap_or_default().chars().try_for_each(put)
        })?;
        f.write_char('"')
    }
}

/// The values of a written text, one after another: see [`values`]. On any other text
/// they are of no use, but there is no fault.
#[derive(Clone, Debug)]
pub struct Values<'a> {
    text: &'a [u8],
    at: usize,
    location: Location<'a>,
}

impl<'a> Values<'a> {
    /// The last step of the values in the container that is open.
    fn last(&mut self) -> Option<&mut Step<'a>> {
        self.location.steps.get_mut(self.location.depth.checked_sub(1)?)
    }

    /// The value that begins here, and behind its text, or behind its bracket.
    fn value(&mut self, first: u8) -> Option<Value<'a>> {
        let (rest, location) = (&self.text[self.at..], self.location);
        let step = match (first, rest.get(1)) {
            (b'[', Some(second)) if *second != b']' => Step::Index(0),
            (b'{', Some(second)) if *second != b'}' => Step::Name(b""),
            _ => {
                let length = match first {
                    b'[' | b'{' => 2,
                    b'"' => end_of_string(rest),
                    _ => rest.iter().position(|byte| b",]}".contains(byte)).unwrap_or(rest.len()),
                };
                self.at += length.min(rest.len()).max(1);
                return Some(Value { location, text: rest.get(..length) });
            }
        };
        *self.location.steps.get_mut(location.depth)? = step;
        self.location.depth += 1;
        self.at += 1;
        Some(Value { location, text: None })
    }
}

impl<'a> Iterator for Values<'a> {
    type Item = Value<'a>;

    fn next(&mut self) -> Option<Value<'a>> {
        loop {
            let (text, at) = (self.text, self.at);
            let first = *text.get(at)?;
            let behind_colon = at > 0 && text[at - 1] == b':';
            match first {
                b']' | b'}' => {
                    self.location.depth = self.location.depth.checked_sub(1)?;
                    self.at += 1;
                }
                b',' => {
                    if let Step::Index(index) = self.last()? {
                        *index += 1;
                    }
                    self.at += 1;
                }
                _ => match self.last() {
                    Some(Step::Name(name)) if !behind_colon => {
                        let length = end_of_string(&text[at..]);
                        *name = text.get(at..at + length)?;
                        self.at += length + 1;
                    }
                    _ => return self.value(first),
                },
            }
        }
    }
}

/// The calls as the static libraries export them: `include/json_patch.h`, in Rust.
pub mod raw {
    use crate::raw::{Answer, Node};
    use crate::undo::raw::UndoAnswer;

    extern "C" {
        /// Applies the patch and lists the origins, or refuses; gives the answer's number.
        ///
        /// # Safety
        /// Each pointer is not null, is aligned, and points to as many bytes, records
        /// or entries as its length or count says; the output, the three lists and the
        /// answer overlap neither one another nor the inputs.
        pub fn json_patch_apply_origins(
            document: *const u8,
            document_length: usize,
            patch: *const u8,
            patch_length: usize,
            output: *mut u8,
            output_length: usize,
            origins: *mut u16,
            origins_count: usize,
            nodes: *mut Node,
            nodes_count: usize,
            index: *mut u16,
            index_count: usize,
            answer: *mut Answer,
        ) -> u32;

        /// The same for the patch of a maker within a region.
        ///
        /// # Safety
        /// As above.
        pub fn json_patch_apply_within_origins(
            document: *const u8,
            document_length: usize,
            patch: *const u8,
            patch_length: usize,
            region: *const u8,
            region_length: usize,
            output: *mut u8,
            output_length: usize,
            origins: *mut u16,
            origins_count: usize,
            nodes: *mut Node,
            nodes_count: usize,
            index: *mut u16,
            index_count: usize,
            answer: *mut Answer,
        ) -> u32;

        /// The same for a merge patch.
        ///
        /// # Safety
        /// As above.
        pub fn json_patch_merge_origins(
            document: *const u8,
            document_length: usize,
            patch: *const u8,
            patch_length: usize,
            output: *mut u8,
            output_length: usize,
            origins: *mut u16,
            origins_count: usize,
            nodes: *mut Node,
            nodes_count: usize,
            index: *mut u16,
            index_count: usize,
            answer: *mut Answer,
        ) -> u32;

        /// The same with an undo.
        ///
        /// # Safety
        /// As above; so for the undo and the buffer.
        pub fn json_patch_apply_with_undo_origins(
            document: *const u8,
            document_length: usize,
            patch: *const u8,
            patch_length: usize,
            output: *mut u8,
            output_length: usize,
            undo: *mut u8,
            undo_length: usize,
            origins: *mut u16,
            origins_count: usize,
            nodes: *mut Node,
            nodes_count: usize,
            index: *mut u16,
            index_count: usize,
            work: *mut u8,
            work_length: usize,
            answer: *mut UndoAnswer,
        ) -> u32;
    }
}

#[cfg(test)]
mod tests {
    extern crate std;
    use super::*;
    use std::format;
    use std::string::{String, ToString};
    use std::vec::Vec;

    fn lines(text: &str) -> Vec<String> {
        let line = |value: Value| match value.text {
            Some(text) => format!("{} {}", value.location.quoted(), String::from_utf8_lossy(text)),
            None => value.location.quoted().to_string(),
        };
        values(text.as_bytes()).map(line).collect()
    }

    #[test]
    fn values_come_in_the_order_of_their_first_bytes() {
        assert_eq!(lines("7"), [r#""" 7"#]);
        assert_eq!(lines("{}"), [r#""" {}"#]);
        assert_eq!(
            lines(r#"[[],"],",-0.5e+1]"#),
            [r#""""#, r#""/0" []"#, r#""/1" "],""#, r#""/2" -0.5e+1"#]
        );
        assert_eq!(
            lines(r#"{"":[{"/~":null}],"\"b":{"c":{"d":true}},"e":0}"#),
            [
                r#""""#,
                r#""/""#,
                r#""//0""#,
                r#""//0/~1~0" null"#,
                r#""/\"b""#,
                r#""/\"b/c""#,
                r#""/\"b/c/d" true"#,
                r#""/e" 0"#
            ]
        );
    }

    #[test]
    fn the_deepest_values_are_found() {
        let deep = format!("{}7{}", "[".repeat(MAX_DEPTH), "]".repeat(MAX_DEPTH));
        assert_eq!(lines(&deep).len(), MAX_DEPTH + 1);
        assert_eq!(lines(&deep).last(), Some(&format!("\"{}\" 7", "/0".repeat(MAX_DEPTH))));
    }

    #[test]
    fn no_text_is_a_fault() {
        let pieces = [&b"["[..], b"]", b"{", b"}", b"\"", b"\\", b",", b":", b"1", b"\xff"];
        for n in 0..pieces.len().pow(5) {
            let mut text = Vec::new();
            for power in 0..5 {
                text.extend(pieces[n / pieces.len().pow(power) % pieces.len()]);
            }
            for value in values(&text) {
                let shown = (value.location.to_string(), value.location.quoted().to_string());
                assert!(shown.1.len() >= 2, "{shown:?}");
            }
        }
        assert!(values(&[b'['; 40]).count() <= 40);
    }
}
