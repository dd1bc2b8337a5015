//! The call as the library exports it, and the work area that it takes:
//! `include/json_patch.h`, in Rust.
//!
//! Everything that knows the lists of the work area stands here. A test compares
//! the declaration, the header and the library's source.

use crate::Refusal;

/// Records of the work area.
pub const WORK_NODES: usize = 6_144;

/// Entries of the work area's index.
pub const WORK_ENTRIES: usize = 8_192;

/// A node of the work area: one value of the document or of the patch. Its
/// fields are described in docs/WORK-AREA.md.
#[repr(C)]
#[derive(Clone, Copy, Debug, Default, PartialEq, Eq, Hash)]
pub struct Node {
    /// Where its name begins.
    pub name_start: u16,
    /// The name's bytes.
    pub name_length: u16,
    /// Where the text of a number or a string begins.
    pub start: u16,
    /// The bytes of that text.
    pub length: u16,
    /// How many nodes are below it, at every depth.
    pub span: u16,
    /// A hash of the name.
    pub hash: u16,
    /// Its kind, and how and where its text and its name are read.
    pub tags: u16,
    /// The operation that put it there, else 0 (complete where origins are listed).
    pub origin: u16,
}

impl Node {
    /// The record of a row without a node.
    pub const ZERO: Node = Node {
        name_start: 0,
        name_length: 0,
        start: 0,
        length: 0,
        span: 0,
        hash: 0,
        tags: 0,
        origin: 0,
    };
}

/// The answer. A field that its number does not set is 0.
#[repr(C)]
#[derive(Clone, Copy, Debug, Default, PartialEq, Eq)]
pub struct Answer {
    /// 0, or that of the refusal.
    pub number: u64,
    /// 1 for the document, 2 for the patch, else 0.
    pub text: u64,
    /// The operation, counted from 1, else 0.
    pub op: u64,
    /// A byte offset; with 11 and 12 the tokens walked; else 0.
    pub place: u64,
    /// With 11 and 12: 1 for `path`, 2 for `from`; else 0.
    pub pointer: u64,
    /// The written length, 0 on refusal.
    pub length: u64,
}

impl Answer {
    /// The written length, or the refusal.
    pub(crate) fn result(self) -> Result<usize, Refusal> {
        let Answer { number, text, op, place, pointer, length } = self;
        match number {
            0 => Ok(length as usize),
            _ => Err(Refusal {
                number: number as u32,
                text: text as u32,
                op: op as usize,
                place: place as usize,
                pointer: pointer as u32,
            }),
        }
    }
}

extern "C" {
    /// Applies the patch to the document and writes the result to the output, or
    /// refuses; gives the answer's number.
    ///
    /// # Safety
    /// Each pointer is not null, is aligned, and points to as many bytes, records
    /// or entries as its length or count says; the output, the two lists and the
    /// answer overlap neither one another nor the inputs.
    pub fn json_patch_apply(
        document: *const u8,
        document_length: usize,
        patch: *const u8,
        patch_length: usize,
        output: *mut u8,
        output_length: usize,
        nodes: *mut Node,
        nodes_count: usize,
        index: *mut u16,
        index_count: usize,
        answer: *mut Answer,
    ) -> u32;

    /// Applies the patch of a maker within a region, or refuses; gives the answer's
    /// number.
    ///
    /// # Safety
    /// As above.
    pub fn json_patch_apply_within(
        document: *const u8,
        document_length: usize,
        patch: *const u8,
        patch_length: usize,
        region: *const u8,
        region_length: usize,
        output: *mut u8,
        output_length: usize,
        nodes: *mut Node,
        nodes_count: usize,
        index: *mut u16,
        index_count: usize,
        answer: *mut Answer,
    ) -> u32;

    /// Applies a merge patch to the document, or refuses; gives the answer's number.
    ///
    /// # Safety
    /// As above.
    pub fn json_patch_merge(
        document: *const u8,
        document_length: usize,
        patch: *const u8,
        patch_length: usize,
        output: *mut u8,
        output_length: usize,
        nodes: *mut Node,
        nodes_count: usize,
        index: *mut u16,
        index_count: usize,
        answer: *mut Answer,
    ) -> u32;
}

/// The work area: a list of nodes and an index, 114,688 bytes in all.
///
/// It is all zero between calls. Make one and lend it again and again, from the
/// stack, a static or the heap.
///
/// ```
/// use json_patch::{apply, Work};
/// use std::sync::Mutex;
///
/// static WORK: Mutex<Work> = Mutex::new(Work::new());
///
/// let mut work = WORK.lock().unwrap();
/// let mut output = [0; 16];
/// assert_eq!(apply(b" [ 1 ] ", b"[]", &mut output, &mut work), Ok(3));
/// assert_eq!(apply(b"true", b"[]", &mut output, &mut work), Ok(4));
/// ```
#[derive(Clone, Debug)]
#[repr(C)]
pub struct Work {
    pub(crate) nodes: [Node; WORK_NODES],
    pub(crate) index: [u16; WORK_ENTRIES],
}

impl Work {
    /// A work area.
    pub const fn new() -> Self {
        Work { nodes: [Node::ZERO; WORK_NODES], index: [0; WORK_ENTRIES] }
    }

    /// Its two lists.
    pub(crate) fn lists(&mut self) -> (&mut [Node], &mut [u16]) {
        (&mut self.nodes, &mut self.index)
    }
}

impl Default for Work {
    fn default() -> Self {
        Work::new()
    }
}

/// Applies the patch to the document and writes the result to the output.
///
/// Gives the written length: the output's first bytes are the patched document,
/// and the rest is unchanged. Or gives the refusal, and the output is unchanged.
///
/// ```
/// use json_patch::{apply, Kind, Work};
///
/// let mut output = [0; 20];
/// let patch = br#"[{"op":"copy","from":"/a","path":"/b"}]"#;
/// let document = br#"{"a":"0123456789"}"#;
/// let mut work = Work::new();
/// let refusal = apply(document, patch, &mut output, &mut work).unwrap_err();
/// assert_eq!(refusal.kind(), Some(Kind::OutputTooShort));
/// assert_eq!(output, [0; 20]);
/// ```
pub fn apply(
    document: &[u8],
    patch: &[u8],
    output: &mut [u8],
    work: &mut Work,
) -> Result<usize, Refusal> {
    apply_in(document, patch, output, &mut work.nodes, &mut work.index)
}

/// The same in any two lists, for those who lend memory of their own.
///
/// A list of fewer than [`WORK_NODES`] nodes, or an index of fewer than
/// [`WORK_ENTRIES`] entries, is refused with 1. They may hold anything before;
/// afterwards that many of each are zero and the rest is unchanged, or they are
/// untouched after a 1.
///
/// ```
/// use json_patch::{apply_in, Node, WORK_ENTRIES, WORK_NODES};
///
/// let mut output = [0; 16];
/// let mut nodes = vec![Node::ZERO; WORK_NODES];
/// let mut index = vec![7; WORK_ENTRIES + 1];
/// assert_eq!(apply_in(b"[]", b"[]", &mut output, &mut nodes, &mut index), Ok(2));
/// assert_eq!(index[WORK_ENTRIES], 7);
/// assert!(index[..WORK_ENTRIES].iter().all(|&entry| entry == 0));
/// ```
pub fn apply_in(
    document: &[u8],
    patch: &[u8],
    output: &mut [u8],
    nodes: &mut [Node],
    index: &mut [u16],
) -> Result<usize, Refusal> {
    let mut answer = Answer::default();
    // Safety: every pointer and length is of a slice, and the borrows keep those
    // that are written apart from all others.
    unsafe {
        json_patch_apply(
            document.as_ptr(),
            document.len(),
            patch.as_ptr(),
            patch.len(),
            output.as_mut_ptr(),
            output.len(),
            nodes.as_mut_ptr(),
            nodes.len(),
            index.as_mut_ptr(),
            index.len(),
            &mut answer,
        );
    }
    answer.result()
}

/// Applies the patch of a pack maker within a region and writes the result to the
/// output.
///
/// The region is a pointer's text in UTF-8, and no JSON string; the empty one is
/// the root. A maker sends only test, replace and add; the first operation is a
/// test; every path begins with the region's tokens and has at least one more.
/// What keeps that rule gets the answer of [`apply`].
///
/// ```
/// # fn main() -> Result<(), json_patch::Refusal> {
/// use json_patch::{apply_within, Kind, Work};
///
/// let document = br#"{"packs":{"acme":{"mAh":3000}}}"#;
/// let patch = br#"[{"op":"test","path":"/packs/acme/mAh","value":3e3},
///                  {"op":"replace","path":"/packs/acme/mAh","value":3100}]"#;
/// let (mut output, mut work) = ([0; 64], Work::new());
/// let length = apply_within(document, patch, b"/packs/acme", &mut output, &mut work)?;
/// assert_eq!(&output[..length], br#"{"packs":{"acme":{"mAh":3100}}}"#);
///
/// let refusal = apply_within(document, patch, b"/packs/other", &mut output, &mut work).unwrap_err();
/// assert_eq!((refusal.kind(), refusal.op), (Some(Kind::NotPermitted), 1));
/// # Ok(())
/// # }
/// ```
pub fn apply_within(
    document: &[u8],
    patch: &[u8],
    region: &[u8],
    output: &mut [u8],
    work: &mut Work,
) -> Result<usize, Refusal> {
    apply_within_in(document, patch, region, output, &mut work.nodes, &mut work.index)
}

/// The same in any two lists, as [`apply_in`].
pub fn apply_within_in(
    document: &[u8],
    patch: &[u8],
    region: &[u8],
    output: &mut [u8],
    nodes: &mut [Node],
    index: &mut [u16],
) -> Result<usize, Refusal> {
    let mut answer = Answer::default();
    // Safety: every pointer and length is of a slice, and the borrows keep those
    // that are written apart from all others.
    unsafe {
        json_patch_apply_within(
            document.as_ptr(),
            document.len(),
            patch.as_ptr(),
            patch.len(),
            region.as_ptr(),
            region.len(),
            output.as_mut_ptr(),
            output.len(),
            nodes.as_mut_ptr(),
            nodes.len(),
            index.as_mut_ptr(),
            index.len(),
            &mut answer,
        );
    }
    answer.result()
}

/// Applies a merge patch (RFC 7396, `application/merge-patch+json`) to the document
/// and writes the result to the output.
///
/// A patch that is an object is merged member by member, and a null member removes;
/// a target that is no object is taken as an empty one; any other patch replaces
/// the whole. Existing members keep their position, new ones go last, in the
/// patch's order. Otherwise as [`apply`]; a result of more than
/// [`MAX_NODES`](crate::MAX_NODES) values is refused with 6 and no other field.
///
/// ```
/// # fn main() -> Result<(), json_patch::Refusal> {
/// use json_patch::{merge, Work};
///
/// let document = br#"{"mAh":3000,"cut":[4.2,3.0],"note":"old"}"#;
/// let patch = br#"{"note":null,"mAh":3100,"maker":{"name":"acme","lot":null}}"#;
/// let (mut output, mut work) = ([0; 128], Work::new());
/// let length = merge(document, patch, &mut output, &mut work)?;
/// assert_eq!(&output[..length], br#"{"mAh":3100,"cut":[4.2,3.0],"maker":{"name":"acme"}}"#);
/// # Ok(())
/// # }
/// ```
pub fn merge(
    document: &[u8],
    patch: &[u8],
    output: &mut [u8],
    work: &mut Work,
) -> Result<usize, Refusal> {
    merge_in(document, patch, output, &mut work.nodes, &mut work.index)
}

/// The same in any two lists, as [`apply_in`].
pub fn merge_in(
    document: &[u8],
    patch: &[u8],
    output: &mut [u8],
    nodes: &mut [Node],
    index: &mut [u16],
) -> Result<usize, Refusal> {
    let mut answer = Answer::default();
    // Safety: every pointer and length is of a slice, and the borrows keep those
    // that are written apart from all others.
    unsafe {
        json_patch_merge(
            document.as_ptr(),
            document.len(),
            patch.as_ptr(),
            patch.len(),
            output.as_mut_ptr(),
            output.len(),
            nodes.as_mut_ptr(),
            nodes.len(),
            index.as_mut_ptr(),
            index.len(),
            &mut answer,
        );
    }
    answer.result()
}
