//! A patch applied, and beside the result the patch that takes it back.
//!
//! ```
//! # fn main() -> Result<(), Box<dyn std::error::Error>> {
//! use json_patch::apply;
//! use json_patch::undo::{apply_with_undo, UndoWork};
//!
//! let document = br#"{"mAh":3000,"cut":[4.2,3.0]}"#;
//! let patch = br#"[{"op":"replace","path":"/mAh","value":3200},
//!                  {"op":"add","path":"/cut/-","value":2.8}]"#;
//! let (mut output, mut undo) = ([0; 1024], [0; 1024]);
//! let mut work = UndoWork::new();
//!
//! let written = apply_with_undo(document, patch, &mut output, &mut undo, &mut work)?;
//! let (patched, undo) = (&output[..written.document], &undo[..written.undo]);
//! assert_eq!(patched, br#"{"mAh":3200,"cut":[4.2,3.0,2.8]}"#);
//! assert_eq!(
//!     undo,
//!     br#"[{"op":"remove","path":"/cut/2"},{"op":"replace","path":"/mAh","value":3000}]"#
//! );
//!
//! let mut before = [0; 1024];
//! let length = apply(patched, undo, &mut before, work.plain())?;
//! assert_eq!(&before[..length], document);
//! # Ok(())
//! # }
//! ```
//!
//! If the result is at most [`MAX_BYTES`](crate::MAX_BYTES) long, its undo, with
//! buffers enough, succeeds on it and gives a document equal to the one before. The
//! two differ in the order of members alone: a member that was removed comes back
//! last. That is proved of the definitions, and that the library answers as they
//! say.

use crate::{raw::Node, Kind, Refusal, Work, MAX_BYTES};
use core::error::Error;
use core::fmt;

/// Bytes of the buffer in which the undo's text is made.
pub const UNDO_BYTES: usize = 32_768;

/// The work area of a call with an undo: that of the plain call, and a buffer;
/// 147,456 bytes in all.
///
/// It is all zero between calls. Make one and lend it again and again.
#[derive(Clone, Debug)]
#[repr(C)]
pub struct UndoWork {
    plain: Work,
    text: [u8; UNDO_BYTES],
}

impl UndoWork {
    /// A work area.
    pub const fn new() -> Self {
        UndoWork { plain: Work::new(), text: [0; UNDO_BYTES] }
    }

    /// The part of it that the plain call takes.
    pub fn plain(&mut self) -> &mut Work {
        &mut self.plain
    }

    /// Its two lists, and the buffer.
    pub(crate) fn lists(&mut self) -> (&mut [Node], &mut [u16], &mut [u8]) {
        (&mut self.plain.nodes, &mut self.plain.index, &mut self.text)
    }
}

impl Default for UndoWork {
    fn default() -> Self {
        UndoWork::new()
    }
}

/// How much was written.
#[derive(Clone, Copy, Debug, PartialEq, Eq, Hash)]
pub struct Written {
    /// The patched document's length.
    pub document: usize,
    /// The undo's length, at most [`MAX_BYTES`](crate::MAX_BYTES).
    pub undo: usize,
}

/// Why nothing was written; both outputs are then as they were.
#[derive(Clone, Copy, Debug, PartialEq, Eq, Hash)]
pub enum Refused {
    /// The patch was refused, as [`apply`](crate::apply) refuses it; or one of the
    /// outputs is too short.
    Patch(Refusal),
    /// The patch succeeds, but its undo could not be read back as a patch: 9, 5, 6
    /// or 2, with text 2.
    Undo(Refusal),
}

impl Refused {
    /// The refusal itself.
    pub fn refusal(&self) -> Refusal {
        match *self {
            Refused::Patch(refusal) | Refused::Undo(refusal) => refusal,
        }
    }

    /// What the number means.
    pub fn kind(&self) -> Option<Kind> {
        self.refusal().kind()
    }

    /// Which of the two it is: a patch that was read is refused with a place, and
    /// one that was not was too long.
    pub(crate) fn of(refusal: Refusal, patch: &[u8]) -> Self {
        let Refusal { text, place, .. } = refusal;
        let of_undo = match refusal.kind() {
            Some(Kind::TooManyOperations | Kind::TooDeep | Kind::TooManyNodes) => true,
            Some(Kind::InputTooLong) => patch.len() <= MAX_BYTES,
            _ => false,
        };
        if of_undo && text == 2 && place == 0 {
            Refused::Undo(refusal)
        } else {
            Refused::Patch(refusal)
        }
    }
}

impl fmt::Display for Refused {
    fn fmt(&self, f: &mut fmt::Formatter) -> fmt::Result {
        match self {
            Refused::Patch(refusal) => refusal.fmt(f),
            Refused::Undo(refusal) => match refusal.kind() {
                Some(kind) => write!(f, "refused {}: undo: {kind}", refusal.number),
                None => refusal.fmt(f),
            },
        }
    }
}

impl Error for Refused {}

/// Applies the patch to the document, writes the result to the output and the patch
/// that takes it back to `undo`.
///
/// Gives both lengths: each output's first bytes are its text, and the rest is
/// unchanged. Or gives the refusal, and both outputs are unchanged. An undo is
/// `[]` where there is nothing to take back.
///
/// ```
/// use json_patch::undo::{apply_with_undo, Refused, UndoWork};
/// use json_patch::Kind;
///
/// // Old values are part of the undo, two levels deeper than in the document.
/// let deep = ["[".repeat(31), "]".repeat(31)].concat();
/// let patch = br#"[{"op":"replace","path":"","value":1}]"#;
/// let (mut output, mut undo) = ([7; 4], [7; 256]);
/// let mut work = UndoWork::new();
/// let refused = apply_with_undo(deep.as_bytes(), patch, &mut output, &mut undo, &mut work);
/// let refused = refused.unwrap_err();
/// assert!(matches!(refused, Refused::Undo(_)));
/// assert_eq!(refused.kind(), Some(Kind::TooDeep));
/// assert_eq!(refused.to_string(), "refused 5: undo: more than 32 nested containers");
/// assert_eq!((output, undo), ([7; 4], [7; 256]));
/// ```
pub fn apply_with_undo(
    document: &[u8],
    patch: &[u8],
    output: &mut [u8],
    undo: &mut [u8],
    work: &mut UndoWork,
) -> Result<Written, Refused> {
    let UndoWork { plain: Work { nodes, index }, text } = work;
    apply_with_undo_in(document, patch, output, undo, nodes, index, text)
}

/// The same in any two lists and any buffer, for those who lend memory of their own.
///
/// A list of fewer than [`WORK_NODES`](crate::WORK_NODES) nodes, an index of fewer
/// than [`WORK_ENTRIES`](crate::WORK_ENTRIES) entries, or a buffer of fewer than
/// [`UNDO_BYTES`] bytes is refused with 1. They may hold anything before; afterwards
/// that many of each are zero and the rest is unchanged, or they are untouched after
/// a 1.
pub fn apply_with_undo_in(
    document: &[u8],
    patch: &[u8],
    output: &mut [u8],
    undo: &mut [u8],
    nodes: &mut [Node],
    index: &mut [u16],
    work: &mut [u8],
) -> Result<Written, Refused> {
    let mut answer = raw::UndoAnswer::default();
    // Safety: every pointer and length is of a slice, and the borrows keep those
    // that are written apart from all others.
    unsafe {
        raw::json_patch_apply_with_undo(
            document.as_ptr(),
            document.len(),
            patch.as_ptr(),
            patch.len(),
            output.as_mut_ptr(),
            output.len(),
            undo.as_mut_ptr(),
            undo.len(),
            nodes.as_mut_ptr(),
            nodes.len(),
            index.as_mut_ptr(),
            index.len(),
            work.as_mut_ptr(),
            work.len(),
            &mut answer,
        );
    }
    match answer.answer.result() {
        Ok(document) => Ok(Written { document, undo: answer.undo as usize }),
        Err(refusal) => Err(Refused::of(refusal, patch)),
    }
}

/// The call as the static library exports it: `include/json_patch.h`, in Rust.
pub mod raw {
    use crate::raw::{Answer, Node};

    /// The answer: that of the plain call, and the undo's length.
    #[repr(C)]
    #[derive(Clone, Copy, Debug, Default, PartialEq, Eq)]
    pub struct UndoAnswer {
        /// As the plain call's.
        pub answer: Answer,
        /// The undo's length, 0 on refusal.
        pub undo: u64,
    }

    extern "C" {
        /// Applies the patch to the document, writes the result to the output and
        /// its undo to `undo`, or refuses; gives the answer's number.
        ///
        /// # Safety
        /// Each pointer is not null, is aligned, and points to as many bytes,
        /// records or entries as its length or count says; the two outputs, the two
        /// lists, the buffer and the answer overlap neither one another nor the
        /// inputs.
        pub fn json_patch_apply_with_undo(
            document: *const u8,
            document_length: usize,
            patch: *const u8,
            patch_length: usize,
            output: *mut u8,
            output_length: usize,
            undo: *mut u8,
            undo_length: usize,
            nodes: *mut Node,
            nodes_count: usize,
            index: *mut u16,
            index_count: usize,
            work: *mut u8,
            work_length: usize,
            answer: *mut UndoAnswer,
        ) -> u32;
    }
}
