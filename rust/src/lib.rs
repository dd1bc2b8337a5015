//! A JSON Patch (RFC 6902) applied to a JSON document, in lent memory.
//!
//! The work is done by a static library in which every function is proved to
//! meet its contract: on every input the answer is that of the definitions, and
//! all lent memory is afterwards as they say. This crate declares its
//! functions, makes them safe to call, and puts refusals into words. No allocation,
//! no global state, no dependencies, no `std`.
//!
//! ```
//! # fn main() -> Result<(), json_patch::Refusal> {
//! use json_patch::{apply, Work};
//!
//! let document = br#"{"mAh":3000,"cut":[4.2,3.0]}"#;
//! let patch = br#"[{"op":"test","path":"/mAh","value":3e3},
//!                  {"op":"add","path":"/cut/-","value":2.8}]"#;
//! let mut output = [0; 1024];
//! let mut work = Work::new();
//!
//! let length = apply(document, patch, &mut output, &mut work)?;
//! assert_eq!(&output[..length], br#"{"mAh":3000,"cut":[4.2,3.0,2.8]}"#);
//! # Ok(())
//! # }
//! ```
//!
//! A patch that cannot be applied is refused, with the number of the refusal and
//! the operation or the place in a text; the output is then untouched.
//!
//! ```
//! use json_patch::{apply, Kind, Work};
//!
//! let mut output = *b"as it was";
//! let refusal = apply(b"[1,]", b"[]", &mut output, &mut Work::new()).unwrap_err();
//! assert_eq!(refusal.kind(), Some(Kind::NotJson));
//! assert_eq!((refusal.text, refusal.place), (1, 3));
//! assert_eq!(&output, b"as it was");
//! ```
//!
//! [`Refusal::explain`] shows a person where and why, given the two texts.
//! [`undo`] also writes the patch that takes the result back. [`merge`] applies a
//! merge patch (RFC 7396) instead. [`origins`] also lists which operation put each
//! value there.

#![no_std]
#![warn(missing_docs)]

pub mod compare;
mod explain;
pub mod hex;
pub mod inspect;
mod json;
pub mod link;
pub mod origins;
mod place;
pub mod raw;
mod refusal;
pub mod undo;

pub use explain::{Explanation, Paint, Walked};
pub use json::elements;
pub use place::{Place, Shown};
pub use raw::{
    apply, apply_in, apply_within, apply_within_in, merge, merge_in, Node, Work, WORK_ENTRIES,
    WORK_NODES,
};
pub use refusal::{Kind, Line, Pointer, Refusal};

/// The longest document, and the longest patch, in bytes.
pub const MAX_BYTES: usize = 32_768;
/// The most containers nested in one another.
pub const MAX_DEPTH: usize = 32;
/// The most values in a document, and in a patch text.
pub const MAX_NODES: usize = 2_048;
/// The longest number, in bytes.
pub const MAX_NUMBER: usize = 128;
/// The largest written exponent of a number, whatever its sign.
pub const MAX_EXPONENT: usize = 9_999;
/// The most operations in a patch.
pub const MAX_OPERATIONS: usize = 256;
/// The output that the patch tool lends.
pub const TOOL_OUTPUT: usize = 65_536;
