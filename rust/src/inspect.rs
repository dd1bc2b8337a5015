//! What a patch comes to without a document: `include/json_patch_inspect.h`, in
//! Rust.
//!
//! ```
//! # fn main() -> Result<(), json_patch::Refusal> {
//! use json_patch::inspect::{inspect, Counts};
//! use json_patch::{Kind, Work};
//!
//! let mut work = Work::new();
//! let patch = br#"[{"op":"test","path":"/mAh","value":3e3},
//!                  {"op":"add","path":"/cut/-","value":2.8}]"#;
//! let counts = inspect(patch, &mut work)?;
//! assert_eq!(counts, Counts { adds: 1, tests: 1, ..Counts::default() });
//! assert_eq!(counts.operations(), 2);
//!
//! let refusal = inspect(br#"[{"op":"remove"}]"#, &mut work).unwrap_err();
//! assert_eq!((refusal.kind(), refusal.op), (Some(Kind::WrongShape), 1));
//! # Ok(())
//! # }
//! ```

use crate::raw::{Answer, Node, Work};
use crate::Refusal;

/// How many there are of each operation.
#[derive(Clone, Copy, Debug, Default, PartialEq, Eq, Hash)]
#[allow(missing_docs)]
pub struct Counts {
    pub adds: usize,
    pub removes: usize,
    pub replaces: usize,
    pub moves: usize,
    pub copies: usize,
    pub tests: usize,
}

impl Counts {
    /// All operations together, at most 256.
    pub fn operations(&self) -> usize {
        self.adds + self.removes + self.replaces + self.moves + self.copies + self.tests
    }
}

/// The answer as the library exports it. A field that its number does not set is
/// 0, and so are all counts on refusal.
#[repr(C)]
#[derive(Clone, Copy, Debug, Default, PartialEq, Eq)]
#[allow(missing_docs)]
pub struct Inspection {
    /// 0, or that of the refusal.
    pub number: u64,
    /// 2 for a refusal of the patch's text, else 0.
    pub text: u64,
    /// The operation, counted from 1, else 0.
    pub op: u64,
    /// A byte offset in the patch, else 0.
    pub place: u64,
    pub adds: u64,
    pub removes: u64,
    pub replaces: u64,
    pub moves: u64,
    pub copies: u64,
    pub tests: u64,
}

extern "C" {
    /// Reads and shapes the patch and counts its operations, or refuses; gives the
    /// answer's number.
    ///
    /// # Safety
    /// Each pointer is not null, is aligned, and points to as many bytes, records
    /// or entries as its length or count says; the two lists and the answer overlap
    /// neither one another nor the patch.
    pub fn json_patch_inspect(
        patch: *const u8,
        patch_length: usize,
        nodes: *mut Node,
        nodes_count: usize,
        index: *mut u16,
        index_count: usize,
        found: *mut Inspection,
    ) -> u32;
}

/// Reads and shapes a patch, as [`apply`](crate::apply) does, and counts its
/// operations. A patch that is refused here is refused by `apply` in the same way,
/// whatever the document.
pub fn inspect(patch: &[u8], work: &mut Work) -> Result<Counts, Refusal> {
    let (nodes, index) = work.lists();
    inspect_in(patch, nodes, index)
}

/// The same in any two lists, for those who lend memory of their own: as
/// [`apply_in`](crate::apply_in) takes them.
///
/// ```
/// use json_patch::inspect::inspect_in;
/// use json_patch::{Kind, Node, WORK_ENTRIES, WORK_NODES};
///
/// let (mut nodes, mut index) = (vec![Node::ZERO; WORK_NODES], vec![7; WORK_ENTRIES]);
/// let short = inspect_in(b"[]", &mut nodes, &mut index[1..]).unwrap_err();
/// assert_eq!(short.kind(), Some(Kind::WorkTooShort));
/// assert!(index.iter().all(|&entry| entry == 7));
/// assert_eq!(inspect_in(b"[]", &mut nodes, &mut index).map(|counts| counts.operations()), Ok(0));
/// assert!(index.iter().all(|&entry| entry == 0));
/// ```
pub fn inspect_in(patch: &[u8], nodes: &mut [Node], index: &mut [u16]) -> Result<Counts, Refusal> {
    let mut found = Inspection::default();
    // Safety: every pointer and length is of a slice, and the borrows keep those
    // that are written apart from all others.
    unsafe {
        json_patch_inspect(
            patch.as_ptr(),
            patch.len(),
            nodes.as_mut_ptr(),
            nodes.len(),
            index.as_mut_ptr(),
            index.len(),
            &mut found,
        );
    }
    let Inspection { number, text, op, place, .. } = found;
    Answer { number, text, op, place, ..Answer::default() }.result()?;
    Ok(Counts {
        adds: found.adds as usize,
        removes: found.removes as usize,
        replaces: found.replaces as usize,
        moves: found.moves as usize,
        copies: found.copies as usize,
        tests: found.tests as usize,
    })
}
