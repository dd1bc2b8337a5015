//! Two texts compared, equal or different: `include/json_patch_compare.h`, in
//! Rust.
//!
//! ```
//! # fn main() -> Result<(), json_patch::Refusal> {
//! use json_patch::compare::{compare, Compared};
//! use json_patch::{Kind, Work};
//!
//! let mut work = Work::new();
//! let first = br#"{"mAh":3000,"cut":[4.2,3.0]}"#;
//! let second = br#"{"cut":[4.20,3],"mAh":3e3}"#;
//! assert_eq!(compare(first, second, &mut work)?, Compared { equal: true, names: 3 });
//! assert_eq!(compare(first, b"{}", &mut work)?, Compared { equal: false, names: 0 });
//!
//! let refusal = compare(first, b"[1,]", &mut work).unwrap_err();
//! assert_eq!((refusal.kind(), refusal.text, refusal.place), (Some(Kind::NotJson), 2, 3));
//! # Ok(())
//! # }
//! ```

use crate::raw::{Answer, Node, Work};
use crate::Refusal;

/// What two values come to.
#[derive(Clone, Copy, Debug, PartialEq, Eq, Hash)]
pub struct Compared {
    /// Whether they are equal: numbers by exact value, strings by their unescaped
    /// text, members in any order.
    pub equal: bool,
    /// How many names were compared to tell it: the first text's members in order,
    /// each against the second one's names from the first until one matches. For
    /// values of a and b nodes it is at most a times b.
    pub names: u64,
}

/// The answer as the library exports it. A field that its number does not set is
/// 0, and so are `equal` and `names` on refusal.
#[repr(C)]
#[derive(Clone, Copy, Debug, Default, PartialEq, Eq)]
pub struct Comparison {
    /// 0, or that of the refusal.
    pub number: u64,
    /// 1 or 2 for a refusal of that text, else 0.
    pub text: u64,
    /// A byte offset in it, else 0.
    pub place: u64,
    /// 1 where the values are equal, else 0.
    pub equal: u64,
    /// How many names were compared.
    pub names: u64,
}

extern "C" {
    /// Reads both texts and compares their values, or refuses; gives the answer's
    /// number.
    ///
    /// # Safety
    /// Each pointer is not null, is aligned, and points to as many bytes, records
    /// or entries as its length or count says; the two lists and the answer overlap
    /// neither one another nor the texts.
    pub fn json_patch_compare(
        first: *const u8,
        first_length: usize,
        second: *const u8,
        second_length: usize,
        nodes: *mut Node,
        nodes_count: usize,
        index: *mut u16,
        index_count: usize,
        found: *mut Comparison,
    ) -> u32;
}

/// Reads two texts and compares their values. The refusal of a text has its number
/// in `text`: 1 or 2.
pub fn compare(first: &[u8], second: &[u8], work: &mut Work) -> Result<Compared, Refusal> {
    let (nodes, index) = work.lists();
    compare_in(first, second, nodes, index)
}

/// The same in any two lists, for those who lend memory of their own: as
/// [`apply_in`](crate::apply_in) takes them.
///
/// ```
/// use json_patch::compare::compare_in;
/// use json_patch::{Kind, Node, WORK_ENTRIES, WORK_NODES};
///
/// let (mut nodes, mut index) = (vec![Node::ZERO; WORK_NODES], vec![7; WORK_ENTRIES]);
/// let short = compare_in(b"0", b"0", &mut nodes, &mut index[1..]).unwrap_err();
/// assert_eq!(short.kind(), Some(Kind::WorkTooShort));
/// assert!(index.iter().all(|&entry| entry == 7));
/// assert!(compare_in(b"0", b"-0.0", &mut nodes, &mut index).unwrap().equal);
/// assert!(index.iter().all(|&entry| entry == 0));
/// ```
pub fn compare_in(
    first: &[u8],
    second: &[u8],
    nodes: &mut [Node],
    index: &mut [u16],
) -> Result<Compared, Refusal> {
    let mut found = Comparison::default();
    // Safety: every pointer and length is of a slice, and the borrows keep those
    // that are written apart from all others.
    unsafe {
        json_patch_compare(
            first.as_ptr(),
            first.len(),
            second.as_ptr(),
            second.len(),
            nodes.as_mut_ptr(),
            nodes.len(),
            index.as_mut_ptr(),
            index.len(),
            &mut found,
        );
    }
    let Comparison { number, text, place, equal, names } = found;
    Answer { number, text, place, ..Answer::default() }.result()?;
    Ok(Compared { equal: equal == 1, names })
}
