//! The numbers that bound the work.

/// The longest document, and the longest patch, in bytes.
pub const LONGEST_TEXT: usize = 32_768;
/// The most containers nested in one another.
pub const MOST_LEVELS: usize = 32;
/// The most values in a document, and in a patch text.
pub const MOST_NODES: usize = 2_048;
/// The longest number, in bytes.
pub const LONGEST_NUMBER: usize = 128;
/// The largest written exponent, whatever its sign.
pub const LARGEST_EXPONENT: u32 = 9_999;
/// The most operations in a patch.
pub const MOST_OPERATIONS: usize = 256;
/// The patch tool reads at most this much of each file: enough to see that a
/// file is too long.
pub const TOOL_READS: u64 = 32_769;
/// The output the patch tool lends.
pub const TOOL_ROOM: usize = 65_536;
/// The longest name of a patch file in a list, in bytes.
pub const LONGEST_NAME: usize = 4_096;
/// The most names in a list.
pub const MOST_NAMES: usize = 1_000_000;
