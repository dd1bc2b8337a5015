//! The refusal numbers, by name. (1, a work buffer too short, does not exist
//! here: this program lends itself what memory it needs.)

/// An input is too long.
pub const TOO_LONG: u32 = 2;
/// Not JSON text.
pub const NOT_JSON: u32 = 3;
/// A member name is repeated in one object.
pub const REPEATED_NAME: u32 = 4;
/// More than 32 containers nested.
pub const TOO_DEEP: u32 = 5;
/// More than 2,048 nodes.
pub const TOO_MANY_NODES: u32 = 6;
/// A number over its limit.
pub const NUMBER_LIMIT: u32 = 7;
/// The patch is not of the right shape.
pub const WRONG_SHAPE: u32 = 8;
/// More than 256 operations.
pub const TOO_MANY_OPERATIONS: u32 = 9;
/// A malformed pointer.
pub const MALFORMED_POINTER: u32 = 10;
/// A location is missing.
pub const MISSING: u32 = 11;
/// A token is no array index.
pub const NO_INDEX: u32 = 12;
/// Remove of the root.
pub const ROOT_REMOVED: u32 = 13;
/// Move of a value into its own child.
pub const INTO_OWN_CHILD: u32 = 14;
/// A test found a difference.
pub const DIFFERENT: u32 = 15;
/// The written text is longer than the output.
pub const NO_ROOM: u32 = 16;
/// The rule for makers is broken: SPECIFICATION 15, T-05.
pub const NOT_PERMITTED: u32 = 17;
/// No record of Intel HEX: SPECIFICATION 13, T-07.
pub const NO_RECORD: u32 = 18;
/// A record with a wrong sum.
pub const WRONG_SUM: u32 = 19;
/// A record whose address is not the next.
pub const WRONG_ADDRESS: u32 = 20;
/// No end record, or anything after it.
pub const BAD_END: u32 = 21;
/// A link that is none: SPECIFICATION 12, T-14.
pub const BAD_LINK: u32 = 22;
