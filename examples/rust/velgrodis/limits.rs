//! The version and the limits, as the header has them.

use super::declared;

/// The version of the header that this binding was written from, one number that grows with every change that a host can see.
pub const VERSION: u64 = 9;

/// The version of the library that is linked. A host that may meet another library compares: `version() == VERSION`.
///
/// It is never refused, and answers the number itself.
pub fn version() -> u64 {
    declared::vg_version()
}

/// The largest static size, 2^53.
pub const MAX_SIZE: u64 = 9007199254740992;

/// How the bytes of a shape say ?, an unknown size: all ones. To a call it is [`Size::Unknown`](super::Size::Unknown).
pub const UNKNOWN: u64 = u64::MAX;

/// Opening sizes of a shape, at most; and closing sizes.
pub const MAX_SIZES: usize = 8;

/// Bytes of a name, at most, a Def's or one that a sheet declares.
pub const MAX_NAME: usize = 16;

/// Fields of a Def, at most; and copies that [`as_boxes`](super::as_boxes) lists.
pub const MAX_FIELDS: usize = 31;

/// Types in one type, at most, itself counted.
pub const MAX_TYPES: usize = 32;

/// Depth of a type, at most; the outermost is at depth 1.
pub const MAX_DEPTH: usize = 8;

/// Types on a sheet's stack, at most.
pub const MAX_STACK: usize = 6;

/// Steps of a sheet, at most; declarations and uses of names are among them.
pub const MAX_STEPS: usize = 64;

/// Different names that a sheet declares, at most.
pub const MAX_NAMES: usize = 16;

/// Kinds of a scalar; their codes are 0 to 9.
pub const KIND_COUNT: usize = 10;

/// Bytes of a sheet that the program `sheet` reads; a longer one it refuses with 7 at 0. A call has no such limit.
pub const PROGRAM_SHEET_BYTES: usize = 49152;

/// Bytes that always suffice for a type, a shape's record or a scalar's.
pub const TYPE_BYTES: usize = 4992;

/// Bytes that always suffice for the list of [`as_boxes`](super::as_boxes).
pub const BOXES_BYTES: usize = 2 + MAX_FIELDS * TYPE_BYTES;

/// Bytes that always suffice for the types that a sheet leaves.
pub const SHEET_RESULT_BYTES: usize = MAX_STACK * TYPE_BYTES;

/// Bytes of the scratch for each type that the stack may hold.
pub const PACKED_BYTES: usize = 4288;

/// Bytes of the scratch that [`check_sheet`](super::check_sheet) asks for at least.
pub const SCRATCH_BYTES: usize = MAX_STACK * PACKED_BYTES;

/// Bytes of stack that a thread has left when it makes a call. Measured, and not proved, as the header says.
pub const STACK_BYTES: usize = 36864;

/// Bytes of the table of kinds, one for each number.
pub const KIND_TABLE_BYTES: usize = 3 * KIND_COUNT * KIND_COUNT;

/// The table's mark where the boxes' contents decide, which is no kind's code.
pub const CONTENTS_DECIDE: u8 = 255;

/// How the library says that no index is named. To a host it is [`Compatible::No`](super::Compatible::No) without one.
pub const NO_INDEX: u64 = u64::MAX;
