//! Shapes of types.

use super::answer::as_usize;
use super::declared::{self, Answer};
use super::{Error, Size, MAX_SIZES, NO_INDEX};

/// The shape of `a`, merged from that of `b`.
///
/// Answers what was written, a shape's record. Refused: reading `a`; reading `b`; result.
pub fn merge<'r>(a: &[u8], b: &[u8], result: &'r mut [u8]) -> Result<&'r [u8], Error> {
    declared::vg_merge(a, b, result).written(result)
}

/// The join of two shapes.
///
/// Answers what was written, a shape's record. Refused: reading `a`; reading `b`; result.
pub fn join_shapes<'r>(a: &[u8], b: &[u8], result: &'r mut [u8]) -> Result<&'r [u8], Error> {
    declared::vg_join_shapes(a, b, result).written(result)
}

/// The row of a shape.
///
/// Answers what was written, a shape's record. Refused: reading `ty`; result.
pub fn row_shape<'r>(ty: &[u8], result: &'r mut [u8]) -> Result<&'r [u8], Error> {
    declared::vg_row_shape(ty, result).written(result)
}

/// Which of two shapes are filled where they pervade: a smaller size grows to the larger if its side is filled.
#[derive(Clone, Copy, Debug, PartialEq, Eq, Hash)]
#[repr(u64)]
pub enum Fill {
    /// None of them.
    Nothing = 0,
    /// The first.
    First = 1,
    /// The second.
    Second = 2,
    /// Both.
    Both = 3,
}

impl Fill {
    /// All of them, by their flags.
    pub const ALL: [Fill; 4] = [Fill::Nothing, Fill::First, Fill::Second, Fill::Both];

    /// The flag that says it, also in a sheet's step, where the top is the first: bit 0 fills the first, bit 1 the second.
    pub fn flag(self) -> u8 {
        self as u8
    }
}

/// The pervading of two shapes, as Uiua's Rust has it (`pervade_dyn_shapes`); in a sheet a filled one may differ
/// ([`check_sheet`](super::check_sheet)).
///
/// Answers what was written, a shape's record.
///
/// Refused: reading `a`; reading `b`; 8 at 0 for shapes that cannot pervade; result.
pub fn pervade<'r>(
    fill: Fill,
    a: &[u8],
    b: &[u8],
    result: &'r mut [u8],
) -> Result<&'r [u8], Error> {
    declared::vg_pervade(fill.flag().into(), a, b, result).written(result)
}

/// Whether two shapes are compatible.
#[derive(Clone, Copy, Debug, PartialEq, Eq, Hash)]
pub enum Compatible {
    /// They are.
    Yes,
    /// They are not. The greatest index that fails, counted from 0 at the front; `None` where the counts differ: no size is compared then.
    No(Option<usize>),
}

/// Whether two shapes are compatible: equal counts of opening sizes, and at each index equal ones, or 1 or ? on either side. Closing sizes
/// are not looked at, nor whether a shape is open.
///
/// Refused: reading `a`; reading `b`.
pub fn compatible_shapes(a: &[u8], b: &[u8]) -> Result<Compatible, Error> {
    compatible(declared::vg_compatible_shapes(a, b))
}

/// What the call on compatible shapes answers.
pub(crate) fn compatible(answer: Answer) -> Result<Compatible, Error> {
    match answer.value()? {
        (1, 0) => Ok(Compatible::Yes),
        (0, NO_INDEX) => Ok(Compatible::No(None)),
        (0, index) if index < MAX_SIZES as u64 => Ok(Compatible::No(Some(as_usize(index)?))),
        _ => Err(Error::NotUnderstood),
    }
}

/// Whether the shape is \[..\].
///
/// Refused: reading `ty`.
pub fn shape_is_any(ty: &[u8]) -> Result<bool, Error> {
    declared::vg_shape_is_any(ty).yes()
}

/// Whether the shape is \[\].
///
/// Refused: reading `ty`.
pub fn shape_is_scalar(ty: &[u8]) -> Result<bool, Error> {
    declared::vg_shape_is_scalar(ty).yes()
}

/// The row count: the first opening size; without one ? for an open shape, 1 for a closed one.
///
/// Refused: reading `ty`.
pub fn row_count(ty: &[u8]) -> Result<Size, Error> {
    declared::vg_row_count(ty).size()
}

/// The rank: the opening and the closing sizes, counted together.
///
/// Refused: reading `ty`.
pub fn rank(ty: &[u8]) -> Result<usize, Error> {
    declared::vg_rank(ty).count(2 * MAX_SIZES)
}
