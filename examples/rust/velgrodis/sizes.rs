//! Two sizes.

use std::cmp::Ordering;

use super::{declared, Error, MAX_SIZE, UNKNOWN};

/// A size. It has no order of Rust's: [`dim_cmp`] is no chain, and there is a second one.
#[derive(Clone, Copy, Debug, PartialEq, Eq, Hash)]
pub enum Size {
    /// A static size. Above [`MAX_SIZE`] it is none, and a call that takes it refuses it.
    Static(u64),
    /// ?, an unknown size.
    Unknown,
}

impl Size {
    /// The size that is written by this number in a shape's record; `None` if it is above [`MAX_SIZE`] and not [`UNKNOWN`].
    pub fn from_number(number: u64) -> Option<Size> {
        match number {
            UNKNOWN => Some(Size::Unknown),
            0..=MAX_SIZE => Some(Size::Static(number)),
            _ => None,
        }
    }

    /// The number by which it is written in a shape's record. One that is no size stays none, and never becomes [`UNKNOWN`]: it is
    /// [`MAX_SIZE`] + 1 then.
    pub fn number(self) -> u64 {
        match self {
            Size::Static(size) => size.min(MAX_SIZE + 1),
            Size::Unknown => UNKNOWN,
        }
    }
}

/// The order of sizes, which is no chain: 0 < 1, 1 < ?, ? < 0, and ? is less than every static size above 1.
///
/// Refused: 4 at 0 if `a` is no size; 4 at 1 if `b` is none.
pub fn dim_cmp(a: Size, b: Size) -> Result<Ordering, Error> {
    declared::vg_dim_cmp(a.number(), b.number()).order()
}

/// The order in which ? is less than every static size.
///
/// Refused: 4 at 0 if `a` is no size; 4 at 1 if `b` is none.
pub fn dim_cmp_defined(a: Size, b: Size) -> Result<Ordering, Error> {
    declared::vg_dim_cmp_defined(a.number(), b.number()).order()
}

/// The larger by [`dim_cmp`].
///
/// Refused: 4 at 0 if `a` is no size; 4 at 1 if `b` is none.
pub fn dim_max(a: Size, b: Size) -> Result<Size, Error> {
    declared::vg_dim_max(a.number(), b.number()).size()
}

/// The size itself where both are the same, else ?.
///
/// Refused: 4 at 0 if `a` is no size; 4 at 1 if `b` is none.
pub fn dim_join(a: Size, b: Size) -> Result<Size, Error> {
    declared::vg_dim_join(a.number(), b.number()).size()
}

/// Whether they are equal or either is ?.
///
/// Refused: 4 at 0 if `a` is no size; 4 at 1 if `b` is none.
pub fn dim_compatible(a: Size, b: Size) -> Result<bool, Error> {
    declared::vg_dim_compatible(a.number(), b.number()).yes()
}

/// Whether they are equal, or either is ? or 1.
///
/// Refused: 4 at 0 if `a` is no size; 4 at 1 if `b` is none.
pub fn dim_row_compatible(a: Size, b: Size) -> Result<bool, Error> {
    declared::vg_dim_row_compatible(a.number(), b.number()).yes()
}
