//! Scalars of types, the order of types, and the table of kinds.

use std::cmp::Ordering;

use super::{declared, Error, CONTENTS_DECIDE, KIND_COUNT, KIND_TABLE_BYTES};

/// The union of two scalars.
///
/// Answers what was written, a scalar's record. Refused: reading `a`; reading `b`; result.
pub fn union<'r>(a: &[u8], b: &[u8], result: &'r mut [u8]) -> Result<&'r [u8], Error> {
    declared::vg_union(a, b, result).written(result)
}

/// The scalar unrefined, in boxes too: Bool, Nat and Int become Num, Ascii becomes Char.
///
/// Answers what was written, a scalar's record. Refused: reading `ty`; result.
pub fn unrefine<'r>(ty: &[u8], result: &'r mut [u8]) -> Result<&'r [u8], Error> {
    declared::vg_unrefine(ty, result).written(result)
}

/// Whether the scalar of `a` is a superset of that of `b`.
///
/// Refused: reading `a`; reading `b`.
pub fn superset(a: &[u8], b: &[u8]) -> Result<bool, Error> {
    declared::vg_superset(a, b).yes()
}

/// Whether the two scalars are compatible.
///
/// Refused: reading `a`; reading `b`.
pub fn compatible_scalars(a: &[u8], b: &[u8]) -> Result<bool, Error> {
    declared::vg_compatible_scalars(a, b).yes()
}

/// Whether the two scalars are compatible, with a look into All boxes.
///
/// Refused: reading `a`; reading `b`.
pub fn compatible_with_boxes(a: &[u8], b: &[u8]) -> Result<bool, Error> {
    declared::vg_compatible_with_boxes(a, b).yes()
}

/// The order of two types, scalars first and then shapes: whether `a` is less than `b`, the same or more.
///
/// Refused: reading `a`; reading `b`.
pub fn compare(a: &[u8], b: &[u8]) -> Result<Ordering, Error> {
    declared::vg_compare(a, b).order()
}

/// The kind of a scalar.
#[derive(Clone, Copy, Debug, PartialEq, Eq, Hash)]
#[repr(u8)]
pub enum Kind {
    /// 0 or 1.
    Bool = 0,
    /// Whole numbers from 0.
    Nat = 1,
    /// Whole numbers.
    Int = 2,
    /// Numbers.
    Num = 3,
    /// Complex numbers.
    Complex = 4,
    /// Characters of ASCII.
    Ascii = 5,
    /// Characters.
    Char = 6,
    /// Streams.
    Stream = 7,
    /// Boxes. After it in a record comes the box.
    Box = 8,
    /// Anything.
    Any = 9,
}

impl Kind {
    /// All ten, by their codes.
    pub const ALL: [Kind; KIND_COUNT] = [
        Kind::Bool,
        Kind::Nat,
        Kind::Int,
        Kind::Num,
        Kind::Complex,
        Kind::Ascii,
        Kind::Char,
        Kind::Stream,
        Kind::Box,
        Kind::Any,
    ];

    /// The code by which it is written in a scalar's record, 0 to 9.
    pub fn code(self) -> u8 {
        self as u8
    }

    /// The one that has this code; `None` if none has it.
    pub fn from_code(code: u8) -> Option<Kind> {
        Kind::ALL.into_iter().find(|kind| kind.code() == code)
    }
}

/// The table of kinds: what [`superset()`], [`compatible_scalars`] and [`union()`] say of two scalars by their kinds.
#[derive(Clone, Copy, Debug, PartialEq, Eq)]
pub struct Kinds<'r> {
    numbers: &'r [u8; KIND_TABLE_BYTES],
}

/// The table's squares, in their order.
#[derive(Clone, Copy)]
enum Square {
    Superset,
    Compatible,
    Union,
}

impl<'r> Kinds<'r> {
    /// The table as it was written, if every number of it is understood.
    pub(crate) fn understood(numbers: &'r [u8]) -> Option<Kinds<'r>> {
        let kinds = Kinds { numbers: numbers.try_into().ok()? };
        let good = |(place, &number): (usize, &u8)| match place / (KIND_COUNT * KIND_COUNT) {
            2 => number == CONTENTS_DECIDE || Kind::from_code(number).is_some(),
            _ => number <= 1,
        };
        numbers.iter().enumerate().all(good).then_some(kinds)
    }

    /// The number for two kinds.
    fn number(&self, square: Square, first: Kind, second: Kind) -> u8 {
        let row = square as usize * KIND_COUNT + usize::from(first.code());
        self.numbers[row * KIND_COUNT + usize::from(second.code())]
    }

    /// All 300 numbers, as the library wrote them: three squares one after the other, superset, compatible and union; in each a row for
    /// each first kind, in it a number for each second kind, by their codes. In the first two squares 1 is yes and 0 is no. In the third it
    /// is the code of the union's kind, or [`CONTENTS_DECIDE`].
    pub fn numbers(&self) -> &'r [u8; KIND_TABLE_BYTES] {
        self.numbers
    }

    /// Whether the first kind is a superset of the second.
    pub fn superset(&self, first: Kind, second: Kind) -> bool {
        self.number(Square::Superset, first, second) == 1
    }

    /// Whether the two kinds are compatible.
    pub fn compatible(&self, first: Kind, second: Kind) -> bool {
        self.number(Square::Compatible, first, second) == 1
    }

    /// The kind of the union; `None` where the boxes' contents decide. That is once, at Box with Box: the union is a box then, and
    /// [`union()`] says which.
    pub fn union(&self, first: Kind, second: Kind) -> Option<Kind> {
        Kind::from_code(self.number(Square::Union, first, second))
    }
}

/// The table of kinds, for every pair of the ten.
///
/// Answers the table, which stands in the first [`KIND_TABLE_BYTES`] bytes of the result. Refused: result.
pub fn kinds(result: &mut [u8]) -> Result<Kinds<'_>, Error> {
    let written = declared::vg_kinds(result).written(result)?;
    Kinds::understood(written).ok_or(Error::NotUnderstood)
}
