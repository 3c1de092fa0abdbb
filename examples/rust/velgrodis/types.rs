//! Types.

use super::answer::as_usize;
use super::declared::{self, Answer};
use super::{Error, TYPE_BYTES};

/// Whether the bytes are a lone type: accepted or refused, and nothing more.
///
/// Refused: reading `ty`.
pub fn read(ty: &[u8]) -> Result<(), Error> {
    declared::vg_read(ty).accepted()
}

/// The length of the type that begins the bytes, whatever follows it.
///
/// Answers the length, at most [`TYPE_BYTES`] and at most that of the bytes; it is never 0.
///
/// Refused: 1, 2, 3, 4 or 5, whichever comes first from left to right, with its place.
pub fn type_length(bytes: &[u8]) -> Result<usize, Error> {
    length(declared::vg_type_length(bytes), bytes)
}

/// What the call on the length of a type answers. A host parts types by it, so it must never stand still or run past the end.
pub(crate) fn length(answer: Answer, bytes: &[u8]) -> Result<usize, Error> {
    match answer.count(bytes.len().min(TYPE_BYTES))? {
        0 => Err(Error::NotUnderstood),
        length => Ok(length),
    }
}

/// The record of a type's shape.
///
/// Answers what was written. Refused: reading `ty`; result.
pub fn shape_record<'r>(ty: &[u8], result: &'r mut [u8]) -> Result<&'r [u8], Error> {
    declared::vg_shape_record(ty, result).written(result)
}

/// The record of a type's scalar.
///
/// Answers what was written. Refused: reading `ty`; result.
pub fn scalar_record<'r>(ty: &[u8], result: &'r mut [u8]) -> Result<&'r [u8], Error> {
    declared::vg_scalar_record(ty, result).written(result)
}

/// The row of a type: the shape loses its first opening size, else its first closing one. At rank 1 the row of a Def is a box All of its
/// first field, of \[..\] Any where it has no field.
///
/// Answers what was written, a type. Refused: reading `ty`; result.
pub fn row<'r>(ty: &[u8], result: &'r mut [u8]) -> Result<&'r [u8], Error> {
    declared::vg_row(ty, result).written(result)
}

/// The first row of a type. It is as [`row`] says.
///
/// Answers what was written, a type. Refused: reading `ty`; result.
pub fn first_row<'r>(ty: &[u8], result: &'r mut [u8]) -> Result<&'r [u8], Error> {
    declared::vg_first_row(ty, result).written(result)
}

/// The last row of a type. It is as [`row`] says, but at rank 1 that of a Def is a box All of its last field.
///
/// Answers what was written, a type. Refused: reading `ty`; result.
pub fn last_row<'r>(ty: &[u8], result: &'r mut [u8]) -> Result<&'r [u8], Error> {
    declared::vg_last_row(ty, result).written(result)
}

/// The n-th row of a type, from 0. It is as [`row`] says, but at rank 1 that of a Def is a box All of its n-th field, or of the first
/// where there is no n-th.
///
/// Answers what was written, a type. Refused: reading `ty`; result.
pub fn nth_row<'r>(ty: &[u8], n: usize, result: &'r mut [u8]) -> Result<&'r [u8], Error> {
    declared::vg_nth_row(ty, n as u64, result).written(result)
}

/// What stands in a box of shape \[\]: the content of an All, the first field of a Def, \[..\] Any where nothing is inside. Any other type
/// is itself.
///
/// Answers what was written, a type. Refused: reading `ty`; result.
pub fn unboxed<'r>(ty: &[u8], result: &'r mut [u8]) -> Result<&'r [u8], Error> {
    declared::vg_unboxed(ty, result).written(result)
}

/// A box as a list of types, written as name, count and types in a Def's layout: a Def's own; of an All as many copies of its content as
/// there are rows, of an Any as many of \[..\] Any, one where the row count is ?. [`BOXES_BYTES`](super::BOXES_BYTES) always suffice.
///
/// Answers what was written, or `None` if the type is no box; then it needs no result.
///
/// Refused: reading `ty`; 5 at 0 for more than [`MAX_FIELDS`](super::MAX_FIELDS) copies; result.
pub fn as_boxes<'r>(ty: &[u8], result: &'r mut [u8]) -> Result<Option<&'r [u8]>, Error> {
    declared::vg_as_boxes(ty, result).perhaps_written(result)
}

/// A field of a Def: a stretch of the bytes that were handed in.
#[derive(Clone, Copy, Debug, PartialEq, Eq)]
pub struct Field<'t> {
    /// Where it starts in the Def's bytes.
    pub place: usize,
    /// Its bytes there, a type.
    pub ty: &'t [u8],
}

/// Where field n of a Def stands, from 0.
///
/// Answers the field, or `None` if the type is no Def, or has no field n. Refused: reading `ty`.
pub fn field(ty: &[u8], n: usize) -> Result<Option<Field<'_>>, Error> {
    stretch(declared::vg_field(ty, n as u64), ty)
}

/// What the call on a field answers.
pub(crate) fn stretch(answer: Answer, ty: &[u8]) -> Result<Option<Field<'_>>, Error> {
    let Some((place, length)) = answer.perhaps()? else {
        return Ok(None);
    };
    let (place, length) = (as_usize(place)?, as_usize(length)?);
    let ty = ty.get(place..).and_then(|rest| rest.get(..length)).ok_or(Error::NotUnderstood)?;
    Ok(Some(Field { place, ty }))
}

/// The join of two types: the join of their shapes, the union of their scalars.
///
/// Answers what was written, a type. Refused: reading `a`; reading `b`; result.
pub fn join<'r>(a: &[u8], b: &[u8], result: &'r mut [u8]) -> Result<&'r [u8], Error> {
    declared::vg_join(a, b, result).written(result)
}
