//! Values handed in.

use super::declared::{self, Answer};
use super::{Error, Size, MAX_SIZES};

/// A value: a number, a list of numbers, or a type.
#[derive(Clone, Copy, Debug, PartialEq)]
pub enum Value<'a> {
    /// A number.
    Number(f64),
    /// A list of numbers.
    Numbers(&'a [f64]),
    /// The type of these bytes. It is read also where it could not change the answer.
    Type(&'a [u8]),
}

/// Which of the three a value is, to the library.
pub(crate) const NUMBER: u64 = 0;
pub(crate) const NUMBERS: u64 = 1;
pub(crate) const TYPE: u64 = 2;

impl<'a> Value<'a> {
    /// As it is handed in: which of the three it is, and something for each of them. The library looks at the one that is meant.
    fn parts(self) -> (u64, f64, &'a [f64], &'a [u8]) {
        match self {
            Value::Number(x) => (NUMBER, x, &[], &[]),
            Value::Numbers(list) => (NUMBERS, 0.0, list, &[]),
            Value::Type(ty) => (TYPE, 0.0, &[], ty),
        }
    }
}

/// The type of a value: \[\] Num for a number, \[length\] Num for a list, a type itself.
///
/// Answers what was written, a type. Refused: reading the type; 4 at 0 for a list of more than [`MAX_SIZE`](super::MAX_SIZE) numbers;
/// result.
pub fn val_ty<'r>(value: Value<'_>, result: &'r mut [u8]) -> Result<&'r [u8], Error> {
    let (kind, x, list, ty) = value.parts();
    declared::vg_val_ty(kind, x, list, ty, result).written(result)
}

/// The spec that a value stands for: \[x\] Any for a number, its sizes with Any for a list, a type itself.
///
/// A number is a size if it is whole, not negative (-0 is 0) and at most [`MAX_SIZE`](super::MAX_SIZE); plus infinity is ?.
///
/// Answers what was written, a type.
///
/// Refused: reading the type; 3 at 0 for a list of more than [`MAX_SIZES`]; then for the first that is no size 13, or 4 if it is whole and
/// above [`MAX_SIZE`](super::MAX_SIZE), at its index, which is 0 for a lone number; result.
pub fn val_spec<'r>(value: Value<'_>, result: &'r mut [u8]) -> Result<&'r [u8], Error> {
    let (kind, x, list, ty) = value.parts();
    declared::vg_val_spec(kind, x, list, ty, result).written(result)
}

/// The scalar of a value: for numbers Num if one is a fraction, NaN or infinite, else Int if one is negative, else Nat if one is above 1,
/// else Bool; for a type its own.
///
/// Answers what was written, a scalar's record. Refused: reading the type; result.
pub fn val_scalar<'r>(value: Value<'_>, result: &'r mut [u8]) -> Result<&'r [u8], Error> {
    let (kind, x, list, ty) = value.parts();
    declared::vg_val_scalar(kind, x, list, ty, result).written(result)
}

/// The scalar of a list, as [`val_scalar`] says it.
///
/// Answers what was written, a scalar's record. Refused: result.
pub fn nums_scalar<'r>(list: &[f64], result: &'r mut [u8]) -> Result<&'r [u8], Error> {
    declared::vg_nums_scalar(list, result).written(result)
}

/// The row count of a value: 1 for a number, the length of a list, a type's own.
///
/// Refused: reading the type; 4 at 0 for a list of more than [`MAX_SIZE`](super::MAX_SIZE) numbers.
pub fn val_row_count(value: Value<'_>) -> Result<Size, Error> {
    let (kind, x, list, ty) = value.parts();
    declared::vg_val_row_count(kind, x, list, ty).size()
}

/// The rank of a value: 0 for a number, 1 for a list, a type's own.
///
/// Refused: reading the type.
pub fn val_rank(value: Value<'_>) -> Result<usize, Error> {
    let (kind, x, list, ty) = value.parts();
    declared::vg_val_rank(kind, x, list, ty).count(2 * MAX_SIZES)
}

/// The row of a value, a value again.
#[derive(Clone, Copy, Debug, PartialEq)]
pub enum Row<'r> {
    /// A number. The result is as lent. A NaN stays a NaN.
    Number(f64),
    /// A type, which was written to the front of the result.
    Type(&'r [u8]),
}

/// What a call on the row of a value answers, once it has perhaps written the number and the result.
pub(crate) fn row(answer: Answer, number: f64, result: &[u8]) -> Result<Row<'_>, Error> {
    match answer.value()? {
        (0, 1) => Ok(Row::Number(number)),
        (_, 0) => answer.written(result).map(Row::Type),
        _ => Err(Error::NotUnderstood),
    }
}

/// The row of a value. A number is its own. That of a list is its number if it has one alone, else \[\] Num. A type's is
/// [`row`](super::row).
///
/// Refused: reading the type; result.
pub fn val_row<'r>(value: Value<'_>, result: &'r mut [u8]) -> Result<Row<'r>, Error> {
    let (kind, x, list, ty) = value.parts();
    let mut number = 0.0;
    row(declared::vg_val_row(kind, x, list, ty, &mut number, result), number, result)
}

/// The first row of a value. A number is its own. That of a list is its first number, \[\] Num if it has none. A type's is
/// [`first_row`](super::first_row).
///
/// Refused: reading the type; result.
pub fn val_first_row<'r>(value: Value<'_>, result: &'r mut [u8]) -> Result<Row<'r>, Error> {
    let (kind, x, list, ty) = value.parts();
    let mut number = 0.0;
    row(declared::vg_val_first_row(kind, x, list, ty, &mut number, result), number, result)
}

/// The last row of a value. A number is its own. That of a list is its last number, \[\] Num if it has none. A type's is
/// [`last_row`](super::last_row).
///
/// Refused: reading the type; result.
pub fn val_last_row<'r>(value: Value<'_>, result: &'r mut [u8]) -> Result<Row<'r>, Error> {
    let (kind, x, list, ty) = value.parts();
    let mut number = 0.0;
    row(declared::vg_val_last_row(kind, x, list, ty, &mut number, result), number, result)
}

/// The size that a number stands for, as [`val_spec`] says it, where minus infinity is ? too.
///
/// Answers the size, or `None` if the value is no number. Refused: reading the type; 13 or 4 at 0 for a number that is no size.
pub fn as_dim(value: Value<'_>) -> Result<Option<Size>, Error> {
    let (kind, x, list, ty) = value.parts();
    declared::vg_as_dim(kind, x, list, ty).perhaps_size()
}

/// The sizes that a list stands for, as [`val_spec`] says it, written to the front of `sizes`; [`MAX_SIZES`] always suffice.
///
/// Answers the sizes that were written, or `None` if the value is no list; then it needs no room.
///
/// Refused: reading the type; the sizes as in [`val_spec`]; 7 at 0 if there is too little room. The sizes after those written stay as
/// lent, and a refusal, or `None`, leaves all of them as lent.
pub fn as_dims<'s>(value: Value<'_>, sizes: &'s mut [Size]) -> Result<Option<&'s [Size]>, Error> {
    let (kind, x, list, ty) = value.parts();
    // The library writes numbers. Room for more than always suffices changes no answer.
    let mut numbers = [0; MAX_SIZES];
    let room = sizes.len().min(MAX_SIZES);
    let numbers = &mut numbers[..room];
    let answer = declared::vg_as_dims(kind, x, list, ty, numbers);
    let Some(numbers) = answer.perhaps_written(numbers)? else {
        return Ok(None);
    };
    for (size, &number) in sizes.iter_mut().zip(numbers) {
        *size = Size::from_number(number).ok_or(Error::NotUnderstood)?;
    }
    sizes.get(..numbers.len()).map(Some).ok_or(Error::NotUnderstood)
}
