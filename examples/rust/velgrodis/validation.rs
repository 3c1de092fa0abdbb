//! Validation.

use std::fmt;

use super::declared::{self, Validation};
use super::{Error, Refusal};

/// On which side a spec is held to a type: its opening sizes are compared from the front for the left, from the end for the right.
#[derive(Clone, Copy, Debug, PartialEq, Eq, Hash)]
#[repr(u64)]
pub enum Side {
    /// No side: the sizes are as many as the spec's.
    Unsided = 0,
    /// The left.
    Left = 1,
    /// The right.
    Right = 2,
}

impl Side {
    /// All of them, by their numbers.
    pub const ALL: [Side; 3] = [Side::Unsided, Side::Left, Side::Right];

    /// Its number in the C header.
    pub fn number(self) -> u64 {
        self as u64
    }
}

/// Which input was being read when a validation was refused.
#[derive(Clone, Copy, Debug, PartialEq, Eq, Hash)]
#[repr(u64)]
pub enum Reading {
    /// Neither: it was refused after both were read.
    Neither = 0,
    /// The spec, which is read whole before the type.
    Spec = 1,
    /// The type that is checked.
    CheckedType = 2,
}

impl Reading {
    /// All of them, by their numbers.
    pub const ALL: [Reading; 3] = [Reading::Neither, Reading::Spec, Reading::CheckedType];

    /// Its number in the C header.
    pub fn number(self) -> u64 {
        self as u64
    }

    /// The one that has this number; `None` if none has it.
    pub fn from_number(number: u64) -> Option<Reading> {
        Reading::ALL.into_iter().find(|reading| reading.number() == number)
    }
}

/// Why a validation has no value: an [`Error`] that also says which input was being read.
#[derive(Clone, Copy, Debug, PartialEq, Eq, Hash)]
pub enum ValidationError {
    /// The input is refused. The result is as lent.
    Refused {
        /// Why and where.
        refusal: Refusal,
        /// Which input was being read. It is [`Reading::Spec`] for a refusal of "reading `spec`" and [`Reading::CheckedType`] for one of
        /// "reading `ty`"; the number is 1 to 6 then, and the place is in that input. For every other it is [`Reading::Neither`].
        reading: Reading,
    },
    /// As [`Error::NotUnderstood`].
    NotUnderstood,
}

/// Without the word on what was being read.
impl From<ValidationError> for Error {
    fn from(error: ValidationError) -> Self {
        match error {
            ValidationError::Refused { refusal, .. } => Error::Refused(refusal),
            ValidationError::NotUnderstood => Error::NotUnderstood,
        }
    }
}

impl fmt::Display for ValidationError {
    fn fmt(&self, f: &mut fmt::Formatter<'_>) -> fmt::Result {
        Error::from(*self).fmt(f)?;
        match self {
            ValidationError::Refused { reading: Reading::Spec, .. } => {
                f.write_str(", reading the spec")
            }
            ValidationError::Refused { reading: Reading::CheckedType, .. } => {
                f.write_str(", reading the type")
            }
            _ => Ok(()),
        }
    }
}

impl std::error::Error for ValidationError {}

/// What a validation answers, once it has perhaps written the result.
pub(crate) fn validated(validation: Validation, result: &[u8]) -> Result<&[u8], ValidationError> {
    match (validation.answer.written(result), Reading::from_number(validation.reading)) {
        (Ok(ty), Some(Reading::Neither)) => Ok(ty),
        (Err(Error::Refused(refusal)), Some(reading)) => {
            Err(ValidationError::Refused { refusal, reading })
        }
        _ => Err(ValidationError::NotUnderstood),
    }
}

/// A spec on a type: the type as it then is. Checks the scalar and then the shape. Of the spec the opening sizes alone are compared, for a
/// side from the front or from the end; a type that passes for a side is open afterwards. Contents of boxes are validated without side.
///
/// Answers what was written, a type.
///
/// Refused: reading `spec`; reading `ty`; then at 0 the first that is met of 9, 10, 14 or 5, contents of boxes first; result.
///
/// A shape that does not pass the spec's is refused 14 if its count of sizes cannot fit, else 10: a size differs. Where either is \[..\], it
/// passes. Counted are the spec's opening sizes, and the type's opening and closing ones together. It is 14 exactly if
/// - [`Side::Left`]: the type is closed and has fewer sizes than the spec;
/// - [`Side::Right`]: the type has fewer sizes than the spec;
/// - [`Side::Unsided`], a closed type: it has more or fewer than the spec, be that closed or open;
/// - [`Side::Unsided`], an open type: it names more than the spec; or fewer, and each of them equals the spec's, the opening ones from the
///   front and the closing ones from the end (? equals ? alone).
pub fn validate<'r>(
    side: Side,
    spec: &[u8],
    ty: &[u8],
    result: &'r mut [u8],
) -> Result<&'r [u8], ValidationError> {
    validated(declared::vg_validate(side.number(), spec, ty, result), result)
}

/// The shape of a spec on a type, as [`validate`] checks it: the type keeps its scalar.
///
/// Answers what was written, a type. Refused: reading `spec`; reading `ty`; 10 or 14 at 0; result.
pub fn check_shape<'r>(
    side: Side,
    spec: &[u8],
    ty: &[u8],
    result: &'r mut [u8],
) -> Result<&'r [u8], ValidationError> {
    validated(declared::vg_check_shape(side.number(), spec, ty, result), result)
}

/// The scalar of a spec on a type, as [`validate`] checks it, without side: the type keeps its shape.
///
/// Answers what was written, a type.
///
/// Refused: reading `spec`; reading `ty`; then at 0 the first that is met of 9, 10, 14 or 5, contents of boxes first (a 10 or 14 comes from
/// inside a box); result.
pub fn check_scalar<'r>(
    spec: &[u8],
    ty: &[u8],
    result: &'r mut [u8],
) -> Result<&'r [u8], ValidationError> {
    validated(declared::vg_check_scalar(spec, ty, result), result)
}
