//! Answers: refusals, and how what the library says becomes a value of Rust's. What is not understood never looks like one.

use std::cmp::Ordering;
use std::fmt;

use super::declared::Answer;
use super::Size;

/// Why an input is refused, one of sixteen numbers, and what place it names. In a lone type a place is a byte of the type, in a sheet a
/// byte of the sheet.
#[derive(Clone, Copy, Debug, PartialEq, Eq, Hash)]
#[repr(u64)]
pub enum Why {
    /// The bytes end inside a record or a type. Place: first byte of the record begun or due.
    Ended = 1,
    /// Two bytes that are no mark allowed there. Place: the first of them.
    Unmarked = 2,
    /// A count, a code, a flag, or the length or a byte of a name that is out of range. Place: first byte of its record or step; 0 for
    /// more than [`MAX_SIZES`](super::MAX_SIZES) numbers.
    OutOfRange = 3,
    /// A size above [`MAX_SIZE`](super::MAX_SIZE) that is not ?. Place: first byte of its shape's record; its index for a number.
    Oversized = 4,
    /// More than [`MAX_TYPES`](super::MAX_TYPES) types, [`MAX_DEPTH`](super::MAX_DEPTH) deep or [`MAX_FIELDS`](super::MAX_FIELDS) copies.
    /// Place: first byte of the type that is one too many; where a rule would make it, 0, in a sheet its step's mark.
    TooMany = 5,
    /// Bytes after a lone type. Place: the first of them, which is the length of the type before them.
    Trailing = 6,
    /// A result too short for what is to be written; it is found last, after any other refusal. Place: 0, for a sheet its length. Or a
    /// scratch under [`SCRATCH_BYTES`](super::SCRATCH_BYTES); it is found first of all. Place: 0.
    TooShort = 7,
    /// Two shapes that cannot pervade. Place: 0, in a sheet the step's mark; so for 9, 10 and 14.
    Unpervaded = 8,
    /// A spec's scalar that is no superset of the type's.
    WrongScalar = 9,
    /// A type's shape that does not pass the spec's: a size differs ([`validate`](super::validate) says when it is 14 instead).
    WrongShape = 10,
    /// A step that lacks types on the stack. Place: its mark.
    Underflow = 11,
    /// A seventh type on the stack, or a 65th step. Place: the step's mark.
    Overflow = 12,
    /// NaN, a negative number or a fraction where a size is wanted. Place: its index; 0 for a lone number.
    NotASize = 13,
    /// A type's shape that does not pass the spec's: so many sizes cannot fit ([`validate`](super::validate) says when exactly).
    WrongCount = 14,
    /// A use of a name that no step before it declares. Place: the step's mark.
    Undeclared = 15,
    /// A declaration of a seventeenth name. Place: the step's mark.
    TooManyNames = 16,
}

impl Why {
    /// All sixteen, by their numbers.
    pub const ALL: [Why; 16] = [
        Why::Ended,
        Why::Unmarked,
        Why::OutOfRange,
        Why::Oversized,
        Why::TooMany,
        Why::Trailing,
        Why::TooShort,
        Why::Unpervaded,
        Why::WrongScalar,
        Why::WrongShape,
        Why::Underflow,
        Why::Overflow,
        Why::NotASize,
        Why::WrongCount,
        Why::Undeclared,
        Why::TooManyNames,
    ];

    /// Its number, 1 to 16.
    pub fn number(self) -> u64 {
        self as u64
    }

    /// The one that has this number; `None` if none has it.
    pub fn from_number(number: u64) -> Option<Why> {
        Why::ALL.into_iter().find(|why| why.number() == number)
    }
}

/// In words, as part of a sentence.
impl fmt::Display for Why {
    fn fmt(&self, f: &mut fmt::Formatter<'_>) -> fmt::Result {
        f.write_str(match self {
            Why::Ended => "the bytes end inside a record or a type",
            Why::Unmarked => "two bytes that are no mark allowed there",
            Why::OutOfRange => {
                "a count, a code, a flag, or the length or a byte of a name that is out of range"
            }
            Why::Oversized => "a size above 2^53 that is not unknown",
            Why::TooMany => "too many types, too deep, or too many copies",
            Why::Trailing => "bytes after a lone type",
            Why::TooShort => "a result or a scratch that is too short",
            Why::Unpervaded => "two shapes that cannot pervade",
            Why::WrongScalar => "a spec's scalar that is no superset of the type's",
            Why::WrongShape => "a type's shape that does not pass the spec's: a size differs",
            Why::Underflow => "a step that lacks types on the stack",
            Why::Overflow => "a seventh type on the stack, or a 65th step",
            Why::NotASize => "NaN, a negative number or a fraction where a size is wanted",
            Why::WrongCount => {
                "a type's shape that does not pass the spec's: so many sizes cannot fit"
            }
            Why::Undeclared => "a use of a name that no step before it declares",
            Why::TooManyNames => "a declaration of a seventeenth name",
        })
    }
}

/// A refusal: why, and the place that it names.
#[derive(Clone, Copy, Debug, PartialEq, Eq, Hash)]
pub struct Refusal {
    /// Why, which also says what the place is.
    pub why: Why,
    /// The place: a byte of the input, or an index of a number.
    pub place: usize,
}

/// Its number, its place, and why in words.
impl fmt::Display for Refusal {
    fn fmt(&self, f: &mut fmt::Formatter<'_>) -> fmt::Result {
        write!(f, "refused {} at {}: {}", self.why.number(), self.place, self.why)
    }
}

impl std::error::Error for Refusal {}

/// Why a call has no value.
#[derive(Clone, Copy, Debug, PartialEq, Eq, Hash)]
pub enum Error {
    /// The input is refused. What was lent to be written is as it was lent; only [`check_sheet`](super::check_sheet) clears its scratch.
    Refused(Refusal),
    /// The library's answer is none that this binding knows: it is of another [`version`](super::version). What was lent to be written
    /// may hold anything.
    NotUnderstood,
}

impl fmt::Display for Error {
    fn fmt(&self, f: &mut fmt::Formatter<'_>) -> fmt::Result {
        match self {
            Error::Refused(refusal) => refusal.fmt(f),
            Error::NotUnderstood => f.write_str("an answer that is not understood"),
        }
    }
}

impl std::error::Error for Error {}

/// Kinds of an answer: refused; a value; none of what was asked for.
pub(crate) const REFUSED: u64 = 0;
pub(crate) const VALUE: u64 = 1;
pub(crate) const NONE: u64 = 2;

/// A number of the library's as a length, a count or an index.
pub(crate) fn as_usize(number: u64) -> Result<usize, Error> {
    usize::try_from(number).map_err(|_| Error::NotUnderstood)
}

/// Each takes out what its calls answer. Numbers that a kind of answer does not use are 0, or it is not understood.
impl Answer {
    /// Both numbers of a value, or none.
    pub(crate) fn perhaps(self) -> Result<Option<(u64, u64)>, Error> {
        match self {
            Answer { kind: REFUSED, number, place, first: 0, second: 0 } => {
                let why = Why::from_number(number).ok_or(Error::NotUnderstood)?;
                Err(Error::Refused(Refusal { why, place: as_usize(place)? }))
            }
            Answer { kind: VALUE, number: 0, place: 0, first, second } => Ok(Some((first, second))),
            Answer { kind: NONE, number: 0, place: 0, first: 0, second: 0 } => Ok(None),
            _ => Err(Error::NotUnderstood),
        }
    }

    /// Both numbers of a value.
    pub(crate) fn value(self) -> Result<(u64, u64), Error> {
        self.perhaps()?.ok_or(Error::NotUnderstood)
    }

    /// The one number of a value, or none.
    pub(crate) fn perhaps_number(self) -> Result<Option<u64>, Error> {
        match self.perhaps()? {
            Some((number, 0)) => Ok(Some(number)),
            None => Ok(None),
            _ => Err(Error::NotUnderstood),
        }
    }

    /// The one number of a value.
    pub(crate) fn number(self) -> Result<u64, Error> {
        self.perhaps_number()?.ok_or(Error::NotUnderstood)
    }

    /// Accepted, and nothing more.
    pub(crate) fn accepted(self) -> Result<(), Error> {
        match self.number()? {
            0 => Ok(()),
            _ => Err(Error::NotUnderstood),
        }
    }

    /// Yes or no.
    pub(crate) fn yes(self) -> Result<bool, Error> {
        match self.number()? {
            0 => Ok(false),
            1 => Ok(true),
            _ => Err(Error::NotUnderstood),
        }
    }

    /// An order.
    pub(crate) fn order(self) -> Result<Ordering, Error> {
        match self.number()? {
            0 => Ok(Ordering::Less),
            1 => Ok(Ordering::Equal),
            2 => Ok(Ordering::Greater),
            _ => Err(Error::NotUnderstood),
        }
    }

    /// A count, at most this one.
    pub(crate) fn count(self, most: usize) -> Result<usize, Error> {
        match as_usize(self.number()?)? {
            count if count <= most => Ok(count),
            _ => Err(Error::NotUnderstood),
        }
    }

    /// A size, or none.
    pub(crate) fn perhaps_size(self) -> Result<Option<Size>, Error> {
        match self.perhaps_number()? {
            Some(number) => Size::from_number(number).map(Some).ok_or(Error::NotUnderstood),
            None => Ok(None),
        }
    }

    /// A size.
    pub(crate) fn size(self) -> Result<Size, Error> {
        self.perhaps_size()?.ok_or(Error::NotUnderstood)
    }

    /// What was written to the front of the result, or none.
    pub(crate) fn perhaps_written<T>(self, result: &[T]) -> Result<Option<&[T]>, Error> {
        match self.perhaps_number()? {
            Some(length) => result.get(..as_usize(length)?).map(Some).ok_or(Error::NotUnderstood),
            None => Ok(None),
        }
    }

    /// What was written to the front of the result.
    pub(crate) fn written(self, result: &[u8]) -> Result<&[u8], Error> {
        self.perhaps_written(result)?.ok_or(Error::NotUnderstood)
    }
}
