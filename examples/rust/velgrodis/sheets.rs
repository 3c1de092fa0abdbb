//! The sheet.

use super::answer::as_usize;
use super::declared::{self, Answer};
use super::{Error, MAX_STACK};

/// What a sheet leaves.
#[derive(Clone, Copy, Debug, PartialEq, Eq)]
pub struct Left<'r> {
    /// How many types.
    pub types: usize,
    /// The types, bottom first, one after the other. To part them: [`type_length`](super::type_length) of what is left of these bytes is
    /// the length of the next.
    pub bytes: &'r [u8],
}

/// Checks a sheet: works its steps in order on a stack of types, and writes the types left to the result, bottom first, one after the
/// other.
///
/// A declaration names a type for the uses after it, until the name is declared again. It takes no type and lays none down, and asks for
/// nothing more of the scratch or the result. A use puts the type that its name stands for there. A step's pervading is that of
/// [`pervade`](super::pervade), but where a static size other than 1 is filled on its own side and meets ?, or nothing in an open shape,
/// it gives ?: the real size there may grow.
///
/// Answers how many types are left, and their bytes, the front of the result.
///
/// Refused: 7 at 0, if the scratch is under [`SCRATCH_BYTES`](super::SCRATCH_BYTES). Then the first that is met, step by step, and in a
/// step in this order:
/// - 12 at the step, if it is the 65th, whatever its bytes are; 1 or 2 at the step, for its mark;
/// - 11 at the step, if the stack lacks the types it takes; 12 at the step, if it puts a seventh, also by a name, whatever that is;
/// - 1 or 3 at the step, for a flag byte, or for a name, byte by byte; 1 to 5 for the type that follows, places in the sheet;
/// - 8, 9, 10, 14 or 5 at the step, for its rule; 15 at the step, for a use of a name that no step before it declares; 16 at the step,
///   for a declaration of one more than [`MAX_NAMES`](super::MAX_NAMES) different names.
///
/// At last 7 at the sheet's length, exactly if the types left do not fit into the result. [`TYPE_BYTES`](super::TYPE_BYTES) for each of
/// them are always enough, and [`SHEET_RESULT_BYTES`](super::SHEET_RESULT_BYTES) for every sheet.
///
/// A refusal leaves the whole result as lent. Whatever is answered, the first [`SCRATCH_BYTES`](super::SCRATCH_BYTES) bytes of the scratch
/// are then 0 and later ones as lent; a scratch that is too short stays as lent. What the scratch held before makes no difference, and a
/// longer one changes no answer.
pub fn check_sheet<'r>(
    sheet: &[u8],
    result: &'r mut [u8],
    scratch: &mut [u8],
) -> Result<Left<'r>, Error> {
    left(declared::vg_check_sheet(sheet, result, scratch), result)
}

/// What the check of a sheet answers, once it has perhaps written the result.
pub(crate) fn left(answer: Answer, result: &[u8]) -> Result<Left<'_>, Error> {
    let (types, length) = answer.value()?;
    let types = as_usize(types)?;
    match result.get(..as_usize(length)?) {
        Some(bytes) if types <= MAX_STACK => Ok(Left { types, bytes }),
        _ => Err(Error::NotUnderstood),
    }
}

/// The mark of a step.
#[derive(Clone, Copy, Debug, PartialEq, Eq, Hash)]
#[repr(u64)]
pub enum Mark {
    /// No mark of a step: other bytes, or one alone.
    NoMark = 0,
    /// Puts the type that follows.
    Put = 0x5055,
    /// The row of the top.
    Row = 0x5257,
    /// The pervading of two, with a flag byte that says what is filled.
    Pervade = 0x5056,
    /// The join of two.
    Join = 0x4A4E,
    /// Validates the top by the spec that follows.
    Validate = 0x5641,
    /// Declares the name that follows for the type behind it.
    Declaration = 0x4E4D,
    /// Puts the type that the name that follows stands for.
    Use = 0x5553,
}

impl Mark {
    /// All of them.
    pub const ALL: [Mark; 8] = [
        Mark::NoMark,
        Mark::Put,
        Mark::Row,
        Mark::Pervade,
        Mark::Join,
        Mark::Validate,
        Mark::Declaration,
        Mark::Use,
    ];

    /// Its number: its first byte times 256 and its second; 0 for no mark.
    pub fn number(self) -> u64 {
        self as u64
    }

    /// The one that has this number; `None` if none has it.
    pub fn from_number(number: u64) -> Option<Mark> {
        Mark::ALL.into_iter().find(|mark| mark.number() == number)
    }
}

/// A step of a sheet.
#[derive(Clone, Copy, Debug, PartialEq, Eq, Hash)]
pub struct Step {
    /// Its number, counted from 1.
    pub number: usize,
    /// Its mark.
    pub mark: Mark,
}

/// The step of a sheet that a place belongs to, so that a refusal can be said in words: behind two puts of 17 bytes each, 8 at 34 is of step
/// 3, pervade.
///
/// Steps are told by their bytes alone, whatever the stack, the names and the rules are, and however many they are. A step has the bytes from
/// its mark up to the next step's mark, or to the sheet's end. One that cannot be read to its end has all bytes that are left, and the place
/// behind the last: what is missing there is missing from it. So the place of a refusal of [`check_sheet`] belongs to the step that is refused.
/// Only a 7 is of no step, and is not to be asked for: for 7 at 0, the scratch, this call names step 1 of any sheet that has bytes.
///
/// Answers the step, or `None` if the place is past the end, or at the end and every step is whole. It is never refused.
pub fn find_step(sheet: &[u8], place: usize) -> Result<Option<Step>, Error> {
    step(declared::vg_find_step(sheet, place as u64))
}

/// What the search for a step answers.
pub(crate) fn step(answer: Answer) -> Result<Option<Step>, Error> {
    match answer.perhaps()? {
        None => Ok(None),
        Some((0, _)) => Err(Error::NotUnderstood),
        Some((number, mark)) => {
            let mark = Mark::from_number(mark).ok_or(Error::NotUnderstood)?;
            Ok(Some(Step { number: as_usize(number)?, mark }))
        }
    }
}
