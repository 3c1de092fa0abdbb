//! The step of a sheet that a place belongs to, so that a refusal can be said in words. Steps are told
//! by their bytes alone: no limit, no stack, no name in force and no rule has a say.

use std::ops::Range;

use crate::bytes::Reader;
use crate::sheet::{self, DECLARE, JOIN, PERVADE, PUT, ROW, Refused, USE, VALIDATE};

/// The marks, and the words for them.
const MARKS: [([u8; 2], &str); 7] = [
    (PUT, "put"),
    (ROW, "row"),
    (PERVADE, "pervade"),
    (JOIN, "join"),
    (VALIDATE, "validate"),
    (DECLARE, "declaration"),
    (USE, "use"),
];

/// Stands where the bytes are no mark of a step, or only one is left.
const UNMARKED: &str = "none";

/// The places of each step, in order: from its mark to the next one's. A step that cannot be read to its
/// end has all bytes that are left, and the place after the last: what is missing there is missing
/// from it.
pub fn places(sheet: &[u8]) -> Vec<Range<usize>> {
    let mut reader = Reader::new(sheet);
    let mut steps = Vec::new();
    while !reader.ended() {
        let start = reader.at;
        if sheet::pass(&mut reader).is_err() {
            steps.push(start..sheet.len() + 1);
            break;
        }
        steps.push(start..reader.at);
    }
    steps
}

/// The number of the step that this place belongs to, counted from 1, and its mark in words.
pub fn find(place: u64, sheet: &[u8]) -> Option<(usize, &'static str)> {
    let place = usize::try_from(place).ok()?;
    let steps = places(sheet);
    let index = steps.iter().position(|step| step.contains(&place))?;
    Some((index + 1, word(&sheet[steps[index].start..])))
}

/// The word for the mark that begins these bytes.
fn word(bytes: &[u8]) -> &'static str {
    let known = MARKS.iter().find(|(mark, _)| bytes.starts_with(mark));
    known.map_or(UNMARKED, |(_, word)| word)
}

/// Whether a refusal's place belongs to the step that was refused, by its number and by where it
/// begins. So it must for each refusal but 7, which is no step's.
pub fn found(sheet: &[u8], refused: &Refused) -> bool {
    let begins = places(sheet).get(refused.step - 1).map(|step| step.start);
    let told = find(refused.no.place as u64, sheet).map(|(step, _)| step);
    begins == Some(refused.mark) && told == Some(refused.step)
}
