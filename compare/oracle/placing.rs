//! Places in sheets, whole and broken, for `find_step`, and bytes that a type begins, for
//! `type_length`: at random, every place of every beginning of a few sheets, and every limit.

use std::io::Result;

use crate::bytes::{Reader, type_bytes};
use crate::edges::{self, harmed};
use crate::generate::{Lines, any_step, hex_word, put, sheet_bytes, validate};
use crate::invent::{self, BYTES, Random};
use crate::limits::STEPS;
use crate::naming::{self, declared, used};
use crate::uiua::{Dim, DynShape, Scalar, Type};
use crate::{sheet, steps};

// At random.

/// A place and a sheet, each after a space.
pub fn drawn(r: &mut Random) -> String {
    let sheet = any_sheet(r);
    format!(" {} {}", place(r, &sheet), hex_word(&sheet))
}

/// As the sheet check has them, accepted or refused; with more steps than it takes; two with something
/// between; and every fourth cut off somewhere.
pub fn any_sheet(r: &mut Random) -> Vec<u8> {
    let mut sheet = match r.below(8) {
        0 => long(r),
        1 => [sheet_bytes(r), any_step(r), sheet_bytes(r)].concat(),
        _ => sheet_bytes(r),
    };
    if r.one_in(4) {
        sheet.truncate(r.below(sheet.len() + 1));
    }
    sheet
}

/// Steps that ask for no stack and no name, around as many as a sheet may have or many more; seldom
/// one of them is none.
fn long(r: &mut Random) -> Vec<u8> {
    let count = r.pick(&[STEPS - 1, STEPS, STEPS + 1, STEPS + 2, 100, 257, 1_000]);
    let small = Scalar::Num.shaped(invent::size(r));
    let one = |r: &mut Random| match r.below(7) {
        0 => put(&small),
        1 => validate(&small),
        2 => declared(b"n", &type_bytes(&small)),
        3 => used(b"n"),
        4 => vec![b'P', b'V', r.below(4) as u8],
        5 if r.one_in(400) => any_step(r),
        5 => sheet::JOIN.into(),
        _ => sheet::ROW.into(),
    };
    (0..count).flat_map(|_| one(r)).collect()
}

/// The mark of a step or a place beside it, the place that the check refuses, any place of the sheet,
/// the end of it, past that, and so far past it that only the low bytes are of the sheet.
fn place(r: &mut Random, sheet: &[u8]) -> u64 {
    let end = sheet.len() as u64;
    let within = r.below(sheet.len() + 1) as u64;
    let marks: Vec<u64> = steps::places(sheet).iter().map(|step| step.start as u64).collect();
    let mark = if marks.is_empty() { 0 } else { r.pick(&marks) };
    let any = r.next();
    match r.below(12) {
        0..4 => r.pick(&[mark, mark, mark + 1, mark.saturating_sub(1)]),
        4 => end,
        5 => end + r.pick(&[0, 1, 2]),
        6 => r.pick(&[u64::MAX, u64::MAX - 1, u64::MAX - end, 1 << 63, any]),
        7 => within + (1 << r.pick(&[8, 16, 32, 63])),
        8 | 9 => sheet::run(sheet).err().map_or(end, |no| no.place as u64),
        _ => within,
    }
}

/// A type, whole, cut off or damaged, and what follows it.
pub fn begun(r: &mut Random) -> String {
    let mut ty = if r.one_in(100) { invent::largest() } else { invent::ty(r) };
    if r.one_in(12) {
        invent::at_a_limit(r, &mut ty);
    }
    let mut bytes = type_bytes(&ty);
    match r.below(12) {
        0..3 => bytes.truncate(r.below(bytes.len() + 1)),
        3 => bytes = invent::damaged(r, bytes),
        _ => {}
    }
    bytes.extend(behind(r));
    let word = format!(" {}", hex_word(&bytes));
    if r.one_in(50) { word.to_uppercase() } else { word }
}

/// Nothing, any bytes, a type or the beginning of one, or a step.
fn behind(r: &mut Random) -> Vec<u8> {
    match r.below(8) {
        0..2 => Vec::new(),
        2 => vec![r.pick(&BYTES)],
        3 => (0..1 + r.below(20)).map(|_| r.next() as u8).collect(),
        4 => put(&invent::ty(r)),
        5 => {
            let bytes = type_bytes(&invent::ty(r));
            bytes[..r.below(bytes.len())].into()
        }
        _ => type_bytes(&invent::ty(r)),
    }
}

// Without a seed.

pub fn edges(out: &mut Lines) -> Result<()> {
    lengths(out)?;
    for sheet in [edges::sample_sheet(), naming::sample(), deep()] {
        every_place(out, &sheet)?;
        harmed(&sheet).iter().try_for_each(|sheet| at_steps(out, sheet))?;
    }
    marks(out)?;
    many(out)?;
    limits(out)
}

fn find(out: &mut Lines, place: u64, sheet: &[u8]) -> Result<()> {
    out.line("find_step", format!(" {place} {}", hex_word(sheet)))
}

/// A name of sixteen letters, boxes, fields, closing sizes and a step that is none at the end.
fn deep() -> Vec<u8> {
    let shape = DynShape { dims: vec![Dim::Dyn], suffix: Some(vec![Dim::Static(3)]) };
    let fields = vec![invent::nested(Scalar::Char.shaped(shape), 2), Type::default()];
    let def = invent::def(Some("name"), fields);
    let checked = [put(&def), validate(&invent::all(Type::default()))].concat();
    let named = declared(invent::LONG_NAME.as_bytes(), &type_bytes(&def));
    [checked, named, used(invent::LONG_NAME.as_bytes()), b"PV\x03".into(), b"XX".into()].concat()
}

/// Every place of every beginning of a sheet, the two after its end, and the largest there is.
fn every_place(out: &mut Lines, sheet: &[u8]) -> Result<()> {
    for end in 0..=sheet.len() {
        for place in (0..=end as u64 + 2).chain([u64::MAX]) {
            find(out, place, &sheet[..end])?;
        }
    }
    Ok(())
}

/// Each step's mark, the byte before it, where the check refuses, and the end.
fn at_steps(out: &mut Lines, sheet: &[u8]) -> Result<()> {
    let marks = steps::places(sheet).into_iter().map(|step| step.start);
    let refused = sheet::run(sheet).err().map(|no| no.place);
    let beside = marks.flat_map(|mark| [mark.saturating_sub(1), mark]);
    let mut places: Vec<usize> =
        beside.chain(refused).chain([sheet.len(), sheet.len() + 1]).collect();
    places.sort();
    places.dedup();
    places.iter().try_for_each(|&place| find(out, place as u64, sheet))
}

/// Every two bytes before a row, every byte alone, and every byte after a mark that takes one.
fn marks(out: &mut Lines) -> Result<()> {
    let row = sheet::ROW;
    for first in 0..=255 {
        for second in 0..=255 {
            find(out, 2, &[&[first, second], &row[..]].concat())?;
        }
        at_steps(out, &[first])?;
        at_steps(out, &[&row[..], &[first]].concat())?;
        for mark in [sheet::PERVADE, sheet::DECLARE, sheet::USE] {
            at_steps(out, &[&mark[..], &[first], &row].concat())?;
        }
    }
    let words = [*b"PU", *b"RW", *b"PV", *b"JN", *b"VA", *b"NM", *b"US"];
    words.iter().try_for_each(|mark| at_steps(out, mark))
}

/// As many steps as a sheet may have, more, and as many as a line holds: all are counted.
fn many(out: &mut Lines) -> Result<()> {
    let near = [STEPS - 2, STEPS - 1, STEPS, STEPS + 1, STEPS + 2];
    let num = put(&Scalar::Num.shaped(3));
    let declaration = declared(b"n", &type_bytes(&Scalar::Num.shaped(3)));
    let turns = [num, sheet::ROW.into(), b"PV\0".into(), used(b"n"), declaration];
    for count in near.into_iter().chain([255, 256, 257, 1_000]) {
        for step in &turns {
            let whole = step.repeat(count);
            let last = whole.len() - step.len();
            let places = [0, step.len(), last - 1, last, last + 1, whole.len() - 1, whole.len()];
            places.iter().try_for_each(|&place| find(out, place as u64, &whole))?;
            find(out, whole.len() as u64, &[&whole[..], b"R"].concat())?;
            find(out, whole.len() as u64 + 2, &[&whole[..], b"PU"].concat())?;
        }
    }
    let rows = sheet::ROW.repeat(30_000);
    [0, 59_998, 59_999, 60_000].iter().try_for_each(|&place| find(out, place, &rows))
}

/// Every limit of a type and of a name: before a row, that is a step of its own only if all before it
/// can be read.
fn limits(out: &mut Lines) -> Result<()> {
    let row = &sheet::ROW[..];
    for ty in edges::limits() {
        for step in [put(&ty), validate(&ty), declared(b"n", &type_bytes(&ty))] {
            at_steps(out, &[&step, row].concat())?;
        }
    }
    let scalar = type_bytes(&Scalar::Num.scalar_type());
    for name in naming::at_limits() {
        at_steps(out, &[&declared(&name, &scalar), row].concat())?;
        at_steps(out, &[&used(&name), row].concat())?;
    }
    Ok(())
}

/// Types at every limit, and a few cut and changed at each byte: alone, and before other bytes.
fn lengths(out: &mut Lines) -> Result<()> {
    let mut length = |bytes: &[u8]| out.line("type_length", format!(" {}", hex_word(bytes)));
    let other = type_bytes(&Scalar::Num.shaped(3));
    for bytes in edges::limits().iter().map(type_bytes) {
        for rest in [&b""[..], b"\0", b"SH", b"SC\x03", &other, b"PU"] {
            length(&[&bytes, rest].concat())?;
        }
    }
    for bytes in edges::samples().iter().flat_map(|ty| harmed(&type_bytes(ty))) {
        length(&bytes)?;
        // What ends too soon goes on in what follows, as if it were its own.
        let short = Reader::new(&bytes).outermost().is_err_and(|no| no.number == 1);
        length(&[&bytes[..], if short { &other } else { b"\0" }].concat())?;
    }
    Ok(())
}
