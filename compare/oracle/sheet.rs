//! The sheet: steps on a stack of types (document 01, "The sheet, added"), and types under names
//! (document 02, 2026-06).

use crate::bytes::{No, Reader, no, type_bytes};
use crate::limits::{INPUT, PLACES, RESULT, SCRATCH, STEPS};
use crate::names::{self, Names};
use crate::uiua::Type;
use crate::{filled, rules, steps};

pub const PUT: [u8; 2] = *b"PU";
pub const ROW: [u8; 2] = *b"RW";
pub const PERVADE: [u8; 2] = *b"PV";
pub const JOIN: [u8; 2] = *b"JN";
pub const VALIDATE: [u8; 2] = *b"VA";
pub const DECLARE: [u8; 2] = *b"NM";
pub const USE: [u8; 2] = *b"US";

/// The sheet program: limits its input, and lends two buffers that suffice.
pub fn program(sheet: &[u8]) -> Result<Vec<Type>, No> {
    if sheet.len() > INPUT { no(7, 0) } else { call(SCRATCH, RESULT, sheet) }
}

/// The sheet check with buffers of these lengths.
pub fn call(scratch: usize, result: usize, sheet: &[u8]) -> Result<Vec<Type>, No> {
    if scratch < SCRATCH {
        return no(7, 0);
    }
    let left = told(sheet)?;
    if length(&left) > result { no(7, sheet.len()) } else { Ok(left) }
}

/// The types left. A refusal must be of the step to which its place belongs: an oracle that disagrees
/// with itself must not answer.
fn told(sheet: &[u8]) -> Result<Vec<Type>, No> {
    steps_worked(sheet, VALIDATED).map_err(|refused| {
        assert!(steps::found(sheet, &refused), "{refused:?} is of another step");
        refused.no
    })
}

pub fn length(types: &[Type]) -> usize {
    types.iter().map(|ty| type_bytes(ty).len()).sum()
}

/// The types left, bottom first.
pub fn run(sheet: &[u8]) -> Result<Vec<Type>, No> {
    run_with(sheet, VALIDATED)
}

/// How a spec, the first, is held against a type.
type Validation = fn(Type, Type) -> Result<Type, No>;

pub const VALIDATED: Validation = |spec, ty| rules::validated(None, spec, ty);

/// The same with another validation.
pub fn run_with(sheet: &[u8], validated: Validation) -> Result<Vec<Type>, No> {
    steps_worked(sheet, validated).map_err(|refused| refused.no)
}

/// A refusal with the step that was being worked: its number, counted from 1, and where its mark is.
#[derive(Debug)]
pub struct Refused {
    pub no: No,
    pub step: usize,
    pub mark: usize,
}

pub fn steps_worked(sheet: &[u8], validated: Validation) -> Result<Vec<Type>, Refused> {
    let mut reader = Reader::new(sheet);
    let (mut stack, mut names) = (Vec::new(), Names::default());
    let mut taken = 0;
    while !reader.ended() {
        let mark = reader.at;
        let outcome = if taken == STEPS {
            no(12, mark)
        } else {
            step(&mut reader, &mut stack, &mut names, validated)
        };
        taken += 1;
        outcome.map_err(|no| Refused { no, step: taken, mark })?;
    }
    Ok(stack)
}

/// One step: first its mark is judged, then the stack, then the step's bytes, then its rule.
fn step(
    reader: &mut Reader,
    stack: &mut Vec<Type>,
    names: &mut Names,
    validated: Validation,
) -> Result<(), No> {
    let place = reader.at;
    let mark = reader.mark()?;
    let Some((takes, lays)) = needs(mark) else {
        return no(2, place);
    };
    if stack.len() < takes {
        return no(11, place);
    }
    if stack.len() - takes + lays > PLACES {
        return no(12, place);
    }
    let at_the_mark = |refusal| No { place, ..refusal };
    let made = match mark {
        PUT => Ok(reader.outermost()?),
        ROW => Ok(taken(stack).into_row()),
        PERVADE => {
            let flag = flag(reader, place)?;
            let (top, below) = (taken(stack), taken(stack));
            pervaded(flag, top, below)
        }
        JOIN => {
            let (top, below) = (taken(stack), taken(stack));
            Ok(top | below)
        }
        VALIDATE => {
            let spec = reader.outermost()?;
            validated(spec, taken(stack))
        }
        DECLARE => {
            let name = names::read(reader, place)?;
            let ty = reader.outermost()?;
            return names.declare(name, ty).map_err(at_the_mark);
        }
        _ => names.in_force(&names::read(reader, place)?),
    };
    stack.push(made.map_err(at_the_mark)?);
    Ok(())
}

/// Goes over a step's bytes, whatever the stack has.
pub fn pass(reader: &mut Reader) -> Result<(), No> {
    let place = reader.at;
    match reader.mark()? {
        PUT | VALIDATE => reader.outermost().map(drop),
        ROW | JOIN => Ok(()),
        PERVADE => flag(reader, place).map(drop),
        DECLARE => names::read(reader, place).and_then(|_| reader.outermost().map(drop)),
        USE => names::read(reader, place).map(drop),
        _ => no(2, place),
    }
}

/// How many types a step takes off the stack and how many it lays down.
fn needs(mark: [u8; 2]) -> Option<(usize, usize)> {
    match mark {
        DECLARE => Some((0, 0)),
        PUT | USE => Some((0, 1)),
        ROW | VALIDATE => Some((1, 1)),
        PERVADE | JOIN => Some((2, 1)),
        _ => None,
    }
}

fn taken(stack: &mut Vec<Type>) -> Type {
    stack.pop().expect("the stack was judged")
}

fn flag(reader: &mut Reader, place: usize) -> Result<u64, No> {
    match reader.byte(place)? {
        flag @ 0..=3 => Ok(flag as u64),
        _ => no(3, place),
    }
}

fn pervaded(flag: u64, top: Type, below: Type) -> Result<Type, No> {
    let shape = filled::pervade(flag, top.shape, below.shape)?;
    let scalar = top.scalar.union(below.scalar);
    Ok(Type { scalar, shape })
}
