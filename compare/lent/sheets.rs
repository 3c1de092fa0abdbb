//! Sheets: as the requests have them, and such that go wrong at a place of their own.

use crate::generate::{any_step, nameless, put, sheet_bytes};
use crate::invent::{self, Random};
use crate::limits::PLACES;
use crate::uiua::{Scalar, Type};
use crate::{naming, sheet};

/// Every third is one of any kind that was drawn without names and then gets some.
pub fn drawn(r: &mut Random) -> Vec<u8> {
    if r.one_in(3) {
        let sheet = any(r, nameless);
        return naming::named(r, &sheet);
    }
    any(r, sheet_bytes)
}

/// How sheets are drawn that are as the requests have them.
type Draw = fn(&mut Random) -> Vec<u8>;

pub fn any(r: &mut Random, draw: Draw) -> Vec<u8> {
    match r.below(12) {
        0 => unjudged(r),
        1 => lone_puts(r),
        2 => of_length(r),
        3 => broken(r, draw, |r| vec![r.next() as u8, r.next() as u8]),
        4 => broken(r, draw, |r| [&sheet::PERVADE[..], &[r.next() as u8]].concat()),
        _ => draw(r),
    }
}

fn small(r: &mut Random) -> Type {
    Scalar::Num.shaped(invent::shape(r))
}

/// Steps that do not ask what the stack has.
fn unjudged(r: &mut Random) -> Vec<u8> {
    let steps = r.below(12);
    let one = |r: &mut Random| if r.one_in(2) { put(&small(r)) } else { any_step(r) };
    (0..steps).flat_map(|_| one(r)).collect()
}

/// From one type fewer than the stack holds to two more, now and then the largest, then some rows.
fn lone_puts(r: &mut Random) -> Vec<u8> {
    let puts = PLACES - 1 + r.below(4);
    let largest = r.one_in(10);
    let one = |r: &mut Random| if largest { invent::largest() } else { invent::ty(r) };
    let mut bytes: Vec<u8> = (0..puts).flat_map(|_| put(&one(r))).collect();
    bytes.extend(sheet::ROW.repeat(r.below(4)));
    bytes
}

/// 63 to 66 steps, of which nearly all are rows, or puts and joins by turns.
fn of_length(r: &mut Random) -> Vec<u8> {
    let steps = 63 + r.below(4);
    let rows = r.one_in(2);
    let mut bytes = put(&small(r));
    for step in 1..steps {
        bytes.extend(match step % 2 {
            _ if rows => sheet::ROW.into(),
            1 => put(&small(r)),
            _ => sheet::JOIN.to_vec(),
        });
    }
    bytes
}

/// A sheet with something in between, at the end of one of its steps.
fn broken(r: &mut Random, draw: Draw, what: impl Fn(&mut Random) -> Vec<u8>) -> Vec<u8> {
    let (before, after) = (draw(r), draw(r));
    [put(&small(r)), put(&small(r)), before, what(r), after].concat()
}
