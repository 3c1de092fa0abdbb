//! Holds a sheet's pervading (filled.rs) beside the Rust's function. Unfilled, they must be equal.
//! Filled, they must refuse alike and be equal but at the indices of which 2026-01 speaks: there the
//! sheet has ?. Then the test of two opening lists (failing.rs) beside the Rust's: they must say yes to
//! just the same pairs. At last the steps as they are found by their bytes alone (steps.rs) beside the
//! sheet check: the place of a refusal must belong to the step that was refused.

use crate::edges::{lists, small_shapes};
use crate::failing::{self, Verdict};
use crate::invent::{self, Random};
use crate::limits::{SIZES, STEPS};
use crate::requests::hex;
use crate::sheet::{Refused, VALIDATED, steps_worked};
use crate::uiua::{Dim, DynShape};
use crate::{filled, opposed, placing, rules, steps};

/// Pairs of longer shapes, and sheets, drawn at random.
const DRAWN: usize = 500_000;
const SHEETS: usize = 200_000;
/// All pairs of lists of up to so many sizes are tested.
const LONGEST: usize = 5;
/// Differences printed.
const SHOWN: usize = 10;

/// Whether all are as they must be.
pub fn all() -> bool {
    pervadings() & tests() & finds()
}

/// All pairs of small shapes, then drawn ones, each with every flag.
fn pervadings() -> bool {
    let mut tally = Tally::default();
    let shapes = small_shapes();
    for (a, b) in shapes.iter().flat_map(|a| shapes.iter().map(move |b| (a, b))) {
        tally.pair(a, b);
    }
    let mut random = Random(1);
    for _ in 0..DRAWN {
        let (a, b) = invent::pair(&mut random);
        tally.pair(&a.shape, &b.shape);
    }
    tally.summary();
    tally.differing == 0
}

#[derive(Default)]
struct Tally {
    /// Pervadings that are the Rust's, and those in which 2026-01 makes a difference.
    equal: usize,
    changed: usize,
    differing: usize,
}

impl Tally {
    fn pair(&mut self, a: &DynShape, b: &DynShape) {
        (0..4).for_each(|flag| self.one(flag, a, b));
    }

    fn one(&mut self, flag: u64, a: &DynShape, b: &DynShape) {
        let rusts = rules::pervade(flag, a.clone(), b.clone());
        let wanted = rusts.clone().map(|shape| spoken(flag, a, b, shape));
        let sheets = filled::pervade(flag, a.clone(), b.clone());
        if sheets != wanted {
            self.differing += 1;
            if self.differing <= SHOWN {
                println!("pervade {flag} {a:?} {b:?}\n  wanted {wanted:?}\n  sheet  {sheets:?}");
            }
        } else if sheets == rusts {
            self.equal += 1;
        } else {
            self.changed += 1;
        }
    }

    fn summary(&self) {
        let Tally { equal, changed, differing } = self;
        let sum = equal + changed + differing;
        println!("{sum} pervadings: {equal} the Rust's, {changed} by 2026-01, {differing} differ");
    }
}

/// The Rust's answer with ? at the indices of which 2026-01 speaks.
fn spoken(flag: u64, a: &DynShape, b: &DynShape, mut shape: DynShape) -> DynShape {
    let top = if flag & 1 == 0 { Vec::new() } else { met_by_unknown(a, b) };
    let below = if flag & 2 == 0 { Vec::new() } else { met_by_unknown(b, a) };
    top.into_iter().chain(below).for_each(|index| shape.dims[index] = Dim::Dyn);
    shape
}

/// The indices at which `own` has 0, 2, 3 and so on, and `other` has ? or, being open, nothing.
fn met_by_unknown(own: &DynShape, other: &DynShape) -> Vec<usize> {
    let unknown = |index: usize| match &other.dims[..] {
        dims if index < dims.len() => dims[index] == Dim::Dyn,
        _ => other.suffix.is_some(),
    };
    let sizes = own.dims.iter().enumerate();
    let fixed = sizes.filter(|(_, size)| ![Dim::Dyn, Dim::Static(1)].contains(size));
    fixed.map(|(index, _)| index).filter(|&index| unknown(index)).collect()
}

/// All pairs of small shapes and of lists, then drawn ones.
fn tests() -> bool {
    let mut tests = Tests::default();
    let closed: Vec<DynShape> = lists(LONGEST).into_iter().map(Into::into).collect();
    for shapes in [small_shapes(), closed] {
        shapes.iter().for_each(|a| shapes.iter().for_each(|b| tests.one(a, b)));
    }
    let mut random = Random(1);
    for _ in 0..DRAWN {
        let (a, b) = opposed::pair(&mut random);
        tests.one(&a.shape, &b.shape);
    }
    tests.summary();
    tests.differing == 0
}

#[derive(Default)]
struct Tests {
    yes: usize,
    /// The noes that name an index, by this.
    at: [usize; SIZES],
    counts: usize,
    differing: usize,
}

impl Tests {
    fn one(&mut self, a: &DynShape, b: &DynShape) {
        let says_yes = a.compatible_with(b);
        match failing::verdict(says_yes, a, b) {
            Some(Verdict::Yes) => self.yes += 1,
            Some(Verdict::Index(index)) => self.at[index] += 1,
            Some(Verdict::Counts) => self.counts += 1,
            None => {
                self.differing += 1;
                if self.differing <= SHOWN {
                    println!("compatible_with says {says_yes} to {a:?} {b:?}");
                }
            }
        }
    }

    fn summary(&self) {
        let Tests { yes, at, counts, differing } = self;
        let sum = yes + at.iter().sum::<usize>() + counts + differing;
        print!("{sum} tests: {yes} yes, no at each index {at:?}, {counts} of other counts, ");
        println!("{differing} differ");
    }
}

/// Drawn sheets, as they are drawn for `find_step`.
fn finds() -> bool {
    let mut finds = Finds::default();
    let mut random = Random(1);
    for _ in 0..SHEETS {
        finds.one(&placing::any_sheet(&mut random));
    }
    finds.summary();
    finds.differing == 0
}

#[derive(Default)]
struct Finds {
    accepted: usize,
    /// The refusals, by number, and those of the first step too many.
    refused: [usize; NUMBERS],
    too_many: usize,
    differing: usize,
}

/// One more than there are numbers of a refusal.
const NUMBERS: usize = 17;

impl Finds {
    fn one(&mut self, sheet: &[u8]) {
        let Err(refused) = steps_worked(sheet, VALIDATED) else {
            self.accepted += 1;
            return;
        };
        if steps::found(sheet, &refused) {
            let Refused { no, step, .. } = refused;
            self.refused[no.number as usize] += 1;
            self.too_many += (step > STEPS) as usize;
            return;
        }
        self.differing += 1;
        if self.differing <= SHOWN {
            println!("{refused:?} in {}", hex(sheet));
        }
    }

    fn summary(&self) {
        let Finds { accepted, refused, too_many, differing } = self;
        let sum = accepted + refused.iter().sum::<usize>() + differing;
        print!("{sum} sheets: {accepted} accepted, refused by number");
        for (number, count) in refused.iter().enumerate().filter(|(_, count)| **count > 0) {
            print!(" {number}:{count}");
        }
        println!(", {too_many} at the 65th step; {differing} are of another step");
    }
}
