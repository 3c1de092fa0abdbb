//! Two opening lists for `compatible_with` to test (document 02, 2026-07): bare, as the contents of
//! boxes, and in sheets that join such boxes. At random, and every set of indices that fail.

use std::io::Result;

use crate::bytes::{KINDS, type_bytes};
use crate::generate::{Lines, hex_word, put};
use crate::invent::{self, Random, closing};
use crate::limits::{DEPTH, LARGEST, LENT, PLACES, SCRATCH, SIZES, STEPS};
use crate::requests::hex;
use crate::sheet;
use crate::uiua::{Dim, DynShape, Scalar, Type};

/// What is opposed: two sizes at one index, two lists, two types.
type Two<T> = (T, T);

/// Sizes that fail: small ones, the smallest and the largest, and for each byte such as differ in it
/// alone.
const FAILING: [Two<usize>; 10] = [
    (2, 3),
    (0, 2),
    (0, LARGEST),
    (LARGEST, LARGEST - 1),
    (258, 2),
    (2, 2 + (1 << 16)),
    (2 + (1 << 24), 2),
    (2 + (1 << 32), 2),
    (0, 1 << 40),
    (0, 1 << 48),
];

/// Sizes that agree: equal, or either 1 or ?.
const AGREEING: [Two<Dim>; 12] = {
    let (none, one, two, large) =
        (Dim::Static(0), Dim::Static(1), Dim::Static(2), Dim::Static(LARGEST));
    [
        (two, two),
        (one, two),
        (two, one),
        (Dim::Dyn, two),
        (two, Dim::Dyn),
        (Dim::Dyn, Dim::Dyn),
        (one, Dim::Dyn),
        (Dim::Dyn, one),
        (none, one),
        (Dim::Dyn, none),
        (none, none),
        (large, large),
    ]
};

fn statics((a, b): Two<usize>) -> Two<Dim> {
    (Dim::Static(a), Dim::Static(b))
}

// At random.

/// Two types whose shapes are opposed, or those of what they have inside.
pub fn pair(r: &mut Random) -> Two<Type> {
    let levels = r.pick(&[0, 0, 0, 0, 1, 1, 1, 2, 3, DEPTH - 1]);
    let (mut scalars, mut opposed) = (scalars(r, levels + 1), shapes(r));
    for _ in 0..levels {
        let (a, b) = (scalars.0.shaped(opposed.0), scalars.1.shaped(opposed.1));
        scalars = (invent::all(a).scalar, invent::all(b).scalar);
        opposed = if r.one_in(4) { same(invent::shape(r)) } else { shapes(r) };
    }
    (scalars.0.shaped(opposed.0), scalars.1.shaped(opposed.1))
}

fn same<T: Clone>(one: T) -> Two<T> {
    (one.clone(), one)
}

/// Mostly of one kind, boxes among them, for types at this depth.
fn scalars(r: &mut Random, depth: usize) -> Two<Scalar> {
    match r.below(6) {
        0 => (r.pick(&KINDS), r.pick(&KINDS)),
        1 => (Scalar::Num, Scalar::Int),
        2 => {
            let mut left = r.below(4);
            same(invent::type_at(r, &mut left, depth).scalar)
        }
        _ => same(r.pick(&KINDS)),
    }
}

/// Closing sizes are not looked at, so they may be anything.
fn shapes(r: &mut Random) -> Two<DynShape> {
    let (a, b) = lists(r);
    let closing = if r.one_in(2) { same(closing(r)) } else { (closing(r), closing(r)) };
    (DynShape { dims: a, suffix: closing.0 }, DynShape { dims: b, suffix: closing.1 })
}

/// Lists that pass, that fail at the last index, at the first, at another or at several, and lists of
/// different counts.
fn lists(r: &mut Random) -> Two<Vec<Dim>> {
    let count = r.pick(&[0, 1, 1, 2, 2, 2, 3, 3, 3, 4, 4, 5, 5, 6, 7, SIZES]);
    let greatest = match r.below(6) {
        0 => 0,
        1..4 => count.max(1) - 1,
        _ => r.below(count.max(1)),
    };
    // No index fails, or this one alone, or each before it may too.
    let form = r.below(6);
    let fails = |r: &mut Random, index: usize| match form {
        0 => false,
        1..4 => index == greatest,
        _ => index == greatest || index < greatest && r.one_in(2),
    };
    let mut one = |index| if fails(r, index) { failing(r) } else { agreeing(r) };
    let (mut a, mut b): Two<Vec<Dim>> = (0..count).map(&mut one).unzip();
    if r.one_in(5) {
        let shorter = if r.one_in(2) { &mut a } else { &mut b };
        shorter.truncate(r.below(count + 1));
    }
    if r.one_in(2) { (b, a) } else { (a, b) }
}

fn failing(r: &mut Random) -> Two<Dim> {
    let small = 2 + r.below(4);
    statics(if r.one_in(2) { r.pick(&FAILING) } else { (small, small + 1 + r.below(3)) })
}

fn agreeing(r: &mut Random) -> Two<Dim> {
    match r.below(3) {
        0 => r.pick(&AGREEING),
        _ => same(invent::size(r)),
    }
}

// Sheets.

/// Boxes of one sort put and joined, over and over: most of their contents' shapes have one count and
/// differ at the last size alone. A few steps make one of two in another way, or take a row.
pub fn sheet(r: &mut Random) -> Vec<u8> {
    let first = Table::drawn(r);
    let steps = r.pick(&[8, 16, 24, 40, STEPS - 1, STEPS]);
    let (mut bytes, mut height, mut laid) = (put(&first.boxed()), 1, true);
    for _ in 1..steps {
        // A join of two that were put tests them; one of what joins have left may not.
        laid = height == 1 || height < PLACES && r.one_in(4) == laid;
        if laid {
            bytes.extend(put(&first.another(r).boxed()));
            height += 1;
        } else if r.one_in(16) {
            bytes.extend(sheet::ROW);
        } else {
            bytes.extend(if r.one_in(16) { b"PV\0" } else { &sheet::JOIN[..] });
            height -= 1;
        }
    }
    bytes
}

/// A type in All boxes, one or a few, the outermost of a shape.
#[derive(Clone)]
struct Table {
    inside: Type,
    levels: usize,
    outside: DynShape,
}

impl Table {
    fn drawn(r: &mut Random) -> Self {
        let count = r.pick(&[1, 2, 2, 3, 3, 4, 5, 6, 7, SIZES]);
        let dims: Vec<Dim> = (0..count).map(|_| known(r)).collect();
        let inside = r.pick(&[Scalar::Num, Scalar::Int, Scalar::Char]).shaped(dims);
        let levels = r.pick(&[1, 1, 1, 1, 1, 1, 2, 2, 3, DEPTH - 1]);
        let outside = r.pick(&[DynShape::SCALAR, DynShape::SCALAR, DynShape::from(3)]);
        Table { inside, levels, outside }
    }

    /// Another of the sort: with another last size, the same, with another count or first size, or with
    /// any sizes.
    fn another(&self, r: &mut Random) -> Self {
        let mut copy = self.clone();
        let dims = &mut copy.inside.shape.dims;
        let last = dims.len() - 1;
        match r.below(20) {
            0..15 => dims[last] = known(r),
            15 | 16 => {}
            17 if dims.len() < SIZES && r.one_in(2) => dims.push(known(r)),
            17 => drop(dims.pop()),
            18 => dims[0] = known(r),
            _ => dims.iter_mut().for_each(|dim| *dim = invent::size(r)),
        }
        copy
    }

    fn boxed(&self) -> Type {
        Type { shape: self.outside.clone(), ..invent::nested(self.inside.clone(), self.levels) }
    }
}

/// A size that is not 1 and not ?.
fn known(r: &mut Random) -> Dim {
    Dim::Static(2 + r.below(12))
}

// Without a seed.

pub fn edges(out: &mut Lines) -> Result<()> {
    for count in 0..=SIZES {
        for set in 0..1 << count {
            failing_sets(out, count, set)?;
        }
    }
    counts(out)?;
    cut(out)
}

/// Two lists of this count that fail at the indices of the set, by their bits. The sizes that fail and
/// that agree go on by one from index to index, or by none.
fn listed(count: usize, set: usize, fail: [usize; 2], agree: [usize; 2]) -> Two<Vec<Dim>> {
    let at = |[from, by]: [usize; 2], index: usize, all: usize| (from + by * index) % all;
    let sizes = |index: usize| match set >> index & 1 {
        1 => statics(FAILING[at(fail, index, FAILING.len())]),
        _ => AGREEING[at(agree, index, AGREEING.len())],
    };
    (0..count).map(sizes).unzip()
}

/// Closing lists that are there or not, equal or not, of one count or not.
fn closings() -> [Two<Option<Vec<Dim>>>; 7] {
    let (two, three) = (Dim::Static(2), Dim::Static(3));
    [
        (None, Some(vec![])),
        (Some(vec![]), Some(vec![three])),
        (Some(vec![two]), Some(vec![three])),
        (Some(vec![two, three]), Some(vec![three])),
        (None, Some(vec![two; SIZES])),
        (Some(vec![two; SIZES]), Some(vec![three; SIZES])),
        (Some(vec![three]), Some(vec![three])),
    ]
}

/// A set with all sizes, in open shapes, and in boxes of which a test takes the contents.
fn failing_sets(out: &mut Lines, count: usize, set: usize) -> Result<()> {
    for fail in 0..FAILING.len() {
        (0..AGREEING.len()).try_for_each(|agree| {
            tested(out, &closed(listed(count, set, [fail, 0], [agree, 0])))
        })?;
        tested(out, &closed(listed(count, set, [fail, 1], [fail, 1])))?;
    }
    let (a, b) = listed(count, set, [0, 0], [0, 0]);
    for (first, second) in closings() {
        let (a, b) = (a.clone(), b.clone());
        tested(out, &(num(a.clone(), first.clone()), num(b.clone(), second.clone())))?;
        tested(out, &(num(a, second), num(b, first)))?;
    }
    for by in [0, 1] {
        let (a, b) = closed(listed(count, set, [count, by], [0, by]));
        for levels in [1, 2] {
            let around = |ty: &Type| invent::nested(ty.clone(), levels);
            boxed(out, &around(&a), &around(&b))?;
        }
    }
    Ok(())
}

fn closed((a, b): Two<Vec<Dim>>) -> Two<Type> {
    (num(a, None), num(b, None))
}

fn num(dims: Vec<Dim>, suffix: Option<Vec<Dim>>) -> Type {
    Scalar::Num.shaped(DynShape { dims, suffix })
}

fn words(a: &Type, b: &Type) -> String {
    format!(" {} {}", hex(&type_bytes(a)), hex(&type_bytes(b)))
}

fn tested(out: &mut Lines, (a, b): &Two<Type>) -> Result<()> {
    out.line("compatible_shapes", words(a, b))
}

fn boxed(out: &mut Lines, a: &Type, b: &Type) -> Result<()> {
    for request in ["compatible_with_boxes", "union", "join"] {
        out.line(request, words(a, b))?;
    }
    let joined = [put(a), put(b), sheet::JOIN.into()].concat();
    out.line("sheet_call", format!(" {SCRATCH} {LENT} {}", hex_word(&joined)))
}

/// Counts that differ: none is named, whether the sizes that both have pass or fail, all of them, the
/// first or the last.
fn counts(out: &mut Lines) -> Result<()> {
    let all = || 0..=SIZES;
    for (count, other) in all().flat_map(|a| all().map(move |b| (a, b))).filter(|(a, b)| a != b) {
        let shared = count.min(other);
        let last = if shared == 0 { 0 } else { 1 << (shared - 1) };
        let cut_to = |(mut a, mut b): Two<Vec<Dim>>| {
            a.truncate(count);
            b.truncate(other);
            (a, b)
        };
        let most = count.max(other);
        for agree in 0..AGREEING.len() {
            tested(out, &closed(cut_to(listed(most, 0, [0, 0], [agree, 0]))))?;
        }
        for (fail, set) in (0..FAILING.len()).flat_map(|fail| [1, last, 255].map(|set| (fail, set)))
        {
            tested(out, &closed(cut_to(listed(most, set, [fail, 0], [0, 0]))))?;
        }
        let (a, b) = cut_to(listed(most, last, [0, 0], [0, 0]));
        // The closing sizes do not make up for them.
        for (first, second) in closings() {
            tested(out, &(num(a.clone(), first), num(b.clone(), second)))?;
        }
        let (a, b) = closed((a, b));
        boxed(out, &invent::all(a), &invent::all(b))?;
    }
    Ok(())
}

/// Either type cut at each byte: what it is refused for comes before the test.
fn cut(out: &mut Lines) -> Result<()> {
    let (a, b) = listed(3, 4, [0, 0], [0, 0]);
    let (a, b) = (type_bytes(&invent::all(num(a, None))), type_bytes(&num(b, Some(vec![]))));
    for (whole, other) in [(&a, &b), (&b, &a)] {
        for end in 0..whole.len() {
            let (whole, other) = (hex_word(&whole[..end]), hex(other));
            out.line("compatible_shapes", format!(" {whole} {other}"))?;
            out.line("compatible_shapes", format!(" {other} {whole}"))?;
        }
    }
    Ok(())
}
