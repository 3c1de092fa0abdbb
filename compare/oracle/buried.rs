//! Sheets whose types are worked on, lie under others that are worked on too, and are dug up again.
//! What the stack keeps of a type meanwhile must be all of it, so the types here have sizes, names and
//! counts of every length, and most of them are written out in the end.

use std::io::Result;

use crate::bytes::{KINDS, read_lone, type_bytes};
use crate::edges::harmed;
use crate::generate::{Lines, hex_word, on_two, pervade, put, validate};
use crate::invent::{self, LONG_NAME, Random, inside};
use crate::limits::{COPIES, DEPTH, LARGEST, LENT, NAME, PLACES, SCRATCH, SIZES, STEPS};
use crate::uiua::{Dim, DynShape, Scalar, ScalarBox, Type};
use crate::{naming, sheet, specs};

/// Sizes about the borders of a byte, the smallest and the largest of them, and ?.
#[rustfmt::skip]
const BORDERS: [Dim; 14] = [
    Dim::Static(0), Dim::Static(1), Dim::Static(255), Dim::Static(256), Dim::Static(65_535),
    Dim::Static(1 << 16), Dim::Static(1 << 32), Dim::Static((1 << 48) - 1), Dim::Static(1 << 48),
    Dim::Static((1 << 52) - 1), Dim::Static(1 << 52), Dim::Static(LARGEST - 1), Dim::Static(LARGEST), Dim::Dyn,
];

// At random.

/// A sheet's steps so far and the types that they leave.
#[derive(Default)]
struct Heap {
    bytes: Vec<u8>,
    stack: Vec<Type>,
    steps: usize,
}

impl Heap {
    /// Takes so many steps if they pass; says whether they do. Now and then they are taken even so.
    fn takes(&mut self, r: &mut Random, count: usize, steps: &[u8]) -> bool {
        let below: Vec<u8> = self.stack.iter().flat_map(put).collect();
        let left = sheet::run(&[&below, steps].concat());
        let passes = left.is_ok();
        if passes || r.one_in(150) {
            self.bytes.extend(steps);
            self.steps += count;
            self.stack = left.unwrap_or_default();
        }
        passes
    }

    /// Something is worked out in place of the top, if it can be.
    fn work(&mut self, r: &mut Random) {
        let Some(top) = self.stack.last() else { return };
        let with = |other: Type, step: Vec<u8>| (2, [put(&other), step].concat());
        let room = self.stack.len() < PLACES;
        let (count, steps) = match r.below(12) {
            0..3 => (1, sheet::ROW.into()),
            3 => (1, validate(&specs::loosened(r, top))),
            4 => (1, validate(&Type { shape: DynShape::ANY, ..top.clone() })),
            5 | 6 if room => with(Type { shape: DynShape::SCALAR, ..top.clone() }, pervade(r)),
            7 if room => with(invent::met(r, top), pervade(r)),
            8 | 9 if room => with(alike(r, top), sheet::JOIN.into()),
            _ => (1, validate(&Type::default())),
        };
        self.takes(r, count, &steps);
    }

    /// The two on top become one.
    fn dig(&mut self, r: &mut Random) {
        let step = on_two(r);
        if !self.takes(r, 1, &step) {
            self.takes(r, 1, &sheet::JOIN);
        }
    }
}

/// Sheets of many types, most of them alike.
pub fn drawn(r: &mut Random) -> Vec<u8> {
    let first = kept(r);
    up_and_down(r, |r| if r.one_in(3) { kept(r) } else { alike(r, &first) })
}

/// Sheets of a few types that are put again and again.
pub fn repeated(r: &mut Random) -> Vec<u8> {
    let mut types = vec![kept(r)];
    (0..r.below(4)).for_each(|_| types.push(alike(r, &types[0])));
    up_and_down(r, |r| r.pick(&types))
}

/// Up to a height and down to another, over and over. Most types are worked on before the next is put
/// above them, and some again once they are the top.
fn up_and_down(r: &mut Random, next: impl Fn(&mut Random) -> Type) -> Vec<u8> {
    let mut heap = Heap::default();
    let most = r.pick(&[8, 16, 24, 40, STEPS - 2, STEPS]);
    let mut height = 1;
    for _ in 0..1 + r.below(10) {
        while heap.stack.len() < height.max(2) && heap.steps < most {
            let ty = next(r);
            heap.takes(r, 1, &put(&ty));
            (0..r.pick(&[0, 1, 1, 2])).for_each(|_| heap.work(r));
        }
        while heap.stack.len() > height && heap.steps < most {
            heap.dig(r);
            (0..r.pick(&[0, 0, 1, 2])).for_each(|_| heap.work(r));
        }
        height = 1 + r.below(PLACES + 2).min(PLACES - 1);
    }
    heap.bytes
}

/// A type with much to be kept: many kinds of boxes, deep or with many fields, and sizes of any bytes.
fn kept(r: &mut Random) -> Type {
    let count = r.pick(&[0, 1, COPIES]);
    let deepest = DEPTH - 1;
    let mut ty = match r.below(16) {
        0 if r.one_in(4) => invent::largest(),
        0 => invent::def(Some(LONG_NAME), vec![Type::default(); count]),
        1..3 => invent::nested(r.pick(&KINDS).shaped(invent::shape(r)), 1 + r.below(deepest)),
        3..7 => {
            let ty = invent::ty(r);
            invent::limited(invent::all(ty.clone()), &ty)
        }
        7..10 => r.pick(&KINDS).shaped(invent::shape(r)),
        _ => invent::ty(r),
    };
    if r.one_in(2) {
        ty.shape = invent::shape(r);
    }
    change(r, &mut ty);
    ty
}

/// A copy of which some sizes and names are others, all over it, or only its own shape's.
fn alike(r: &mut Random, ty: &Type) -> Type {
    match r.below(4) {
        0 => invent::met(r, ty),
        1 => invent::resized(r, ty),
        _ => {
            let mut copy = ty.clone();
            change(r, &mut copy);
            copy
        }
    }
}

/// Sizes and names become others here and there, but are as many as before.
fn change(r: &mut Random, ty: &mut Type) {
    let DynShape { dims, suffix } = &mut ty.shape;
    for dim in dims.iter_mut().chain(suffix.iter_mut().flatten()) {
        if r.one_in(3) {
            *dim = any_size(r);
        }
    }
    if let Scalar::Box(ScalarBox::Def(name, _)) = &mut ty.scalar
        && r.one_in(3)
    {
        *name = any_name(r);
    }
    inside(ty).iter_mut().for_each(|ty| change(r, ty));
}

fn any_size(r: &mut Random) -> Dim {
    match r.below(6) {
        0 => Dim::Dyn,
        1 => Dim::Static(r.next() as usize % (LARGEST + 1)),
        _ => r.pick(&BORDERS),
    }
}

fn any_name(r: &mut Random) -> Option<String> {
    let length = r.pick(&[None, Some(0), Some(1), Some(NAME - 1), Some(NAME), Some(NAME)]);
    length.map(|length| (0..length).map(|_| (32 + r.below(95)) as u8 as char).collect())
}

// Without a seed. These are asked with lent buffers.

pub fn edges(out: &mut Lines) -> Result<()> {
    orders(out, &mut Vec::new(), Moves::default())?;
    kinds_of_types().iter().try_for_each(|ty| under_others(out, ty))?;
    let read = |bytes: &Vec<u8>| read_lone(bytes).ok();
    for ty in harmed(&type_bytes(&sample())).iter().filter_map(read) {
        left(out, &[&worked(&ty), &put(&small(1)), &worked(&small(2))])?;
    }
    largest_types(out)
}

/// The sheet, and the same with names.
fn call(out: &mut Lines, scratch: usize, steps: &[&[u8]]) -> Result<()> {
    let sheet = steps.concat();
    let named = naming::once(&sheet);
    let mut one =
        |bytes: &[u8]| out.line("sheet_call", format!(" {scratch} {LENT} {}", hex_word(bytes)));
    one(&sheet)?;
    one(&named)
}

fn left(out: &mut Lines, steps: &[&[u8]]) -> Result<()> {
    call(out, SCRATCH, steps)
}

/// Put, and validated against what leaves all of an open type.
fn worked(ty: &Type) -> Vec<u8> {
    [put(ty), validate(&Type::default())].concat()
}

fn small(size: usize) -> Type {
    Scalar::Num.shaped(size)
}

fn filled() -> Vec<u8> {
    [&sheet::PERVADE[..], &[3]].concat()
}

/// What a sheet has had so far of each move, and the height that the stack has now.
#[derive(Clone, Copy, Default)]
struct Moves {
    puts: usize,
    works: usize,
    digs: usize,
    height: usize,
}

/// Enough for five types that are put and worked on, each before the next, and a sixth.
const MOVES: usize = 11;

/// All orders of so many moves: a put, work on the top, and two that become one. A row and a validation
/// take turns, as do a join and a pervading.
fn orders(out: &mut Lines, bytes: &mut Vec<u8>, so_far: Moves) -> Result<()> {
    let Moves { puts, works, digs, height } = so_far;
    if puts + works + digs == MOVES {
        return left(out, &[bytes]);
    }
    let mut after = |step: Vec<u8>, moves: Moves| {
        let length = bytes.len();
        bytes.extend(step);
        let written = orders(out, bytes, moves);
        bytes.truncate(length);
        written
    };
    if height < PLACES {
        after(put(&told_apart(puts)), Moves { puts: puts + 1, height: height + 1, ..so_far })?;
    }
    if height > 0 {
        let rows = (works + puts) % 2 == 0;
        let step = if rows { sheet::ROW.into() } else { validate(&Type::default()) };
        after(step, Moves { works: works + 1, ..so_far })?;
    }
    if height > 1 {
        let step = if digs % 2 == 0 { filled() } else { sheet::JOIN.into() };
        after(step, Moves { digs: digs + 1, height: height - 1, ..so_far })?;
    }
    Ok(())
}

/// The type of the n-th put. Its size is at an index of its own, after ones. Of two boxes the union is
/// the later, and which is later changes with the closing sizes in them: now the top's, now the other.
fn told_apart(n: usize) -> Type {
    let closing = [LARGEST, 5, 1 << 48, 255, 256, LARGEST - 1, 0, (1 << 48) - 1][n % SIZES];
    let own = [256, 1 << 52, 255, LARGEST, (1 << 48) - 1, 0, 1 << 48, 7][n % SIZES];
    let content = DynShape { dims: Vec::new(), suffix: Some(vec![Dim::Static(closing)]) };
    let mut dims = vec![Dim::Static(1); n % SIZES];
    dims.push(Dim::Static(own));
    invent::all(Scalar::Num.shaped(content)).scalar.shaped(dims)
}

/// Every shape's two counts, every border of a size at every index, opening and closing, every kind,
/// name, number of fields and depth: alone, and those of shapes in a box as well.
fn kinds_of_types() -> Vec<Type> {
    let mut shapes = Vec::new();
    for count in 0..=SIZES {
        let dims: Vec<Dim> = (0..count).map(|index| BORDERS[index]).collect();
        shapes.push(DynShape { dims: dims.clone(), suffix: None });
        for closing in 0..=SIZES {
            let closing = (0..closing).map(|index| BORDERS[5 + index]).collect();
            shapes.push(DynShape { dims: dims.clone(), suffix: Some(closing) });
        }
    }
    for (index, size) in (0..2 * SIZES).flat_map(|index| BORDERS.map(|size| (index, size))) {
        let mut dims: Vec<Dim> = (2..2 + 2 * SIZES).map(Dim::Static).collect();
        dims[index] = size;
        let closing = dims.split_off(SIZES);
        shapes.push(DynShape { dims, suffix: Some(closing) });
    }
    let bare = shapes.iter().map(|shape| Scalar::Num.shaped(shape.clone()));
    let mut types: Vec<Type> = bare.clone().chain(bare.map(invent::all)).collect();
    types.extend(KINDS.map(|kind| kind.shaped(3)));
    let names =
        (0..=NAME).map(|length| Some(&LONG_NAME[..length])).chain([None, Some(" "), Some("~")]);
    types.extend(names.map(|name| invent::def(name, vec![small(3)])));
    types.extend((0..=COPIES).map(|count| invent::def(None, (0..count).map(small).collect())));
    types.extend((0..DEPTH).map(|levels| invent::nested(small(3), levels)));
    types
}

/// The type put and worked on by each step, under one, two and five others that are put or worked on;
/// then left so, or dug up.
fn under_others(out: &mut Lines, ty: &Type) -> Result<()> {
    let beside = Type { shape: DynShape::SCALAR, ..ty.clone() };
    let unfilled = [&sheet::PERVADE[..], &[0]].concat();
    let forms = [
        put(ty),
        worked(ty),
        [put(ty), sheet::ROW.into()].concat(),
        [put(&beside), put(ty), unfilled.clone()].concat(),
        [put(ty), put(ty), sheet::JOIN.into()].concat(),
    ];
    let over =
        [worked(&beside), put(&beside), worked(&small(2)), put(&small(3)), worked(&small(4))];
    for (form, above) in forms.iter().flat_map(|form| [1, 2, 5].map(|above| (form, above))) {
        left(out, &[form, &over[..above].concat()])?;
    }
    for form in &forms {
        left(out, &[form, &over[0], &unfilled])?;
        left(out, &[form, &over[..2].concat(), &unfilled.repeat(2), &sheet::ROW])?;
    }
    Ok(())
}

/// A type that has every record, with a name, closing sizes and sizes of seven bytes.
fn sample() -> Type {
    let sizes = |sizes: &[usize]| sizes.iter().copied().map(Dim::Static).collect::<Vec<_>>();
    let closing = Some(sizes(&[0x0001_0203_0405_0607, 2]));
    let shape = DynShape { dims: sizes(&[LARGEST, 0x001f_1e1d_1c1b_1a19]), suffix: closing };
    let fields = vec![invent::all(small(256)), Scalar::Char.shaped(shape.clone())];
    invent::def(Some("name"), fields).scalar.shaped(shape)
}

/// A largest type, all of whose sizes are these by turns. Other names tell it from others.
fn largest_with(letter: u8, sizes: &[Dim]) -> Type {
    let mut ty = invent::largest();
    paint(&mut ty, (letter as char).to_string().repeat(NAME), &mut sizes.iter().cycle());
    ty
}

fn paint<'a>(ty: &mut Type, to: String, sizes: &mut impl Iterator<Item = &'a Dim>) {
    let DynShape { dims, suffix } = &mut ty.shape;
    for (dim, size) in dims.iter_mut().chain(suffix.iter_mut().flatten()).zip(sizes.by_ref()) {
        *dim = *size;
    }
    if let Scalar::Box(ScalarBox::Def(name, _)) = &mut ty.scalar {
        *name = Some(to.clone());
    }
    inside(ty).iter_mut().for_each(|ty| paint(ty, to.clone(), sizes));
}

/// As many of the largest types as there can be, put and worked on by each step, then dug up.
fn largest_types(out: &mut Lines) -> Result<()> {
    let sizes = [Dim::Static(0), Dim::Static(1), Dim::Static(LARGEST), Dim::Dyn];
    let types: Vec<Type> =
        (0..PLACES).map(|n| largest_with(b'a' + n as u8, &sizes[..1 + n % 4])).collect();
    let beside = Scalar::Box(ScalarBox::Any).scalar_type();
    let unfilled = [&sheet::PERVADE[..], &[0]].concat();
    let any = validate(&Type::default());
    let (under, top) = types.split_at(PLACES - 1);
    let all = |form: &dyn Fn(&Type) -> Vec<u8>| under.iter().flat_map(form).collect::<Vec<u8>>();
    let forms = [
        all(&put),
        all(&worked),
        all(&|ty| [put(ty), sheet::ROW.into()].concat()),
        all(&|ty| [put(&beside), put(ty), unfilled.clone()].concat()),
        all(&|ty| [put(ty), put(ty), sheet::JOIN.into()].concat()),
    ];
    let down = [sheet::JOIN.repeat(PLACES - 1), filled().repeat(PLACES - 1)];
    let digs = [sheet::JOIN.into(), unfilled.clone(), filled()].into_iter().chain(down);
    let steps: Vec<Vec<u8>> =
        [Vec::new(), sheet::ROW.into(), any].into_iter().chain(digs).collect();
    for (form, step) in forms.iter().flat_map(|form| steps.iter().map(move |step| (form, step))) {
        for scratch in [SCRATCH - 1, SCRATCH, SCRATCH + 1] {
            call(out, scratch, &[form, &put(&top[0]), step])?;
        }
    }
    Ok(())
}
