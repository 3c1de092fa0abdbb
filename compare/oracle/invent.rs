//! Invented types, pairs of types and numbers, and damage done to bytes.

use crate::bytes::{KINDS, depth, type_bytes, types};
use crate::limits::{COPIES, DEPTH, LARGEST, SIZES, TYPES};
use crate::uiua::{Dim, DynShape, Scalar, ScalarBox, Type};

/// Numbers from a seed (splitmix64).
pub struct Random(pub u64);

impl Random {
    pub fn next(&mut self) -> u64 {
        self.0 = self.0.wrapping_add(0x9e37_79b9_7f4a_7c15);
        let z = (self.0 ^ (self.0 >> 30)).wrapping_mul(0xbf58_476d_1ce4_e5b9);
        let z = (z ^ (z >> 27)).wrapping_mul(0x94d0_49bb_1331_11eb);
        z ^ (z >> 31)
    }
    pub fn below(&mut self, end: usize) -> usize {
        (self.next() % end as u64) as usize
    }
    pub fn one_in(&mut self, chances: usize) -> bool {
        self.below(chances) == 0
    }
    pub fn pick<T: Clone>(&mut self, from: &[T]) -> T {
        from[self.below(from.len())].clone()
    }
}

// Types. What these make is within all limits, but for `at_a_limit`.

/// Mostly small, so that two of them are often equal.
pub fn size(r: &mut Random) -> Dim {
    const RARE: [usize; 9] = [7, 8, 15, 16, 31, 32, 256, LARGEST - 1, LARGEST];
    match r.below(24) {
        0..7 => Dim::Dyn,
        7 => Dim::Static(r.pick(&RARE)),
        _ => Dim::Static(r.below(6)),
    }
}

fn sizes(r: &mut Random) -> Vec<Dim> {
    let count = r.pick(&[0, 1, 1, 1, 1, 2, 2, 2, 3, 4, 8]);
    (0..count).map(|_| size(r)).collect()
}

pub fn closing(r: &mut Random) -> Option<Vec<Dim>> {
    match r.below(8) {
        0..5 => None,
        5 => Some(Vec::new()),
        _ => Some(sizes(r)),
    }
}

pub fn shape(r: &mut Random) -> DynShape {
    match r.below(8) {
        0 => DynShape::ANY,
        1 => DynShape::SCALAR,
        _ => DynShape { dims: sizes(r), suffix: closing(r) },
    }
}

pub fn name(r: &mut Random) -> Option<String> {
    let names = [None, None, Some(""), Some("n"), Some("m"), Some("~ a ~"), Some(LONG_NAME)];
    r.pick(&names).map(Into::into)
}

pub const LONG_NAME: &str = "sixteen letters!";

pub fn ty(r: &mut Random) -> Type {
    let mut left = r.pick(&[0, 0, 1, 1, 2, 3, 5, 9, 15, TYPES - 1]);
    type_at(r, &mut left, 1)
}

/// A type at this depth with at most `left` types inside.
pub fn type_at(r: &mut Random, left: &mut usize, depth: usize) -> Type {
    let scalar = if depth == DEPTH || *left == 0 || r.one_in(3) {
        r.pick(&KINDS)
    } else {
        Scalar::Box(box_at(r, left, depth))
    };
    Type { scalar, shape: shape(r) }
}

fn box_at(r: &mut Random, left: &mut usize, depth: usize) -> ScalarBox {
    if r.one_in(2) {
        *left -= 1;
        return ScalarBox::All(Box::new(type_at(r, left, depth + 1)));
    }
    let most = r.pick(&[2, 3, 4, COPIES]);
    let count = r.below(most.min(*left) + 1);
    *left -= count;
    let fields = (0..count).map(|_| type_at(r, left, depth + 1)).collect();
    ScalarBox::Def(name(r), fields)
}

pub fn all(ty: Type) -> Type {
    Scalar::Box(ScalarBox::All(Box::new(ty))).scalar_type()
}

pub fn def(name: Option<&str>, fields: Vec<Type>) -> Type {
    Scalar::Box(ScalarBox::Def(name.map(Into::into), fields)).shaped(DynShape::ANY)
}

pub fn nested(ty: Type, levels: usize) -> Type {
    (0..levels).fold(ty, |ty, _| all(ty))
}

/// The type whose bytes are the most: 4,992.
pub fn largest() -> Type {
    let full = DynShape { dims: vec![Dim::Dyn; SIZES], suffix: Some(vec![Dim::Static(3); SIZES]) };
    let with = |fields| Type { shape: full.clone(), ..def(Some(LONG_NAME), fields) };
    with(vec![with(Vec::new()); COPIES])
}

pub fn inside(ty: &mut Type) -> &mut [Type] {
    match &mut ty.scalar {
        Scalar::Box(ScalarBox::All(ty)) => std::slice::from_mut(ty),
        Scalar::Box(ScalarBox::Def(_, fields)) => fields,
        _ => &mut [],
    }
}

/// The type itself or one somewhere inside it.
fn somewhere<'a>(r: &mut Random, ty: &'a mut Type) -> &'a mut Type {
    let count = inside(ty).len();
    if count == 0 || r.one_in(3) {
        return ty;
    }
    let index = r.below(count);
    somewhere(r, &mut inside(ty)[index])
}

/// `made` where it is within the limits, else `instead`.
pub fn limited(made: Type, instead: &Type) -> Type {
    if types(&made) <= TYPES && depth(&made) <= DEPTH { made } else { instead.clone() }
}

/// One limit's neighbour somewhere in the type, on this side of the limit or the other.
pub fn at_a_limit(r: &mut Random, ty: &mut Type) {
    let part = somewhere(r, ty);
    match r.below(7) {
        0 => part.shape.dims = vec![size(r); r.pick(&[8, 9, 254, 255])],
        1 => part.shape.suffix = Some(vec![size(r); r.pick(&[8, 9, 254, 255])]),
        2 => part.shape.dims.push(r.pick(&EDGE_SIZES)),
        3 => *part = def(Some(&"n".repeat(r.pick(&[0, 16, 17, 254, 255]))), Vec::new()),
        4 => *part = def(Some(r.pick(&["\x1f", " ", "~", "\x7f", "a\x1f", "a~"])), Vec::new()),
        5 => *part = def(None, vec![Type::default(); r.pick(&[30, 31, 32, 254, 255])]),
        _ => *part = nested(part.clone(), r.pick(&[6, 7, 8, 31])),
    }
}

/// The last static one is written like ?.
#[rustfmt::skip]
pub const EDGE_SIZES: [Dim; 9] = [
    Dim::Static(0), Dim::Static(1), Dim::Static(LARGEST - 1), Dim::Static(LARGEST), Dim::Dyn,
    Dim::Static(LARGEST + 1), Dim::Static(1 << 60), Dim::Static(usize::MAX - 1), Dim::Static(usize::MAX),
];

// Pairs of types.

/// Two types, mostly alike.
pub fn pair(r: &mut Random) -> (Type, Type) {
    let first = if r.one_in(3) { Scalar::Num.shaped(shape(r)) } else { ty(r) };
    let second = match r.below(6) {
        0 => ty(r),
        1..4 => resized(r, &first),
        _ => related(r, &first),
    };
    if r.one_in(3) { (second, first) } else { (first, second) }
}

/// A copy with some other sizes.
pub fn resized(r: &mut Random, ty: &Type) -> Type {
    let mut copy = ty.clone();
    for dim in &mut somewhere(r, &mut copy).shape.dims {
        if r.one_in(2) {
            *dim = size(r);
        }
    }
    copy
}

/// A copy to be pervaded with the type: what was static may be unknown and the other way round, the
/// list may end sooner or go on, and the shape be open or closed, whatever the type's is.
pub fn met(r: &mut Random, ty: &Type) -> Type {
    let dims = &ty.shape.dims;
    let count = if r.one_in(2) { dims.len() } else { r.below(dims.len() + 1) };
    let other = |dim: &Dim| match dim {
        Dim::Dyn => size(r),
        dim => r.pick(&[*dim, *dim, Dim::Dyn, Dim::Dyn, Dim::Static(1)]),
    };
    let mut dims: Vec<Dim> = dims[..count].iter().map(other).collect();
    if r.one_in(3) && dims.len() < SIZES {
        dims.push(size(r));
    }
    Type { scalar: ty.scalar.clone(), shape: DynShape { dims, suffix: closing(r) } }
}

/// A copy with a few changes of any kind.
pub fn related(r: &mut Random, ty: &Type) -> Type {
    let mut copy = ty.clone();
    for _ in 0..r.below(4) {
        let part = somewhere(r, &mut copy);
        if r.one_in(2) { change_shape(r, &mut part.shape) } else { change_scalar(r, part) }
    }
    limited(copy, ty)
}

fn change_shape(r: &mut Random, shape: &mut DynShape) {
    let list = match &mut shape.suffix {
        Some(closing) if r.one_in(2) => closing,
        _ => &mut shape.dims,
    };
    match r.below(8) {
        0 if list.len() < 8 => list.push(size(r)),
        1 => drop(list.pop()),
        2 => shape.suffix = closing(r),
        3 => *shape = DynShape::ANY,
        _ if list.is_empty() => {}
        _ => {
            let index = r.below(list.len());
            list[index] = size(r);
        }
    }
}

fn change_scalar(r: &mut Random, ty: &mut Type) {
    match &mut ty.scalar {
        Scalar::Box(ScalarBox::All(inner)) if r.one_in(2) => {
            let fields = vec![(**inner).clone(); r.below(3)];
            ty.scalar = Scalar::Box(ScalarBox::Def(name(r), fields));
        }
        Scalar::Box(ScalarBox::Def(own, fields)) if !r.one_in(3) => match r.below(4) {
            0 => *own = name(r),
            1 => drop(fields.pop()),
            2 if fields.len() < COPIES => fields.push(Type::default()),
            _ => fields.reverse(),
        },
        scalar if r.one_in(4) => *scalar = Scalar::Any,
        scalar => *scalar = r.pick(&KINDS),
    }
}

// Numbers and bytes.

/// Bit patterns of numbers at the borders of the rules.
#[rustfmt::skip]
pub const NUMBERS: [u64; 32] = [
    0x0000000000000000, 0x8000000000000000, 0x3ff0000000000000, 0xbff0000000000000, // 0 -0 1 -1
    0x4000000000000000, 0x4008000000000000, 0x4020000000000000, 0x4022000000000000, // 2 3 8 9
    0x3fe0000000000000, 0xbfe0000000000000, 0x3ff8000000000000, 0x3fefffffffffffff, // fractions
    0x3ff0000000000001, 0x0000000000000001, 0x8000000000000001, 0x0010000000000000, // tiny ones
    0x4330000000000000, 0x4330000000000001, 0x432fffffffffffff, 0x433fffffffffffff, // about 2^52
    0x4340000000000000, 0x4340000000000001, 0xc340000000000000, 0x43b0000000000000, // 2^53, 2^60
    0x43e0000000000000, 0x43f0000000000000, 0x7fefffffffffffff, 0xffefffffffffffff, // 2^63, 2^64
    0x7ff0000000000000, 0xfff0000000000000, 0x7ff8000000000000, 0xfff0000000000001, // inf, NaN
];

pub fn number(r: &mut Random) -> u64 {
    match r.below(12) {
        0..7 => (r.below(7) as f64).to_bits(),
        7 => r.next(),
        8 => (r.below(20) as f64 / 2.0 - 5.0).to_bits(),
        _ => r.pick(&NUMBERS),
    }
}

/// Bytes that counts, codes, names, kinds and marks turn on.
pub const BYTES: [u8; 18] = [0, 1, 2, 3, 4, 8, 9, 10, 16, 17, 31, 32, 66, 83, 126, 127, 254, 255];

/// Bytes cut short, lengthened or changed somewhere.
pub fn damaged(r: &mut Random, mut bytes: Vec<u8>) -> Vec<u8> {
    let at = r.below(bytes.len() + 1);
    let byte = r.pick(&BYTES);
    match r.below(6) {
        0 | 1 => bytes.truncate(at),
        2 => bytes.insert(at, byte),
        3 => bytes.extend(type_bytes(&Type::default())),
        _ if at == bytes.len() => bytes.push(byte),
        4 => bytes[at] = byte,
        _ => bytes[at] ^= 1 << r.below(8),
    }
    bytes
}
