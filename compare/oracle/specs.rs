//! A spec and a type to hold against it: many pass, many fail deep inside, many grow, many have
//! shapes of other counts.

use crate::bytes::{KINDS, types};
use crate::invent::{
    Random, all, closing, def, limited, name, nested, pair, related, shape, size, ty, type_at,
};
use crate::limits::{COPIES, DEPTH, LARGEST, SIZES, TYPES};
use crate::uiua::{Dim, DynShape, Scalar, ScalarBox, Type};

pub fn spec_and_type(r: &mut Random) -> (Type, Type) {
    match r.below(13) {
        0 => pair(r),
        1..3 => with_copies(r),
        3..5 => with_takers(r),
        5..8 => with_counts(r),
        _ => {
            let spec = ty(r);
            let fitting = limited(fit(r, &spec), &spec);
            let fitting = if r.one_in(3) { related(r, &fitting) } else { fitting };
            (spec, fitting)
        }
    }
}

/// A type that mostly passes this spec.
fn fit(r: &mut Random, spec: &Type) -> Type {
    if r.one_in(10) {
        return Type::default();
    }
    Type { scalar: fit_scalar(r, &spec.scalar), shape: fit_shape(r, &spec.shape) }
}

fn fit_shape(r: &mut Random, spec: &DynShape) -> DynShape {
    if spec.is_any() || r.one_in(24) {
        return shape(r);
    }
    if r.one_in(8) {
        // Open: passes only if its two lists, one after the other, are the spec's opening sizes.
        let (dims, closing) = spec.dims.split_at(r.below(spec.dims.len() + 1));
        return DynShape { dims: dims.into(), suffix: Some(closing.into()) };
    }
    let fit_size = |&dim: &Dim| match dim {
        Dim::Dyn => size(r),
        _ if r.one_in(4) => Dim::Dyn,
        dim => dim,
    };
    DynShape { dims: spec.dims.iter().map(fit_size).collect(), suffix: None }
}

fn fit_scalar(r: &mut Random, spec: &Scalar) -> Scalar {
    match spec {
        Scalar::Box(spec) => fit_box(r, spec),
        _ => {
            let under = KINDS.into_iter().filter(|kind| spec.superset_of(kind));
            r.pick(&under.collect::<Vec<_>>())
        }
    }
}

fn fit_box(r: &mut Random, spec: &ScalarBox) -> Scalar {
    Scalar::Box(match spec {
        _ if r.one_in(8) => ScalarBox::Any,
        ScalarBox::Any => ScalarBox::All(Box::new(Type::default())),
        ScalarBox::All(spec) if r.one_in(2) => ScalarBox::All(Box::new(fit(r, spec))),
        ScalarBox::All(spec) => {
            let count = r.below(4);
            ScalarBox::Def(name(r), (0..count).map(|_| fit(r, spec)).collect())
        }
        ScalarBox::Def(Some(_), _) if r.one_in(8) => return Scalar::Any,
        ScalarBox::Def(_, fields) if r.one_in(4) && !fields.is_empty() => {
            ScalarBox::All(Box::new(fit(r, &fields[0])))
        }
        ScalarBox::Def(own, fields) => {
            let name = if r.one_in(3) { name(r) } else { own.clone() };
            ScalarBox::Def(name, fields.iter().map(|spec| fit(r, spec)).collect())
        }
    })
}

/// A named Def on a box that becomes a Def of copies.
fn with_copies(r: &mut Random) -> (Type, Type) {
    let rows = match r.below(4) {
        0 => size(r),
        1 => Dim::Static(r.pick(&[30, 31, 32, 33, LARGEST])),
        _ => Dim::Static(r.below(20)),
    };
    let content = fit(r, &Type::default());
    let levels = r.pick(&[1, 1, 2, 3]);
    let scalar = match r.below(3) {
        0 => Scalar::Any,
        1 => Scalar::Box(ScalarBox::Any),
        _ => nested(content, levels).scalar,
    };
    let spec = def(Some("n"), vec![Type::default(); r.pick(&[0, 0, 1, 2, 5, COPIES])]);
    surrounded(r, spec, scalar.shaped(rows))
}

/// A box or a Def on fields that take over what the spec has inside.
fn with_takers(r: &mut Random) -> (Type, Type) {
    let mut left = r.below(5);
    let content = all(type_at(r, &mut left, 3)).scalar.shaped(DynShape::ANY);
    let count = (TYPES / types(&content)).min(COPIES) - r.below(2);
    let taker = r.pick(&[Scalar::Any, Scalar::Box(ScalarBox::Any)]).shaped(DynShape::ANY);
    let spec = if r.one_in(2) {
        all(content).scalar.shaped(DynShape::ANY)
    } else {
        limited(def(None, vec![content.clone(); count]), &content)
    };
    surrounded(r, spec, def(None, vec![taker; count]))
}

/// Two whose shapes nearly fit, bare or in boxes, whose own shapes and further fields may not fit
/// either.
fn with_counts(r: &mut Random) -> (Type, Type) {
    let (spec, ty) = counted(r);
    match r.below(6) {
        0..3 => (spec, ty),
        3 => surrounded(r, spec, ty),
        form => {
            let (outer_spec, outer) = counted(r);
            let (scalar, taken) = if form == 4 {
                (all(spec).scalar, all(ty).scalar)
            } else {
                let (next_spec, next) = counted(r);
                let fields = def(name(r).as_deref(), vec![ty, next]);
                (def(None, vec![spec, next_spec]).scalar, fields.scalar)
            };
            (scalar.shaped(outer_spec.shape), taken.shaped(outer.shape))
        }
    }
}

/// Num and Int, of two shapes of which one nearly fits the other.
fn counted(r: &mut Random) -> (Type, Type) {
    let count = r.pick(&[1, 1, 2, 2, 2, 3, 3, 4, SIZES - 1, SIZES]);
    let dims: Vec<Dim> = (0..count).map(|_| size(r)).collect();
    let shape = if r.one_in(4) { dims.clone().into() } else { nearly(r, &dims) };
    (Scalar::Num.shaped(DynShape { dims, suffix: closing(r) }), Scalar::Int.shaped(shape))
}

/// A shape that has as many sizes as are asked for, or some more or fewer: the same ones, from the
/// front and from the end, but for one at times.
fn nearly(r: &mut Random, asked: &[Dim]) -> DynShape {
    let near = (asked.len() + 1).min(SIZES) - r.below(3).min(asked.len());
    let count = if r.one_in(4) { r.below(SIZES + 1) } else { near };
    let mut shape = match r.below(5) {
        0 => first(r, asked, count).into(),
        1 => last(r, asked, count).into(),
        _ => {
            let opening = r.below(count + 1);
            let left = &asked[opening.min(asked.len())..];
            let closing = last(r, left, count - opening);
            DynShape { dims: first(r, asked, opening), suffix: Some(closing) }
        }
    };
    let mut sizes: Vec<&mut Dim> =
        shape.dims.iter_mut().chain(shape.suffix.iter_mut().flatten()).collect();
    if r.one_in(2) && !sizes.is_empty() {
        let index = r.below(sizes.len());
        *sizes[index] = size(r);
    }
    shape
}

/// So many sizes, those of the list from its front, then any.
fn first(r: &mut Random, list: &[Dim], count: usize) -> Vec<Dim> {
    let mut sizes = list[..count.min(list.len())].to_vec();
    sizes.resize_with(count, || size(r));
    sizes
}

/// The same from its end.
fn last(r: &mut Random, list: &[Dim], count: usize) -> Vec<Dim> {
    let backwards: Vec<Dim> = list.iter().rev().copied().collect();
    let mut sizes = first(r, &backwards, count);
    sizes.reverse();
    sizes
}

/// Both put at the same place of larger types, some levels deep or beside other fields, the last
/// of which may mismatch.
fn surrounded(r: &mut Random, spec: Type, ty: Type) -> (Type, Type) {
    let levels = if r.one_in(3) { r.below(DEPTH) } else { r.below(2) };
    let deep = |ty: Type| limited(nested(ty.clone(), levels), &ty);
    let (spec, ty) = (deep(spec), deep(ty));
    if r.one_in(2) {
        return (spec, ty);
    }
    let any = |kind: Scalar| kind.shaped(DynShape::ANY);
    let before = vec![any(Scalar::Num); r.pick(&[0, 1, 2, 5, 10])];
    let beside = |ty: Type, last: Scalar| {
        limited(def(None, [&before[..], &[ty.clone(), any(last)]].concat()), &ty)
    };
    let last = r.pick(&[Scalar::Int, Scalar::Int, Scalar::Char]);
    (beside(spec, Scalar::Num), beside(ty, last))
}

/// A spec that this type mostly passes.
pub fn loosened(r: &mut Random, ty: &Type) -> Type {
    let over = KINDS.into_iter().filter(|kind| kind.superset_of(&ty.scalar));
    let over = r.pick(&over.collect::<Vec<_>>());
    let scalar = if r.one_in(2) { ty.scalar.clone() } else { over };
    let dims = [&ty.shape.dims[..], ty.shape.suffix.as_deref().unwrap_or(&[])].concat();
    if r.one_in(3) || dims.len() > 8 {
        return scalar.shaped(DynShape::ANY);
    }
    Type { scalar, shape: DynShape { dims, suffix: closing(r) } }
}

/// A spec whose shape this type's nearly fits: a size more between its opening and its closing ones,
/// one fewer, or another.
pub fn missed(r: &mut Random, ty: &Type) -> Type {
    let closing_sizes = ty.shape.suffix.as_deref().unwrap_or(&[]);
    let between = if r.one_in(2) { vec![size(r)] } else { Vec::new() };
    let mut dims = [&ty.shape.dims[..], &between, closing_sizes].concat();
    dims.truncate(SIZES);
    match r.below(4) {
        0 => drop(dims.pop()),
        1 if !dims.is_empty() => {
            let index = r.below(dims.len());
            dims[index] = size(r);
        }
        _ => {}
    }
    ty.scalar.clone().shaped(DynShape { dims, suffix: closing(r) })
}
