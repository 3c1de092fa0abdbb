//! The rules, each answered by the cut Rust; here only the limits and refusals around them.

use crate::bytes::{No, depth, no, types};
use crate::counts;
use crate::failing::{self, Verdict};
use crate::limits::{COPIES, DEPTH, LARGEST, SIZES, TYPES};
use crate::standins::{SubSide, stop_after};
use crate::uiua::{
    Dim, DynShape, Scalar, ScalarBox, Type, TypeError, TypeResult, TypeVal, check_scalar,
    check_shape, pervade_dyn_shapes, validate,
};

/// Both shapes pervaded; `flag` bit 0 fills the first, bit 1 the second.
pub fn pervade(flag: u64, first: DynShape, second: DynShape) -> Result<DynShape, No> {
    pervade_dyn_shapes(first, second, flag & 1 != 0, flag & 2 != 0).or_else(|_| no(8, 0))
}

/// Whether two opening lists pass, and which index fails. The one is the cut text's, the other is worked
/// out by hand: an oracle that disagrees with itself must not answer.
pub fn compatible(a: &DynShape, b: &DynShape) -> Verdict {
    let says_yes = a.compatible_with(b);
    failing::verdict(says_yes, a, b)
        .unwrap_or_else(|| panic!("compatible_with says {says_yes} to {a:?} and {b:?}"))
}

pub fn validated(side: Option<SubSide>, spec: Type, ty: Type) -> Result<Type, No> {
    let in_force = || if in_a_box(&spec, &ty) { None } else { side };
    within_limits(&ty, in_force, |ty| validate(spec.clone(), ty, side))
}

pub fn scalar_checked(spec: Type, ty: Type) -> Result<Type, No> {
    within_limits(&ty, || None, |ty| check_scalar(spec.scalar.clone(), ty))
}

pub fn shape_checked(side: Option<SubSide>, spec: Type, ty: Type) -> Result<Type, No> {
    within_limits(&ty, || side, |ty| check_shape(spec.shape.clone(), ty, side))
}

/// Whether a validation that ends with a shape mismatch found it inside a box, where no side is in
/// force, or at the outermost shapes, which alone have the side. The two shapes of the error do not
/// tell: an unsided spec too may be open and name only opening sizes, or only closing ones. But
/// `validate` is `check_scalar` and then `check_shape`, it stops at the first mismatch, and all that
/// `check_scalar` validates it validates unsided. So the scalar is checked once more, on a fresh copy
/// and to its end: it makes the same changes in the same order, and mismatches where the validation
/// did or, if that came to the outermost shapes, passes.
fn in_a_box(spec: &Type, ty: &Type) -> bool {
    stop_after(usize::MAX);
    check_scalar(spec.scalar.clone(), &mut ty.clone()).is_err()
}

/// Runs `rule` on copies of the type: one run that stops right after the first change, one that
/// stops right after the second, and so on, until a run comes to its own end. What a stopped run
/// leaves is the whole type after that change, and is measured. So refusal 5 comes at the first
/// change that takes the type over, before anything that the Rust would have answered later.
/// `in_force` says under which side that end was, should it be a shape mismatch.
fn within_limits(
    ty: &Type,
    in_force: impl Fn() -> Option<SubSide>,
    rule: impl Fn(&mut Type) -> TypeResult,
) -> Result<Type, No> {
    for changes in 1.. {
        let mut copy = ty.clone();
        stop_after(changes);
        match rule(&mut copy) {
            Ok(()) => return Ok(copy),
            Err(TypeError::Generic(_)) if types(&copy) > TYPES || depth(&copy) > DEPTH => break,
            Err(TypeError::Generic(_)) => {}
            Err(TypeError::ScalarMismatch(..)) => return no(9, 0),
            Err(TypeError::ShapeMismatch(spec, ty)) => {
                return no(counts::number(in_force(), &spec, &ty), 0);
            }
            Err(other) => panic!("{other:?}"),
        }
    }
    no(5, 0)
}

/// Name and types, or none. A Def's own fields are no copies.
pub fn boxes(ty: &Type) -> Result<Option<(Option<String>, Vec<Type>)>, No> {
    if let Scalar::Box(ScalarBox::Any | ScalarBox::All(_)) = ty.scalar
        && let Dim::Static(copies) = ty.shape.row_count()
        && copies > COPIES
    {
        return no(5, 0);
    }
    Ok(ty.as_boxes())
}

/// Field `n` of a Def with its place in the type's bytes: the fields are the last bytes of all.
pub fn field(n: u64, ty: &Type) -> Option<(usize, Vec<u8>)> {
    let Scalar::Box(ScalarBox::Def(_, fields)) = &ty.scalar else {
        return None;
    };
    let rest = fields.get(usize::try_from(n).ok()?..).filter(|rest| !rest.is_empty())?;
    let length = |ty: &Type| crate::bytes::type_bytes(ty).len();
    let start = length(ty) - rest.iter().map(length).sum::<usize>();
    Some((start, crate::bytes::type_bytes(&rest[0])))
}

/// A size worked out from the number at `index`, or the number's refusal.
fn sized(dim: Option<Dim>, index: usize) -> Result<Dim, No> {
    match dim {
        None => no(13, index),
        Some(Dim::Static(size)) if size > LARGEST => no(4, index),
        Some(dim) => Ok(dim),
    }
}

/// Refuses more than eight numbers, then the first that is no size.
fn all_sized(numbers: &[f64], one: impl Fn(f64) -> Option<Dim>) -> Result<(), No> {
    if numbers.len() > SIZES {
        return no(3, 0);
    }
    let mut judged = numbers.iter().enumerate().map(|(index, &n)| sized(one(n), index));
    judged.try_for_each(|dim| dim.map(drop))
}

pub fn spec(value: TypeVal) -> Result<Type, No> {
    let one = |n| TypeVal::Num(n).spec().map(|ty| ty.shape.row_count());
    match &value {
        TypeVal::Num(n) => all_sized(&[*n], one)?,
        TypeVal::NumList(list) => all_sized(list, one)?,
        TypeVal::Type(_) => {}
    }
    Ok(value.spec().expect("every number was judged"))
}

pub fn as_dim(value: &TypeVal) -> Result<Option<Dim>, No> {
    match value {
        TypeVal::Num(_) => sized(value.as_dim(), 0).map(Some),
        _ => Ok(value.as_dim()),
    }
}

pub fn as_dims(value: &TypeVal) -> Result<Option<Vec<Dim>>, No> {
    if let TypeVal::NumList(list) = value {
        all_sized(list, |n| TypeVal::NumList(vec![n]).as_dims().map(|dims| dims[0]))?;
    }
    Ok(value.as_dims())
}
