//! A shape mismatch's number, by hand (document 02, 2026-03): 14 where the count cannot fit, else 10.
//! Whether there is a mismatch the cut `check_shape` alone says.

use crate::standins::SubSide;
use crate::uiua::{Dim, DynShape};

pub const COUNT: u8 = 14;
pub const SIZE: u8 = 10;

/// The number for two shapes that `check_shape` has found to mismatch under this side. The spec's is
/// the one that the error carries: the side has given it another form.
pub fn number(side: Option<SubSide>, spec: &DynShape, ty: &DynShape) -> u8 {
    let asked = match (side, &spec.suffix) {
        // From the right its opening sizes have become closing ones,
        (Some(SubSide::Right), Some(sizes)) => sizes,
        // from the left and unsided they stand where they stood. Closing ones are not looked at.
        _ => &spec.dims,
    };
    let cannot_fit = match side {
        Some(SubSide::Left) => ty.suffix.is_none() && ty.dims.len() < asked.len(),
        Some(SubSide::Right) => named(ty) < asked.len(),
        None => unsided(asked, ty),
    };
    if cannot_fit { COUNT } else { SIZE }
}

/// How many sizes a shape names, opening and closing together.
fn named(shape: &DynShape) -> usize {
    shape.dims.len() + shape.suffix.as_ref().map_or(0, Vec::len)
}

fn unsided(asked: &[Dim], ty: &DynShape) -> bool {
    match &ty.suffix {
        // A closed type: the counts differ, whether the spec is closed or open.
        None => ty.dims.len() != asked.len(),
        // An open type: it names more sizes than are asked for, or fewer while none that both name
        // differs.
        Some(closing) => {
            named(ty) > asked.len() || named(ty) < asked.len() && alike(asked, &ty.dims, closing)
        }
    }
}

/// Whether all sizes that both name are equal, ? to ? alone: the opening ones from the front, and
/// the closing ones from the end of what those have left.
fn alike(asked: &[Dim], opening: &[Dim], closing: &[Dim]) -> bool {
    let (front, left) = asked.split_at(opening.len());
    front == opening && left.ends_with(closing)
}
