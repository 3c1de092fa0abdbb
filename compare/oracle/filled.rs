//! A sheet's pervading of two shapes, by hand: document 01's rule ("Pervading, index by index") with
//! what document 02 adds to it in sheets (2026-01). The separate call is the Rust's, in rules.rs;
//! beside.rs holds the two together.

use std::cmp::Ordering;

use crate::bytes::{No, no};
use crate::uiua::{Dim, DynShape};

/// Both shapes pervaded; `flag` bit 0 fills the first, which is the top, bit 1 the second.
pub fn pervade(flag: u64, first: DynShape, second: DynShape) -> Result<DynShape, No> {
    let count = first.dims.len().max(second.dims.len());
    let mut dims = Vec::with_capacity(count);
    for index in 0..count {
        let (a, b) = (side(&first, index, flag & 1), side(&second, index, flag & 2));
        match met(a, b) {
            Some(size) => dims.push(size),
            // The walk stops at the first index that refuses.
            None => return no(8, 0),
        }
    }
    Ok(DynShape { dims, suffix: closing(first.suffix, second.suffix) })
}

/// What one side has at an index: a size, or nothing where its opening list is shorter.
#[derive(Clone, Copy)]
struct Side {
    size: Option<Dim>,
    open: bool,
    filled: bool,
}

fn side(shape: &DynShape, index: usize, filling: u64) -> Side {
    let size = shape.dims.get(index).copied();
    Side { size, open: shape.suffix.is_some(), filled: filling != 0 }
}

/// The size at one index, or none if it refuses.
fn met(a: Side, b: Side) -> Option<Dim> {
    if left_open(a, b) || left_open(b, a) {
        return Some(Dim::Dyn);
    }
    match (a.size, b.size) {
        // 1 against absent is ?;
        (Some(Dim::Static(1)), None) | (None, Some(Dim::Static(1))) => Some(Dim::Dyn),
        // 1 or absent yields to the other;
        (Some(Dim::Static(1)) | None, other) | (other, Some(Dim::Static(1)) | None) => other,
        // ? yields;
        (Some(Dim::Dyn), other) | (other, Some(Dim::Dyn)) => other,
        // equal statics stay; else the larger, if the smaller's side is filled.
        (Some(Dim::Static(m)), Some(Dim::Static(n))) => match m.cmp(&n) {
            Ordering::Equal => a.size,
            Ordering::Less if a.filled => b.size,
            Ordering::Greater if b.filled => a.size,
            _ => None,
        },
    }
}

/// 2026-01: a static size other than 1 is filled on its own side and meets ? or nothing in an open
/// shape, whether that names closing sizes or not. 0 is such a size too.
fn left_open(own: Side, other: Side) -> bool {
    let fixed = matches!(own.size, Some(Dim::Static(size)) if size != 1);
    let unknown = match other.size {
        Some(size) => size == Dim::Dyn,
        None => other.open,
    };
    own.filled && fixed && unknown
}

fn closing(a: Option<Vec<Dim>>, b: Option<Vec<Dim>>) -> Option<Vec<Dim>> {
    match (a, b) {
        // An absent closing list yields to the other's,
        (None, other) | (other, None) => other,
        // an empty one to a named one only;
        (Some(a), Some(b)) if a.is_empty() => Some(b),
        (Some(a), Some(b)) if b.is_empty() => Some(a),
        // two named ones give an empty one.
        (Some(_), Some(_)) => Some(Vec::new()),
    }
}
