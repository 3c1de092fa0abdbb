//! The index that a no of `compatible_with` names, by hand (document 02, 2026-07). Whether it is a no
//! the cut `compatible_with` alone says; beside.rs holds the two together.

use crate::uiua::{Dim, DynShape};

/// What the test of two opening lists says.
#[derive(Clone, Copy, Debug, PartialEq)]
pub enum Verdict {
    Yes,
    /// No, and the greatest index that fails.
    Index(usize),
    /// No, and none is named: the counts differ.
    Counts,
}

/// The verdict, or none where the cut text disagrees: it says yes though something fails, or no though
/// nothing does.
pub fn verdict(says_yes: bool, a: &DynShape, b: &DynShape) -> Option<Verdict> {
    let by_hand = match failing(&a.dims, &b.dims).as_deref() {
        Some([]) => Verdict::Yes,
        Some([.., greatest]) => Verdict::Index(*greatest),
        None => Verdict::Counts,
    };
    (says_yes == (by_hand == Verdict::Yes)).then_some(by_hand)
}

/// Every index that fails, from the front; none where the counts differ.
fn failing(a: &[Dim], b: &[Dim]) -> Option<Vec<usize>> {
    let fails = |&index: &usize| !agree(a[index], b[index]);
    (a.len() == b.len()).then(|| (0..a.len()).filter(fails).collect())
}

/// Equal, or either 1 or ?.
fn agree(a: Dim, b: Dim) -> bool {
    let either = |size: Dim| a == size || b == size;
    a == b || either(Dim::Static(1)) || either(Dim::Dyn)
}
