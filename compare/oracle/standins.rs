//! What the cut text leans on and does not bring along.

use std::cell::Cell;

use crate::uiua::{TypeError, TypeResult};

pub type EcoString = String;
pub type EcoVec<T> = Vec<T>;

#[derive(Clone, Copy)]
pub enum SubSide {
    Left,
    Right,
}

// Refusal 5 in validation. The Rust has no limits, and while it changes a box deep inside, the
// whole type cannot be looked at. So the cut text calls `changed` after each replacement or copy,
// and `rules::within_limits` has it stop there: the Rust leaves a half-changed type on error, and
// that is the whole type as it stands right after that change.

thread_local! {
    static CHANGES_LEFT: Cell<usize> = const { Cell::new(usize::MAX) };
}

/// Has the run that follows stop right after its `count`-th change (counted from 1).
pub fn stop_after(count: usize) {
    CHANGES_LEFT.set(count);
}

/// A change was made: stops the run if it was the one asked for. None of the cut functions
/// answers with a Generic error of its own.
pub fn changed() -> TypeResult {
    let left = CHANGES_LEFT.get() - 1;
    CHANGES_LEFT.set(left);
    if left == 0 { Err(TypeError::Generic("stopped".into())) } else { Ok(()) }
}

/// The number of copies to make: 32 of them in a type are already too many, so 2^53 need not be
/// made to find that out.
pub fn capped(copies: usize) -> usize {
    copies.min(crate::limits::TYPES)
}
