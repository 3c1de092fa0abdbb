//! The calls of libvelgrodis.a, the checker of partial array types, as safe functions over slices: all 51 that include/velgrodis.h
//! declares, by their names there without `vg_`.
//!
//! A host takes this folder as a module, `pub mod velgrodis;`, and links with the library: `rustc -L FOLDER`, where FOLDER has
//! libvelgrodis.a. It needs nothing but std. `check_sheet.rs` beside it is such a host. The bytes of types and sheets are in
//! docs/FORMAT.md.
//!
//! # What a call answers
//!
//! Every call but [`version`] answers a `Result`. [`Error::Refused`] says why and where, by one of sixteen numbers ([`Why`]).
//! [`Error::NotUnderstood`] is an answer that this binding does not know. The library gives none such; it can only come from a library of
//! another version, and it must never look like a value. No call panics. `None` in a result is an answer too: what was asked for is not
//! there.
//!
//! "Refused" stands at each call, with the refusals in the order in which they are found, by their numbers ([`Why::number`]).
//! - "Reading `x`" is [`Why::Ended`], [`Why::Unmarked`], [`Why::OutOfRange`], [`Why::Oversized`] or [`Why::TooMany`], whichever comes
//!   first from left to right, else [`Why::Trailing`], with its place in `x`. Of two types the first is read whole before the other:
//!   refused by [`read`] with the same, it was the first.
//! - "Result" is [`Why::TooShort`] at 0, if the result is too short for what is to be written.
//!
//! What the C header refuses for a number that is out of range (a flag, a side, a kind of value) cannot be said here: [`Fill`], [`Side`]
//! and [`Value`] have no such case.
//!
//! # What is lent
//!
//! A call that writes takes a slice for it, the result, and answers the part that it wrote: the front. The bytes after it stay as lent.
//! A refusal, or `None`, leaves the whole result as lent. [`TYPE_BYTES`] always suffice for a type, for the record of a shape and for
//! that of a scalar. The library allocates nothing and keeps nothing between calls, so calls may run at the same time in several
//! threads; what the borrow checker allows is allowed.
//!
//! Slices may be empty. The C header wants a pointer that is neither null nor misaligned even then, and a slice of Rust's has one.
#![deny(missing_docs, unsafe_code)]

pub(crate) mod answer;
pub(crate) mod declared;
mod limits;
pub(crate) mod scalars;
pub(crate) mod shapes;
pub(crate) mod sheets;
mod sizes;
pub(crate) mod types;
pub(crate) mod validation;
pub(crate) mod values;

pub use answer::{Error, Refusal, Why};
pub use limits::*;
pub use scalars::{
    compare, compatible_scalars, compatible_with_boxes, kinds, superset, union, unrefine, Kind,
    Kinds,
};
pub use shapes::{
    compatible_shapes, join_shapes, merge, pervade, rank, row_count, row_shape, shape_is_any,
    shape_is_scalar, Compatible, Fill,
};
pub use sheets::{check_sheet, find_step, Left, Mark, Step};
pub use sizes::{
    dim_cmp, dim_cmp_defined, dim_compatible, dim_join, dim_max, dim_row_compatible, Size,
};
pub use types::{
    as_boxes, field, first_row, join, last_row, nth_row, read, row, scalar_record, shape_record,
    type_length, unboxed, Field,
};
pub use validation::{check_scalar, check_shape, validate, Reading, Side, ValidationError};
pub use values::{
    as_dim, as_dims, nums_scalar, val_first_row, val_last_row, val_rank, val_row, val_row_count,
    val_scalar, val_spec, val_ty, Row, Value,
};
