//! The calls of libvelgrodis.a, as include/velgrodis.h declares them, one table of them by what they take.

use crate::expected::{self, Expected};

/// The answer of every call, of the three separate validations within theirs. The kind is 0 for a refusal, 1 for a value, 2 for none.
#[repr(C)]
#[derive(Clone, Copy, Debug, Default, PartialEq)]
pub struct Answer {
    pub kind: u64,
    pub number: u64,
    pub place: u64,
    pub first: u64,
    pub second: u64,
}

/// The answer of a separate validation. Reading is 1 where a refusal came while the spec was being read, 2 while the type was, else 0.
#[repr(C)]
#[derive(Clone, Copy, Debug, Default, PartialEq)]
pub struct Validation {
    pub answer: Answer,
    pub reading: u64,
}

/// Every other answer is held as one for which nothing was being read.
impl From<Answer> for Validation {
    fn from(answer: Answer) -> Self {
        Validation { answer, reading: 0 }
    }
}

/// What a value is handed in by: its kind, then a number, numbers and a type, of which it looks at one.
macro_rules! value {
    ($($more:ty),*) => { unsafe extern "C" fn(u64, f64, *const f64, usize, *const u8, usize $(, $more)*) -> Answer };
}

/// What a call takes and where it writes.
pub enum Call {
    One(unsafe extern "C" fn(*const u8, usize) -> Answer),
    Two(unsafe extern "C" fn(*const u8, usize, *const u8, usize) -> Answer),
    /// Nothing is handed in.
    To(unsafe extern "C" fn(*mut u8, usize) -> Answer),
    OneTo(unsafe extern "C" fn(*const u8, usize, *mut u8, usize) -> Answer),
    TwoTo(unsafe extern "C" fn(*const u8, usize, *const u8, usize, *mut u8, usize) -> Answer),
    Numbered(unsafe extern "C" fn(*const u8, usize, u64) -> Answer),
    NumberedTo(unsafe extern "C" fn(*const u8, usize, u64, *mut u8, usize) -> Answer),
    /// Before the two types stands a number that must be at most this: a flag.
    Led(
        u64,
        unsafe extern "C" fn(u64, *const u8, usize, *const u8, usize, *mut u8, usize) -> Answer,
    ),
    /// A separate validation, of a spec and a type.
    Checked(unsafe extern "C" fn(*const u8, usize, *const u8, usize, *mut u8, usize) -> Validation),
    /// The same with a side before them, which must be at most this.
    Sided(
        u64,
        unsafe extern "C" fn(u64, *const u8, usize, *const u8, usize, *mut u8, usize) -> Validation,
    ),
    Sizes(unsafe extern "C" fn(u64, u64) -> Answer),
    NumbersTo(unsafe extern "C" fn(*const f64, usize, *mut u8, usize) -> Answer),
    Value(value!()),
    ValueTo(value!(*mut u8, usize)),
    ValueRow(value!(*mut f64, *mut u8, usize)),
    ValueSizes(value!(*mut u64, usize)),
    Sheet(unsafe extern "C" fn(*const u8, usize, *mut u8, usize, *mut u8, usize) -> Answer),
    /// Nothing is handed in, and the answer is a number alone.
    Number(unsafe extern "C" fn() -> u64),
}

/// What a call answers, where it names no other.
macro_rules! answered {
    () => {
        Answer
    };
    ($other:ty) => {
        $other
    };
}

macro_rules! declared {
    ($(($request:literal, $name:ident, $kind:ident $(($most:literal))?, $expected:expr, ($($argument:ty),*) $(-> $other:ty)?),)*) => {
        unsafe extern "C" {
            $(pub fn $name($(_: $argument),*) -> answered!($($other)?);)*
        }
        /// The oracle's request, the call, and how the request's answer is turned into what the call must do.
        pub const CALLS: &[(&str, &str, Call, fn(&str) -> Expected)] =
            &[$(($request, stringify!($name), Call::$kind($($most,)? $name), $expected)),*];
    };
}

type In = *const u8;
type Out = *mut u8;
type Floats = *const f64;

#[rustfmt::skip]
declared! {
    ("read", vg_read, One, expected::nothing, (In, usize)),
    ("write_shape", vg_shape_record, OneTo, expected::bytes, (In, usize, Out, usize)),
    ("write_scalar", vg_scalar_record, OneTo, expected::bytes, (In, usize, Out, usize)),
    ("row", vg_row, OneTo, expected::bytes, (In, usize, Out, usize)),
    ("first_row", vg_first_row, OneTo, expected::bytes, (In, usize, Out, usize)),
    ("last_row", vg_last_row, OneTo, expected::bytes, (In, usize, Out, usize)),
    ("nth_row", vg_nth_row, NumberedTo, expected::bytes, (In, usize, u64, Out, usize)),
    ("unboxed", vg_unboxed, OneTo, expected::bytes, (In, usize, Out, usize)),
    ("as_boxes", vg_as_boxes, OneTo, expected::bytes, (In, usize, Out, usize)),
    ("field", vg_field, Numbered, expected::stretch, (In, usize, u64)),
    ("join", vg_join, TwoTo, expected::bytes, (In, usize, In, usize, Out, usize)),
    ("merge", vg_merge, TwoTo, expected::bytes, (In, usize, In, usize, Out, usize)),
    ("join_shapes", vg_join_shapes, TwoTo, expected::bytes, (In, usize, In, usize, Out, usize)),
    ("row_shape", vg_row_shape, OneTo, expected::bytes, (In, usize, Out, usize)),
    ("pervade", vg_pervade, Led(3), expected::bytes, (u64, In, usize, In, usize, Out, usize)),
    ("compatible_shapes", vg_compatible_shapes, Two, expected::tested, (In, usize, In, usize)),
    ("shape_is_any", vg_shape_is_any, One, expected::number, (In, usize)),
    ("shape_is_scalar", vg_shape_is_scalar, One, expected::number, (In, usize)),
    ("row_count", vg_row_count, One, expected::number, (In, usize)),
    ("rank", vg_rank, One, expected::number, (In, usize)),
    ("union", vg_union, TwoTo, expected::bytes, (In, usize, In, usize, Out, usize)),
    ("unrefine", vg_unrefine, OneTo, expected::bytes, (In, usize, Out, usize)),
    ("superset", vg_superset, Two, expected::number, (In, usize, In, usize)),
    ("compatible_scalars", vg_compatible_scalars, Two, expected::number, (In, usize, In, usize)),
    ("compatible_with_boxes", vg_compatible_with_boxes, Two, expected::number, (In, usize, In, usize)),
    ("compare", vg_compare, Two, expected::order, (In, usize, In, usize)),
    ("dim_cmp", vg_dim_cmp, Sizes, expected::order, (u64, u64)),
    ("dim_cmp_defined", vg_dim_cmp_defined, Sizes, expected::order, (u64, u64)),
    ("dim_max", vg_dim_max, Sizes, expected::number, (u64, u64)),
    ("dim_join", vg_dim_join, Sizes, expected::number, (u64, u64)),
    ("dim_compatible", vg_dim_compatible, Sizes, expected::number, (u64, u64)),
    ("dim_row_compatible", vg_dim_row_compatible, Sizes, expected::number, (u64, u64)),
    ("val_ty", vg_val_ty, ValueTo, expected::bytes, (u64, f64, Floats, usize, In, usize, Out, usize)),
    ("val_spec", vg_val_spec, ValueTo, expected::bytes, (u64, f64, Floats, usize, In, usize, Out, usize)),
    ("val_scalar", vg_val_scalar, ValueTo, expected::bytes, (u64, f64, Floats, usize, In, usize, Out, usize)),
    ("nums_scalar", vg_nums_scalar, NumbersTo, expected::bytes, (Floats, usize, Out, usize)),
    ("val_row_count", vg_val_row_count, Value, expected::number, (u64, f64, Floats, usize, In, usize)),
    ("val_rank", vg_val_rank, Value, expected::number, (u64, f64, Floats, usize, In, usize)),
    ("val_row", vg_val_row, ValueRow, expected::row, (u64, f64, Floats, usize, In, usize, *mut f64, Out, usize)),
    ("val_first_row", vg_val_first_row, ValueRow, expected::row, (u64, f64, Floats, usize, In, usize, *mut f64, Out, usize)),
    ("val_last_row", vg_val_last_row, ValueRow, expected::row, (u64, f64, Floats, usize, In, usize, *mut f64, Out, usize)),
    ("as_dim", vg_as_dim, Value, expected::number, (u64, f64, Floats, usize, In, usize)),
    ("as_dims", vg_as_dims, ValueSizes, expected::sizes, (u64, f64, Floats, usize, In, usize, *mut u64, usize)),
    ("validate", vg_validate, Sided(2), expected::checked, (u64, In, usize, In, usize, Out, usize) -> Validation),
    ("check_shape", vg_check_shape, Sided(2), expected::checked, (u64, In, usize, In, usize, Out, usize) -> Validation),
    ("check_scalar", vg_check_scalar, Checked, expected::checked, (In, usize, In, usize, Out, usize) -> Validation),
    ("kinds", vg_kinds, To, expected::bytes, (Out, usize)),
    ("sheet_call", vg_check_sheet, Sheet, expected::types_left, (In, usize, Out, usize, Out, usize)),
    ("type_length", vg_type_length, One, expected::number, (In, usize)),
    ("find_step", vg_find_step, Numbered, expected::step, (In, usize, u64)),
    ("version", vg_version, Number, expected::number, () -> u64),
}
