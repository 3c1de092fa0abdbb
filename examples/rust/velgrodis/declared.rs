//! The calls as the header declares them, but with a slice where it has a pointer and a length. All that is unsafe stands here, once.
#![allow(unsafe_code)]

/// The answer of every call but `vg_version`; a validation says one thing more beside it.
#[repr(C)]
#[derive(Clone, Copy, Debug, PartialEq)]
pub(crate) struct Answer {
    pub kind: u64,
    pub number: u64,
    pub place: u64,
    pub first: u64,
    pub second: u64,
}

/// The answer of a validation.
#[repr(C)]
#[derive(Clone, Copy, Debug, PartialEq)]
pub(crate) struct Validation {
    pub answer: Answer,
    pub reading: u64,
}

#[link(name = "velgrodis", kind = "static")]
unsafe extern "C" {}

/// Makes a safe function of each call: a slice is handed on as its pointer and its length, a number as it is.
///
/// The arms that begin with @ take one parameter after the other, and gather what the function takes, what the header declares for it,
/// and what is handed on.
macro_rules! declared {
    (@ $name:ident -> $answer:ident, [$lent:ident: &[$of:ident] $(, $($more:tt)*)?] [$($taken:tt)*] [$($c:tt)*] [$($handed:tt)*]) => {
        declared! { @ $name -> $answer, [$($($more)*)?]
            [$($taken)* $lent: &[$of],] [$($c)* $lent: *const $of, _: usize,] [$($handed)* $lent.as_ptr(), $lent.len(),] }
    };
    (@ $name:ident -> $answer:ident, [$lent:ident: &mut [$of:ident] $(, $($more:tt)*)?] [$($taken:tt)*] [$($c:tt)*] [$($handed:tt)*]) => {
        declared! { @ $name -> $answer, [$($($more)*)?]
            [$($taken)* $lent: &mut [$of],] [$($c)* $lent: *mut $of, _: usize,] [$($handed)* $lent.as_mut_ptr(), $lent.len(),] }
    };
    (@ $name:ident -> $answer:ident, [$lent:ident: &mut $of:ident $(, $($more:tt)*)?] [$($taken:tt)*] [$($c:tt)*] [$($handed:tt)*]) => {
        declared! { @ $name -> $answer, [$($($more)*)?] [$($taken)* $lent: &mut $of,] [$($c)* $lent: *mut $of,] [$($handed)* $lent,] }
    };
    (@ $name:ident -> $answer:ident, [$said:ident: $of:ident $(, $($more:tt)*)?] [$($taken:tt)*] [$($c:tt)*] [$($handed:tt)*]) => {
        declared! { @ $name -> $answer, [$($($more)*)?] [$($taken)* $said: $of,] [$($c)* $said: $of,] [$($handed)* $said,] }
    };
    (@ $name:ident -> $answer:ident, [] [$($taken:tt)*] [$($c:tt)*] [$($handed:tt)*]) => {
        pub(crate) fn $name($($taken)*) -> $answer {
            unsafe extern "C" {
                fn $name($($c)*) -> $answer;
            }
            // SAFETY: The header lists what a host guarantees.
            // - A length is true, its elements are initialised, and readable or writable: pointer and length are those of one slice.
            // - No pointer is null or misaligned: those of slices and references never are, of empty slices neither.
            // - What is lent to be written overlaps nothing else, and nobody else reads or writes it: it is borrowed by `&mut`. What is only
            //   read nobody writes: it is borrowed by `&`. The library keeps no pointer after the call.
            // Any other number may be handed in: one that is out of range is refused. Any bytes, sizes and numbers that are written are
            // valid ones of their types. That the declarations are the header's is tested (../tests/header.rs).
            unsafe { $name($($handed)*) }
        }
    };
    ($(fn $name:ident($($parameters:tt)*) -> $answer:ident;)*) => {
        $(declared! { @ $name -> $answer, [$($parameters)*] [] [] [] })*

        /// Each as it stands below, for whoever compares them with the header.
        #[cfg(test)]
        pub(crate) const DECLARED: &[&str] = &[$(stringify!(fn $name($($parameters)*) -> $answer)),*];
    };
}

declared! {
    fn vg_version() -> u64;

    fn vg_check_sheet(sheet: &[u8], result: &mut [u8], scratch: &mut [u8]) -> Answer;
    fn vg_find_step(sheet: &[u8], place: u64) -> Answer;

    fn vg_read(ty: &[u8]) -> Answer;
    fn vg_type_length(bytes: &[u8]) -> Answer;
    fn vg_shape_record(ty: &[u8], result: &mut [u8]) -> Answer;
    fn vg_scalar_record(ty: &[u8], result: &mut [u8]) -> Answer;
    fn vg_row(ty: &[u8], result: &mut [u8]) -> Answer;
    fn vg_first_row(ty: &[u8], result: &mut [u8]) -> Answer;
    fn vg_last_row(ty: &[u8], result: &mut [u8]) -> Answer;
    fn vg_nth_row(ty: &[u8], n: u64, result: &mut [u8]) -> Answer;
    fn vg_unboxed(ty: &[u8], result: &mut [u8]) -> Answer;
    fn vg_as_boxes(ty: &[u8], result: &mut [u8]) -> Answer;
    fn vg_field(ty: &[u8], n: u64) -> Answer;
    fn vg_join(a: &[u8], b: &[u8], result: &mut [u8]) -> Answer;

    fn vg_merge(a: &[u8], b: &[u8], result: &mut [u8]) -> Answer;
    fn vg_join_shapes(a: &[u8], b: &[u8], result: &mut [u8]) -> Answer;
    fn vg_row_shape(ty: &[u8], result: &mut [u8]) -> Answer;
    fn vg_pervade(flag: u64, a: &[u8], b: &[u8], result: &mut [u8]) -> Answer;
    fn vg_compatible_shapes(a: &[u8], b: &[u8]) -> Answer;
    fn vg_shape_is_any(ty: &[u8]) -> Answer;
    fn vg_shape_is_scalar(ty: &[u8]) -> Answer;
    fn vg_row_count(ty: &[u8]) -> Answer;
    fn vg_rank(ty: &[u8]) -> Answer;

    fn vg_union(a: &[u8], b: &[u8], result: &mut [u8]) -> Answer;
    fn vg_unrefine(ty: &[u8], result: &mut [u8]) -> Answer;
    fn vg_superset(a: &[u8], b: &[u8]) -> Answer;
    fn vg_compatible_scalars(a: &[u8], b: &[u8]) -> Answer;
    fn vg_compatible_with_boxes(a: &[u8], b: &[u8]) -> Answer;
    fn vg_compare(a: &[u8], b: &[u8]) -> Answer;
    fn vg_kinds(result: &mut [u8]) -> Answer;

    fn vg_dim_cmp(a: u64, b: u64) -> Answer;
    fn vg_dim_cmp_defined(a: u64, b: u64) -> Answer;
    fn vg_dim_max(a: u64, b: u64) -> Answer;
    fn vg_dim_join(a: u64, b: u64) -> Answer;
    fn vg_dim_compatible(a: u64, b: u64) -> Answer;
    fn vg_dim_row_compatible(a: u64, b: u64) -> Answer;

    fn vg_val_ty(kind: u64, x: f64, list: &[f64], ty: &[u8], result: &mut [u8]) -> Answer;
    fn vg_val_spec(kind: u64, x: f64, list: &[f64], ty: &[u8], result: &mut [u8]) -> Answer;
    fn vg_val_scalar(kind: u64, x: f64, list: &[f64], ty: &[u8], result: &mut [u8]) -> Answer;
    fn vg_nums_scalar(list: &[f64], result: &mut [u8]) -> Answer;
    fn vg_val_row_count(kind: u64, x: f64, list: &[f64], ty: &[u8]) -> Answer;
    fn vg_val_rank(kind: u64, x: f64, list: &[f64], ty: &[u8]) -> Answer;
    fn vg_val_row(kind: u64, x: f64, list: &[f64], ty: &[u8], number: &mut f64, result: &mut [u8]) -> Answer;
    fn vg_val_first_row(kind: u64, x: f64, list: &[f64], ty: &[u8], number: &mut f64, result: &mut [u8]) -> Answer;
    fn vg_val_last_row(kind: u64, x: f64, list: &[f64], ty: &[u8], number: &mut f64, result: &mut [u8]) -> Answer;
    fn vg_as_dim(kind: u64, x: f64, list: &[f64], ty: &[u8]) -> Answer;
    fn vg_as_dims(kind: u64, x: f64, list: &[f64], ty: &[u8], sizes: &mut [u64]) -> Answer;

    fn vg_validate(side: u64, spec: &[u8], ty: &[u8], result: &mut [u8]) -> Validation;
    fn vg_check_shape(side: u64, spec: &[u8], ty: &[u8], result: &mut [u8]) -> Validation;
    fn vg_check_scalar(spec: &[u8], ty: &[u8], result: &mut [u8]) -> Validation;
}
