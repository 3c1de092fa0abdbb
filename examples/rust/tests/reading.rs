//! Reading, in every call that takes lone types. The validations, which also say which one was being read, are in `validation`.

use super::expect::*;
use crate::velgrodis::Value::Type;
use crate::velgrodis::*;

type OfOne = fn(&[u8], &mut [u8]) -> Result<(), Error>;
type OfTwo = fn(&[u8], &[u8], &mut [u8]) -> Result<(), Error>;

const OF_ONE: [(&str, OfOne); 26] = [
    ("read", |ty, _| read(ty)),
    ("shape_record", |ty, result| shape_record(ty, result).map(drop)),
    ("scalar_record", |ty, result| scalar_record(ty, result).map(drop)),
    ("row", |ty, result| row(ty, result).map(drop)),
    ("first_row", |ty, result| first_row(ty, result).map(drop)),
    ("last_row", |ty, result| last_row(ty, result).map(drop)),
    ("nth_row", |ty, result| nth_row(ty, 0, result).map(drop)),
    ("unboxed", |ty, result| unboxed(ty, result).map(drop)),
    ("as_boxes", |ty, result| as_boxes(ty, result).map(drop)),
    ("field", |ty, _| field(ty, 0).map(drop)),
    ("row_shape", |ty, result| row_shape(ty, result).map(drop)),
    ("shape_is_any", |ty, _| shape_is_any(ty).map(drop)),
    ("shape_is_scalar", |ty, _| shape_is_scalar(ty).map(drop)),
    ("row_count", |ty, _| row_count(ty).map(drop)),
    ("rank", |ty, _| rank(ty).map(drop)),
    ("unrefine", |ty, result| unrefine(ty, result).map(drop)),
    ("val_ty", |ty, result| val_ty(Type(ty), result).map(drop)),
    ("val_spec", |ty, result| val_spec(Type(ty), result).map(drop)),
    ("val_scalar", |ty, result| val_scalar(Type(ty), result).map(drop)),
    ("val_row_count", |ty, _| val_row_count(Type(ty)).map(drop)),
    ("val_rank", |ty, _| val_rank(Type(ty)).map(drop)),
    ("val_row", |ty, result| val_row(Type(ty), result).map(drop)),
    ("val_first_row", |ty, result| val_first_row(Type(ty), result).map(drop)),
    ("val_last_row", |ty, result| val_last_row(Type(ty), result).map(drop)),
    ("as_dim", |ty, _| as_dim(Type(ty)).map(drop)),
    ("as_dims", |ty, _| as_dims(Type(ty), &mut []).map(drop)),
];

const OF_TWO: [(&str, OfTwo); 11] = [
    ("join", |a, b, result| join(a, b, result).map(drop)),
    ("merge", |a, b, result| merge(a, b, result).map(drop)),
    ("join_shapes", |a, b, result| join_shapes(a, b, result).map(drop)),
    ("pervade, filling nothing", |a, b, result| pervade(Fill::Nothing, a, b, result).map(drop)),
    ("pervade, filling both", |a, b, result| pervade(Fill::Both, a, b, result).map(drop)),
    ("compatible_shapes", |a, b, _| compatible_shapes(a, b).map(drop)),
    ("union", |a, b, result| union(a, b, result).map(drop)),
    ("superset", |a, b, _| superset(a, b).map(drop)),
    ("compatible_scalars", |a, b, _| compatible_scalars(a, b).map(drop)),
    ("compatible_with_boxes", |a, b, _| compatible_with_boxes(a, b).map(drop)),
    ("compare", |a, b, _| compare(a, b).map(drop)),
];

#[test]
fn reading_one_type() {
    for (call, made) in OF_ONE {
        assert_eq!(made(&num("[3]"), &mut lent(ROOM)), Ok(()), "{call}");
        for (damaged, why, place) in damages() {
            refuses(|result| made(&damaged, result), why, place);
        }
    }
}

#[test]
fn reading_two_types() {
    let good = num("[3]");
    for (call, made) in OF_TWO {
        assert_eq!(made(&good, &good, &mut lent(ROOM)), Ok(()), "{call}");
        for (damaged, why, place) in damages() {
            refuses(|result| made(&damaged, &good, result), why, place);
            refuses(|result| made(&good, &damaged, result), why, place);
            for (other, ..) in damages() {
                refuses(|result| made(&damaged, &other, result), why, place);
            }
        }
    }
}
