//! Values handed in.

use super::expect::*;
use crate::velgrodis::Value::{Number, Numbers, Type};
use crate::velgrodis::*;

#[test]
fn types_and_specs_of_values() {
    let table = of_kind("[3]", Kind::Int);
    writes(|result| val_ty(Number(2.5), result), &num("[]"));
    writes(|result| val_ty(Numbers(&[1.0, 0.5, f64::NAN]), result), &num("[3]"));
    writes(|result| val_ty(Numbers(&[]), result), &num("[0]"));
    writes(|result| val_ty(Type(&table), result), &table);
    writes(|result| val_spec(Number(3.0), result), &of_kind("[3]", Kind::Any));
    writes(|result| val_spec(Number(f64::INFINITY), result), &of_kind("[?]", Kind::Any));
    writes(
        |result| val_spec(Numbers(&[2.0, f64::INFINITY, -0.0]), result),
        &of_kind("[2 ? 0]", Kind::Any),
    );
    writes(|result| val_spec(Numbers(&[]), result), &of_kind("[]", Kind::Any));
    writes(|result| val_spec(Type(&table), result), &table);
    refuses(|result| val_spec(Number(f64::NAN), result).map(drop), Why::NotASize, 0);
    refuses(|result| val_spec(Numbers(&[1.0, 0.5]), result).map(drop), Why::NotASize, 1);
    refuses(|result| val_spec(Numbers(&[1.0, 2f64.powi(60)]), result).map(drop), Why::Oversized, 1);
    refuses(|result| val_spec(Numbers(&[0.5; 9]), result).map(drop), Why::OutOfRange, 0);
}

#[test]
fn scalars_of_values() {
    let lists: [(&[f64], Kind); 8] = [
        (&[], Kind::Bool),
        (&[1.0, 0.0, -0.0], Kind::Bool),
        (&[2.0, 1.0], Kind::Nat),
        (&[-1.0, 2.0], Kind::Int),
        (&[1.0, 0.5], Kind::Num),
        (&[f64::NAN], Kind::Num),
        (&[f64::INFINITY], Kind::Num),
        (&[-1.0, f64::NEG_INFINITY], Kind::Num),
    ];
    for (list, kind) in lists {
        writes(|result| nums_scalar(list, result), &scalar(kind));
        writes(|result| val_scalar(Numbers(list), result), &scalar(kind));
        if let [one] = *list {
            writes(|result| val_scalar(Number(one), result), &scalar(kind));
        }
    }
    writes(|result| val_scalar(Number(-1.0), result), &scalar(Kind::Int));
    writes(|result| val_scalar(Type(&pair()), result), &pair()[12..]);
}

#[test]
fn counts_of_values() {
    let (unknown, table) = (num("[?]"), num("[4 5]"));
    let values = [
        (Number(f64::NAN), Size::Static(1), 0),
        (Numbers(&[]), Size::Static(0), 1),
        (Numbers(&[1.0, 2.0, 0.5]), Size::Static(3), 1),
        (Type(&unknown), Size::Unknown, 1),
        (Type(&table), Size::Static(4), 2),
    ];
    for (value, rows, rank) in values {
        assert_eq!(val_row_count(value), Ok(rows), "{value:?}");
        assert_eq!(val_rank(value), Ok(rank), "{value:?}");
    }
}

type RowOf = for<'r> fn(Value<'_>, &'r mut [u8]) -> Result<Row<'r>, Error>;

fn the_type(row: Row<'_>) -> &[u8] {
    match row {
        Row::Type(ty) => ty,
        Row::Number(x) => panic!("the number {x}"),
    }
}

#[test]
fn rows_of_values() {
    let calls: [RowOf; 3] = [val_row, val_first_row, val_last_row];
    let a_number = |call: RowOf, value: Value, wanted: f64| {
        for room in [0, ROOM] {
            let mut result = lent(room);
            assert_eq!(call(value, &mut result), Ok(Row::Number(wanted)), "{value:?}");
            assert!(as_lent(&result));
        }
    };
    let a_type = |call: RowOf, value: Value, wanted: &[u8]| {
        writes(|result| call(value, result).map(the_type), wanted);
    };
    for call in calls {
        a_number(call, Number(2.5), 2.5);
        a_number(call, Number(f64::NEG_INFINITY), f64::NEG_INFINITY);
        a_number(call, Numbers(&[7.0]), 7.0);
        a_type(call, Numbers(&[]), &num("[]"));
        a_type(call, Type(&num("[2 3]")), &num("[3]"));
        assert!(matches!(call(Number(f64::NAN), &mut []), Ok(Row::Number(x)) if x.is_nan()));
        assert!(matches!(call(Numbers(&[f64::NAN]), &mut []), Ok(Row::Number(x)) if x.is_nan()));
    }
    a_type(val_row, Numbers(&[1.0, 5.0]), &num("[]"));
    a_number(val_first_row, Numbers(&[1.0, 5.0]), 1.0);
    a_number(val_last_row, Numbers(&[1.0, 5.0]), 5.0);
    a_type(val_first_row, Type(&pair()), &of("[]", &all(&num("[]"))));
    a_type(val_last_row, Type(&pair()), &of("[]", &all(&num("[3]"))));
}

#[test]
fn sizes_of_values() {
    let table = num("[3]");
    assert_eq!(as_dim(Number(3.0)), Ok(Some(Size::Static(3))));
    assert_eq!(as_dim(Number(-0.0)), Ok(Some(Size::Static(0))));
    assert_eq!(as_dim(Number(f64::INFINITY)), Ok(Some(Size::Unknown)));
    assert_eq!(as_dim(Number(MAX_SIZE as f64)), Ok(Some(Size::Static(MAX_SIZE))));
    assert_eq!(as_dim(Number(MAX_SIZE as f64 + 2.0)), refused(Why::Oversized, 0));
    for no_size in [f64::NAN, 0.5, -1.0, -0.5] {
        assert_eq!(as_dim(Number(no_size)), refused(Why::NotASize, 0), "{no_size}");
    }
    assert_eq!(as_dim(Numbers(&[3.0])), Ok(None));
    assert_eq!(as_dim(Type(&table)), Ok(None));

    // What is lent is no size that any list here has.
    let lent_size = Size::Static(99);
    let dims = |value: Value, room: usize| {
        let mut sizes = vec![lent_size; room];
        let answer = as_dims(value, &mut sizes).map(|written| written.map(<[Size]>::to_vec));
        (answer, sizes)
    };
    let three = [Size::Static(2), Size::Unknown, Size::Static(0)];
    for room in [3, 4, 8, 9, 100] {
        let (answer, sizes) = dims(Numbers(&[2.0, f64::INFINITY, -0.0]), room);
        assert_eq!(answer, Ok(Some(three.to_vec())));
        assert_eq!(sizes[..3], three);
        assert!(sizes[3..].iter().all(|&size| size == lent_size));
    }
    let as_lent_for = |value: Value, room: usize, wanted: Result<Option<Vec<Size>>, Error>| {
        assert_eq!(dims(value, room), (wanted, vec![lent_size; room]), "{value:?}");
    };
    for room in [0, 2] {
        as_lent_for(Numbers(&[2.0, f64::INFINITY, -0.0]), room, refused(Why::TooShort, 0));
    }
    for room in [0, 8, 9] {
        as_lent_for(Numbers(&[2.0, f64::NEG_INFINITY]), room, refused(Why::NotASize, 1));
        as_lent_for(Numbers(&[2.0, 1e300]), room, refused(Why::Oversized, 1));
        as_lent_for(Numbers(&[0.5; 9]), room, refused(Why::OutOfRange, 0));
        as_lent_for(Number(3.0), room, Ok(None));
        as_lent_for(Type(&table), room, Ok(None));
        as_lent_for(Numbers(&[]), room, Ok(Some(vec![])));
    }
    assert_eq!(dims(Numbers(&[5.0; 8]), 8).0, Ok(Some(vec![Size::Static(5); 8])));
}
