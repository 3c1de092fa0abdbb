//! Types.

use super::expect::*;
use crate::velgrodis::*;

#[test]
fn bytes_that_are_a_type() {
    // As docs/FORMAT.md writes them.
    assert_eq!(num("[3]"), hex("53 48 01 ff 03 00 00 00 00 00 00 00 53 43 03"));
    assert_eq!(shape("[..]"), hex("53 48 00 00"));
    assert_eq!(shape("[]"), hex("53 48 00 ff"));
    for ty in [num("[3]"), num("[]"), num("[..]"), pair(), largest(7), of("[? 2..3]", &box_any())] {
        assert_eq!(read(&ty), Ok(()));
    }
    for (bytes, why, place) in damages() {
        assert_eq!(read(&bytes), refused(why, place), "{bytes:02x?}");
    }
}

/// Whatever follows, and nothing; and every way to be refused but for what follows.
#[test]
fn length_of_a_type() {
    for ty in [num("[3]"), num("[]"), num("[..]"), pair(), largest(7)] {
        for more in [vec![], vec![0], num("[2]"), lent(ROOM)] {
            assert_eq!(type_length(&joined(&[&ty, &more])), Ok(ty.len()));
        }
    }
    assert_eq!(type_length(&largest(7)), Ok(TYPE_BYTES));
    for (bytes, why, place) in damages() {
        let wanted = if why == Why::Trailing { Ok(place) } else { refused(why, place) };
        assert_eq!(type_length(&bytes), wanted, "{bytes:02x?}");
    }
    let ty = pair();
    for length in 0..ty.len() {
        assert_eq!(
            type_length(&ty[..length]),
            read(&ty[..length]).map(|()| length),
            "cut at {length}"
        );
    }
}

#[test]
fn records() {
    writes(|result| shape_record(&num("[3]"), result), &hex("534801ff0300000000000000"));
    writes(|result| shape_record(&pair(), result), &shape("[2]"));
    writes(|result| scalar_record(&num("[3]"), result), &hex("53 43 03"));
    writes(|result| scalar_record(&pair(), result), &pair()[12..]);
}

#[test]
fn rows() {
    let all_of = |ty: &[u8]| of("[]", &all(ty));
    writes(|result| row(&num("[2 3]"), result), &num("[3]"));
    writes(|result| row(&num("[..4 5]"), result), &num("[..5]"));
    writes(|result| row(&num("[]"), result), &num("[]"));
    writes(|result| row(&pair(), result), &all_of(&num("[]")));
    writes(|result| first_row(&num("[2 3]"), result), &num("[3]"));
    writes(|result| first_row(&pair(), result), &all_of(&num("[]")));
    writes(|result| last_row(&num("[2 3]"), result), &num("[3]"));
    writes(|result| last_row(&pair(), result), &all_of(&num("[3]")));
    writes(|result| nth_row(&num("[2 3]"), 1, result), &num("[3]"));
    writes(|result| nth_row(&pair(), 0, result), &all_of(&num("[]")));
    writes(|result| nth_row(&pair(), 1, result), &all_of(&num("[3]")));
    for n in [2, usize::MAX] {
        writes(|result| nth_row(&pair(), n, result), &all_of(&num("[]")));
    }
    let empty = of("[2]", &def(None, &[]));
    let anything = all_of(&of_kind("[..]", Kind::Any));
    writes(|result| row(&empty, result), &anything);
    writes(|result| last_row(&empty, result), &anything);
    writes(|result| nth_row(&empty, 1, result), &anything);
}

#[test]
fn boxes() {
    writes(|result| unboxed(&of("[]", &all(&num("[3]"))), result), &num("[3]"));
    writes(|result| unboxed(&of("[]", &def(None, &[num("[4]"), num("[]")])), result), &num("[4]"));
    writes(|result| unboxed(&of("[]", &box_any()), result), &of_kind("[..]", Kind::Any));
    writes(|result| unboxed(&of("[]", &def(None, &[])), result), &of_kind("[..]", Kind::Any));
    writes(|result| unboxed(&of("[2]", &all(&num("[3]"))), result), &of("[2]", &all(&num("[3]"))));
    writes(|result| unboxed(&num("[3]"), result), &num("[3]"));

    let list = |ty: &[u8], wanted: &[u8]| {
        writes(|result| as_boxes(ty, result).map(|boxes| boxes.expect("a box")), wanted);
    };
    let two = [num("[]"), num("[]")].concat();
    list(&pair(), &joined(&[&hex("01 6e 02"), &num("[]"), &num("[3]")]));
    list(&of("[2]", &all(&num("[]"))), &joined(&[&hex("ff 02"), &two]));
    list(&of("[?]", &all(&num("[]"))), &joined(&[&hex("ff 01"), &num("[]")]));
    list(&of("[1]", &box_any()), &joined(&[&hex("ff 01"), &of_kind("[..]", Kind::Any)]));
    refuses(|result| as_boxes(&of("[32]", &all(&num("[]"))), result).map(drop), Why::TooMany, 0);
    for room in [0, ROOM] {
        let mut result = lent(room);
        assert_eq!(as_boxes(&num("[3]"), &mut result), Ok(None));
        assert!(as_lent(&result));
    }
    // The most copies, each as long as one can be that stands in a box: it has one type less than the largest.
    let content = of("[3]", &def(None, &vec![largest(7)[TYPE_BYTES - 156..].to_vec(); 30]));
    let copies = joined(&[&hex("ff 1f"), &content.repeat(31)]);
    assert!(copies.len() <= BOXES_BYTES);
    list(&of("[31]", &all(&content)), &copies);
}

#[test]
fn fields() {
    let ty = pair();
    assert_eq!(field(&ty, 0), Ok(Some(Field { place: 21, ty: &num("[]") })));
    assert_eq!(field(&ty, 1), Ok(Some(Field { place: 28, ty: &num("[3]") })));
    assert_eq!(field(&ty, 2), Ok(None));
    assert_eq!(field(&ty, usize::MAX), Ok(None));
    assert_eq!(field(&num("[3]"), 0), Ok(None));
    assert_eq!(field(&of("[]", &all(&num("[3]"))), 0), Ok(None));
}

#[test]
fn joins() {
    writes(|result| join(&num("[3]"), &num("[4]"), result), &num("[?]"));
    writes(|result| join(&num("[3]"), &of_kind("[3 2]", Kind::Int), result), &num("[3]"));
    writes(
        |result| join(&num("[]"), &of_kind("[]", Kind::Char), result),
        &of_kind("[]", Kind::Any),
    );
}
