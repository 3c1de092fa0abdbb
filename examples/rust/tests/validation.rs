//! Validation.

use super::expect::*;
use crate::velgrodis::*;

type Checked<'r> = Result<&'r [u8], ValidationError>;
pub type OfSpec = for<'r> fn(Side, &[u8], &[u8], &'r mut [u8]) -> Checked<'r>;

fn check_scalar_unsided<'r>(_: Side, spec: &[u8], ty: &[u8], result: &'r mut [u8]) -> Checked<'r> {
    check_scalar(spec, ty, result)
}

/// A validation refuses, and writes nothing, whether there is room or not.
#[track_caller]
pub fn rejects(
    call: OfSpec,
    side: Side,
    spec: &[u8],
    ty: &[u8],
    why: Why,
    place: usize,
    reading: Reading,
) {
    for room in [0, ROOM] {
        let mut result = lent(room);
        let refusal = Refusal { why, place };
        let wanted = Err(ValidationError::Refused { refusal, reading });
        assert_eq!(call(side, spec, ty, &mut result), wanted);
        assert!(as_lent(&result));
    }
}

#[track_caller]
pub fn passes(call: OfSpec, side: Side, spec: &[u8], ty: &[u8], wanted: &[u8]) {
    writes(|result| call(side, spec, ty, result).map_err(Error::from), wanted);
}

#[test]
fn what_was_being_read() {
    let good = num("[]");
    for (damaged, why, place) in damages() {
        for call in [validate, check_shape, check_scalar_unsided] as [OfSpec; 3] {
            for side in Side::ALL {
                rejects(call, side, &damaged, &good, why, place, Reading::Spec);
                rejects(call, side, &good, &damaged, why, place, Reading::CheckedType);
                rejects(call, side, &damaged, &damaged, why, place, Reading::Spec);
            }
        }
    }
    // A result that is too short is found after both were read.
    let mut result = lent(14);
    let refusal = Refusal { why: Why::TooShort, place: 0 };
    let wanted = Err(ValidationError::Refused { refusal, reading: Reading::Neither });
    assert_eq!(validate(Side::Unsided, &num("[3]"), &num("[3]"), &mut result), wanted);
    assert_eq!(check_shape(Side::Left, &num("[3]"), &num("[3]"), &mut result), wanted);
    assert_eq!(check_scalar(&num("[3]"), &num("[3]"), &mut result), wanted);
    assert!(as_lent(&result));
}

#[test]
fn scalars_of_specs() {
    let (int, letters) = (of_kind("[3]", Kind::Int), of_kind("[3]", Kind::Char));
    passes(validate, Side::Unsided, &num("[?]"), &int, &int);
    passes(validate, Side::Left, &num("[?]"), &int, &of_kind("[3..]", Kind::Int));
    passes(check_scalar_unsided, Side::Unsided, &num("[2]"), &int, &int);
    passes(check_shape, Side::Unsided, &num("[3]"), &letters, &letters);
    rejects(validate, Side::Right, &num("[3]"), &letters, Why::WrongScalar, 0, Reading::Neither);
    rejects(
        check_scalar_unsided,
        Side::Left,
        &num("[3]"),
        &letters,
        Why::WrongScalar,
        0,
        Reading::Neither,
    );
    // The scalar is judged before the shape.
    rejects(validate, Side::Unsided, &num("[2]"), &letters, Why::WrongScalar, 0, Reading::Neither);
    // A box of 32 fields would be made by a spec with a name.
    let (named, many) = (of("[..]", &def(Some("n"), &[])), of_kind("[32]", Kind::Any));
    rejects(validate, Side::Unsided, &named, &many, Why::TooMany, 0, Reading::Neither);
    rejects(check_scalar_unsided, Side::Left, &named, &many, Why::TooMany, 0, Reading::Neither);
}

/// The table in docs/FORMAT.md, "A shape that does not pass": the spec's shape, the type's, and the number for each side, 0 where it
/// passes.
#[test]
fn counts_and_sizes_of_specs() {
    let table = [
        ("[2]", "[3]", [10, 10, 10]),
        ("[2 3]", "[2]", [14, 14, 14]),
        ("[2 3]", "[5]", [14, 14, 14]),
        ("[2]", "[2 3]", [14, 0, 10]),
        ("[3]", "[2 3]", [14, 10, 0]),
        ("[2 3..]", "[2]", [14, 14, 14]),
        ("[2 3..]", "[5]", [14, 14, 14]),
        ("[2 3]", "[2..]", [14, 0, 14]),
        ("[2 3]", "[5..]", [10, 10, 14]),
        ("[2 3]", "[?..]", [10, 0, 14]),
        ("[2 3]", "[..3]", [14, 0, 14]),
        ("[2 3]", "[..4]", [10, 0, 14]),
        ("[2 3 4]", "[2..4]", [14, 0, 14]),
        ("[2 3 4]", "[5..4]", [10, 10, 14]),
        ("[2 3]", "[2..4]", [10, 0, 10]),
        ("[2]", "[2 3..]", [14, 0, 0]),
        ("[5]", "[2 3..]", [14, 10, 0]),
        ("[2 3]", "[..4 5]", [10, 0, 10]),
        ("[..]", "[5..4]", [0, 0, 0]),
        ("[2 3]", "[..]", [0, 0, 0]),
    ];
    for (spec, ty, numbers) in table {
        for (side, number) in Side::ALL.into_iter().zip(numbers) {
            let boxed = |text| of("[]", &all(&num(text)));
            let (unsided, spec_box, ty_box) = (numbers[0], boxed(spec), boxed(ty));
            let (spec, ty) = (num(spec), num(ty));
            for call in [validate, check_shape] as [OfSpec; 2] {
                match Why::from_number(number) {
                    Some(why) => rejects(call, side, &spec, &ty, why, 0, Reading::Neither),
                    None => assert!(call(side, &spec, &ty, &mut lent(ROOM)).is_ok()),
                }
            }
            // Contents of boxes are validated without side, and only where scalars are.
            for call in [validate, check_scalar_unsided] as [OfSpec; 2] {
                match Why::from_number(unsided) {
                    Some(why) => rejects(call, side, &spec_box, &ty_box, why, 0, Reading::Neither),
                    None => assert!(call(side, &spec_box, &ty_box, &mut lent(ROOM)).is_ok()),
                }
            }
            assert!(check_shape(side, &spec_box, &ty_box, &mut lent(ROOM)).is_ok());
            assert_eq!(check_scalar(&spec, &ty, &mut lent(ROOM)), Ok(&ty[..]));
        }
    }
}
