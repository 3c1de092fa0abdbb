//! Document 01: its cases and its table of refusals, as the requests of document 02 have changed them.

use super::expect::*;
use super::sheets::{checked, sixteen_names};
use super::validation::{passes, rejects};
use crate::velgrodis::Value::{Number, Numbers};
use crate::velgrodis::*;

/// Cases (a) to (m), as the requests of document 02 have changed them.
#[test]
fn the_papers_cases() {
    use Size::{Static, Unknown};
    // (a)
    assert_eq!(dim_max(Static(1), Unknown), Ok(Unknown));
    assert_eq!(dim_max(Static(0), Unknown), Ok(Static(0)));
    assert_eq!(dim_max(Static(0), Static(1)), Ok(Static(1)));
    // (b), (c)
    writes(|result| join_shapes(&num("[2 3]"), &num("[2]"), result), &shape("[2]"));
    writes(|result| join_shapes(&num("[..2 3 4]"), &num("[..2 3 4]"), result), &shape("[..? 4 3]"));
    // (d)
    for (text, wanted) in [("[..4 5]", "[..5]"), ("[]", "[]"), ("[..]", "[..]")] {
        writes(|result| row_shape(&num(text), result), &shape(wanted));
    }
    // (e)
    let (any, of_num) = (of("[]", &box_any()), of("[]", &all(&num("[]"))));
    writes(|result| union(&any, &of_num, result), &box_any());
    writes(|result| union(&of_num, &any, result), &all(&num("[]")));
    // (f)
    for (list, kind) in [
        (&[1.0, 0.0, -0.0][..], Kind::Bool),
        (&[-1.0, 2.0], Kind::Int),
        (&[f64::INFINITY], Kind::Num),
    ] {
        writes(|result| nums_scalar(list, result), &scalar(kind));
    }
    // (g)
    assert_eq!(as_dim(Number(f64::NEG_INFINITY)), Ok(Some(Unknown)));
    assert_eq!(
        as_dims(Numbers(&[f64::NEG_INFINITY]), &mut [Unknown; 8]),
        refused(Why::NotASize, 0)
    );
    refuses(|result| val_spec(Number(f64::NEG_INFINITY), result).map(drop), Why::NotASize, 0);
    // (h), (i), (j), (k)
    let unfilled = |a, b, wanted| {
        writes(|result| pervade(Fill::Nothing, &num(a), &num(b), result), &shape(wanted))
    };
    unfilled("[1]", "[]", "[?]");
    unfilled("[3 ?]", "[? 4]", "[3 4]");
    refuses(
        |result| pervade(Fill::Nothing, &num("[3]"), &num("[4]"), result).map(drop),
        Why::Unpervaded,
        0,
    );
    writes(|result| pervade(Fill::First, &num("[3]"), &num("[4]"), result), &shape("[4]"));
    unfilled("[0]", "[1]", "[0]");
    // (l)
    let int = of_kind("[3]", Kind::Int);
    passes(validate, Side::Unsided, &num("[?]"), &int, &int);
    let any = of_kind("[3]", Kind::Any);
    rejects(validate, Side::Unsided, &num("[..]"), &any, Why::WrongScalar, 0, Reading::Neither);
    // (m): a count that cannot fit is 14 (request 2026-03)
    rejects(
        validate,
        Side::Unsided,
        &num("[2 3]"),
        &num("[2..]"),
        Why::WrongCount,
        0,
        Reading::Neither,
    );
    passes(validate, Side::Right, &num("[3]"), &num("[2 3]"), &num("[2 3..3]"));
}

/// Its table of refusals, an example for each number, with those of document 02.
#[test]
fn every_refusal() {
    let spec_on =
        |spec: &[u8], ty: &[u8]| Ok(validate(Side::Unsided, spec, ty, &mut []).map(drop)?);
    let found = [
        read(&hex("53 48 01")),
        read(&hex("58 58")),
        read(&hex("53 48 09")),
        as_dim(Number(2f64.powi(60))).map(drop),
        read(&hex("534800ff 534308 425801").repeat(32)),
        read(&hex("534800ff 534303 00")),
        check_sheet(&[], &mut [], &mut []).map(drop),
        pervade(Fill::Nothing, &num("[3]"), &num("[4]"), &mut []).map(drop),
        spec_on(&num("[]"), &of_kind("[]", Kind::Char)),
        spec_on(&num("[2]"), &num("[3]")),
        checked(b"RW").map(drop),
        checked(&put(&num("[]")).repeat(7)).map(drop),
        as_dim(Number(0.5)).map(drop),
        spec_on(&num("[2 3]"), &num("[2..]")),
        checked(&used("a")).map(drop),
        checked(&joined(&[&sixteen_names(), &declared("q", &num("[]"))])).map(drop),
    ];
    let places = [0, 0, 0, 0, 80, 7, 0, 0, 0, 0, 0, 54, 0, 0, 0, 176];
    let wanted: Vec<Result<(), Error>> =
        Why::ALL.into_iter().zip(places).map(|(why, place)| refused(why, place)).collect();
    assert_eq!(found.to_vec(), wanted);
}

#[test]
fn words_for_people() {
    let refusal = Refusal { why: Why::Unpervaded, place: 34 };
    assert_eq!(
        Error::Refused(refusal).to_string(),
        "refused 8 at 34: two shapes that cannot pervade"
    );
    let of_spec = ValidationError::Refused {
        refusal: Refusal { why: Why::Trailing, place: 7 },
        reading: Reading::Spec,
    };
    assert_eq!(of_spec.to_string(), "refused 6 at 7: bytes after a lone type, reading the spec");
    let all: std::collections::BTreeSet<String> = Why::ALL.iter().map(Why::to_string).collect();
    assert_eq!(all.len(), 16);
}
