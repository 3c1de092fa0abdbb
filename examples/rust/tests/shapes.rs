//! Shapes of types.

use super::expect::*;
use crate::velgrodis::*;

#[test]
fn merges_joins_and_rows_of_shapes() {
    writes(|result| merge(&num("[?]"), &num("[3]"), result), &shape("[3]"));
    writes(|result| merge(&num("[1 2]"), &num("[?]"), result), &shape("[? 2]"));
    writes(|result| merge(&num("[2..]"), &num("[2]"), result), &shape("[2]"));
    writes(|result| merge(&num("[2]"), &num("[2..3]"), result), &shape("[2..3]"));
    writes(|result| join_shapes(&num("[3]"), &num("[4]"), result), &shape("[?]"));
    writes(|result| join_shapes(&num("[3..4]"), &num("[3]"), result), &shape("[3]"));
    writes(|result| row_shape(&num("[2 3]"), result), &shape("[3]"));
    writes(|result| row_shape(&pair(), result), &shape("[]"));
}

/// The right column of the table in docs/FORMAT.md, "Pervading in a sheet"; the other is the sheet's, below.
pub const FILLED: [(&str, &str, &str, &str); 8] = [
    ("[12]", "[?]", "[?]", "[12]"),
    ("[12]", "[..]", "[?..]", "[12..]"),
    ("[12]", "[..3]", "[?..3]", "[12..3]"),
    ("[12]", "[1..]", "[12..]", "[12..]"),
    ("[12]", "[]", "[12]", "[12]"),
    ("[0]", "[?]", "[?]", "[0]"),
    ("[1]", "[?]", "[?]", "[?]"),
    ("[3]", "[4]", "[4]", "[4]"),
];

#[test]
fn pervading() {
    for (first, second, _, wanted) in FILLED {
        writes(|result| pervade(Fill::First, &num(first), &num(second), result), &shape(wanted));
        writes(|result| pervade(Fill::Second, &num(second), &num(first), result), &shape(wanted));
    }
    let (three, four) = (num("[3]"), num("[4]"));
    for fill in [Fill::Nothing, Fill::Second] {
        refuses(|result| pervade(fill, &three, &four, result).map(drop), Why::Unpervaded, 0);
    }
    for fill in [Fill::First, Fill::Both] {
        writes(|result| pervade(fill, &three, &four, result), &shape("[4]"));
    }
}

/// The table in docs/FORMAT.md, "Compatible shapes", and the header's examples.
#[test]
fn which_shapes_are_compatible() {
    use Compatible::{No, Yes};
    let tested = [
        ("[2 3 4]", "[2 3 4]", Yes),
        ("[2 1 ?]", "[2 7 8]", Yes),
        ("[]", "[]", Yes),
        ("[2 3 4]", "[2 3 5]", No(Some(2))),
        ("[2 3 4]", "[2 5 6]", No(Some(2))),
        ("[2 3 4]", "[5 6 4]", No(Some(1))),
        ("[2 3]", "[5 1]", No(Some(0))),
        ("[2]", "[2 3]", No(None)),
        ("[]", "[1]", No(None)),
        ("[3..4]", "[3..5]", Yes),
        ("[3..]", "[3]", Yes),
        ("[2 3..4]", "[2 5]", No(Some(1))),
        ("[2..3]", "[2 3]", No(None)),
        ("[2 1]", "[? 7]", Yes),
        ("[2 2 2 2 2 2 2 2]", "[2 2 2 2 2 2 2 3]", No(Some(7))),
    ];
    for (a, b, wanted) in tested {
        assert_eq!(compatible_shapes(&num(a), &num(b)), Ok(wanted), "{a} and {b}");
        assert_eq!(compatible_shapes(&num(b), &num(a)), Ok(wanted), "{b} and {a}");
    }
}

#[test]
fn what_a_shape_is() {
    use Size::{Static, Unknown};
    let shapes = [
        ("[..]", true, false, Unknown, 0),
        ("[]", false, true, Static(1), 0),
        ("[3]", false, false, Static(3), 1),
        ("[? 3]", false, false, Unknown, 2),
        ("[0..3]", false, false, Static(0), 2),
        ("[..3]", false, false, Unknown, 1),
        ("[9007199254740992]", false, false, Static(MAX_SIZE), 1),
        ("[1 2 3 4 5 6 7 8..1 2 3 4 5 6 7 8]", false, false, Static(1), 16),
    ];
    for (text, is_any, is_scalar, rows, sizes) in shapes {
        let ty = num(text);
        assert_eq!(shape_is_any(&ty), Ok(is_any), "{text}");
        assert_eq!(shape_is_scalar(&ty), Ok(is_scalar), "{text}");
        assert_eq!(row_count(&ty), Ok(rows), "{text}");
        assert_eq!(rank(&ty), Ok(sizes), "{text}");
    }
}
