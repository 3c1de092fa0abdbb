//! Two sizes.

use std::cmp::Ordering;

use super::expect::*;
use crate::velgrodis::*;

#[test]
fn two_sizes() {
    use Ordering::{Equal, Greater, Less};
    use Size::{Static, Unknown};
    let (zero, one, two) = (Static(0), Static(1), Static(2));
    // a, b, dim_cmp, dim_cmp_defined, dim_max, dim_join, dim_compatible, dim_row_compatible
    let sizes = [
        (zero, one, Less, Less, one, Unknown, false, true),
        (one, Unknown, Less, Greater, Unknown, Unknown, true, true),
        (Unknown, zero, Less, Less, zero, Unknown, true, true),
        (Unknown, two, Less, Less, two, Unknown, true, true),
        (Unknown, Unknown, Equal, Equal, Unknown, Unknown, true, true),
        (two, two, Equal, Equal, two, two, true, true),
        (two, Static(MAX_SIZE), Less, Less, Static(MAX_SIZE), Unknown, false, false),
        (one, two, Less, Less, two, Unknown, false, true),
    ];
    for (a, b, order, defined, larger, joined, compatible, row_compatible) in sizes {
        for (a, b, turned) in [(a, b, false), (b, a, true)] {
            let turn = |order: Ordering| if turned { order.reverse() } else { order };
            assert_eq!(dim_cmp(a, b), Ok(turn(order)), "{a:?} and {b:?}");
            assert_eq!(dim_cmp_defined(a, b), Ok(turn(defined)), "{a:?} and {b:?}");
            assert_eq!(dim_max(a, b), Ok(larger), "{a:?} and {b:?}");
            assert_eq!(dim_join(a, b), Ok(joined), "{a:?} and {b:?}");
            assert_eq!(dim_compatible(a, b), Ok(compatible), "{a:?} and {b:?}");
            assert_eq!(dim_row_compatible(a, b), Ok(row_compatible), "{a:?} and {b:?}");
        }
    }
}

/// Above 2^53 there is none, and the number of all ones handed in as a static size is none either.
#[test]
fn no_sizes() {
    for no_size in [MAX_SIZE + 1, u64::MAX - 1, u64::MAX].map(Size::Static) {
        for (a, b, place) in
            [(no_size, Size::Unknown, 0), (Size::Static(0), no_size, 1), (no_size, no_size, 0)]
        {
            assert_eq!(dim_cmp(a, b), refused(Why::Oversized, place));
            assert_eq!(dim_cmp_defined(a, b), refused(Why::Oversized, place));
            assert_eq!(dim_max(a, b), refused(Why::Oversized, place));
            assert_eq!(dim_join(a, b), refused(Why::Oversized, place));
            assert_eq!(dim_compatible(a, b), refused(Why::Oversized, place));
            assert_eq!(dim_row_compatible(a, b), refused(Why::Oversized, place));
        }
    }
}
