//! Scalars of types, the order of types, and the table of kinds.

use super::expect::*;
use super::header::HEADER;
use crate::velgrodis::*;

#[test]
fn unions() {
    let all_of = |kind| of("[]", &all(&of_kind("[]", kind)));
    writes(|result| union(&num("[]"), &of_kind("[2]", Kind::Int), result), &scalar(Kind::Num));
    writes(|result| union(&all_of(Kind::Int), &all_of(Kind::Num), result), &all(&num("[]")));
    writes(|result| union(&all_of(Kind::Int), &all_of(Kind::Char), result), &box_any());
    writes(|result| unrefine(&all_of(Kind::Int), result), &all(&num("[]")));
    for kind in [Kind::Bool, Kind::Nat, Kind::Int, Kind::Num] {
        writes(|result| unrefine(&of_kind("[3]", kind), result), &scalar(Kind::Num));
    }
    writes(|result| unrefine(&of_kind("[]", Kind::Ascii), result), &scalar(Kind::Char));
}

#[test]
fn what_two_scalars_are() {
    let numbers = of("[]", &all(&num("[]")));
    let letters = of("[]", &all(&of_kind("[]", Kind::Char)));
    assert_eq!(superset(&num("[]"), &of_kind("[]", Kind::Int)), Ok(true));
    assert_eq!(superset(&of_kind("[]", Kind::Int), &num("[]")), Ok(false));
    assert_eq!(compatible_scalars(&numbers, &letters), Ok(true));
    assert_eq!(compatible_scalars(&num("[]"), &of_kind("[]", Kind::Char)), Ok(false));
    assert_eq!(compatible_with_boxes(&numbers, &letters), Ok(false));
    assert_eq!(compatible_with_boxes(&numbers, &numbers), Ok(true));
}

/// Document 01: scalar first, then shape; box Any, All, Def; no name before a name, names by bytes; lists by the first difference, then
/// length; opening sizes before closing ones, closed before open.
#[test]
fn order_of_types() {
    let chain = [
        num("[]"),
        num("[..]"),
        num("[2]"),
        num("[2..]"),
        num("[2..3]"),
        num("[2 3]"),
        num("[3]"),
        of_kind("[]", Kind::Char),
        of("[]", &box_any()),
        of("[]", &all(&num("[]"))),
        of("[]", &def(None, &[])),
        of("[]", &def(None, &[num("[]")])),
        of("[]", &def(Some(""), &[])),
        of("[]", &def(Some("a"), &[])),
        of("[]", &def(Some("ab"), &[])),
        of("[]", &def(Some("b"), &[])),
        of_kind("[]", Kind::Any),
    ];
    for (i, a) in chain.iter().enumerate() {
        for (j, b) in chain.iter().enumerate() {
            assert_eq!(compare(a, b), Ok(i.cmp(&j)), "{a:02x?} and {b:02x?}");
        }
    }
}

/// The numbers of the three squares as the header's comment writes them, row by row.
fn squares() -> Vec<u8> {
    let names = ["Bool", "Nat", "Int", "Num", "Complex", "Ascii", "Char", "Stream", "Box", "Any"];
    let mut rows = names.iter().enumerate().cycle();
    let (mut code, mut name) = rows.next().unwrap();
    let mut numbers = vec![];
    for line in HEADER.lines() {
        let words: Vec<&str> = line.split_whitespace().collect();
        if words.len() == 13 && words[0] == "*" && words[1] == code.to_string() && words[2] == *name
        {
            numbers.extend(words[3..].iter().map(|word| word.parse::<u8>().unwrap()));
            (code, name) = rows.next().unwrap();
        }
    }
    numbers
}

#[test]
fn table_of_kinds() {
    let wanted = squares();
    assert_eq!(wanted.len(), KIND_TABLE_BYTES);
    writes(|result| kinds(result).map(|kinds| &kinds.numbers()[..]), &wanted);

    let of_box = |scalar: Vec<u8>| (Kind::Box, of("[]", &scalar));
    let mut types: Vec<(Kind, Vec<u8>)> =
        Kind::ALL.map(|kind| (kind, of_kind("[]", kind))).to_vec();
    types[8] = of_box(box_any());
    types.push(of_box(all(&num("[]"))));
    types.push(of_box(def(Some("n"), &[])));
    let mut result = lent(KIND_TABLE_BYTES);
    let table = kinds(&mut result).unwrap();
    for (first, a) in &types {
        for (second, b) in &types {
            let both = (*first, *second);
            assert_eq!(superset(a, b), Ok(table.superset(*first, *second)), "{both:?}");
            assert_eq!(compatible_scalars(a, b), Ok(table.compatible(*first, *second)), "{both:?}");
            let mut written = lent(ROOM);
            let written = union(a, b, &mut written).unwrap();
            match table.union(*first, *second) {
                Some(kind) => assert_eq!(written, scalar(kind), "{both:?}"),
                None => {
                    assert_eq!(both, (Kind::Box, Kind::Box));
                    assert_eq!(written[..5], box_any()[..5]);
                }
            }
        }
    }
    assert_eq!(table.numbers()[288], CONTENTS_DECIDE);
    assert_eq!(table.union(Kind::Int, Kind::Num), Some(Kind::Num));
}
