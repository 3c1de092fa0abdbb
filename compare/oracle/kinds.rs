//! The table of kinds (document 02, 2026-02), asked of the cut Rust pair by pair.
//!
//! A kind is one scalar, but Box is as many as there are contents. So the rules are asked of many
//! boxes, each with each. Where all answers are the same, that is the entry; where they differ, the
//! contents decide. The mark is found that way, and not put in.

use std::sync::LazyLock;

use crate::bytes::{KINDS, kind};
use crate::invent;
use crate::limits::DEPTH;
use crate::uiua::{Dim, DynShape, Scalar, ScalarBox, Type};

/// Stands where the boxes' contents decide.
const MARK: u8 = 255;

/// Three squares, one after the other: superset, compatible, union.
pub static TABLE: LazyLock<Vec<u8>> = LazyLock::new(|| {
    let truth = |&truth: &bool| truth as u8;
    let union = |a: &Scalar, b: &Scalar| a.clone().union(b.clone());
    let superset = square(Scalar::superset_of, truth);
    let compatible = square(Scalar::compatible_with, truth);
    [superset, compatible, square(union, kind)].concat()
});

/// A rule for every pair of kinds, rows by the first's code; `number` is how an answer is written.
fn square<T: PartialEq>(
    rule: impl Fn(&Scalar, &Scalar) -> T,
    number: impl Fn(&T) -> u8,
) -> Vec<u8> {
    let kinds = KINDS.map(scalars);
    let pairs = kinds.iter().flat_map(|a| kinds.iter().map(move |b| (a, b)));
    pairs.map(|(a, b)| agreed(a, b, &rule).map_or(MARK, |answer| number(&answer))).collect()
}

/// The rule's answer, if it is the same for each scalar of one kind with each of the other. Answers
/// are compared whole: two boxes are the same only if their contents are.
fn agreed<T: PartialEq>(
    first: &[Scalar],
    second: &[Scalar],
    rule: impl Fn(&Scalar, &Scalar) -> T,
) -> Option<T> {
    let mut pairs = first.iter().flat_map(|a| second.iter().map(move |b| (a, b)));
    let (a, b) = pairs.next().expect("every kind has a scalar");
    let answer = rule(a, b);
    pairs.all(|(a, b)| rule(a, b) == answer).then_some(answer)
}

/// The scalars that stand for a kind.
fn scalars(kind: Scalar) -> Vec<Scalar> {
    if matches!(kind, Scalar::Box(_)) { boxes() } else { vec![kind] }
}

/// Box Any, then All, Def and All of Def, each with many contents.
fn boxes() -> Vec<Scalar> {
    let (contents, defs) = (contents(), defs());
    let around = |ty: &Type| [1, 2, DEPTH - 1].map(|levels| invent::nested(ty.clone(), levels));
    let all = contents.iter().flat_map(around);
    let all_of_defs = defs.iter().map(|def| invent::all(def.clone()));
    let types = all.chain(all_of_defs).chain(defs.iter().cloned());
    [Scalar::Box(ScalarBox::Any)].into_iter().chain(types.map(|ty| ty.scalar)).collect()
}

/// Every kind with every shape.
fn contents() -> Vec<Type> {
    KINDS.iter().flat_map(|kind| shapes().map(|shape| kind.clone().shaped(shape))).collect()
}

/// Without a name and with several, of no field, one and several, boxes among them.
fn defs() -> Vec<Type> {
    let contents = contents();
    let lists = [0, 1, 2, 12].map(|count| &contents[contents.len() - count..]);
    let named = |name| lists.map(|fields| invent::def(name, fields.to_vec()));
    [None, Some(""), Some("n"), Some("m")].into_iter().flat_map(named).collect()
}

/// Closed and open, with no size, known ones and unknown ones.
fn shapes() -> [DynShape; 6] {
    let open = |dims: Vec<Dim>, closing: Vec<Dim>| DynShape { dims, suffix: Some(closing) };
    let (two, three) = (Dim::Static(2), Dim::Static(3));
    [
        DynShape::SCALAR,
        DynShape::from(2),
        DynShape::from([two, Dim::Dyn]),
        DynShape::ANY,
        open(vec![two], vec![]),
        open(vec![], vec![three]),
    ]
}
