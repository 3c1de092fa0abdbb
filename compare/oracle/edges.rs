//! Requests that need no seed. `edges`: every limit with its neighbours, every cut of a few types
//! and sheets, all numbers at borders, names (naming.rs), types that lie under others (buried.rs), every
//! set of indices at which two lists fail (opposed.rs), and every place of a few sheets (placing.rs).
//! `pairs`: all pairs of small shapes, of opening lists and of scalars, and specs of three sizes on small
//! shapes.

use std::io::Result;

use crate::bytes::{KINDS, scalar_bytes, shape_bytes, type_bytes};
use crate::generate::{Lines, SCRATCHES, SIDES, hex_word, put, validate};
use crate::invent::{self, BYTES, EDGE_SIZES, NUMBERS};
use crate::limits::{INPUT, LENT, LINE, PLACES, STEPS, TYPE};
use crate::requests::{Call, REQUESTS, hex, size};
use crate::uiua::{Dim, DynShape, Scalar, ScalarBox, Type};
use crate::{buried, naming, opposed, placing, sheet};

pub fn edges(out: &mut Lines) -> Result<()> {
    samples().iter().try_for_each(|ty| damaged(out, &type_bytes(ty)))?;
    for ty in limits() {
        out.line("read", word(&ty))?;
        checks(out, &(word(&num(3)) + &word(&ty)))?;
        checks(out, &(word(&ty) + &word(&num(3))))?;
    }
    copies(out)?;
    values(out)?;
    sizes(out)?;
    sheets(out)?;
    stacks(out)?;
    naming::edges(out)?;
    buried::edges(out)?;
    opposed::edges(out)?;
    placing::edges(out)?;
    buffers(out)?;
    alone(out)?;
    for length in [LINE - 1, LINE, LINE + 1] {
        out.line("read", format!(" {}", "0".repeat(length - "read ".len())))?;
    }
    Ok(())
}

fn word(ty: &Type) -> String {
    format!(" {}", hex(&type_bytes(ty)))
}

fn num(shape: impl Into<DynShape>) -> Type {
    Scalar::Num.shaped(shape)
}

fn open(dims: Vec<Dim>, closing: Vec<Dim>) -> DynShape {
    DynShape { dims, suffix: Some(closing) }
}

/// A few types that between them have every record, count and kind of box.
pub fn samples() -> Vec<Type> {
    let open = open(vec![Dim::Static(2)], vec![Dim::Static(3)]);
    let fields = vec![num(open), invent::all(Scalar::Char.shaped(Dim::Dyn))];
    vec![
        num([2, 3]),
        Scalar::Box(ScalarBox::Any).shaped(2),
        invent::def(Some("name"), fields.clone()),
        invent::def(None, fields),
        invent::nested(Type::default(), 7),
    ]
}

/// The requests that say whether the spec or the type was being read.
fn checks(out: &mut Lines, both: &str) -> Result<()> {
    out.line("check_scalar", both)?;
    for side in SIDES {
        out.line("validate", format!(" {side}{both}"))?;
        out.line("check_shape", format!(" {side}{both}"))?;
    }
    Ok(())
}

/// Each cut and each changed byte, as the only type, the first of two and the second.
fn damaged(out: &mut Lines, bytes: &[u8]) -> Result<()> {
    let whole = hex(bytes);
    for at in 0..=bytes.len() {
        let cut = hex_word(&bytes[..at]);
        out.line("read", format!(" {cut}"))?;
        for both in [format!(" {whole} {cut}"), format!(" {cut} {whole}00")] {
            out.line("join", &both)?;
            checks(out, &both)?;
        }
    }
    for (at, byte) in (0..bytes.len()).flat_map(|at| BYTES.map(|byte| (at, byte))) {
        let mut changed = bytes.to_vec();
        changed[at] = byte;
        let changed = hex(&changed);
        out.line("read", format!(" {changed}"))?;
        out.line("check_scalar", format!(" {changed} {whole}"))?;
        out.line("check_scalar", format!(" {whole} {changed}"))?;
    }
    Ok(())
}

/// Types at each limit and past it.
pub fn limits() -> Vec<Type> {
    let mut types = vec![invent::largest()];
    for count in [7, 8, 9, 254, 255] {
        types.push(num(vec![Dim::Static(2); count]));
        types.push(num(open(vec![], vec![Dim::Static(2); count])));
    }
    types.extend(EDGE_SIZES.map(|size| num([size])));
    types.extend(EDGE_SIZES.map(|size| num(open(vec![Dim::Dyn], vec![size]))));
    types.extend([0, 1, 15, 16, 17, 254, 255].map(|n| invent::def(Some(&"n".repeat(n)), vec![])));
    types.extend((0..128u8).map(|byte| invent::def(Some(&(byte as char).to_string()), vec![])));
    types.extend([30, 31, 32, 33, 254, 255].map(|n| invent::def(None, vec![num(1); n])));
    types.extend([6, 7, 8, 31].map(|levels| invent::nested(num(1), levels)));
    // 31, 32 and 33 types, the last of them in a box of its own.
    let with_box = |n| invent::def(None, [vec![num(1); n], vec![invent::all(num(2))]].concat());
    types.extend([28, 29, 30].map(with_box));
    types
}

/// Copies that `as_boxes` or a named Def make.
fn copies(out: &mut Lines) -> Result<()> {
    let spec = word(&invent::def(Some("n"), vec![]));
    for rows in [0, 1, 15, 16, 30, 31, 32, 33, 1 << 53] {
        let boxes = [1, 2].map(|levels| invent::nested(num(rows), levels).scalar);
        for scalar in [Scalar::Any, Scalar::Box(ScalarBox::Any)].into_iter().chain(boxes) {
            let ty = word(&scalar.shaped(rows));
            out.line("as_boxes", &ty)?;
            out.line("check_scalar", spec.clone() + &ty)?;
        }
    }
    Ok(())
}

/// Every number of the list as each kind of value, alone and between others.
fn values(out: &mut Lines) -> Result<()> {
    for (word, _) in REQUESTS.iter().filter(|(_, call)| matches!(call, Call::Value(_))) {
        for bits in NUMBERS {
            out.line(word, format!(" num {bits:016x}"))?;
            out.line(word, format!(" list {bits:016x}"))?;
            out.line(word, format!(" list 4008000000000000 {bits:016x} 7ff8000000000000"))?;
        }
        for count in [0, 1, 7, 8, 9, 7000] {
            out.line(word, format!(" list{}", " 4008000000000000".repeat(count)))?;
        }
    }
    for (a, b) in NUMBERS.iter().flat_map(|a| NUMBERS.map(|b| (a, b))) {
        out.line("nums_scalar", format!(" {a:016x} {b:016x}"))?;
    }
    Ok(())
}

fn sizes(out: &mut Lines) -> Result<()> {
    let sizes = [&EDGE_SIZES[..], &[Dim::Static(2), Dim::Static(3)]].concat();
    for (word, _) in REQUESTS.iter().filter(|(_, call)| matches!(call, Call::Sizes(_))) {
        for (&a, &b) in sizes.iter().flat_map(|a| sizes.iter().map(move |b| (a, b))) {
            out.line(word, format!(" {} {}", size(a), size(b)))?;
        }
    }
    Ok(())
}

/// A sheet with every kind of step.
pub fn sample_sheet() -> Vec<u8> {
    let two = [put(&num(3)), put(&num(Dim::Dyn)), pervade(0)].concat();
    let checked = [validate(&num(DynShape::ANY)), sheet::ROW.into()].concat();
    [two, checked, put(&num(2)), sheet::JOIN.into()].concat()
}

/// Cut and changed sheets, flags in range and out of it, then steps, places and bytes at their limits.
fn sheets(out: &mut Lines) -> Result<()> {
    let mut sheet = |bytes: &[u8]| out.line("sheet", format!(" {}", hex_word(bytes)));
    harmed(&sample_sheet()).iter().try_for_each(|bytes| sheet(bytes))?;
    let (below, top) = (num([2, 3]), num(open(vec![Dim::Dyn], vec![])));
    for flag in BYTES {
        sheet(&pervading(flag, &top, &below))?;
        sheet(&pervading(flag, &below, &top))?;
    }
    for rows in [62, 63, 64] {
        let steps = [put(&num(3)), sheet::ROW.repeat(rows)].concat();
        sheet(&steps)?;
        sheet(&[&steps[..], b"R"].concat())?;
    }
    for height in [0, 1, 2, PLACES - 1, PLACES, PLACES + 1, PLACES + 2] {
        for step in [&b""[..], b"PU", b"RW", b"PV", b"PV\0", b"PV\x04", b"JN", b"VA", b"XX", b"P"] {
            sheet(&[&small(height), step].concat())?;
        }
        for step in [&b"NM"[..], b"NM\x01n", b"US", b"US\x01n", b"US\x11", b"U"] {
            sheet(&[&small(height), step].concat())?;
        }
    }
    [INPUT, INPUT + 1].iter().try_for_each(|&length| sheet(&vec![0; length]))
}

/// Bytes cut at each place, and with each of them changed or one more behind them.
pub fn harmed(bytes: &[u8]) -> Vec<Vec<u8>> {
    let mut all = Vec::new();
    for at in 0..=bytes.len() {
        all.push(bytes[..at].to_vec());
        let rest = bytes.get(at + 1..).unwrap_or(&[]);
        all.extend(BYTES.map(|byte| [&bytes[..at], &[byte], rest].concat()));
    }
    all
}

fn pervade(flag: u8) -> Vec<u8> {
    [&sheet::PERVADE[..], &[flag]].concat()
}

/// Each step that works on types: none lays down more than it takes, so a full stack takes them all.
fn within() -> [Vec<u8>; 5] {
    let any = validate(&Type::default());
    [sheet::ROW.into(), sheet::JOIN.into(), pervade(0), pervade(3), any]
}

pub fn sheet_line(out: &mut Lines, steps: &[&[u8]]) -> Result<()> {
    out.line("sheet", format!(" {}", hex_word(&steps.concat())))
}

/// So many small types.
fn small(puts: usize) -> Vec<u8> {
    put(&num(3)).repeat(puts)
}

/// Full stacks, and a put of one type more: 12 at its mark, whatever its bytes are and whatever
/// follows.
fn stacks(out: &mut Lines) -> Result<()> {
    let full = small(PLACES);
    // The last put that has a place, and the first that has none: only the one's type is looked at.
    for last in harmed(&put(&invent::all(num(3)))) {
        sheet_line(out, &[&small(PLACES - 1), &last])?;
        sheet_line(out, &[&full, &last])?;
    }
    // As the 63rd step, the 64th and the 65th.
    for rows in [STEPS - PLACES - 2, STEPS - PLACES - 1, STEPS - PLACES] {
        for last in [&small(1)[..], b"PU", b"PUSX", b"P", b"XX"] {
            sheet_line(out, &[&full, &sheet::ROW.repeat(rows), last])?;
        }
    }
    for step in within() {
        for puts in [0, 1, 2] {
            sheet_line(out, &[&full, &step, &small(puts)])?;
            sheet_line(out, &[&full, &step, &small(puts), b"XX"])?;
        }
    }
    let [_, join, unfilled, ..] = within();
    for count in 1..PLACES {
        again(out, &join, count)?;
        again(out, &unfilled, count)?;
    }
    largest_types(out)
}

/// From a full stack down by so many types and up again, over and over: as high as before, then one
/// higher.
fn again(out: &mut Lines, down: &[u8], count: usize) -> Result<()> {
    let turn = [down.repeat(count), small(count)].concat();
    for turns in [1, 2, 5] {
        for last in [&b""[..], b"RW", b"PU"] {
            sheet_line(out, &[&small(PLACES), &turn.repeat(turns), last])?;
            sheet_line(out, &[&small(PLACES), &turn.repeat(turns), &small(1), last])?;
        }
    }
    Ok(())
}

/// A stack full of the largest types, each step on it, and one more put.
fn largest_types(out: &mut Lines) -> Result<()> {
    let one = put(&invent::largest());
    let [_, join, unfilled, ..] = within();
    let down = [join, unfilled].map(|step| step.repeat(PLACES - 1));
    let refused = [validate(&invent::largest()), one.clone()];
    for step in within().into_iter().chain(down).chain(refused) {
        sheet_line(out, &[&one.repeat(PLACES), &step])?;
        sheet_line(out, &[&one.repeat(PLACES), &step, &one])?;
    }
    Ok(())
}

/// Lengths of a result: none, what the types left have, 4,992 bytes for each of them, the neighbours
/// of both, and the longest.
fn results(left: &[Type]) -> Vec<usize> {
    let enough = [sheet::length(left), left.len() * TYPE];
    let around = |length: usize| [length.saturating_sub(1), length, length + 1];
    let mut lengths = vec![0, LENT as usize];
    lengths.extend(enough.into_iter().flat_map(around));
    lengths.sort();
    lengths.dedup();
    lengths
}

/// Lent buffers of every interesting length.
fn buffers(out: &mut Lines) -> Result<()> {
    let full = [put(&invent::largest()).repeat(PLACES), small(PLACES)];
    let others = [small(PLACES + 1), sample_sheet(), naming::sample(), Vec::new(), b"XX".into()];
    for bytes in full.into_iter().chain(others) {
        let results = results(&sheet::run(&bytes).unwrap_or_default());
        for (result, scratch) in results.iter().flat_map(|a| SCRATCHES.map(|b| (a, b))) {
            out.line("sheet_call", format!(" {scratch} {result} {}", hex_word(&bytes)))?;
        }
    }
    for ty in samples().into_iter().chain([invent::largest()]) {
        let lengths = [shape_bytes(&ty.shape).len(), scalar_bytes(&ty.scalar).len()];
        for (request, length) in ["write_shape", "write_scalar"].into_iter().zip(lengths) {
            for room in [0, length - 1, length, length + 1, LENT as usize] {
                out.line(request, format!(" {room}{}", word(&ty)))?;
                out.line(request, format!(" {room}{}00", word(&ty)))?;
            }
        }
    }
    Ok(())
}

/// What takes no argument, and with something after it.
fn alone(out: &mut Lines) -> Result<()> {
    for (word, _) in REQUESTS.iter().filter(|(_, call)| matches!(call, Call::Alone(_))) {
        for rest in ["", " ", "  ", " -", " 0", " 0 0", "\t", "\r", "\0"] {
            out.line(word, rest)?;
        }
    }
    Ok(())
}

pub fn pairs(out: &mut Lines) -> Result<()> {
    let shapes: Vec<_> = small_shapes().into_iter().map(num).collect();
    let scalars = small_scalars();
    for ty in shapes.iter().chain(&scalars) {
        for (request, _) in REQUESTS.iter().filter(|(_, call)| matches!(call, Call::One(_))) {
            out.line(request, word(ty))?;
        }
    }
    for (a, b) in scalars.iter().flat_map(|a| scalars.iter().map(move |b| (a, b))) {
        let both = word(a) + &word(b);
        let of_two = |call: &Call| matches!(call, Call::Two(_) | Call::Checked(_));
        for (request, _) in REQUESTS.iter().filter(|(_, call)| of_two(call)) {
            out.line(request, &both)?;
        }
        out.line("validate", format!(" none{both}"))?;
    }
    shapes.iter().try_for_each(|a| shapes.iter().try_for_each(|b| shape_pair(out, a, b)))?;
    threes().iter().try_for_each(|a| shapes.iter().try_for_each(|b| counted(out, a, b)))?;
    let (short, long) = (lists(SHORT), lists(LONG));
    long.iter().try_for_each(|a| long.iter().try_for_each(|b| tested(out, a, b)))?;
    short.iter().try_for_each(|a| short.iter().try_for_each(|b| tested_in_boxes(out, a, b)))
}

/// Opening lists of which all pairs are tested: bare ones have up to so many sizes, contents of boxes
/// up to fewer.
const LONG: usize = 4;
const SHORT: usize = 3;

fn tested(out: &mut Lines, a: &[Dim], b: &[Dim]) -> Result<()> {
    out.line("compatible_shapes", word(&num(a.to_vec())) + &word(&num(b.to_vec())))
}

fn tested_in_boxes(out: &mut Lines, a: &[Dim], b: &[Dim]) -> Result<()> {
    let [a, b] = [a, b].map(|dims| invent::all(num(dims.to_vec())));
    let both = word(&a) + &word(&b);
    ["compatible_with_boxes", "union", "join"].iter().try_for_each(|word| out.line(word, &both))
}

/// A spec and a type under each side, in a box, as a field and in a sheet. Inside, no side is in
/// force.
fn counted(out: &mut Lines, spec: &Type, ty: &Type) -> Result<()> {
    let boxed = |ty: &Type| word(&invent::all(ty.clone()));
    let field = |ty: &Type| word(&invent::def(None, vec![num(1), ty.clone()]));
    for side in SIDES {
        out.line("check_shape", format!(" {side}{}{}", word(spec), word(ty)))?;
        out.line("validate", format!(" {side}{}{}", boxed(spec), boxed(ty)))?;
        out.line("validate", format!(" {side}{}{}", field(spec), field(ty)))?;
    }
    out.line("check_scalar", boxed(spec) + &boxed(ty))?;
    out.line("sheet", format!(" {}", hex(&[put(ty), validate(spec)].concat())))
}

/// All closed shapes of three of the sizes 1, 2 and ?, and the same open.
fn threes() -> Vec<Type> {
    let sizes = [Dim::Static(1), Dim::Static(2), Dim::Dyn];
    let pairs = sizes.iter().flat_map(|&a| sizes.map(|b| [a, b]));
    let lists: Vec<_> = pairs.flat_map(|[a, b]| sizes.map(|c| vec![a, b, c])).collect();
    lists.iter().flat_map(|dims| [num(dims.clone()), num(open(dims.clone(), vec![]))]).collect()
}

fn shape_pair(out: &mut Lines, a: &Type, b: &Type) -> Result<()> {
    let both = word(a) + &word(b);
    for request in ["merge", "join_shapes", "compatible_shapes", "compare"] {
        out.line(request, &both)?;
    }
    (0..4).try_for_each(|flag| out.line("pervade", format!(" {flag}{both}")))?;
    (0..4).try_for_each(|flag| out.line("sheet", format!(" {}", hex(&pervading(flag, a, b)))))?;
    SIDES.iter().try_for_each(|side| out.line("check_shape", format!(" {side}{both}")))
}

/// The sheet that pervades these two, the first on top.
fn pervading(flag: u8, a: &Type, b: &Type) -> Vec<u8> {
    [put(b), put(a), pervade(flag)].concat()
}

/// All lists of at most so many of the sizes 0, 1, 2 and ?.
pub fn lists(most: usize) -> Vec<Vec<Dim>> {
    let sizes = [Dim::Static(0), Dim::Static(1), Dim::Static(2), Dim::Dyn];
    let (mut all, mut longest) = (vec![vec![]], vec![vec![]]);
    for _ in 0..most {
        let longer = |list: &Vec<Dim>| sizes.map(|size| [&list[..], &[size]].concat());
        longest = longest.iter().flat_map(longer).collect();
        all.extend(longest.clone());
    }
    all
}

/// With lists of at most two sizes.
pub fn small_shapes() -> Vec<DynShape> {
    let mut shapes = Vec::new();
    for dims in lists(2) {
        shapes.push(dims.clone().into());
        shapes.extend(lists(2).into_iter().map(|closing| open(dims.clone(), closing)));
    }
    shapes
}

/// Every kind, and boxes of every kind, each with a few shapes.
fn small_scalars() -> Vec<Type> {
    let mut scalars = KINDS.to_vec();
    for kind in &KINDS {
        let (two, any) = (kind.clone().shaped(2), kind.clone().shaped(DynShape::ANY));
        scalars.extend([1, 2].map(|levels| invent::nested(two.clone(), levels).scalar));
        scalars.push(invent::all(any.clone()).scalar);
        scalars.push(invent::def(None, vec![any.clone()]).scalar);
        scalars.push(invent::def(Some("n"), vec![two, any]).scalar);
    }
    scalars.extend([None, Some(""), Some("m")].map(|name| invent::def(name, vec![]).scalar));
    let shapes = [DynShape::SCALAR, DynShape::ANY, DynShape::from(2)];
    let shaped = |scalar: Scalar| shapes.clone().map(|shape| scalar.clone().shaped(shape));
    scalars.into_iter().flat_map(shaped).collect()
}
