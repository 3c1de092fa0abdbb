//! One line in, one line out. Lines are judged as README.md says.

use std::cmp::Ordering;
use std::fmt::Write;

use crate::bytes::{
    No, begun_length, def_bytes, no, read_lone, scalar_bytes, shape_bytes, type_bytes,
};
use crate::failing::Verdict;
use crate::limits::{LARGEST, LENT, LINE};
use crate::standins::SubSide;
use crate::uiua::{Dim, DynShape, Scalar, Type, TypeVal};
use crate::{kinds, rules, sheet, steps, version};

const NAN_BITS: u64 = 0x7ff8_0000_0000_0000;

type Answer = Result<String, No>;

/// The arguments that a request takes, and the call that answers it.
pub enum Call {
    One(fn(Type) -> Answer),
    Two(fn(Type, Type) -> Answer),
    /// A separate validation, of a spec and a type: a refusal says which of them was being read.
    Checked(fn(Type, Type) -> Answer),
    /// The same with a side.
    Sided(fn(Option<SubSide>, Type, Type) -> Answer),
    Flagged(fn(u64, Type, Type) -> Answer),
    Numbered(fn(u64, Type) -> Answer),
    Written(fn(&Type) -> Vec<u8>),
    Numbers(fn(&[f64]) -> Answer),
    Value(fn(TypeVal) -> Answer),
    Sizes(fn(Dim, Dim) -> Answer),
    /// Bytes that a type begins.
    Begun(fn(&[u8]) -> Answer),
    /// A place and a sheet, which need not be one that is accepted.
    Placed(fn(u64, &[u8]) -> Answer),
    /// No argument at all.
    Alone(fn() -> Answer),
    Sheet,
    SheetCall,
}

pub const REQUESTS: &[(&str, Call)] = &[
    ("read", Call::One(|a| ty(&a))),
    ("row", Call::One(|a| ty(&a.into_row()))),
    ("first_row", Call::One(|a| ty(&a.into_first_row()))),
    ("last_row", Call::One(|a| ty(&a.into_last_row()))),
    ("nth_row", Call::Numbered(|n, a| ty(&a.into_nth_row(n as usize)))),
    ("unboxed", Call::One(|a| ty(&a.unboxed()))),
    ("join", Call::Two(|a, b| ty(&(a | b)))),
    ("validate", Call::Sided(|side, spec, a| ty(&rules::validated(side, spec, a)?))),
    ("check_scalar", Call::Checked(|spec, a| ty(&rules::scalar_checked(spec, a)?))),
    ("check_shape", Call::Sided(|side, spec, a| ty(&rules::shape_checked(side, spec, a)?))),
    ("merge", Call::Two(merged)),
    ("join_shapes", Call::Two(|a, b| shape(&(a.shape | b.shape)))),
    ("row_shape", Call::One(|a| shape(&a.shape.into_row()))),
    ("pervade", Call::Flagged(|flag, a, b| shape(&rules::pervade(flag, a.shape, b.shape)?))),
    ("union", Call::Two(|a, b| scalar(&a.scalar.union(b.scalar)))),
    ("unrefine", Call::One(unrefined)),
    ("nums_scalar", Call::Numbers(|numbers| scalar(&numbers.into()))),
    ("compatible_shapes", Call::Two(|a, b| verdict(rules::compatible(&a.shape, &b.shape)))),
    ("superset", Call::Two(|a, b| truth(a.scalar.superset_of(&b.scalar)))),
    ("compatible_scalars", Call::Two(|a, b| truth(a.scalar.compatible_with(&b.scalar)))),
    ("compatible_with_boxes", Call::Two(|a, b| truth(a.scalar.compatible_with_boxes(&b.scalar)))),
    ("shape_is_any", Call::One(|a| truth(a.shape.is_any()))),
    ("shape_is_scalar", Call::One(|a| truth(a.shape.is_scalar()))),
    ("compare", Call::Two(|a, b| order(a.cmp(&b)))),
    ("row_count", Call::One(|a| Ok(size(a.shape.row_count())))),
    ("rank", Call::One(|a| Ok(a.shape.rank().to_string()))),
    ("as_boxes", Call::One(boxes)),
    ("field", Call::Numbered(field)),
    ("val_ty", Call::Value(|v| ty(&v.ty()))),
    ("val_spec", Call::Value(|v| ty(&rules::spec(v)?))),
    ("val_scalar", Call::Value(|v| scalar(&v.scalar()))),
    ("val_row_count", Call::Value(|v| Ok(size(v.row_count())))),
    ("val_rank", Call::Value(|v| Ok(v.rank().to_string()))),
    ("val_row", Call::Value(|v| value(v.into_row()))),
    ("val_first_row", Call::Value(|v| value(v.into_first_row()))),
    ("val_last_row", Call::Value(|v| value(v.into_last_row()))),
    ("as_dim", Call::Value(|v| Ok(rules::as_dim(&v)?.map_or("none".into(), size)))),
    ("as_dims", Call::Value(sizes)),
    ("dim_cmp", Call::Sizes(|a, b| order(a.cmp(&b)))),
    ("dim_cmp_defined", Call::Sizes(|a, b| order(a.cmp_defined(&b)))),
    ("dim_max", Call::Sizes(|a, b| Ok(size(a.max(b))))),
    ("dim_join", Call::Sizes(|a, b| Ok(size(a | b)))),
    ("dim_compatible", Call::Sizes(|a, b| truth(a.compatible(b)))),
    ("dim_row_compatible", Call::Sizes(|a, b| truth(a.row_compatible(b)))),
    ("kinds", Call::Alone(|| Ok(hex(&kinds::TABLE)))),
    ("sheet", Call::Sheet),
    ("sheet_call", Call::SheetCall),
    ("write_shape", Call::Written(|a| shape_bytes(&a.shape))),
    ("write_scalar", Call::Written(|a| scalar_bytes(&a.scalar))),
    ("type_length", Call::Begun(|bytes| Ok(begun_length(bytes)?.to_string()))),
    ("find_step", Call::Placed(found)),
    ("version", Call::Alone(|| Ok(version::number().to_string()))),
];

// Calls that take more than a line.

fn merged(mut a: Type, b: Type) -> Answer {
    a.shape.merge_from(b.shape);
    shape(&a.shape)
}

fn unrefined(mut a: Type) -> Answer {
    a.scalar.unrefine();
    scalar(&a.scalar)
}

fn boxes(a: Type) -> Answer {
    Ok(match rules::boxes(&a)? {
        None => "none".into(),
        Some((name, types)) => hex(&def_bytes(name.as_deref(), &types)),
    })
}

fn field(n: u64, a: Type) -> Answer {
    Ok(match rules::field(n, &a) {
        None => "none".into(),
        Some((start, bytes)) => format!("{start} {} {}", bytes.len(), hex(&bytes)),
    })
}

fn sizes(v: TypeVal) -> Answer {
    Ok(match rules::as_dims(&v)? {
        None => "none".into(),
        Some(dims) => dims.iter().fold(dims.len().to_string(), |text, &d| text + " " + &size(d)),
    })
}

fn found(place: u64, sheet: &[u8]) -> Answer {
    Ok(match steps::find(place, sheet) {
        None => "none".into(),
        Some((number, mark)) => format!("{number} {mark}"),
    })
}

fn sheet_lines(left: &[Type]) -> String {
    let mut text = format!("{} {}", left.len(), sheet::length(left));
    for (place, ty) in left.iter().enumerate() {
        write!(text, " | {place} {}", hex(&type_bytes(ty))).unwrap();
    }
    text
}

// How answers are rendered.

pub fn hex(bytes: &[u8]) -> String {
    const DIGITS: &[u8; 16] = b"0123456789abcdef";
    let digits = |byte: &u8| [DIGITS[(byte >> 4) as usize], DIGITS[(byte & 15) as usize]];
    bytes.iter().flat_map(digits).map(char::from).collect()
}

fn ty(ty: &Type) -> Answer {
    Ok(hex(&type_bytes(ty)))
}

fn shape(shape: &DynShape) -> Answer {
    Ok(hex(&shape_bytes(shape)))
}

fn scalar(scalar: &Scalar) -> Answer {
    Ok(hex(&scalar_bytes(scalar)))
}

fn value(value: TypeVal) -> Answer {
    Ok(match value {
        // There is one NaN, whichever of its patterns was handed in.
        TypeVal::Num(n) if n.is_nan() => format!("num {NAN_BITS:016x}"),
        TypeVal::Num(n) => format!("num {:016x}", n.to_bits()),
        TypeVal::Type(ty) => format!("type {}", hex(&type_bytes(&ty))),
        TypeVal::NumList(_) => unreachable!("no row is a list"),
    })
}

pub fn size(dim: Dim) -> String {
    match dim {
        Dim::Static(n) => n.to_string(),
        Dim::Dyn => "?".into(),
    }
}

fn truth(truth: bool) -> Answer {
    Ok((truth as u8).to_string())
}

fn verdict(verdict: Verdict) -> Answer {
    Ok(match verdict {
        Verdict::Yes => "1".into(),
        Verdict::Index(index) => format!("0 {index}"),
        Verdict::Counts => "0 none".into(),
    })
}

fn order(order: Ordering) -> Answer {
    Ok((order as i8).to_string())
}

// How lines are taken apart. All of a line is judged as a line (`bad`) before the call is made.

enum Fault {
    Bad(&'static str),
    No(No),
    /// Of a separate validation, and what was being read.
    Reading(&'static str, No),
}

impl From<No> for Fault {
    fn from(no: No) -> Self {
        Fault::No(no)
    }
}

type Taken<T> = Result<T, Fault>;

fn bad<T>(why: &'static str) -> Taken<T> {
    Err(Fault::Bad(why))
}

pub fn answer(line: &[u8]) -> String {
    match answered(line) {
        Ok(text) => format!("ok {text}"),
        Err(Fault::No(No { number, place })) => format!("no {number} {place}"),
        Err(Fault::Reading(what, No { number, place })) => format!("no {number} {place} {what}"),
        Err(Fault::Bad(why)) => format!("bad {why}"),
    }
}

/// The request that these bytes before the first space are.
fn named(first: &[u8]) -> Option<&'static (&'static str, Call)> {
    REQUESTS.iter().find(|(word, _)| word.as_bytes() == first)
}

/// The request's word, for counting: it has no blank and no sign that a table could trip over, whatever
/// the line has.
pub fn word(line: &[u8]) -> &'static str {
    let first = line.split(|&byte| byte == b' ').next().unwrap_or(line);
    named(first).map_or("(none)", |(word, _)| word)
}

fn answered(line: &[u8]) -> Taken<String> {
    if line.len() > LINE {
        return bad("long");
    }
    let words: Vec<&[u8]> = line.split(|&byte| byte == b' ').collect();
    let Some((_, call)) = named(words[0]) else {
        return bad("request");
    };
    if words.iter().any(|word| word.is_empty()) {
        return bad("words");
    }
    called(call, &words[1..])
}

fn called(call: &Call, words: &[&[u8]]) -> Taken<String> {
    Ok(match call {
        Call::One(call) => {
            let [a] = exactly(words)?;
            call(read_lone(&unhex(a)?)?)?
        }
        Call::Two(call) => {
            let [a, b] = exactly(words)?;
            let (a, b) = two(a, b)?;
            call(a, b)?
        }
        Call::Checked(call) => {
            let [spec, a] = exactly(words)?;
            let (spec, a) = spec_and_type(spec, a)?;
            reading("neither", call(spec, a))?
        }
        Call::Sided(call) => {
            let [of, spec, a] = exactly(words)?;
            let of = side(of)?;
            let (spec, a) = spec_and_type(spec, a)?;
            reading("neither", call(of, spec, a))?
        }
        Call::Flagged(call) => {
            let [flag, a, b] = exactly(words)?;
            let flag = at_most(3, flag)?;
            let (a, b) = two(a, b)?;
            call(flag, a, b)?
        }
        Call::Numbered(call) => {
            let [n, a] = exactly(words)?;
            let (n, a) = (decimal(n)?, unhex(a)?);
            call(n, read_lone(&a)?)?
        }
        Call::Written(call) => {
            let [room, a] = exactly(words)?;
            let (room, a) = (at_most(LENT, room)?, unhex(a)?);
            let record = call(&read_lone(&a)?);
            if record.len() as u64 > room { no(7, 0)? } else { hex(&record) }
        }
        Call::Numbers(call) => call(&numbers(words)?)?,
        Call::Value(call) => call(handed_in(words)?)?,
        Call::Sizes(call) => {
            let [a, b] = exactly(words)?;
            let (a, b) = (decimal_size(a)?, decimal_size(b)?);
            call(limited(a, 0)?, limited(b, 1)?)?
        }
        Call::Begun(call) => {
            let [bytes] = exactly(words)?;
            call(&unhex(bytes)?)?
        }
        Call::Placed(call) => {
            let [place, sheet] = exactly(words)?;
            let (place, sheet) = (decimal(place)?, unhex(sheet)?);
            call(place, &sheet)?
        }
        Call::Alone(call) => {
            let [] = exactly(words)?;
            call()?
        }
        Call::Sheet => {
            let [bytes] = exactly(words)?;
            sheet_lines(&sheet::program(&unhex(bytes)?)?)
        }
        Call::SheetCall => {
            let [scratch, result, bytes] = exactly(words)?;
            let (scratch, result) = (at_most(LENT, scratch)?, at_most(LENT, result)?);
            sheet_lines(&sheet::call(scratch as usize, result as usize, &unhex(bytes)?)?)
        }
    })
}

fn exactly<'a, const N: usize>(words: &[&'a [u8]]) -> Taken<[&'a [u8]; N]> {
    words.try_into().or(bad("words"))
}

/// Two types: the first is read whole before the second.
fn two(a: &[u8], b: &[u8]) -> Taken<(Type, Type)> {
    let (a, b) = (unhex(a)?, unhex(b)?);
    Ok((read_lone(&a)?, read_lone(&b)?))
}

/// The same, and a refusal says which was being read.
fn spec_and_type(spec: &[u8], a: &[u8]) -> Taken<(Type, Type)> {
    let (spec, a) = (unhex(spec)?, unhex(a)?);
    Ok((reading("spec", read_lone(&spec))?, reading("type", read_lone(&a))?))
}

fn reading<T>(what: &'static str, outcome: Result<T, No>) -> Taken<T> {
    outcome.map_err(|no| Fault::Reading(what, no))
}

fn unhex(word: &[u8]) -> Taken<Vec<u8>> {
    if word == b"-" {
        return Ok(Vec::new());
    }
    let digit = |byte: u8| (byte as char).to_digit(16).map(|digit| digit as u8);
    let byte = |pair: &[u8]| match *pair {
        [high, low] => Some(digit(high)? * 16 + digit(low)?),
        _ => None,
    };
    word.chunks(2).map(byte).collect::<Option<_>>().map_or(bad("hex"), Ok)
}

fn decimal(word: &[u8]) -> Taken<u64> {
    let mut number = 0u64;
    for &byte in word {
        let digit = (byte as char).to_digit(10);
        let next = digit.and_then(|digit| number.checked_mul(10)?.checked_add(digit as u64));
        number = next.map_or(bad("number"), Ok)?;
    }
    Ok(number)
}

fn at_most(most: u64, word: &[u8]) -> Taken<u64> {
    let number = decimal(word)?;
    if number > most { bad("number") } else { Ok(number) }
}

// A size is handed in as 64 bits, all ones for `?`, so that number written out is `?` too.
fn decimal_size(word: &[u8]) -> Taken<Dim> {
    if word == b"?" {
        return Ok(Dim::Dyn);
    }
    match decimal(word)? {
        u64::MAX => Ok(Dim::Dyn),
        size => Ok(Dim::Static(size as usize)),
    }
}

fn limited(dim: Dim, index: usize) -> Result<Dim, No> {
    match dim {
        Dim::Static(size) if size > LARGEST => no(4, index),
        dim => Ok(dim),
    }
}

fn side(word: &[u8]) -> Taken<Option<SubSide>> {
    match word {
        b"none" => Ok(None),
        b"left" => Ok(Some(SubSide::Left)),
        b"right" => Ok(Some(SubSide::Right)),
        _ => bad("side"),
    }
}

fn number(word: &[u8]) -> Taken<f64> {
    let bits = unhex(word)?.try_into().or(bad("hex"))?;
    Ok(f64::from_bits(u64::from_be_bytes(bits)))
}

fn numbers(words: &[&[u8]]) -> Taken<Vec<f64>> {
    words.iter().map(|word| number(word)).collect()
}

fn handed_in(words: &[&[u8]]) -> Taken<TypeVal> {
    let Some((kind, rest)) = words.split_first() else {
        return bad("words");
    };
    Ok(match *kind {
        b"num" => {
            let [bits] = exactly(rest)?;
            TypeVal::Num(number(bits)?)
        }
        b"list" => TypeVal::NumList(numbers(rest)?),
        b"type" => {
            let [bytes] = exactly(rest)?;
            TypeVal::Type(read_lone(&unhex(bytes)?)?)
        }
        _ => return bad("value"),
    })
}
