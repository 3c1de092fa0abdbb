//! Requests for both sides to answer: `mix`, drawn at random. The other modes stand in edges.rs.

use std::io::{BufWriter, Result, StdoutLock, Write, stdout};

use crate::bytes::type_bytes;
use crate::invent::{self, Random};
use crate::limits::{LENT, LINE, PLACES, SCRATCH, TYPE};
use crate::requests::{Call, REQUESTS, hex, size};
use crate::uiua::{Scalar, Type};
use crate::{buried, edges, naming, opposed, placing, sheet, specs};

pub const SIDES: [&str; 3] = ["none", "left", "right"];
/// Scratches longer than is asked for: by one byte, as long as was asked for before (2026-04, and one
/// byte less; document 01), and the longest that a request can have.
pub const LONGER: [usize; 5] = [SCRATCH + 1, 29_951, 29_952, 39_936, LENT as usize];
/// Lengths of a scratch: exactly what is asked for, longer, one short, far too short.
pub const SCRATCHES: [usize; 9] = {
    let [one, before, asked, more, most] = LONGER;
    [SCRATCH, one, before, asked, more, most, SCRATCH - 1, 1, 0]
};

pub fn generate(seed: u64, count: u64, mode: &str, words: &[String]) -> Result<()> {
    let mut out = Lines { out: BufWriter::new(stdout().lock()), left: count, words };
    match mode {
        "mix" => mix(&mut out, &mut Random(seed))?,
        "edges" => edges::edges(&mut out)?,
        "pairs" => edges::pairs(&mut out)?,
        _ => crate::fail("the modes are mix, edges and pairs"),
    }
    out.out.flush()
}

/// Writes the lines asked for: of these words only (of all, if none is named), and only so many.
pub struct Lines<'a> {
    out: BufWriter<StdoutLock<'static>>,
    left: u64,
    words: &'a [String],
}

impl Lines<'_> {
    fn wants(&self, word: &str) -> bool {
        self.words.is_empty() || self.words.iter().any(|wanted| wanted == word)
    }
    /// One line of this request; `rest` has the arguments, each after a space.
    pub fn line(&mut self, word: &str, rest: impl AsRef<[u8]>) -> Result<()> {
        if self.left == 0 || !self.wants(word) {
            return Ok(());
        }
        self.left -= 1;
        self.out.write_all(word.as_bytes())?;
        self.out.write_all(rest.as_ref())?;
        self.out.write_all(b"\n")
    }
}

pub fn hex_word(bytes: &[u8]) -> String {
    if bytes.is_empty() { "-".into() } else { hex(bytes) }
}

fn mix(out: &mut Lines, r: &mut Random) -> Result<()> {
    let wanted = REQUESTS.iter().filter(|(word, _)| out.wants(word));
    let turns: Vec<_> = wanted.flat_map(|request| vec![request; weight(request.0)]).collect();
    if turns.is_empty() {
        crate::fail("there is no such request");
    }
    while out.left > 0 {
        let (word, call) = r.pick(&turns);
        let rest = arguments(r, call);
        if r.one_in(300) { out.line(word, spoiled(r, rest))? } else { out.line(word, rest)? }
    }
    Ok(())
}

fn weight(word: &str) -> usize {
    match word {
        "validate" => 12,
        "check_scalar" | "check_shape" | "sheet" | "pervade" | "read" => 6,
        "join" | "union" | "merge" | "compare" | "sheet_call" | "find_step" => 4,
        "kinds" | "version" => 1,
        _ => 2,
    }
}

/// The arguments, each after a space.
pub fn arguments(r: &mut Random, call: &Call) -> String {
    match call {
        Call::One(_) => one(r),
        Call::Two(_) => two(r, false),
        Call::Checked(_) => two(r, true),
        Call::Sided(_) => format!(" {}{}", r.pick(&SIDES), two(r, true)),
        Call::Flagged(_) => format!(" {}{}", r.below(4), two(r, false)),
        Call::Numbered(_) => format!(" {}{}", r.pick(&[0, 0, 1, 1, 2, 30, 31, u64::MAX]), one(r)),
        Call::Written(call) => {
            let ty = invent::ty(r);
            format!(" {}{}", around(r, call(&ty).len()), type_word(r, &ty))
        }
        Call::Numbers(_) => numbers(r),
        Call::Value(_) => match r.below(4) {
            0 => format!(" num {:016x}", invent::number(r)),
            1 => format!(" type{}", one(r)),
            _ => format!(" list{}", numbers(r)),
        },
        Call::Sizes(_) => format!(" {} {}", size_word(r), size_word(r)),
        Call::Begun(_) => placing::begun(r),
        Call::Placed(_) => placing::drawn(r),
        Call::Alone(_) => String::new(),
        Call::Sheet => format!(" {}", hex_word(&sheet_bytes(r))),
        Call::SheetCall => sheet_call(r),
    }
}

/// A length of a lent buffer: exactly this, a neighbour, or far from it.
fn around(r: &mut Random, length: usize) -> usize {
    let near = [length, length, length + 1, length.saturating_sub(1)];
    if r.one_in(6) { r.pick(&[0, LENT as usize]) } else { r.pick(&near) }
}

/// A type's bytes after a space, sometimes damaged, sometimes in upper case.
fn type_word(r: &mut Random, ty: &Type) -> String {
    let mut bytes = type_bytes(ty);
    if r.one_in(20) {
        bytes = invent::damaged(r, bytes);
    }
    let word = format!(" {}", hex_word(&bytes));
    if r.one_in(50) { word.to_uppercase() } else { word }
}

fn one(r: &mut Random) -> String {
    let mut ty = if r.one_in(500) { invent::largest() } else { invent::ty(r) };
    if r.one_in(12) {
        invent::at_a_limit(r, &mut ty);
    }
    type_word(r, &ty)
}

fn two(r: &mut Random, checked: bool) -> String {
    let (mut a, mut b) = if checked {
        specs::spec_and_type(r)
    } else if r.one_in(2) {
        opposed::pair(r)
    } else {
        invent::pair(r)
    };
    for ty in [&mut a, &mut b] {
        if checked && r.one_in(24) {
            invent::at_a_limit(r, ty);
        }
    }
    type_word(r, &a) + &type_word(r, &b)
}

fn size_word(r: &mut Random) -> String {
    size(if r.one_in(5) { r.pick(&invent::EDGE_SIZES) } else { invent::size(r) })
}

fn numbers(r: &mut Random) -> String {
    let count = r.pick(&[0, 1, 1, 2, 2, 3, 4, 7, 8, 8, 9, 20]);
    (0..count).map(|_| format!(" {:016x}", invent::number(r))).collect()
}

fn sheet_call(r: &mut Random) -> String {
    let bytes = sheet_bytes(r);
    let left = sheet::run(&bytes).unwrap_or_default();
    let scratch = if r.one_in(2) { SCRATCH } else { r.pick(&SCRATCHES) };
    // Either what the types left have, or what is enough for so many of any size.
    let needed = if r.one_in(3) { left.len() * TYPE } else { sheet::length(&left) };
    format!(" {scratch} {} {}", around(r, needed), hex_word(&bytes))
}

/// Half of the sheets have names, and every twelfth joins boxes.
pub fn sheet_bytes(r: &mut Random) -> Vec<u8> {
    if r.one_in(12) {
        return joined(r);
    }
    if r.one_in(2) { naming::drawn(r) } else { nameless(r) }
}

fn joined(r: &mut Random) -> Vec<u8> {
    let sheet = opposed::sheet(r);
    let bytes = if r.one_in(2) { naming::named(r, &sheet) } else { sheet };
    if r.one_in(24) { invent::damaged(r, bytes) } else { bytes }
}

/// Every third is a sheet whose types lie under others and are dug up again.
pub fn nameless(r: &mut Random) -> Vec<u8> {
    if !r.one_in(3) {
        return steps_bytes(r);
    }
    let bytes = buried::drawn(r);
    if r.one_in(24) { invent::damaged(r, bytes) } else { bytes }
}

/// A sheet of any steps, of puts and pervadings alone, or one that fills the stack; sometimes damaged.
pub fn steps_bytes(r: &mut Random) -> Vec<u8> {
    let bytes = match r.below(30) {
        0 => pervaded(r),
        1..3 => heaped(r),
        _ => mixed(r),
    };
    if r.one_in(12) { invent::damaged(r, bytes) } else { bytes }
}

/// Steps, most of which suit what the steps before have left on the stack.
fn mixed(r: &mut Random) -> Vec<u8> {
    let steps = if r.one_in(60) { r.pick(&[63, 64, 65]) } else { r.below(14) };
    let puts = r.pick(&[0, 0, 0, 0, 0, PLACES - 1]);
    let mut bytes: Vec<u8> = (0..puts).flat_map(|_| put(&invent::ty(r))).collect();
    for _ in 0..steps {
        match sheet::run(&bytes) {
            Ok(stack) => bytes.extend(step(r, &stack)),
            Err(_) if r.one_in(2) => break,
            Err(_) => bytes.extend(put(&invent::ty(r))),
        }
    }
    bytes
}

/// Few steps or as many as a sheet may have: puts that meet the first, and pervadings, most filled.
fn pervaded(r: &mut Random) -> Vec<u8> {
    let steps = if r.one_in(2) { r.below(14) } else { r.pick(&[63, 64, 64, 65]) };
    let first = Scalar::Num.shaped(invent::shape(r));
    let (mut bytes, mut height) = (put(&first), 1);
    for _ in 1..steps {
        let lays = height == 1 || height < PLACES && r.one_in(2);
        height = if lays { height + 1 } else { height - 1 };
        bytes.extend(if lays { put(&invent::met(r, &first)) } else { pervade(r) });
    }
    bytes
}

/// Up to a full stack, down and up again, a few times. Now and then comes a put too many, whole or
/// broken: the stack is judged before the put's bytes.
fn heaped(r: &mut Random) -> Vec<u8> {
    let first = if r.one_in(30) { invent::largest() } else { invent::ty(r) };
    let (mut bytes, mut height) = (Vec::new(), 0);
    for _ in 0..1 + r.below(4) {
        bytes.extend((height..PLACES).flat_map(|_| put(&invent::met(r, &first))));
        if r.one_in(6) {
            let over = put(&invent::met(r, &first));
            bytes.extend(if r.one_in(2) { invent::damaged(r, over) } else { over });
        }
        let down = if r.one_in(3) { 0 } else { r.below(PLACES) };
        bytes.extend((0..down).flat_map(|_| on_two(r)));
        height = PLACES - down;
    }
    bytes
}

fn step(r: &mut Random, stack: &[Type]) -> Vec<u8> {
    let Some(top) = stack.last() else {
        return if r.one_in(30) { any_step(r) } else { put(&invent::ty(r)) };
    };
    match r.below(37) {
        0 => any_step(r),
        1..3 => {
            let (spec, ty) = specs::spec_and_type(r);
            [put(&ty), validate(&spec)].concat()
        }
        3..8 => sheet::ROW.into(),
        8..11 => validate(&specs::loosened(r, top)),
        11 => validate(&invent::related(r, top)),
        12..22 if stack.len() > 1 => on_two(r),
        22..34 if stack.len() == PLACES => on_two(r),
        22..26 => put(&invent::related(r, top)),
        30..36 if stack.len() < PLACES => [put(&invent::met(r, top)), pervade(r)].concat(),
        36 => validate(&specs::missed(r, top)),
        _ => put(&invent::resized(r, top)),
    }
}

pub fn put(ty: &Type) -> Vec<u8> {
    [&sheet::PUT[..], &type_bytes(ty)].concat()
}

pub fn validate(spec: &Type) -> Vec<u8> {
    [&sheet::VALIDATE[..], &type_bytes(spec)].concat()
}

pub fn on_two(r: &mut Random) -> Vec<u8> {
    if r.one_in(3) { sheet::JOIN.into() } else { pervade(r) }
}

pub fn pervade(r: &mut Random) -> Vec<u8> {
    let flag = r.pick(&[0, 0, 1, 1, 2, 2, 3]);
    [&sheet::PERVADE[..], &[flag]].concat()
}

/// A step that the stack or its own bytes may not allow. Those with names are in naming.rs.
pub fn any_step(r: &mut Random) -> Vec<u8> {
    let marks = [*b"PU", *b"RW", *b"PV", *b"JN", *b"VA", *b"SH", *b"UP"];
    let mut bytes = r.pick(&marks).to_vec();
    if r.one_in(2) {
        bytes.push(r.pick(&[0, 3, 4, 9, 255]));
    }
    bytes
}

/// A line's rest with a slip somewhere.
fn spoiled(r: &mut Random, rest: String) -> Vec<u8> {
    let mut rest = rest.into_bytes();
    let at = r.below(rest.len() + 1);
    match r.below(8) {
        0 => rest.insert(at, b' '),
        1 => rest.push(b' '),
        2 => rest.extend(b" 00"),
        3 => rest.truncate(at),
        4 if r.one_in(8) => rest.resize(LINE - 16 + r.below(16), b'0'),
        5 => rest.insert(0, b'x'),
        _ if at == rest.len() => rest.push(b'0'),
        6 => drop(rest.remove(at)),
        _ => rest[at] = r.pick(b"gG-+?_x.\t\r\x00\xff"),
    }
    rest
}
