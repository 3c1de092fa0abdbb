//! Sheets with names (document 02, 2026-06). Any sheet can have them: types are declared, and puts
//! become uses. At random that goes with slips. Without a seed there are names at their limits, and
//! sheets cut and changed at each byte.

use std::io::Result;

use crate::bytes::{Reader, type_bytes};
use crate::edges::{harmed, sheet_line};
use crate::generate::{Lines, nameless, put, validate};
use crate::invent::{self, BYTES, Random};
use crate::limits::{LETTERS, NAMES, PLACES, STEPS};
use crate::uiua::{Dim, DynShape, Scalar, Type};
use crate::{buried, sheet};

// Steps. Their bytes need be no name and no type.

pub fn declared(name: &[u8], ty: &[u8]) -> Vec<u8> {
    [&sheet::DECLARE[..], &spelled(name), ty].concat()
}

pub fn used(name: &[u8]) -> Vec<u8> {
    [&sheet::USE[..], &spelled(name)].concat()
}

/// A name's length, then its bytes.
fn spelled(name: &[u8]) -> Vec<u8> {
    [&[name.len() as u8], name].concat()
}

/// The steps of a sheet as far as they can be read, and the bytes after them.
fn split(sheet: &[u8]) -> (Vec<&[u8]>, &[u8]) {
    let mut reader = Reader::new(sheet);
    let (mut steps, mut end) = (Vec::new(), 0);
    while sheet::pass(&mut reader).is_ok() {
        steps.push(&sheet[end..reader.at]);
        end = reader.at;
    }
    (steps, &sheet[end..])
}

/// The type that a step puts.
fn table<'a>(step: &&'a [u8]) -> Option<&'a [u8]> {
    step.strip_prefix(&sheet::PUT)
}

/// The types that these steps put, each once, by their first put.
fn tables<'a>(steps: &[&'a [u8]]) -> Vec<&'a [u8]> {
    let mut tables = Vec::new();
    for ty in steps.iter().filter_map(table) {
        if !tables.contains(&ty) {
            tables.push(ty);
        }
    }
    tables
}

/// The same sheet, but each type that it puts is declared before its first put, and used: as many as
/// there are names and steps for.
pub fn once(sheet: &[u8]) -> Vec<u8> {
    let (steps, rest) = split(sheet);
    let mut tables = tables(&steps);
    tables.truncate(STEPS.saturating_sub(steps.len()).min(NAMES));
    let (mut bytes, mut count) = (Vec::new(), 0);
    for step in &steps {
        let known = table(step).and_then(|ty| tables.iter().position(|table| *table == ty));
        let Some(n) = known else {
            bytes.extend(*step);
            continue;
        };
        let name = format!("table {n}").into_bytes();
        if n == count {
            bytes.extend(declared(&name, tables[n]));
            count += 1;
        }
        bytes.extend(used(&name));
    }
    [&bytes, rest].concat()
}

// At random.

pub fn drawn(r: &mut Random) -> Vec<u8> {
    let sheet = if r.one_in(2) { buried::repeated(r) } else { nameless(r) };
    let bytes = named(r, &sheet);
    if r.one_in(20) { invent::damaged(r, bytes) } else { bytes }
}

/// The sheet with names, by which it leaves the same types, but for a slip at times. They are declared
/// at the beginning, right before their use, or anywhere; and somewhere there may be as many names or
/// steps as a sheet has at most, or one more.
pub fn named(r: &mut Random, sheet: &[u8]) -> Vec<u8> {
    let (steps, rest) = split(sheet);
    let most = if r.one_in(6) { STEPS + 1 } else { STEPS };
    let room = most.saturating_sub(steps.len());
    let mut copy = Named { tables: tables(&steps), room, ..Named::default() };
    if r.one_in(3) {
        copy.tables.clone().iter().for_each(|ty| copy.declare(r, ty));
    }
    let (before, after) = steps.split_at(r.below(steps.len() + 1));
    copy.steps(r, before);
    match r.below(20) {
        0..3 => copy.crowd(r),
        3 | 4 => copy.fill(r),
        _ => copy.idle(r),
    }
    copy.steps(r, after);
    [&copy.bytes, rest].concat()
}

/// A sheet that is written anew, with names.
#[derive(Default)]
struct Named<'a> {
    /// The types that the sheet puts.
    tables: Vec<&'a [u8]>,
    bytes: Vec<u8>,
    /// The names declared, with the types in force.
    names: Vec<(Vec<u8>, Vec<u8>)>,
    /// So many steps may be added.
    room: usize,
}

impl Named<'_> {
    fn steps(&mut self, r: &mut Random, steps: &[&[u8]]) {
        for step in steps {
            match table(step) {
                Some(ty) if !r.one_in(6) => self.put(r, ty),
                _ => self.bytes.extend(*step),
            }
            match r.below(160) {
                0 => self.more(r),
                1..20 => self.idle(r),
                _ => {}
            }
        }
    }

    /// A use of the type, which is declared now if it has no name; where there is no room, its put.
    /// Sometimes the name is one that is only declared afterwards.
    fn put(&mut self, r: &mut Random, ty: &[u8]) {
        if r.one_in(60) {
            let name = self.fresh(r);
            self.bytes.extend(used(&name));
            return self.write(r, name, ty);
        }
        if self.names_of(ty).is_empty() {
            self.declare(r, ty);
        }
        let names = self.names_of(ty);
        if names.is_empty() {
            self.bytes.extend([&sheet::PUT[..], ty].concat());
        } else {
            let name = r.pick(&names);
            self.bytes.extend([&sheet::USE[..], &misspelled(r, &name)].concat());
        }
    }

    fn names_of(&self, ty: &[u8]) -> Vec<Vec<u8>> {
        let of_it = self.names.iter().filter(|(_, in_force)| in_force == ty);
        of_it.map(|(name, _)| name.clone()).collect()
    }

    fn declare(&mut self, r: &mut Random, ty: &[u8]) {
        if self.room > 0 {
            let name = self.new_or_known(r);
            self.write(r, name, ty);
        }
    }

    /// The declaration. Its type is seldom damaged, but for that of a name too many.
    fn write(&mut self, r: &mut Random, name: Vec<u8>, ty: &[u8]) {
        self.names.retain(|(known, _)| *known != name);
        let chances = if self.names.len() < NAMES { 200 } else { 4 };
        let ty = if r.one_in(chances) { invent::damaged(r, ty.into()) } else { ty.into() };
        self.bytes.extend([&sheet::DECLARE[..], &misspelled(r, &name), &ty].concat());
        self.names.push((name, ty));
        self.room = self.room.saturating_sub(1);
    }

    /// A declaration of any type, often of one that the sheet puts somewhere.
    fn idle(&mut self, r: &mut Random) {
        let ty = match r.below(6) {
            0 => type_bytes(&invent::ty(r)),
            1 if r.one_in(20) => type_bytes(&invent::largest()),
            2..4 if !self.tables.is_empty() => r.pick(&self.tables).into(),
            _ => small(r),
        };
        self.declare(r, &ty);
    }

    /// A use for which the sheet has no put, whether there is a place for it or not.
    fn more(&mut self, r: &mut Random) {
        if self.room > 0 && !self.names.is_empty() {
            self.room -= 1;
            self.bytes.extend(used(&r.pick(&self.names).0));
        }
    }

    /// About as many names as there may be: one fewer, or up to two more.
    fn crowd(&mut self, r: &mut Random) {
        let count = NAMES - 1 + r.below(4);
        while self.names.len() < count && self.room > 0 {
            let (name, ty) = (self.fresh(r), small(r));
            self.write(r, name, &ty);
        }
    }

    /// One name again and again, as long as there is room.
    fn fill(&mut self, r: &mut Random) {
        let name = self.new_or_known(r);
        while self.room > 0 {
            let ty = small(r);
            self.write(r, name.clone(), &ty);
        }
    }

    /// One name more, unless there are as many as may be; or one that has a type already.
    fn new_or_known(&self, r: &mut Random) -> Vec<u8> {
        let all = self.names.len() >= NAMES && !r.one_in(50);
        let known = !self.names.is_empty() && (all || r.one_in(3));
        if known { r.pick(&self.names).0 } else { self.fresh(r) }
    }

    /// A name that is none of those declared, though often near to one.
    fn fresh(&self, r: &mut Random) -> Vec<u8> {
        loop {
            let from_known = !self.names.is_empty() && r.one_in(2);
            let from = if from_known { r.pick(&self.names).0 } else { any_name(r) };
            let name = near(r, from);
            if self.names.iter().all(|(known, _)| *known != name) {
                return name;
            }
        }
    }
}

fn small(r: &mut Random) -> Vec<u8> {
    type_bytes(&Scalar::Num.shaped(invent::size(r)))
}

fn any_name(r: &mut Random) -> Vec<u8> {
    let length = r.pick(&[1, 1, 2, 3, 8, LETTERS - 1, LETTERS, LETTERS]);
    (0..length).map(|_| letter(r)).collect()
}

fn letter(r: &mut Random) -> u8 {
    if r.one_in(3) { r.pick(b" ~aA") } else { 32 + r.below(95) as u8 }
}

/// The beginning of a name, the name with one more letter, or with another one at its front or end.
fn near(r: &mut Random, mut name: Vec<u8>) -> Vec<u8> {
    let last = name.len() - 1;
    match r.below(4) {
        0 if last > 0 => name.truncate(1 + r.below(last)),
        1 if name.len() < LETTERS => name.push(letter(r)),
        2 => name[0] = letter(r),
        _ => name[last] = letter(r),
    }
    name
}

/// A name's length and bytes, with a slip at times.
fn misspelled(r: &mut Random, name: &[u8]) -> Vec<u8> {
    let mut bytes = spelled(name);
    let at = 1 + r.pick(&[0, name.len() / 2, name.len() - 1]);
    match r.below(600) {
        0 => bytes = spelled(&vec![b'n'; r.pick(&[0, LETTERS + 1, 255])]),
        1 => bytes = spelled(&near(r, name.into())),
        2 => bytes[0] = r.pick(&BYTES),
        3 => bytes[at] = r.pick(&BYTES),
        _ => {}
    }
    bytes
}

// Without a seed.

pub fn edges(out: &mut Lines) -> Result<()> {
    let ab = declared(b"ab", &scalar());
    for name in at_limits() {
        sheet_line(out, &[&declared(&name, &scalar())])?;
        sheet_line(out, &[&declared(&name, &scalar()), &used(&name)])?;
        sheet_line(out, &[&ab, &used(&name)])?;
        sheet_line(out, &[&ab, &used(b"ab"), &sheet::DECLARE, &spelled(&name)[..1]])?;
    }
    // On a stack that has a place left, and on a full one, where a use's name is not looked at.
    for puts in [PLACES - 1, PLACES].map(|count| put(&three()).repeat(count)) {
        harmed(&used(b"ab")).iter().try_for_each(|last| sheet_line(out, &[&ab, &puts, last]))?;
        harmed(&ab).iter().try_for_each(|last| sheet_line(out, &[&puts, last, &used(b"ab")]))?;
    }
    // As the 63rd step, the 64th and the 65th.
    for rows in [STEPS - 4, STEPS - 3, STEPS - 2] {
        let before = [&ab[..], &used(b"ab"), &sheet::ROW.repeat(rows)].concat();
        for last in [&ab[..], &used(b"ab"), &used(b"a"), &used(b""), &ab[..9], b"NM", b"US", b"U"] {
            sheet_line(out, &[&before, last])?;
        }
    }
    crowds(out)?;
    harmed(&sample()).iter().try_for_each(|bytes| sheet_line(out, &[bytes]))
}

/// One name fewer than there may be, all of them, and one more, which is refused after its type is read.
fn crowds(out: &mut Lines) -> Result<()> {
    for count in [NAMES - 1, NAMES, NAMES + 1] {
        let names: Vec<u8> = (b'a'..).take(count).collect();
        let whole: Vec<u8> = names.iter().flat_map(|name| lettered(*name)).collect();
        let (first, last) = (used(&names[..1]), used(&names[count - 1..]));
        for step in [&b""[..], &first, &last, &used(b"ab"), b"XX"] {
            sheet_line(out, &[&whole, step])?;
        }
        for name in names {
            sheet_line(out, &[&whole, &declared(&[name], &scalar()), &used(&[name])])?;
        }
    }
    let whole: Vec<u8> = (b'a'..).take(NAMES).flat_map(lettered).collect();
    let boxed = declared(b"ab", &type_bytes(&invent::all(three())));
    harmed(&boxed).iter().try_for_each(|last| sheet_line(out, &[&whole, last]))
}

/// A name of one letter, with a type of its own.
fn lettered(letter: u8) -> Vec<u8> {
    declared(&[letter], &type_bytes(&Scalar::Num.shaped(letter as usize)))
}

fn scalar() -> Vec<u8> {
    type_bytes(&Scalar::Num.scalar_type())
}

fn three() -> Type {
    Scalar::Num.shaped(3)
}

/// Lengths of a name, and its bytes at the front, in the middle and at the end.
pub fn at_limits() -> Vec<Vec<u8>> {
    let lengths = [0, 1, 2, LETTERS - 1, LETTERS, LETTERS + 1, 254, 255];
    let mut names: Vec<Vec<u8>> = lengths.map(|length| vec![b'n'; length]).into();
    for length in [1, 3, LETTERS] {
        let places = [0, length / 2, length - 1];
        for (at, byte) in places.into_iter().flat_map(|at| BYTES.map(|byte| (at, byte))) {
            let mut name = vec![b'n'; length];
            name[at] = byte;
            names.push(name);
        }
    }
    names.sort();
    names.dedup();
    names
}

/// Two names, of which one is the beginning of the other and is declared again between its uses.
pub fn sample() -> Vec<u8> {
    let unknown = type_bytes(&Scalar::Int.shaped(Dim::Dyn));
    let (long, short) = (declared(b"ab", &type_bytes(&three())), declared(b"a", &unknown));
    let both = [long, short, used(b"ab"), used(b"a"), b"PV\0".into()].concat();
    let again = declared(b"a", &type_bytes(&Scalar::Char.scalar_type()));
    let checked = validate(&Scalar::Num.shaped(DynShape::ANY));
    [both, again, used(b"a"), sheet::JOIN.into(), sheet::ROW.into(), used(b"ab"), checked].concat()
}
