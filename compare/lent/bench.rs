//! How long the calls of libvelgrodis.a take, beside the cut Rust on the same bytes.
//!
//!     bench [ROUNDS [PART]]    so many samples of each side, by turns; the cases whose names have this part, or with a - before it
//!                              those that have it not
//!
//! The Rust's side reads the bytes into its `Type`s, works its rules on them, writes what is left straight to the result and clears a
//! scratch of the same length. Validation calls the cut `validate` once: the limits are not measured. A sheet's
//! pervading (oracle/filled.rs), its names (oracle/names.rs) and the number of a mismatch (oracle/counts.rs) are no text of the Rust's. Where
//! two shapes are tested alone, the cut `compatible_with` says yes or no, and after a no the index is looked for from the end. Both
//! sides must answer the same.

#![allow(dead_code)]

#[path = "../oracle/buried.rs"]
mod buried;
#[path = "../oracle/bytes.rs"]
mod bytes;
#[path = "../oracle/counts.rs"]
mod counts;
#[path = "../oracle/edges.rs"]
mod edges;
mod expected;
#[path = "../oracle/failing.rs"]
mod failing;
#[path = "../oracle/filled.rs"]
mod filled;
#[path = "../oracle/generate.rs"]
mod generate;
#[path = "../oracle/invent.rs"]
mod invent;
#[path = "../oracle/kinds.rs"]
mod kinds;
mod library;
#[path = "../oracle/limits.rs"]
mod limits;
#[path = "../oracle/names.rs"]
mod names;
#[path = "../oracle/naming.rs"]
mod naming;
#[path = "../oracle/opposed.rs"]
mod opposed;
#[path = "../oracle/placing.rs"]
mod placing;
#[path = "../oracle/requests.rs"]
mod requests;
#[path = "../oracle/rules.rs"]
mod rules;
#[path = "../oracle/sheet.rs"]
mod sheet;
mod sheets;
#[path = "../oracle/specs.rs"]
mod specs;
#[path = "../oracle/standins.rs"]
mod standins;
#[path = "../oracle/steps.rs"]
mod steps;
#[path = "../target/uiua.rs"]
mod uiua;
#[path = "../oracle/version.rs"]
mod version;

use bytes::{No, no, type_bytes};
use generate::{put, validate};
use invent::{Random, largest};
use library::Answer;
use limits::{PLACES, RESULT, SCRATCH, SIZES};
use std::hint::black_box;
use std::time::Instant;
use uiua::{Dim, DynShape, Scalar, ScalarBox, Type, TypeError};

fn fail(why: &str) -> ! {
    eprintln!("bench: {why}");
    std::process::exit(2)
}

// The Rust's side.

/// Bytes written one after the other; too many are counted and left out.
struct Writer<'a> {
    to: &'a mut [u8],
    at: usize,
}

impl Writer<'_> {
    fn bytes(&mut self, bytes: &[u8]) {
        if let Some(to) = self.to.get_mut(self.at..self.at + bytes.len()) {
            to.copy_from_slice(bytes);
        }
        self.at += bytes.len();
    }
    fn sizes(&mut self, sizes: &[Dim]) {
        for size in sizes {
            let number = match *size {
                Dim::Static(size) => size as u64,
                Dim::Dyn => u64::MAX,
            };
            self.bytes(&number.to_le_bytes());
        }
    }
    fn ty(&mut self, ty: &Type) {
        let closing = ty.shape.suffix.as_deref();
        let count = closing.map_or(255, |sizes| sizes.len() as u8);
        self.bytes(&[b'S', b'H', ty.shape.dims.len() as u8, count]);
        self.sizes(&ty.shape.dims);
        self.sizes(closing.unwrap_or(&[]));
        self.bytes(&[b'S', b'C', bytes::kind(&ty.scalar)]);
        match &ty.scalar {
            Scalar::Box(ScalarBox::Any) => self.bytes(b"BX\0"),
            Scalar::Box(ScalarBox::All(ty)) => {
                self.bytes(b"BX\x01");
                self.ty(ty);
            }
            Scalar::Box(ScalarBox::Def(name, fields)) => {
                self.bytes(b"BX\x02");
                self.bytes(&[name.as_ref().map_or(255, |name| name.len() as u8)]);
                self.bytes(name.as_deref().unwrap_or("").as_bytes());
                self.bytes(&[fields.len() as u8]);
                fields.iter().for_each(|field| self.ty(field));
            }
            _ => {}
        }
    }
}

fn validated(spec: Type, mut ty: Type) -> Result<Type, No> {
    match uiua::validate(spec, &mut ty, None) {
        Ok(()) => Ok(ty),
        Err(TypeError::ScalarMismatch(..)) => no(9, 0),
        Err(TypeError::ShapeMismatch(spec, ty)) => no(counts::number(None, &spec, &ty), 0),
        Err(other) => panic!("{other:?}"),
    }
}

fn answered(outcome: Result<(usize, usize), No>) -> Answer {
    match outcome {
        Ok((first, second)) => {
            Answer { kind: 1, first: first as u64, second: second as u64, ..Answer::default() }
        }
        Err(No { number, place }) => {
            Answer { number: number as u64, place: place as u64, ..Answer::default() }
        }
    }
}

fn rust_sheet(sheet: &[u8], result: &mut [u8], scratch: &mut [u8], clears: bool) -> Answer {
    if scratch.len() < SCRATCH {
        return answered(no(7, 0));
    }
    let outcome = sheet::run_with(sheet, validated).and_then(|left| {
        let mut writer = Writer { to: result, at: 0 };
        left.iter().for_each(|ty| writer.ty(ty));
        if writer.at > writer.to.len() { no(7, sheet.len()) } else { Ok((left.len(), writer.at)) }
    });
    if clears {
        black_box(&mut scratch[..SCRATCH]).fill(0);
    }
    answered(outcome)
}

fn rust_read(ty: &[u8]) -> Answer {
    answered(bytes::read_lone(ty).map(|ty| {
        black_box(&ty);
        (0, 0)
    }))
}

fn rust_validate(spec: &[u8], ty: &[u8], result: &mut [u8]) -> Answer {
    let both = bytes::read_lone(spec).and_then(|spec| Ok((spec, bytes::read_lone(ty)?)));
    answered(both.and_then(|(spec, ty)| validated(spec, ty)).map(|ty| {
        let mut writer = Writer { to: result, at: 0 };
        writer.ty(&ty);
        (writer.at, 0)
    }))
}

fn rust_compatible(a: &[u8], b: &[u8]) -> Answer {
    let both = bytes::read_lone(a).and_then(|a| Ok((a.shape, bytes::read_lone(b)?.shape)));
    answered(both.map(|(a, b)| {
        if a.compatible_with(&b) {
            return (1, 0);
        }
        if a.dims.len() != b.dims.len() {
            return (0, expected::NO_INDEX as usize);
        }
        let mut sizes = a.dims.iter().zip(&b.dims);
        (0, sizes.rposition(|(a, b)| !a.row_compatible(*b)).expect("an index that fails"))
    }))
}

// Ours.

fn our_sheet(sheet: &[u8], result: &mut [u8], scratch: &mut [u8]) -> Answer {
    let (to, room) = (result.as_mut_ptr(), result.len());
    unsafe {
        library::vg_check_sheet(
            sheet.as_ptr(),
            sheet.len(),
            to,
            room,
            scratch.as_mut_ptr(),
            scratch.len(),
        )
    }
}

fn our_validate(spec: &[u8], ty: &[u8], result: &mut [u8]) -> Answer {
    let (to, room) = (result.as_mut_ptr(), result.len());
    let (from, length) = (spec.as_ptr(), spec.len());
    unsafe { library::vg_validate(0, from, length, ty.as_ptr(), ty.len(), to, room) }.answer
}

fn our_compatible(a: &[u8], b: &[u8]) -> Answer {
    unsafe { library::vg_compatible_shapes(a.as_ptr(), a.len(), b.as_ptr(), b.len()) }
}

// What is measured.

/// What it takes is taken for the clearing alone.
const EMPTY: &str = "no step at all";

enum Work {
    Sheets(Vec<Vec<u8>>),
    Read(Vec<u8>),
    Validate(Vec<u8>, Vec<u8>),
    Compatible(Vec<u8>, Vec<u8>),
}

struct Buffers {
    result: Vec<u8>,
    scratch: Vec<u8>,
}

/// The last answer, so that nothing can be left out.
fn ours(work: &Work, to: &mut Buffers) -> Answer {
    match work {
        Work::Sheets(sheets) => {
            let all = sheets
                .iter()
                .map(|sheet| our_sheet(black_box(sheet), &mut to.result, &mut to.scratch));
            all.last().expect("a sheet")
        }
        Work::Read(ty) => unsafe { library::vg_read(black_box(ty).as_ptr(), ty.len()) },
        Work::Validate(spec, ty) => our_validate(black_box(spec), ty, &mut to.result),
        Work::Compatible(a, b) => our_compatible(black_box(a), black_box(b)),
    }
}

fn rusts(work: &Work, to: &mut Buffers, clears: bool) -> Answer {
    match work {
        Work::Sheets(sheets) => {
            let mut one =
                |sheet| rust_sheet(black_box(sheet), &mut to.result, &mut to.scratch, clears);
            sheets.iter().map(|sheet| one(sheet)).last().expect("a sheet")
        }
        Work::Read(ty) => rust_read(black_box(ty)),
        Work::Validate(spec, ty) => rust_validate(black_box(spec), ty, &mut to.result),
        Work::Compatible(a, b) => rust_compatible(black_box(a), black_box(b)),
    }
}

/// A put and then the same steps over and over, so many in all.
fn again(steps: usize, first: &Type, turn: &[Vec<u8>]) -> Vec<u8> {
    let mut bytes = put(first);
    bytes.extend(turn.iter().cycle().take(steps - 1).flatten());
    bytes
}

/// Each kind of step. The stack has one or two types.
fn turns(steps: usize, first: &Type, with_row: &Type, second: &Type, spec: &Type) -> Vec<u8> {
    let pervade = [&sheet::PERVADE[..], &[0]].concat();
    let turn = [
        put(with_row),
        sheet::ROW.into(),
        pervade.clone(),
        put(second),
        sheet::JOIN.into(),
        validate(spec),
        put(first),
        pervade,
    ];
    again(steps, first, &turn)
}

/// A full stack, each type of it validated before the next is put on it, joined down to one type.
fn piles(steps: usize, ty: &Type, spec: &Type) -> Vec<u8> {
    let mut pile = vec![validate(spec)];
    (1..PLACES).for_each(|_| pile.extend([put(ty), validate(spec)]));
    (1..PLACES).for_each(|_| pile.push(sheet::JOIN.into()));
    again(steps, ty, &pile)
}

/// Num of these sizes.
fn num(dims: &[Dim]) -> Type {
    Scalar::Num.shaped(DynShape { dims: dims.to_vec(), suffix: None })
}

const THREE: Dim = Dim::Static(3);

/// [3], [2 3] and [?] Num.
fn small_turns(steps: usize) -> Vec<u8> {
    let (three, unknown) = (num(&[THREE]), num(&[Dim::Dyn]));
    turns(steps, &three, &num(&[Dim::Static(2), THREE]), &unknown, &unknown)
}

/// The largest type, and a spec that has as many fields with the same names, but asks for no shapes: an open shape passes no other.
fn largest_with_spec() -> (Type, Type) {
    let ty = largest();
    let mut spec = Type { shape: DynShape::ANY, ..ty.clone() };
    if let Scalar::Box(ScalarBox::Def(_, fields)) = &mut spec.scalar {
        fields.iter_mut().for_each(|field| field.shape = DynShape::ANY);
    }
    (ty, spec)
}

fn largest_turns(steps: usize) -> Vec<u8> {
    let (ty, spec) = largest_with_spec();
    turns(steps, &ty, &ty, &ty, &spec)
}

fn largest_piles(steps: usize) -> Vec<u8> {
    let (ty, spec) = largest_with_spec();
    piles(steps, &ty, &spec)
}

fn example() -> Vec<u8> {
    [put(&num(&[THREE])), put(&num(&[Dim::Dyn])), b"PV\0".to_vec()].concat()
}

/// Sheets drawn so, without those whose validation grows over a limit: that is not measured on the Rust's side.
fn season(count: usize, drawn: fn(&mut Random) -> Vec<u8>) -> Vec<Vec<u8>> {
    let mut random = Random(2026);
    let drawn = std::iter::from_fn(|| Some(sheets::any(&mut random, drawn)));
    drawn
        .filter(|bytes| !matches!(sheet::run(bytes), Err(No { number: 5, .. })))
        .take(count)
        .collect()
}

/// Sheets of boxes that are joined. Now and then one is damaged.
fn season_of_boxes(count: usize) -> Vec<Vec<u8>> {
    let mut random = Random(2026);
    let mut one = |_| {
        let bytes = opposed::sheet(&mut random);
        if random.one_in(24) { invent::damaged(&mut random, bytes) } else { bytes }
    };
    (0..count).map(&mut one).collect()
}

/// The first season, but its sheets declare what they put, each type once before its first put, and use it.
fn season_with_names(count: usize) -> Vec<Vec<u8>> {
    season(count, generate::steps_bytes).iter().map(|sheet| naming::once(sheet)).collect()
}

fn works() -> Vec<(String, Work)> {
    let one = |sheet| Work::Sheets(vec![sheet]);
    let deep = |ty: Type| type_bytes(&invent::nested(ty, 7));
    let mut works = vec![
        (EMPTY.into(), one(Vec::new())),
        ("the paper's example, 3 steps".into(), one(example())),
    ];
    for steps in [8, 16, 32, 64] {
        works.push((format!("small types, {steps} steps"), one(small_turns(steps))));
    }
    for steps in [8, 16, 32, 64] {
        works.push((format!("largest types, {steps} steps"), one(largest_turns(steps))));
    }
    // With the declarations, of three types and of one, these have 64 steps too.
    let named = |sheet: Vec<u8>| one(naming::once(&sheet));
    works.push(("small types, named, 64 steps".into(), named(small_turns(61))));
    works.push(("largest types, named, 64 steps".into(), named(largest_turns(63))));
    works.push(("six small types at once".into(), one(piles(64, &num(&[THREE]), &num(&[THREE])))));
    works.push(("six largest types at once".into(), one(largest_piles(64))));
    works.push(("reading the largest type".into(), Work::Read(type_bytes(&largest()))));
    works.push((
        "validating eight deep".into(),
        Work::Validate(deep(num(&[Dim::Dyn])), deep(num(&[THREE]))),
    ));
    // Of the answer a library before 2026-07 has only yes or no.
    let eight = |last| type_bytes(&num(&[&[THREE; SIZES - 1][..], &[last]].concat()));
    works.push((
        "compatible shapes of eight sizes".into(),
        Work::Compatible(eight(Dim::Static(4)), eight(Dim::Static(5))),
    ));
    let seasons = [
        ("a season of 1,000 sheets", season(1_000, generate::steps_bytes)),
        ("a season that buries types", season(1_000, generate::nameless)),
        ("a season with names", season_with_names(1_000)),
        ("a season whose boxes are joined", season_of_boxes(1_000)),
    ];
    works.extend(seasons.map(|(name, sheets)| (name.into(), Work::Sheets(sheets))));
    works
}

/// Both sides answer the same and write the same.
fn held(name: &str, work: &Work) {
    let single = |work: &Work| {
        let [mut one, mut other] = [0, 0].map(|byte| buffers(byte));
        let (our, rust) = (ours(work, &mut one), rusts(work, &mut other, true));
        if our != rust || one.result != other.result || one.scratch != other.scratch {
            fail(&format!("{name}: {our:?}, the Rust {rust:?}"));
        }
        our
    };
    let accepted = match work {
        Work::Sheets(sheets) => {
            let each =
                sheets.iter().map(|sheet| single(&Work::Sheets(vec![sheet.clone()])).kind as usize);
            each.sum::<usize>()
        }
        _ => single(work).kind as usize,
    };
    let (count, length) = match work {
        Work::Sheets(sheets) => (sheets.len(), sheets.iter().map(Vec::len).sum::<usize>()),
        Work::Read(ty) => (1, ty.len()),
        Work::Validate(a, b) | Work::Compatible(a, b) => (1, a.len() + b.len()),
    };
    println!("# {name}: {accepted} of {count} accepted, {length} bytes");
}

fn buffers(byte: u8) -> Buffers {
    Buffers { result: vec![byte; RESULT], scratch: vec![byte; SCRATCH] }
}

/// Nanoseconds for one turn of the work.
fn timed(times: u32, mut work: impl FnMut() -> Answer) -> f64 {
    let start = Instant::now();
    for _ in 0..times {
        black_box(work());
    }
    start.elapsed().as_nanos() as f64 / times as f64
}

/// The value so far along the list, once sorted.
fn along(list: &[f64], part: f64) -> f64 {
    let mut list = list.to_vec();
    list.sort_by(f64::total_cmp);
    list[((list.len() - 1) as f64 * part).round() as usize]
}

fn main() {
    let rounds = std::env::args()
        .nth(1)
        .map_or(301, |word| word.parse().unwrap_or_else(|_| fail("bench [ROUNDS [PART]]")));
    let part = std::env::args().nth(2).unwrap_or_default();
    let wanted = |name: &str| match part.strip_prefix('-') {
        Some(part) => !name.contains(part),
        None => name.contains(&part),
    };
    let named = |name: &str| name == EMPTY || wanted(name);
    let works: Vec<_> = works().into_iter().filter(|(name, _)| named(name)).collect();
    // Drawing sheets has stopped validations on its way; those measured go to their end.
    standins::stop_after(usize::MAX);
    works.iter().for_each(|(name, work)| held(name, work));
    let mut to = buffers(0);
    let empty = Work::Sheets(vec![Vec::new()]);
    println!(
        "{:<33}{:>11}{:>11}{:>8}{:>9}{:>16}{:>12}{:>12}{:>8}",
        "case",
        "ours, us",
        "Rust, us",
        "ratio",
        "median",
        "10% to 90%",
        "ours bare",
        "Rust bare",
        "ratio"
    );
    for (name, work) in &works {
        let once = timed(3, || ours(work, &mut to)).max(timed(3, || rusts(work, &mut to, true)));
        let times = (200_000.0 / once).clamp(1.0, 20_000.0) as u32;
        let (mut our, mut rust, mut bare, mut clearing) = (vec![], vec![], vec![], vec![]);
        for _ in 0..rounds {
            our.push(timed(times, || ours(work, &mut to)));
            rust.push(timed(times, || rusts(work, &mut to, true)));
            bare.push(timed(times, || rusts(work, &mut to, false)));
            clearing.push(timed(20, || ours(&empty, &mut to)));
        }
        let ratios: Vec<f64> = our.iter().zip(&rust).map(|(our, rust)| rust / our).collect();
        let [low, median, high] = [0.1, 0.5, 0.9].map(|part| along(&ratios, part));
        let [our, rust, bare, clearing] = [our, rust, bare, clearing].map(|list| along(&list, 0.0));
        print!("{name:<33}{:>11.3}{:>11.3}{:>8.2}", our / 1e3, rust / 1e3, rust / our);
        print!("{median:>9.2}{:>16}", format!("{low:.2} to {high:.2}"));
        match work {
            Work::Sheets(sheets) if name != EMPTY => {
                let rest = our - clearing * sheets.len() as f64;
                println!("{:>12.3}{:>12.3}{:>8.2}", rest / 1e3, bare / 1e3, bare / rest);
            }
            _ => println!(),
        }
    }
}
