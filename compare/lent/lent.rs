//! Holds the calls of libvelgrodis.a beside the Rust, with the bytes lent to them.
//!
//!     lent N [SEED [NAME..]]    at least N calls, of these names only

#![allow(dead_code)]

mod buffers;
#[path = "../oracle/buried.rs"]
mod buried;
#[path = "../oracle/bytes.rs"]
mod bytes;
#[path = "../oracle/counts.rs"]
mod counts;
#[path = "../oracle/edges.rs"]
mod edges;
mod expected;
#[path = "../oracle/failing.rs"]
mod failing;
#[path = "../oracle/filled.rs"]
mod filled;
#[path = "../oracle/generate.rs"]
mod generate;
#[path = "../oracle/invent.rs"]
mod invent;
#[path = "../oracle/kinds.rs"]
mod kinds;
mod library;
#[path = "../oracle/limits.rs"]
mod limits;
#[path = "../oracle/names.rs"]
mod names;
#[path = "../oracle/naming.rs"]
mod naming;
#[path = "../oracle/opposed.rs"]
mod opposed;
#[path = "../oracle/placing.rs"]
mod placing;
#[path = "../oracle/requests.rs"]
mod requests;
#[path = "../oracle/rules.rs"]
mod rules;
#[path = "../oracle/sheet.rs"]
mod sheet;
mod sheets;
#[path = "../oracle/specs.rs"]
mod specs;
#[path = "../oracle/standins.rs"]
mod standins;
#[path = "../oracle/steps.rs"]
mod steps;
#[path = "../target/uiua.rs"]
mod uiua;
#[path = "../oracle/version.rs"]
mod version;

use buffers::{Lent, Pattern};
use expected::{Expected, refusal, unhex};
use generate::{SIDES, hex_word};
use invent::Random;
use library::{Answer, CALLS, Call, Validation};
use limits::SCRATCH;
use std::process::ExitCode;
use uiua::{Dim, Scalar, ScalarBox, Type};

/// A result that suffices for every call.
const LONGEST: usize = 160_000;
/// Differences printed.
const SHOWN: u64 = 10;

fn fail(why: &str) -> ! {
    eprintln!("lent: {why}");
    std::process::exit(2)
}

fn main() -> ExitCode {
    let arguments: Vec<String> = std::env::args().skip(1).collect();
    let number = |index: usize, or: u64| {
        let word = arguments.get(index).map(|word| word.parse());
        word.unwrap_or(Ok(or)).unwrap_or_else(|_| fail("lent N [SEED [NAME..]]"))
    };
    let (wanted, seed) = (number(0, 100_000), number(1, 1));
    let names = arguments.get(2..).unwrap_or(&[]);
    let named = |name: &str| names.is_empty() || names.iter().any(|wanted| wanted == name);
    let turns: Vec<usize> =
        (0..CALLS.len()).filter(|&i| named(CALLS[i].1)).flat_map(weighed).collect();
    if turns.is_empty() {
        fail("there is no such call");
    }
    let mut random = Random(seed);
    let mut both = Both::new(&mut random);
    while both.calls() < wanted {
        let index = random.pick(&turns);
        both.turn = index;
        both.ask(&mut random);
    }
    both.summary();
    if both.differences == 0 { ExitCode::SUCCESS } else { ExitCode::FAILURE }
}

fn weighed(index: usize) -> Vec<usize> {
    let weight = match CALLS[index].1 {
        "vg_validate" | "vg_check_sheet" => 8,
        "vg_check_scalar" | "vg_check_shape" | "vg_pervade" | "vg_join" => 4,
        "vg_find_step" | "vg_type_length" => 8,
        "vg_version" => 1,
        _ => 2,
    };
    vec![index; weight]
}

/// Calls of one kind: all, accepted, none, refused 7, refused otherwise.
type Tally = [u64; 5];

/// What a value is handed in by.
struct Handed {
    kind: u64,
    x: f64,
    list: Vec<f64>,
    ty: Vec<u8>,
}

struct Both {
    bytes: Pattern<u8>,
    sizes: Pattern<u64>,
    turn: usize,
    tallies: Vec<Tally>,
    differences: u64,
}

impl Both {
    fn new(r: &mut Random) -> Self {
        Both {
            bytes: Pattern::new(r, LONGEST, |r| r.next() as u8),
            sizes: Pattern::new(r, 32, Random::next),
            turn: 0,
            tallies: vec![[0; 5]; CALLS.len()],
            differences: 0,
        }
    }

    fn calls(&self) -> u64 {
        self.tallies.iter().map(|tally| tally[0]).sum()
    }

    /// A request, its answer by the Rust, and the call with results of several lengths.
    fn ask(&mut self, r: &mut Random) {
        let (request, _, call, turned) = &CALLS[self.turn];
        let line = match call {
            Call::Sheet(_) => return self.sheets(r, *turned),
            _ => line(r, request),
        };
        if line.len() > limits::LINE {
            return;
        }
        let words: Vec<&str> = line.split(' ').skip(1).collect();
        let wanted = || turned(&requests::answer(line.as_bytes()));
        match *call {
            Call::One(f) => {
                let a = unhex(words[0]);
                let mut from = self.bytes.filled(r, &a);
                let answer = unsafe { f(from.slice().as_mut_ptr(), a.len()) };
                let held = from.holds(&a);
                self.judge(&line, &wanted(), held, answer);
            }
            Call::Two(f) => {
                let (a, b) = (unhex(words[0]), unhex(words[1]));
                self.judge(&line, &wanted(), true, unsafe {
                    f(a.as_ptr(), a.len(), b.as_ptr(), b.len())
                });
            }
            Call::Numbered(f) => {
                let (n, a) = (decimal(words[0]), unhex(words[1]));
                let wanted = wanted();
                let mut from = self.bytes.filled(r, &a);
                let answer = unsafe { f(from.slice().as_mut_ptr(), a.len(), n) };
                let stretch = |bytes: &Vec<u8>| {
                    let start = answer.first as usize;
                    a.get(start..start + answer.second as usize) == Some(bytes)
                };
                let held = from.holds(&a) && wanted.stretch.as_ref().is_none_or(stretch);
                self.judge(&line, &wanted, held, answer);
            }
            Call::Sizes(f) => {
                let size = |word: &str| if word == "?" { u64::MAX } else { decimal(word) };
                self.judge(&line, &wanted(), true, unsafe { f(size(words[0]), size(words[1])) });
            }
            Call::To(f) => {
                self.to(r, &line, wanted(), |to| unsafe { f(to.as_mut_ptr(), to.len()) });
            }
            Call::OneTo(f) => {
                let a = unhex(words[words.len() - 1]);
                self.to(r, &line, wanted(), |to| unsafe {
                    f(a.as_ptr(), a.len(), to.as_mut_ptr(), to.len())
                });
            }
            Call::TwoTo(f) => {
                let (a, b) = (unhex(words[0]), unhex(words[1]));
                self.to(r, &line, wanted(), |to| unsafe {
                    f(a.as_ptr(), a.len(), b.as_ptr(), b.len(), to.as_mut_ptr(), to.len())
                });
            }
            Call::NumberedTo(f) => {
                let (n, a) = (decimal(words[0]), unhex(words[1]));
                self.to(r, &line, wanted(), |to| unsafe {
                    f(a.as_ptr(), a.len(), n, to.as_mut_ptr(), to.len())
                });
            }
            Call::Led(most, f) => {
                let (a, b) = (unhex(words[1]), unhex(words[2]));
                let (lead, wanted) = self.led(r, most, decimal(words[0]), wanted);
                self.to(r, &line, wanted, |to| unsafe {
                    f(lead, a.as_ptr(), a.len(), b.as_ptr(), b.len(), to.as_mut_ptr(), to.len())
                });
            }
            Call::Checked(f) => {
                let (spec, a) = (unhex(words[0]), unhex(words[1]));
                self.to(r, &line, wanted(), |to| unsafe {
                    f(spec.as_ptr(), spec.len(), a.as_ptr(), a.len(), to.as_mut_ptr(), to.len())
                });
            }
            Call::Sided(most, f) => {
                let (spec, a) = (unhex(words[1]), unhex(words[2]));
                let side = SIDES.iter().position(|&side| side == words[0]).expect("a side");
                let (side, wanted) = self.led(r, most, side as u64, wanted);
                self.to(r, &line, wanted, |to| unsafe {
                    let (to, room) = (to.as_mut_ptr(), to.len());
                    f(side, spec.as_ptr(), spec.len(), a.as_ptr(), a.len(), to, room)
                });
            }
            Call::NumbersTo(f) => {
                let list: Vec<f64> = words.iter().map(|word| float(word)).collect();
                self.to(r, &line, wanted(), |to| unsafe {
                    f(list.as_ptr(), list.len(), to.as_mut_ptr(), to.len())
                });
            }
            Call::Value(f) => {
                let mut v = handed(r, &words);
                let (kind, wanted) = self.led(r, 2, v.kind, wanted);
                v.kind = kind;
                let answer = unsafe {
                    f(v.kind, v.x, v.list.as_ptr(), v.list.len(), v.ty.as_ptr(), v.ty.len())
                };
                self.judge(&line, &wanted, true, answer);
            }
            Call::ValueTo(f) => {
                let mut v = handed(r, &words);
                let (kind, wanted) = self.led(r, 2, v.kind, wanted);
                v.kind = kind;
                self.to(r, &line, wanted, |to| unsafe {
                    let (list, ty) = (&v.list, &v.ty);
                    f(
                        v.kind,
                        v.x,
                        list.as_ptr(),
                        list.len(),
                        ty.as_ptr(),
                        ty.len(),
                        to.as_mut_ptr(),
                        to.len(),
                    )
                });
            }
            Call::ValueRow(f) => {
                let mut v = handed(r, &words);
                let (kind, wanted) = self.led(r, 2, v.kind, wanted);
                v.kind = kind;
                let as_lent = f64::from_bits(r.next() >> 2);
                let mut number = as_lent;
                let must_be = wanted.number.unwrap_or(as_lent.to_bits());
                let short = |to: &Lent<u8>| to.len() < wanted.bytes.len();
                for length in lengths(r, wanted.bytes.len()) {
                    let mut to = self.bytes.lend(r, length);
                    let slice = to.slice();
                    let answer = unsafe {
                        let (list, ty) = (&v.list, &v.ty);
                        let (list, lists) = (list.as_ptr(), list.len());
                        let (to, room) = (slice.as_mut_ptr(), slice.len());
                        f(v.kind, v.x, list, lists, ty.as_ptr(), ty.len(), &mut number, to, room)
                    };
                    let wanted = if short(&to) { refusal(7, 0) } else { wanted.clone() };
                    let nan = f64::from_bits(must_be).is_nan() && number.is_nan();
                    let held = to.holds(&wanted.bytes) && (nan || number.to_bits() == must_be);
                    self.judge(&line, &wanted, held, answer);
                    number = as_lent;
                }
            }
            Call::ValueSizes(f) => {
                let mut v = handed(r, &words);
                let (kind, wanted) = self.led(r, 2, v.kind, wanted);
                v.kind = kind;
                for length in lengths(r, wanted.sizes.len()).map(|length| length.min(32)) {
                    let mut to = self.sizes.lend(r, length);
                    let slice = to.slice();
                    let answer = unsafe {
                        let (list, ty) = (&v.list, &v.ty);
                        let (list, lists) = (list.as_ptr(), list.len());
                        f(
                            v.kind,
                            v.x,
                            list,
                            lists,
                            ty.as_ptr(),
                            ty.len(),
                            slice.as_mut_ptr(),
                            slice.len(),
                        )
                    };
                    let short = length < wanted.sizes.len();
                    let wanted = if short { refusal(7, 0) } else { wanted.clone() };
                    let held = to.holds(&wanted.sizes);
                    self.judge(&line, &wanted, held, answer);
                }
            }
            Call::Number(f) => {
                let first = unsafe { f() };
                let answer = Answer { kind: expected::VALUE, first, ..Answer::default() };
                self.judge(&line, &wanted(), true, answer);
            }
            Call::Sheet(_) => unreachable!("sheets were turned to above"),
        }
    }

    /// Now and then a flag, side or kind out of range, which no line can have: 3 at 0, whatever else is handed in.
    fn led(
        &self,
        r: &mut Random,
        most: u64,
        lead: u64,
        wanted: impl Fn() -> Expected,
    ) -> (u64, Expected) {
        match r.below(40) {
            0 => (most + 1 + r.next() % 4, refusal(3, 0)),
            1 => (r.next() | 1 << (8 + r.below(56)), refusal(3, 0)),
            _ => (lead, wanted()),
        }
    }

    /// The call with a result of each length.
    fn to<A: Into<Validation>>(
        &mut self,
        r: &mut Random,
        line: &str,
        wanted: Expected,
        call: impl Fn(&mut [u8]) -> A,
    ) {
        for length in lengths(r, wanted.bytes.len()) {
            let mut to = self.bytes.lend(r, length);
            let answer = call(to.slice());
            let short = length < wanted.bytes.len();
            let wanted = if short { refusal(7, 0) } else { wanted.clone() };
            let held = to.holds(&wanted.bytes);
            self.judge(line, &wanted, held, answer);
        }
    }

    /// A sheet, and now and then each of its beginnings.
    fn sheets(&mut self, r: &mut Random, turned: fn(&str) -> Expected) {
        let sheet = sheets::drawn(r);
        if sheet.len() < 2_000 && r.one_in(300) {
            for end in 0..sheet.len() {
                self.sheet(r, &sheet[..end], turned);
            }
        }
        self.sheet(r, &sheet, turned);
    }

    /// The call with buffers of several lengths.
    fn sheet(&mut self, r: &mut Random, sheet: &[u8], turned: fn(&str) -> Expected) {
        let line = format!("sheet_call {SCRATCH} {} {}", limits::LENT, hex_word(sheet));
        if line.len() > limits::LINE {
            return;
        }
        let accepted = turned(&requests::answer(line.as_bytes()));
        let needed = accepted.bytes.len();
        let more = 1 + r.below(300);
        let under = r.below(SCRATCH);
        let over = if r.one_in(4) { SCRATCH + more } else { r.pick(&generate::LONGER) };
        // A type of any size has room in 4,992 bytes.
        let room = accepted.answer.first as usize * limits::TYPE;
        let buffers = [
            (SCRATCH, needed),
            (over, r.pick(&[needed + more, room])),
            (SCRATCH, needed.saturating_sub(1)),
            (SCRATCH + 1, 0),
            (SCRATCH - 1, needed),
            (r.pick(&[0, 1, under]), needed + more),
        ];
        for (scratch, result) in buffers {
            let mut scratch = self.bytes.lend(r, scratch);
            let mut result = self.bytes.lend(r, result);
            let (to, with) = (result.slice(), scratch.slice());
            let answer = unsafe {
                let (to, room) = (to.as_mut_ptr(), to.len());
                library::vg_check_sheet(
                    sheet.as_ptr(),
                    sheet.len(),
                    to,
                    room,
                    with.as_mut_ptr(),
                    with.len(),
                )
            };
            let cleared = if scratch.len() < SCRATCH { 0 } else { SCRATCH };
            let wanted = if cleared == 0 {
                refusal(7, 0)
            } else if result.len() < needed {
                refusal(7, sheet.len() as u64)
            } else {
                accepted.clone()
            };
            let held = result.holds(&wanted.bytes) && scratch.holds(&[0; SCRATCH][..cleared]);
            self.judge(&line, &wanted, held, answer);
        }
    }

    /// Counts the call, and says so if the answer or the bytes lent are not as they must be.
    fn judge(&mut self, line: &str, wanted: &Expected, held: bool, answer: impl Into<Validation>) {
        let answer = answer.into();
        let must_be = Validation { answer: wanted.answer, reading: wanted.reading };
        let tally = &mut self.tallies[self.turn];
        tally[0] += 1;
        tally[match (wanted.answer.kind, wanted.answer.number) {
            (expected::VALUE, _) => 1,
            (expected::NONE, _) => 2,
            (_, 7) => 3,
            _ => 4,
        }] += 1;
        if answer == must_be && held {
            return;
        }
        self.differences += 1;
        if self.differences <= SHOWN {
            let line: String = line.chars().take(2_000).collect();
            println!(
                "{}\n  request  {line}\n  wanted   {must_be:?}\n  answer   {answer:?}",
                CALLS[self.turn].1
            );
            if !held {
                println!("  the bytes lent are not as they must be");
            }
        }
    }

    fn summary(&self) {
        println!("{:<26}{:>9}{:>9}{:>9}{:>9}{:>9}", "call", "all", "value", "none", "7", "others");
        for ((_, name, ..), tally) in CALLS.iter().zip(&self.tallies) {
            let [all, value, none, short, others] = tally;
            println!("{name:<26}{all:>9}{value:>9}{none:>9}{short:>9}{others:>9}");
        }
        println!("{} calls, {} differ", self.calls(), self.differences);
    }
}

/// A line of this request, drawn at random; a record's room is set aside, since results are lent here.
fn line(r: &mut Random, request: &str) -> String {
    let (_, call) =
        requests::REQUESTS.iter().find(|(word, _)| *word == request).expect("a request");
    let rest = generate::arguments(r, call);
    match call {
        _ if request == "as_boxes" && r.one_in(50) => format!("{request} {}", hex_word(&copies(r))),
        requests::Call::Written(_) => {
            let ty = rest.rsplit(' ').next().expect("a type");
            format!("{request} {} {ty}", limits::LENT)
        }
        _ => format!("{request}{rest}"),
    }
}

/// Up to 32 rows of a large content, so that the list is the longest there is, or one too long.
fn copies(r: &mut Random) -> Vec<u8> {
    let mut content = invent::largest();
    if let Scalar::Box(ScalarBox::Def(_, fields)) = &mut content.scalar {
        fields.truncate(30);
    }
    let rows = Dim::Static(29 + r.below(4));
    bytes::type_bytes(&Type { shape: rows.into(), ..invent::all(content) })
}

/// Exactly long enough, one short, longer, empty.
fn lengths(r: &mut Random, needed: usize) -> impl Iterator<Item = usize> + use<> {
    let short = if needed == 0 { None } else { Some(needed - 1) };
    let more = if r.one_in(20) { 5_000 } else { 1 + r.below(40) };
    [Some(needed), short, Some(needed + more), if needed > 1 { Some(0) } else { None }]
        .into_iter()
        .flatten()
}

fn decimal(word: &str) -> u64 {
    word.parse().expect("a number")
}

fn float(word: &str) -> f64 {
    f64::from_bits(u64::from_str_radix(word, 16).expect("sixteen digits"))
}

/// The value of these words; what it does not look at is anything.
fn handed(r: &mut Random, words: &[&str]) -> Handed {
    let list = (0..r.below(12)).map(|_| f64::from_bits(invent::number(r))).collect();
    let ty = bytes::type_bytes(&invent::ty(r));
    let ty = invent::damaged(r, ty);
    let any = Handed { kind: 0, x: f64::from_bits(invent::number(r)), list, ty };
    match words[0] {
        "num" => Handed { kind: 0, x: float(words[1]), ..any },
        "list" => {
            Handed { kind: 1, list: words[1..].iter().map(|word| float(word)).collect(), ..any }
        }
        _ => Handed { kind: 2, ty: unhex(words[1]), ..any },
    }
}
