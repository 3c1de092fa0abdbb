//! The binding beside the C header, read as text: each constant, each number of an enum, and each declaration. So neither changes alone.

use std::collections::BTreeMap;
use std::mem::{align_of, offset_of, size_of};

use crate::velgrodis::answer::{NONE, REFUSED, VALUE};
use crate::velgrodis::declared::{Answer, Validation, DECLARED};
use crate::velgrodis::values::{NUMBER, NUMBERS, TYPE};
use crate::velgrodis::*;

pub const HEADER: &str = include_str!("../../../include/velgrodis.h");

type Numbers = BTreeMap<String, u64>;

/// A number as the header writes it: a sum of products, of numbers and of names that stand above it.
fn number(text: &str, known: &Numbers) -> u64 {
    let text = text.replace("UINT64_C", "").replace(['(', ')'], "");
    let factor = |word: &str| match word.strip_prefix("0x") {
        Some(digits) => u64::from_str_radix(digits, 16).unwrap(),
        None => word.parse().unwrap_or_else(|_| known[word]),
    };
    let product =
        |words: &str| -> u64 { words.split('*').map(|word| factor(word.trim())).product() };
    text.split('+').map(product).sum()
}

/// The name and the number of a line that defines one; of one in an enum.
fn defined(line: &str) -> Option<(&str, &str)> {
    let (name, text) = line.strip_prefix("#define ")?.split_once(' ')?;
    (name != "VG_NO_NULL").then_some((name, text))
}

fn in_enum(line: &str) -> Option<(&str, &str)> {
    let line = line.trim();
    let (name, text) = line.split_once(" = ")?;
    line.starts_with("VG_").then_some((name, text.split(',').next()?))
}

fn numbers(of_line: fn(&str) -> Option<(&str, &str)>) -> Numbers {
    let mut numbers = Numbers::new();
    for (name, text) in HEADER.lines().filter_map(of_line) {
        let text = text.split("/*").next().unwrap().trim();
        let number = number(text, &numbers);
        assert_eq!(numbers.insert(name.into(), number), None, "{name} twice");
    }
    numbers
}

fn listed(pairs: &[(&str, u64)]) -> Numbers {
    pairs.iter().map(|&(name, number)| (name.into(), number)).collect()
}

#[test]
fn every_constant() {
    let ours = listed(&[
        ("VG_VERSION", VERSION),
        ("VG_MAX_SIZE", MAX_SIZE),
        ("VG_UNKNOWN", UNKNOWN),
        ("VG_MAX_SIZES", MAX_SIZES as u64),
        ("VG_MAX_NAME", MAX_NAME as u64),
        ("VG_MAX_FIELDS", MAX_FIELDS as u64),
        ("VG_MAX_TYPES", MAX_TYPES as u64),
        ("VG_MAX_DEPTH", MAX_DEPTH as u64),
        ("VG_MAX_STACK", MAX_STACK as u64),
        ("VG_MAX_STEPS", MAX_STEPS as u64),
        ("VG_MAX_NAMES", MAX_NAMES as u64),
        ("VG_KIND_COUNT", KIND_COUNT as u64),
        ("VG_PROGRAM_SHEET_BYTES", PROGRAM_SHEET_BYTES as u64),
        ("VG_TYPE_BYTES", TYPE_BYTES as u64),
        ("VG_BOXES_BYTES", BOXES_BYTES as u64),
        ("VG_SHEET_RESULT_BYTES", SHEET_RESULT_BYTES as u64),
        ("VG_PACKED_BYTES", PACKED_BYTES as u64),
        ("VG_SCRATCH_BYTES", SCRATCH_BYTES as u64),
        ("VG_STACK_BYTES", STACK_BYTES as u64),
        ("VG_KIND_TABLE_BYTES", KIND_TABLE_BYTES as u64),
        ("VG_CONTENTS_DECIDE", CONTENTS_DECIDE.into()),
        ("VG_NO_INDEX", NO_INDEX),
    ]);
    assert_eq!(numbers(defined), ours);
}

#[test]
fn every_number_of_an_enum() {
    let ours = listed(&[
        ("VG_REFUSED", REFUSED),
        ("VG_VALUE", VALUE),
        ("VG_NONE", NONE),
        ("VG_ENDED", Why::Ended.number()),
        ("VG_UNMARKED", Why::Unmarked.number()),
        ("VG_OUT_OF_RANGE", Why::OutOfRange.number()),
        ("VG_OVERSIZED", Why::Oversized.number()),
        ("VG_TOO_MANY", Why::TooMany.number()),
        ("VG_TRAILING", Why::Trailing.number()),
        ("VG_TOO_SHORT", Why::TooShort.number()),
        ("VG_UNPERVADED", Why::Unpervaded.number()),
        ("VG_WRONG_SCALAR", Why::WrongScalar.number()),
        ("VG_WRONG_SHAPE", Why::WrongShape.number()),
        ("VG_UNDERFLOW", Why::Underflow.number()),
        ("VG_OVERFLOW", Why::Overflow.number()),
        ("VG_NOT_A_SIZE", Why::NotASize.number()),
        ("VG_WRONG_COUNT", Why::WrongCount.number()),
        ("VG_UNDECLARED", Why::Undeclared.number()),
        ("VG_TOO_MANY_NAMES", Why::TooManyNames.number()),
        ("VG_NO_MARK", Mark::NoMark.number()),
        ("VG_PUT", Mark::Put.number()),
        ("VG_ROW", Mark::Row.number()),
        ("VG_PERVADE", Mark::Pervade.number()),
        ("VG_JOIN", Mark::Join.number()),
        ("VG_VALIDATE", Mark::Validate.number()),
        ("VG_DECLARATION", Mark::Declaration.number()),
        ("VG_USE", Mark::Use.number()),
        ("VG_NUMBER", NUMBER),
        ("VG_NUMBERS", NUMBERS),
        ("VG_TYPE", TYPE),
        ("VG_UNSIDED", Side::Unsided.number()),
        ("VG_LEFT", Side::Left.number()),
        ("VG_RIGHT", Side::Right.number()),
        ("VG_NEITHER", Reading::Neither.number()),
        ("VG_SPEC", Reading::Spec.number()),
        ("VG_CHECKED_TYPE", Reading::CheckedType.number()),
    ]);
    assert_eq!(numbers(in_enum), ours);
}

/// Each list has all of its enum, so that every number is found again, and no other number is.
#[test]
fn numbers_and_back() {
    let same = |ours: Vec<u64>, found: &dyn Fn(u64) -> Option<u64>| {
        for number in (0..0x6000).chain([u64::MAX]) {
            assert_eq!(found(number), ours.contains(&number).then_some(number));
        }
    };
    same((1..=16).collect(), &|number| Why::from_number(number).map(Why::number));
    same((0..=2).collect(), &|number| Reading::from_number(number).map(Reading::number));
    let marks = ["\0\0", "PU", "RW", "PV", "JN", "VA", "NM", "US"];
    let marks = marks.map(|mark| u16::from_be_bytes(mark.as_bytes().try_into().unwrap()).into());
    same(marks.to_vec(), &|number| Mark::from_number(number).map(Mark::number));
    for code in 0..=u8::MAX {
        assert_eq!(Kind::from_code(code).map(Kind::code), (code < 10).then_some(code));
    }
    assert_eq!(Side::ALL.map(Side::number), [0, 1, 2]);
    assert_eq!(Fill::ALL.map(Fill::flag), [0, 1, 2, 3]);
    // One that is no size never becomes ?.
    for number in [0, 1, MAX_SIZE, UNKNOWN] {
        assert_eq!(Size::from_number(number).map(Size::number), Some(number));
    }
    for number in [MAX_SIZE + 1, UNKNOWN - 1] {
        assert_eq!(Size::from_number(number), None);
    }
    for number in [MAX_SIZE + 1, UNKNOWN - 1, UNKNOWN] {
        assert_eq!(Size::from_number(Size::Static(number).number()), None);
    }
}

/// A parameter of the header's as the binding declares it. A pointer has its length behind it, but for the one to a lone number.
fn in_rust(parameter: &str, next: Option<&str>) -> Option<String> {
    let (of, name) = parameter.rsplit_once(' ').unwrap();
    let Some(name) = name.strip_prefix('*') else {
        let of = match of {
            "size_t" => return None,
            "uint64_t" => "u64",
            "double" => "f64",
            _ => panic!("{parameter}"),
        };
        return Some(format!("{name}: {of}"));
    };
    let (lent, of) = match of.strip_prefix("const ") {
        Some(of) => ("&", of),
        None => ("&mut ", of),
    };
    let of = match of {
        "uint8_t" => "u8",
        "uint64_t" => "u64",
        "double" => "f64",
        _ => panic!("{parameter}"),
    };
    if next == Some(&format!("size_t {name}_len")) {
        Some(format!("{name}: {lent}[{of}]"))
    } else {
        Some(format!("{name}: {lent}{of}"))
    }
}

/// A line that declares a call, as the binding declares it. Of a call with a pointer it also says that none is null.
fn call_in_rust(line: &str) -> Option<String> {
    let (answer, rest) = line.split_once(" vg_")?;
    let answer = match answer {
        "vg_answer" => "Answer",
        "vg_validation" => "Validation",
        "uint64_t" => "u64",
        _ => return None,
    };
    let (name, rest) = rest.split_once('(')?;
    let (parameters, rest) = rest.split_once(')')?;
    let no_null = if parameters.contains('*') { " VG_NO_NULL;" } else { ";" };
    assert_eq!(rest, no_null, "{name}");
    let parameters: Vec<&str> = parameters.split(", ").filter(|&one| one != "void").collect();
    let ours: Vec<String> = (0..parameters.len())
        .filter_map(|i| in_rust(parameters[i], parameters.get(i + 1).copied()))
        .collect();
    Some(format!("fn vg_{name}({}) -> {answer}", ours.join(", ")))
}

#[test]
fn every_declaration() {
    let without_spaces = |text: &str| text.split_whitespace().collect::<String>();
    let theirs: Vec<String> =
        HEADER.lines().filter_map(call_in_rust).map(|call| without_spaces(&call)).collect();
    let ours: Vec<String> = DECLARED.iter().map(|call| without_spaces(call)).collect();
    assert_eq!(ours, theirs);
    assert_eq!(ours.len(), 51);
}

/// An answer is five numbers of eight bytes, a validation six, its reading the last.
#[test]
fn layout_of_answers() {
    assert_eq!((size_of::<Answer>(), align_of::<Answer>()), (40, 8));
    assert_eq!((size_of::<Validation>(), align_of::<Validation>()), (48, 8));
    let places = [
        offset_of!(Answer, kind),
        offset_of!(Answer, number),
        offset_of!(Answer, place),
        offset_of!(Answer, first),
        offset_of!(Answer, second),
        offset_of!(Validation, reading),
    ];
    assert_eq!(places, [0, 8, 16, 24, 32, 40]);
    let fields = "kind; number; place; first; second; answer; reading;";
    let struct_lines =
        HEADER.split("typedef struct ").skip(1).flat_map(|one| one.split('}').take(1));
    let theirs: Vec<&str> = struct_lines
        .flat_map(str::lines)
        .filter_map(|line| line.trim().split("/*").next()?.trim().split_once(' '))
        .filter(|(of, _)| ["uint64_t", "vg_answer"].contains(of))
        .map(|(_, name)| name)
        .filter(|name| name.ends_with(';'))
        .collect();
    assert_eq!(theirs.join(" "), fields);
}

#[test]
fn the_version() {
    assert_eq!(version(), VERSION);
}
