//! What the tests share: bytes as a text says them, and what is expected of a call and of what is lent to it.

use crate::velgrodis::{Error, Kind, Refusal, Why};

/// Bytes of hexadecimal digits, with spaces between them or not.
pub fn hex(text: &str) -> Vec<u8> {
    let digits: Vec<u8> =
        text.chars().filter_map(|c| c.to_digit(16)).map(|digit| digit as u8).collect();
    digits.chunks(2).map(|two| two[0] * 16 + two[1]).collect()
}

/// All of them, one after the other.
pub fn joined(parts: &[&[u8]]) -> Vec<u8> {
    parts.concat()
}

/// A size's eight bytes; ? is all ones.
fn size(text: &str) -> [u8; 8] {
    if text == "?" { u64::MAX } else { text.parse().unwrap() }.to_le_bytes()
}

/// The record of a shape, as the paper writes shapes: `[2 ?]`, `[2..3]`, `[..]`, `[]`.
pub fn shape(text: &str) -> Vec<u8> {
    let inside = text.trim_matches(['[', ']']);
    let (opening, closing) = match inside.split_once("..") {
        Some((opening, closing)) => (opening, Some(closing)),
        None => (inside, None),
    };
    let count = |sizes: &str| sizes.split_whitespace().count() as u8;
    let mut record = vec![0x53, 0x48, count(opening), closing.map_or(255, count)];
    let sizes = opening.split_whitespace().chain(closing.unwrap_or("").split_whitespace());
    record.extend(sizes.flat_map(size));
    record
}

/// The record of a scalar that is no box.
pub fn scalar(kind: Kind) -> Vec<u8> {
    vec![0x53, 0x43, kind.code()]
}

/// The records of boxes: Any, All of a type, and Def.
pub fn box_any() -> Vec<u8> {
    hex("534308 425800")
}

pub fn all(ty: &[u8]) -> Vec<u8> {
    joined(&[&hex("534308 425801"), ty])
}

pub fn def(name: Option<&str>, fields: &[Vec<u8>]) -> Vec<u8> {
    let length = name.map_or(255, |name| name.len() as u8);
    let name = name.unwrap_or("").as_bytes();
    joined(&[&hex("534308 425802"), &[length], name, &[fields.len() as u8], &fields.concat()])
}

/// A type, of this shape and a scalar's record.
pub fn of(shape_text: &str, scalar: &[u8]) -> Vec<u8> {
    joined(&[&shape(shape_text), scalar])
}

/// A type of a kind that is no box; of numbers.
pub fn of_kind(shape_text: &str, kind: Kind) -> Vec<u8> {
    of(shape_text, &scalar(kind))
}

pub fn num(shape_text: &str) -> Vec<u8> {
    of_kind(shape_text, Kind::Num)
}

/// [2] Def n of [] Num and [3] Num. Its fields begin at 21.
pub fn pair() -> Vec<u8> {
    of("[2]", &def(Some("n"), &[num("[]"), num("[3]")]))
}

/// A type as large as there is, told from others by n: 32 types, one of them with the others as its fields, each with sixteen sizes n and
/// a name of sixteen letters.
pub fn largest(n: u64) -> Vec<u8> {
    let sizes = vec![n.to_string(); 8].join(" ");
    let shape_text = format!("[{sizes}..{sizes}]");
    let name = Some("sixteen letters.");
    let fields = vec![of(&shape_text, &def(name, &[])); 31];
    of(&shape_text, &def(name, &fields))
}

/// Steps of a sheet.
pub fn put(ty: &[u8]) -> Vec<u8> {
    joined(&[b"PU", ty])
}

pub fn pervaded(flag: u8) -> Vec<u8> {
    vec![b'P', b'V', flag]
}

pub fn validated(spec: &[u8]) -> Vec<u8> {
    joined(&[b"VA", spec])
}

pub fn declared(name: &str, ty: &[u8]) -> Vec<u8> {
    joined(&[b"NM", &[name.len() as u8], name.as_bytes(), ty])
}

pub fn used(name: &str) -> Vec<u8> {
    joined(&[b"US", &[name.len() as u8], name.as_bytes()])
}

/// A refusal, as a call answers it.
pub fn refused<T>(why: Why, place: usize) -> Result<T, Error> {
    Err(Error::Refused(Refusal { why, place }))
}

/// What is lent to be written holds this byte throughout.
pub const LENT: u8 = 0xee;

pub fn lent(room: usize) -> Vec<u8> {
    vec![LENT; room]
}

pub fn as_lent(bytes: &[u8]) -> bool {
    bytes.iter().all(|&byte| byte == LENT)
}

/// More room than any call here needs.
pub const ROOM: usize = 8192;

/// A call writes this: with exactly as much room, and with more, where the bytes after it stay. With less it writes nothing.
#[track_caller]
pub fn writes<F>(call: F, wanted: &[u8])
where
    F: for<'r> Fn(&'r mut [u8]) -> Result<&'r [u8], Error>,
{
    let length = wanted.len();
    for room in [length, length + 1, ROOM.max(length)] {
        let mut result = lent(room);
        assert_eq!(call(&mut result), Ok(wanted));
        assert_eq!(result[..length], *wanted);
        assert!(as_lent(&result[length..]), "the bytes after what was written");
    }
    for room in [0, length - 1] {
        let mut result = lent(room);
        assert_eq!(call(&mut result), refused(Why::TooShort, 0));
        assert!(as_lent(&result), "a result that is too short");
    }
}

/// A call refuses, and writes nothing, whether there is room or not: a result that is too short is found last.
#[track_caller]
pub fn refuses(call: impl Fn(&mut [u8]) -> Result<(), Error>, why: Why, place: usize) {
    for room in [0, ROOM] {
        let mut result = lent(room);
        assert_eq!(call(&mut result), refused(why, place));
        assert!(as_lent(&result), "a result of a refusal");
    }
}

/// Bytes that are no lone type, for each way that reading has to refuse, and where it does.
pub fn damages() -> Vec<(Vec<u8>, Why, usize)> {
    let nested = |times: usize| hex("534800ff 534308 425801").repeat(times);
    let wide = of("[]", &def(None, &vec![of("[]", &def(None, &[num("[]")])); 16]));
    vec![
        (vec![], Why::Ended, 0),
        (hex("53 48 01"), Why::Ended, 0),
        (shape("[2]"), Why::Ended, 12),
        (hex("53 48 00 ff 53 43 08"), Why::Ended, 7),
        (hex("58 58"), Why::Unmarked, 0),
        (hex("534800ff 534800ff"), Why::Unmarked, 4),
        (hex("53 48 09"), Why::OutOfRange, 0),
        (hex("534800ff 53430a"), Why::OutOfRange, 4),
        (of("[]", &def(Some("tab\t"), &[])), Why::OutOfRange, 7),
        (joined(&[&hex("534801ff 0100000000002000"), &scalar(Kind::Num)]), Why::Oversized, 0),
        (nested(32), Why::TooMany, 80),
        (nested(8), Why::TooMany, 80),
        // A Def's own bytes are 12. Behind them come fields of 19, each two types: the sixteenth has the 33rd type behind its 12.
        (wide, Why::TooMany, 12 + 15 * 19 + 12),
        (hex("534800ff 534303 00"), Why::Trailing, 7),
        (joined(&[&num("[3]"), &num("[3]")]), Why::Trailing, 15),
    ]
}
