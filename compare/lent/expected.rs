//! What a call must answer and leave in the bytes lent, told from the oracle's answer: one function for each kind of answer.

use crate::library::Answer;

/// The answer, and what must stand at the front of the result (bytes or sizes) and in the lone number.
#[derive(Clone, Debug, Default, PartialEq)]
pub struct Expected {
    pub answer: Answer,
    /// What a separate validation was reading; for every other call nothing.
    pub reading: u64,
    pub bytes: Vec<u8>,
    pub sizes: Vec<u64>,
    pub number: Option<u64>,
    /// The bytes of the type at `first`, of which there are `second`.
    pub stretch: Option<Vec<u8>>,
}

pub const VALUE: u64 = 1;
pub const NONE: u64 = 2;

/// Stands where a test names no index, since the counts differ.
pub const NO_INDEX: u64 = u64::MAX;

const NEITHER: u64 = 0;
const SPEC: u64 = 1;
const TYPE: u64 = 2;

pub fn refusal(number: u64, place: u64) -> Expected {
    Expected {
        answer: Answer { kind: 0, number, place, ..Answer::default() },
        ..Expected::default()
    }
}

fn value(first: u64, second: u64) -> Expected {
    Expected {
        answer: Answer { kind: VALUE, first, second, ..Answer::default() },
        ..Expected::default()
    }
}

/// A refusal, or none, or else `accepted` of the words after `ok`.
fn told(text: &str, accepted: impl Fn(&[&str]) -> Expected) -> Expected {
    let words: Vec<&str> = text.split(' ').collect();
    match words[..] {
        ["no", number, place] => refusal(parsed(number), parsed(place)),
        ["ok", "none"] => {
            Expected { answer: Answer { kind: NONE, ..Answer::default() }, ..Expected::default() }
        }
        ["ok", ..] => accepted(&words[1..]),
        _ => panic!("the oracle answered {text}"),
    }
}

fn parsed(word: &str) -> u64 {
    word.parse().unwrap_or_else(|_| panic!("{word} is no number"))
}

fn size(word: &str) -> u64 {
    if word == "?" { u64::MAX } else { parsed(word) }
}

pub fn unhex(word: &str) -> Vec<u8> {
    let digits = if word == "-" { "" } else { word };
    let byte = |at| u8::from_str_radix(&digits[at..at + 2], 16).expect("hexadecimal digits");
    (0..digits.len()).step_by(2).map(byte).collect()
}

pub fn nothing(text: &str) -> Expected {
    told(text, |_| value(0, 0))
}

pub fn bytes(text: &str) -> Expected {
    told(text, |words| {
        let bytes = unhex(words[0]);
        Expected { bytes: bytes.clone(), ..value(bytes.len() as u64, 0) }
    })
}

/// A separate validation's answer: bytes, or a refusal with what was being read as its last word.
pub fn checked(text: &str) -> Expected {
    let (rest, reading) = match text.rsplit_once(' ').expect("words") {
        ("ok", _) => (text, NEITHER),
        (rest, "neither") => (rest, NEITHER),
        (rest, "spec") => (rest, SPEC),
        (rest, "type") => (rest, TYPE),
        _ => panic!("the oracle answered {text}"),
    };
    Expected { reading, ..bytes(rest) }
}

pub fn number(text: &str) -> Expected {
    told(text, |words| value(size(words[0]), 0))
}

/// The test of two opening lists: `1`, or `0` and the index that fails, or `0 none`.
pub fn tested(text: &str) -> Expected {
    told(text, |words| match words {
        ["1"] => value(1, 0),
        ["0", "none"] => value(0, NO_INDEX),
        ["0", index] => value(0, parsed(index)),
        _ => panic!("the oracle answered {text}"),
    })
}

pub fn order(text: &str) -> Expected {
    told(text, |words| value((words[0].parse::<i64>().expect("-1, 0 or 1") + 1) as u64, 0))
}

pub fn stretch(text: &str) -> Expected {
    told(text, |words| {
        let stretch = Some(unhex(words[2]));
        Expected { stretch, ..value(parsed(words[0]), parsed(words[1])) }
    })
}

pub fn row(text: &str) -> Expected {
    told(text, |words| match words {
        ["num", bits] => {
            let bits = u64::from_str_radix(bits, 16).expect("hexadecimal digits");
            Expected { number: Some(bits), ..value(0, 1) }
        }
        _ => {
            let bytes = unhex(words[1]);
            Expected { bytes: bytes.clone(), ..value(bytes.len() as u64, 0) }
        }
    })
}

pub fn sizes(text: &str) -> Expected {
    told(text, |words| {
        let sizes = words[1..].iter().map(|word| size(word)).collect();
        Expected { sizes, ..value(parsed(words[0]), 0) }
    })
}

/// A step's number and its mark: the mark's first byte times 256 and its second, 0 where there is none.
pub fn step(text: &str) -> Expected {
    told(text, |words| {
        let mark = match words[1] {
            "none" => [0, 0],
            "put" => [0x50, 0x55],
            "row" => [0x52, 0x57],
            "pervade" => [0x50, 0x56],
            "join" => [0x4a, 0x4e],
            "validate" => [0x56, 0x41],
            "declaration" => [0x4e, 0x4d],
            "use" => [0x55, 0x53],
            _ => panic!("the oracle answered {text}"),
        };
        value(parsed(words[0]), mark[0] * 256 + mark[1])
    })
}

/// `ok COUNT LENGTH | 0 HEX | 1 HEX ..`
pub fn types_left(text: &str) -> Expected {
    told(text, |words| {
        let bytes = words[2..].chunks(3).flat_map(|line| unhex(line[2])).collect();
        Expected { bytes, ..value(parsed(words[0]), parsed(words[1])) }
    })
}
