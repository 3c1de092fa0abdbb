//! Checks a sheet that is in a file, and prints what the program `sheet` prints of it.
//!
//!     check_sheet FILE
//!
//! Status 0: there is an answer, and it is written; `ok` or `no` at its front says whether the sheet is accepted or refused. Status 2:
//! there is none, and standard error says why, if it can. So it is also where nobody takes the answer or the disk is full. (A standard
//! output that is closed before the program starts is /dev/null to a program in Rust.)
#![deny(unsafe_code)]

pub mod velgrodis;

use std::ffi::OsStr;
use std::fmt::Write as _;
use std::fs::File;
use std::io::{self, Read, Write};
use std::process::ExitCode;

use velgrodis::{check_sheet, type_length, Error, Left, Refusal, Why};
use velgrodis::{PROGRAM_SHEET_BYTES, SCRATCH_BYTES, SHEET_RESULT_BYTES};

/// The sheet in a file, as far as it is wanted: of one that is longer than the program `sheet` reads, one byte more than that.
fn read_sheet(path: &OsStr) -> io::Result<Vec<u8>> {
    let mut sheet = Vec::new();
    File::open(path)?.take(PROGRAM_SHEET_BYTES as u64 + 1).read_to_end(&mut sheet)?;
    Ok(sheet)
}

/// What is printed of the types left. None if they are not as many as the answer says.
fn types_left(left: Left) -> Option<String> {
    let mut text = format!("ok {} {}\n", left.types, left.bytes.len());
    let mut rest = left.bytes;
    for place in 0..left.types {
        let (ty, more) = rest.split_at_checked(type_length(rest).ok()?)?;
        let hex: String = ty.iter().map(|byte| format!("{byte:02x}")).collect();
        writeln!(text, "{place} {hex}").ok()?;
        rest = more;
    }
    rest.is_empty().then_some(text)
}

/// What is printed of a sheet. None for an answer that is not understood: nothing is printed of it then.
fn report(sheet: &[u8]) -> Option<String> {
    let mut result = [0; SHEET_RESULT_BYTES];
    let mut scratch = [0; SCRATCH_BYTES];
    let checked = if sheet.len() > PROGRAM_SHEET_BYTES {
        Err(Error::Refused(Refusal { why: Why::TooShort, place: 0 }))
    } else {
        check_sheet(sheet, &mut result, &mut scratch)
    };
    match checked {
        Ok(left) => types_left(left),
        Err(Error::Refused(refusal)) => {
            Some(format!("no {} {}\n", refusal.why.number(), refusal.place))
        }
        Err(Error::NotUnderstood) => None,
    }
}

/// What was printed counts only once it is written.
fn write(text: &str) -> io::Result<()> {
    let mut out = io::stdout().lock();
    out.write_all(text.as_bytes())?;
    out.flush()
}

/// Prints the answer, or says why there is none.
fn run() -> Result<(), String> {
    let mut words = std::env::args_os().skip(1);
    let (Some(file), None) = (words.next(), words.next()) else {
        return Err("one sheet's file is wanted".into());
    };
    let sheet = read_sheet(&file).map_err(|error| format!("the file cannot be read: {error}"))?;
    let text = report(&sheet).ok_or("the sheet has an answer that is not understood")?;
    write(&text).map_err(|error| format!("the answer cannot be written: {error}"))
}

fn main() -> ExitCode {
    match run() {
        Ok(()) => ExitCode::SUCCESS,
        Err(sentence) => {
            // Where standard error takes nothing either, the status alone says it. `eprintln` would panic there.
            let _ = io::stderr().write_all(format!("check_sheet: {sentence}\n").as_bytes());
            ExitCode::from(2)
        }
    }
}
