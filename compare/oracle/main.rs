//! The Rust side of the comparison.
//!
//!     oracle                                      answers the requests on its standard input
//!     oracle words                                names them: the word of each, (none) for what is none
//!     oracle generate SEED COUNT [MODE [WORD..]]  writes requests
//!     oracle beside                               holds a sheet's pervading and the test of two
//!                                                 opening lists beside the Rust's, and the steps
//!                                                 of a sheet beside its check
//!     oracle kinds                                prints the table of kinds, one number to a line

mod beside;
mod buried;
mod bytes;
mod counts;
mod edges;
mod failing;
mod filled;
mod generate;
mod invent;
mod kinds;
mod limits;
mod names;
mod naming;
mod opposed;
mod placing;
mod requests;
mod rules;
mod sheet;
mod specs;
mod standins;
mod steps;
#[path = "../target/uiua.rs"]
mod uiua;
mod version;

use std::io::{BufRead, BufWriter, Write, stdin, stdout};

fn main() -> std::io::Result<()> {
    let arguments: Vec<String> = std::env::args().skip(1).collect();
    match arguments.as_slice() {
        [] => each_line(requests::answer),
        [word] if word == "words" => each_line(|line| requests::word(line).to_string()),
        [word, seed, count, rest @ ..] if word == "generate" => {
            let mode = rest.first().map_or("mix", String::as_str);
            let words = rest.get(1..).unwrap_or(&[]);
            generate::generate(number(seed), number(count), mode, words)
        }
        [word] if word == "beside" => std::process::exit(!beside::all() as i32),
        [word] if word == "kinds" => print_table(),
        _ => fail(
            "oracle, oracle words, oracle generate SEED COUNT [MODE [WORD..]], oracle beside, or oracle kinds",
        ),
    }
}

fn number(word: &str) -> u64 {
    word.parse().unwrap_or_else(|_| fail("SEED and COUNT are numbers"))
}

fn fail(why: &str) -> ! {
    eprintln!("oracle: {why}");
    std::process::exit(2)
}

/// A line for each of the lines on standard input; the last of them may lack its line feed.
fn each_line(told: impl Fn(&[u8]) -> String) -> std::io::Result<()> {
    let mut input = stdin().lock();
    let mut output = BufWriter::new(stdout().lock());
    let mut line = Vec::new();
    while input.read_until(b'\n', &mut line)? > 0 {
        let end = line.len() - line.ends_with(b"\n") as usize;
        writeln!(output, "{}", told(&line[..end]))?;
        line.clear();
    }
    output.flush()
}

fn print_table() -> std::io::Result<()> {
    let mut output = BufWriter::new(stdout().lock());
    kinds::TABLE.iter().try_for_each(|number| writeln!(output, "{number}"))?;
    output.flush()
}
