//! `rust_plan answer` reads a call list on standard input and writes an answer for each call.
//! `rust_plan calls SEED COUNT [EMPHASIS]` writes a random list.

use std::io::{self, BufRead, BufWriter, Write as _};

use crate::answer::Program;
use crate::{calls, generate};

fn answer() -> io::Result<()> {
    let mut input = io::stdin().lock();
    let mut output = BufWriter::new(io::stdout().lock());
    let mut program = Program::new();
    let mut line = Vec::new();
    loop {
        line.clear();
        if input.read_until(b'\n', &mut line)? == 0 {
            return output.flush();
        }
        if line.last() == Some(&b'\n') {
            line.pop();
        }
        if line.is_empty() || line[0] == b'#' {
            continue;
        }
        let text = match calls::read(&line) {
            Some(call) => program.answer(call),
            None => String::from("malformed"),
        };
        writeln!(output, "{text}")?;
    }
}

pub fn main() -> io::Result<()> {
    let words: Vec<String> = std::env::args().skip(1).collect();
    let words: Vec<&str> = words.iter().map(String::as_str).collect();
    let (seed, count, emphasis) = match words[..] {
        ["answer"] => return answer(),
        ["calls", seed, count] => (seed, count, "mix"),
        ["calls", seed, count, emphasis] => (seed, count, emphasis),
        _ => ("", "", ""),
    };
    match (seed.parse(), count.parse()) {
        (Ok(seed), Ok(count)) if generate::is_emphasis(emphasis) => {
            generate::list(seed, count, emphasis, BufWriter::new(io::stdout().lock()))
        }
        _ => {
            eprintln!("usage: rust_plan answer | rust_plan calls SEED COUNT [EMPHASIS]");
            eprintln!("  EMPHASIS  mix, {}", generate::EMPHASES.join(", "));
            std::process::exit(2);
        }
    }
}
