//! Reads script lines from standard input and answers them on standard
//! output, as DRIVER.md says.
//!
//! `--bench`: the bench program of document 01 instead.
//! `--census`: how often each kind of answer is given, instead of the answers.

use std::io::{self, BufReader, BufWriter};
use std::process::ExitCode;

use reference::{bench, census, driver};

/// Room for a few small lines on each side, to spare system calls.
const BUFFER: usize = 1 << 16;

const USAGE: &str = "usage: reference [--bench | --census] < lines";

fn main() -> ExitCode {
    let input = BufReader::with_capacity(BUFFER, io::stdin().lock());
    let output = BufWriter::with_capacity(BUFFER, io::stdout().lock());
    let words: Vec<String> = std::env::args().skip(1).collect();
    let words: Vec<&str> = words.iter().map(String::as_str).collect();
    let served = match words.as_slice() {
        [] => driver::serve(input, output),
        ["--bench"] => bench::run(input, output),
        ["--census"] => census::run(input, output),
        _ => {
            eprintln!("{USAGE}");
            return ExitCode::from(2);
        }
    };
    match served {
        Ok(()) => ExitCode::SUCCESS,
        // Whoever reads the answers has seen enough.
        Err(error) if error.kind() == io::ErrorKind::BrokenPipe => ExitCode::SUCCESS,
        Err(error) => {
            eprintln!("reference: {error}");
            ExitCode::FAILURE
        }
    }
}
