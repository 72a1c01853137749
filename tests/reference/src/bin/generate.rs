//! Prints a script:
//! `generate [--frames | --sends | --payloads | --rpc | --calls | --bursts | --bench] SEED LINES`.

use std::io::{self, BufWriter};
use std::process::ExitCode;

use reference::generate::{write_script, Form};

const USAGE: &str =
    "usage: generate [--frames | --sends | --payloads | --rpc | --calls | --bursts | --bench] SEED LINES";

fn main() -> ExitCode {
    let Some((form, seed, lines)) = arguments() else {
        eprintln!("{USAGE}");
        return ExitCode::from(2);
    };
    let out = BufWriter::with_capacity(1 << 16, io::stdout().lock());
    match write_script(form, seed, lines, out) {
        Ok(()) => ExitCode::SUCCESS,
        // Whoever reads the script has seen enough.
        Err(error) if error.kind() == io::ErrorKind::BrokenPipe => ExitCode::SUCCESS,
        Err(error) => {
            eprintln!("generate: {error}");
            ExitCode::FAILURE
        }
    }
}

fn arguments() -> Option<(Form, u64, u64)> {
    let words: Vec<String> = std::env::args().skip(1).collect();
    let (form, numbers) = match words.as_slice() {
        [option, numbers @ ..] if option == "--frames" => (Form::Frames, numbers),
        [option, numbers @ ..] if option == "--sends" => (Form::Sends, numbers),
        [option, numbers @ ..] if option == "--payloads" => (Form::Payloads, numbers),
        [option, numbers @ ..] if option == "--rpc" => (Form::Rpc, numbers),
        [option, numbers @ ..] if option == "--calls" => (Form::Calls, numbers),
        [option, numbers @ ..] if option == "--bursts" => (Form::Bursts, numbers),
        [option, numbers @ ..] if option == "--bench" => (Form::Bench, numbers),
        numbers => (Form::All, numbers),
    };
    let [seed, lines] = numbers else { return None };
    Some((form, seed.parse().ok()?, lines.parse().ok()?))
}
