//! Scripts for comparing two programs that speak DRIVER.md.
//!
//! A script depends on the seed alone, and a longer script begins with the
//! shorter one of the same seed. To try another command, add a module with
//! a `line` function like those here and its weight in [`command_line`].

mod bench_lines;
mod burst_lines;
mod call_lines;
mod draft;
mod elements;
mod headers;
mod odd_lines;
mod payload_lines;
pub mod random;
mod read_lines;
mod rpc_lines;
mod send_lines;
mod talk;
mod values;
mod write_lines;

use std::io::{self, Write};

use crate::text;
use bench_lines::BenchLines;
use burst_lines::Bursts;
use call_lines::Calls;
use odd_lines::Source;
use random::Random;

/// What a script holds.
#[derive(Clone, Copy, Debug, PartialEq, Eq)]
pub enum Form {
    /// All commands served, and lines that cannot be read.
    All,
    /// Readable `read` and `write` lines only.
    Frames,
    /// Readable `send` lines only.
    Sends,
    /// Readable `payload` lines only.
    Payloads,
    /// `rpc` and `rpcwrite` lines, and lines next to them that cannot be read.
    Rpc,
    /// Readable `new` and `call` lines only.
    Calls,
    /// Likewise, of long messages sent to their end.
    Bursts,
    /// Lines for the bench program.
    Bench,
}

/// Writes exactly `lines` lines.
pub fn write_script(form: Form, seed: u64, lines: u64, mut out: impl Write) -> io::Result<()> {
    let mut random = Random::of(seed);
    let mut script = Script::of(&mut random);
    for _ in 0..lines {
        let mut line = script.line(form, &mut random);
        line.push(b'\n');
        out.write_all(&line)?;
    }
    out.flush()
}

/// What lives from one line to the next.
struct Script {
    /// The lines of a family that are still to come, the next one last.
    waiting: Vec<Vec<u8>>,
    calls: Calls,
    bursts: Bursts,
    bench: BenchLines,
}

impl Script {
    fn of(random: &mut Random) -> Self {
        Script {
            waiting: Vec::new(),
            calls: Calls::new(random),
            bursts: Bursts::new(),
            bench: BenchLines::new(random),
        }
    }

    fn line(&mut self, form: Form, random: &mut Random) -> Vec<u8> {
        match form {
            Form::All => {
                let line = any_line(random, &mut self.calls);
                self.calls.note(&line);
                line
            }
            Form::Calls => {
                let line = self.calls.line(random);
                self.calls.note(&line);
                line
            }
            Form::Frames => frame_line(random),
            Form::Sends => send_lines::line(random),
            Form::Payloads => next_of(&mut self.waiting, || payload_lines::family(random)),
            Form::Bursts => next_of(&mut self.waiting, || self.bursts.link_lines(random)),
            Form::Rpc => rpc_line(random),
            Form::Bench => self.bench.line(random),
        }
    }
}

/// The next line of a family, all of whose lines are wanted; those still to
/// come are `waiting`.
fn next_of(waiting: &mut Vec<Vec<u8>>, family: impl FnOnce() -> Vec<Vec<u8>>) -> Vec<u8> {
    if waiting.is_empty() {
        *waiting = family();
        waiting.reverse();
    }
    waiting.pop().unwrap_or_default()
}

fn any_line(random: &mut Random, calls: &mut Calls) -> Vec<u8> {
    match random.weighted(&[85, 15]) {
        0 => command_line(random, calls),
        _ => odd_lines::line(random, &mut Source::All(calls)),
    }
}

/// A driver that does not serve `rpc` and `rpcwrite` answers `?` to them; false
/// takes them out of the mixture, and `--rpc` is for the reference alone then.
const RPC_SERVED: bool = true;

/// A readable line of any command that the driver serves.
fn command_line(random: &mut Random, calls: &mut Calls) -> Vec<u8> {
    match random.below(if RPC_SERVED { 6 } else { 5 }) {
        0 => read_lines::line(random),
        1 => write_lines::line(random),
        2 => send_lines::line(random),
        3 => payload_lines::line(random),
        4 => calls.line(random),
        _ => rpc_lines::line(random),
    }
}

fn rpc_line(random: &mut Random) -> Vec<u8> {
    match random.weighted(&[90, 10]) {
        0 => rpc_lines::line(random),
        _ => odd_lines::line(random, &mut Source::Rpc),
    }
}

fn frame_line(random: &mut Random) -> Vec<u8> {
    if random.coin() {
        read_lines::line(random)
    } else {
        write_lines::line(random)
    }
}

/// A line put together word by word.
struct Line(Vec<u8>);

impl Line {
    fn of(command: &str) -> Self {
        Line(command.into())
    }

    fn word(&mut self, word: &str) {
        self.0.push(b' ');
        self.0.extend_from_slice(word.as_bytes());
    }

    fn number(&mut self, number: u64) {
        self.0.push(b' ');
        text::push_number(number, &mut self.0);
    }

    fn bytes(&mut self, bytes: &[u8]) {
        self.0.push(b' ');
        text::push_bytes(bytes, &mut self.0);
    }

    fn end(self) -> Vec<u8> {
        self.0
    }
}
