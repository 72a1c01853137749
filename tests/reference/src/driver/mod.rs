//! DRIVER.md: one answer line for each script line.
//!
//! Each command is a module with one function that reads the command's
//! words, makes one call and appends the answer; it answers None, having
//! appended nothing, if the words cannot be read. To serve another command,
//! add its module and its line in [`Driver::command`]; what lives from line
//! to line (the link and its pool) is in [`Driver`].

mod call;
mod new;
mod payload;
mod read;
mod rpc;
mod rpcwrite;
mod send;
mod words;
mod write;

use std::io::{self, BufRead, Write};

use crate::lines::Lines;
use crate::link::Link;
use crate::refusal::Refusal;
use crate::text;
use words::Words;

/// "The line buffer holds at least 300,000 bytes": the least that is allowed.
pub const LARGEST_LINE: usize = 300_000;

/// The answer to a line that cannot be read as a command.
const UNREADABLE: &[u8] = b"?";

/// What an out buffer is filled with before each call.
const OUT_FILL: u8 = 0xee;

/// All that lives from one line to the next.
#[derive(Default)]
pub struct Driver {
    buffers: Buffers,
    /// The link of the last `new`, with its pool; None before a first one
    /// that answered `ok`, and after one that answered `R 10`.
    link: Option<Link>,
}

/// Kept only to spare allocations; no command sees what another left there.
#[derive(Default)]
struct Buffers {
    /// The bytes of the line's HEX; in `rpcwrite` of its JSON.
    input: Vec<u8>,
    /// The bytes of BULK.
    bulk: Vec<u8>,
    out: Vec<u8>,
}

impl Buffers {
    /// Makes the out buffer `length` bytes, "all EE hex before the call".
    fn fill_out(&mut self, length: usize) {
        self.out.clear();
        self.out.resize(length, OUT_FILL);
    }
}

impl Driver {
    /// Appends the answer to one line, without a newline at its end; answers
    /// false and appends nothing if the line gets no answer.
    pub fn answer(&mut self, line: &[u8], reply: &mut Vec<u8>) -> bool {
        // "none for an empty line or one that begins with `#`"
        if line.is_empty() || line[0] == b'#' {
            return false;
        }
        let readable = line.len() <= LARGEST_LINE;
        if !readable || self.command(line, reply).is_none() {
            reply.extend_from_slice(UNREADABLE);
        }
        true
    }

    fn command(&mut self, line: &[u8], reply: &mut Vec<u8>) -> Option<()> {
        let mut words = Words::of(line);
        let buffers = &mut self.buffers;
        match words.next_word()? {
            b"read" => read::answer(&mut words, buffers, reply),
            b"write" => write::answer(&mut words, buffers, reply),
            b"send" => send::answer(&mut words, buffers, reply),
            b"payload" => payload::answer(&mut words, buffers, reply),
            b"rpc" => rpc::answer(&mut words, buffers, reply),
            b"rpcwrite" => rpcwrite::answer(&mut words, buffers, reply),
            b"new" => new::answer(&mut words, &mut self.link, reply),
            b"call" => call::answer(&mut words, buffers, self.link.as_mut(), reply),
            _ => None,
        }
    }

    /// The link that `call` lines talk to.
    pub fn link(&self) -> Option<&Link> {
        self.link.as_ref()
    }
}

/// Answers all lines of `input` until it ends.
pub fn serve(input: impl BufRead, mut output: impl Write) -> io::Result<()> {
    let mut driver = Driver::default();
    let mut lines = Lines::of(input, LARGEST_LINE);
    let mut reply = Vec::new();
    while let Some(line) = lines.next_line()? {
        reply.clear();
        if driver.answer(line, &mut reply) {
            reply.push(b'\n');
            output.write_all(&reply)?;
        }
    }
    output.flush()
}

/// Appends `B n CHECK HEX` for what was written to the front of `out`, or `R n`.
fn push_written(written: Result<usize, Refusal>, out: &[u8], reply: &mut Vec<u8>) {
    let length = match written {
        Ok(length) => length,
        Err(refusal) => return push_refusal(refusal, reply),
    };
    reply.extend_from_slice(b"B ");
    text::push_number(length as u64, reply);
    reply.push(b' ');
    text::push_number(u64::from(text::check(out)), reply);
    reply.push(b' ');
    text::push_bytes(&out[..length], reply);
}

/// Appends `R n`.
fn push_refusal(refusal: Refusal, reply: &mut Vec<u8>) {
    reply.extend_from_slice(b"R ");
    text::push_number(u64::from(refusal.number()), reply);
}
