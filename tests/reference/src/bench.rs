//! The bench program (document 01, "The bench program and the C side"): one
//! hexadecimal frame a line through one link.

use std::io::{self, BufRead, Write};

use crate::frame::{self, Reading};
use crate::lines::Lines;
use crate::link::version::ProtocolVersion;
use crate::link::{Answer, Effect, Link, Offer, Settings};
use crate::room::POOL_SIZE;
use crate::text;

/// "at most 3,000 digits"
pub const MOST_DIGITS: usize = 3_000;

/// "Module 5.4.1, mtu 131,084"
const SETTINGS: Settings = Settings {
    version: ProtocolVersion {
        major: 5,
        minor: 4,
        patch: 1,
    },
    mtu: 131_084,
};

/// "G 32, C 64, hash 39,027"
const OFFER: Offer = Offer {
    guarantee: 32,
    cap: 64,
    hash: 39_027,
};

/// "out of 65,536 bytes"
const OUT_SIZE: usize = 65_536;

/// The link and what lives from one line to the next.
pub struct Bench {
    link: Link,
    /// The number of the last line; the first one has 1.
    number: u64,
    digits: Vec<u8>,
    input: Vec<u8>,
    out: Vec<u8>,
}

impl Default for Bench {
    fn default() -> Self {
        Self::new()
    }
}

impl Bench {
    pub fn new() -> Self {
        Bench {
            link: Link::new(SETTINGS, vec![0; POOL_SIZE]).expect("the settings are in range"),
            number: 0,
            digits: Vec::new(),
            input: Vec::new(),
            out: vec![0; OUT_SIZE],
        }
    }

    /// Appends the line's output without a newline: "line number and `W`
    /// reply, `D` service and bytes, `A` accepted silently, `R` number, or `X`".
    pub fn answer(&mut self, line: &[u8], reply: &mut Vec<u8>) {
        self.number += 1;
        text::push_number(self.number, reply);
        if self.frame_alone(line).is_none() {
            return reply.extend_from_slice(b" X");
        }
        let answer = self.link.call(&OFFER, &self.input, &mut self.out);
        push_answer(&answer, &self.out, reply);
    }

    /// Reads the line's digits into `input`. None for what is "judged before
    /// the link: odd or not hex, too long, Short, or bytes after the frame".
    ///
    /// A header that the reader refuses has no end that bytes could be
    /// after: such a line goes to the link, whatever its length.
    fn frame_alone(&mut self, line: &[u8]) -> Option<()> {
        if line.len() > MOST_DIGITS {
            return None;
        }
        // "Digits in either case"
        self.digits.clear();
        self.digits.extend(line.iter().map(u8::to_ascii_lowercase));
        text::parse_bytes(&self.digits, &mut self.input)?;
        match frame::read(&self.input) {
            Reading::Frame(frame) => (frame.consumed == self.input.len()).then_some(()),
            Reading::Short(_) => None,
            Reading::Refused(_) => Some(()),
        }
    }

    pub fn link(&self) -> &Link {
        &self.link
    }

    /// What every call offers.
    pub fn offer() -> Offer {
        OFFER
    }
}

/// "one space between parts, none after the last (no bytes, no part)"
fn push_answer(answer: &Answer, out: &[u8], reply: &mut Vec<u8>) {
    let effect = match *answer {
        // Short was judged before.
        Answer::Short(_) => return reply.extend_from_slice(b" X"),
        Answer::Refused(refusal) => {
            reply.extend_from_slice(b" R ");
            return text::push_number(u64::from(refusal.number()), reply);
        }
        Answer::Accepted { effect, .. } => effect,
    };
    let length = match effect {
        Effect::Silent => return reply.extend_from_slice(b" A"),
        Effect::Reply(length) => {
            reply.extend_from_slice(b" W");
            length
        }
        Effect::Delivery(service, length) => {
            reply.extend_from_slice(b" D ");
            text::push_bytes(&[service.0], reply);
            length
        }
    };
    if length > 0 {
        reply.push(b' ');
        text::push_bytes(&out[..length], reply);
    }
}

/// Answers all lines of `input` until it ends, in constant memory.
pub fn run(input: impl BufRead, mut output: impl Write) -> io::Result<()> {
    let mut bench = Bench::new();
    let mut lines = Lines::of(input, MOST_DIGITS);
    let mut reply = Vec::new();
    while let Some(line) = lines.next_line()? {
        reply.clear();
        bench.answer(line, &mut reply);
        reply.push(b'\n');
        output.write_all(&reply)?;
    }
    output.flush()
}
