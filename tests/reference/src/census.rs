//! Counts the answers to a script by kind, to see that it reaches them all.

use std::collections::BTreeMap;
use std::io::{self, BufRead, Write};

use crate::burst;
use crate::driver::{Driver, LARGEST_LINE};
use crate::frame::{self, Reading};
use crate::lines::Lines;
use crate::link::{self, Link, OpenMessage};
use crate::text;

const COMMANDS: [&str; 8] = [
    "read", "write", "send", "payload", "rpc", "rpcwrite", "new", "call",
];

/// How often each kind of answer was given.
pub type Census = BTreeMap<String, usize>;

/// The census of a whole script, printed.
pub fn run(input: impl BufRead, mut output: impl Write) -> io::Result<()> {
    for (kind, times) in take(input)? {
        writeln!(output, "{times:8} {kind}")?;
    }
    output.flush()
}

/// The census of a whole script.
pub fn take(input: impl BufRead) -> io::Result<Census> {
    let mut driver = Driver::default();
    let mut lines = Lines::of(input, LARGEST_LINE);
    let mut census = Census::new();
    let mut answer = Vec::new();
    while let Some(line) = lines.next_line()? {
        answer.clear();
        let message = message_before(driver.link(), line);
        if driver.answer(line, &mut answer) {
            let kind = kind(line, message.as_ref(), &answer);
            *census.entry(kind).or_default() += 1;
        }
    }
    Ok(census)
}

/// The message that is open where a `call` line's frame belongs.
fn message_before(link: Option<&Link>, line: &[u8]) -> Option<OpenMessage> {
    let call = line.strip_prefix(b"call ")?;
    let input = bytes(call.rsplit(|&byte| byte == b' ').next()?);
    let Reading::Frame(frame) = frame::read(&input) else {
        return None;
    };
    let session = link?.session(frame.header.session)?;
    session.message(frame.header.service).copied()
}

/// The command and the kind of its answer: the refusal's number, or what a
/// `call` was answered with; with `rpc` and `rpcwrite` also the form.
/// `message` is the one that was open there before.
fn kind(line: &[u8], message: Option<&OpenMessage>, answer: &[u8]) -> String {
    let line = String::from_utf8_lossy(line);
    let answer = String::from_utf8_lossy(answer);
    let first = line.split(' ').next().unwrap_or_default();
    let known = COMMANDS.iter().find(|&&command| command == first);
    let command = known.copied().unwrap_or("other");
    let words: Vec<&str> = answer.split(' ').collect();
    let kind = match (command, words.as_slice()) {
        ("call", ["W", _, reply, ..]) => reply_kind(&bytes(reply.as_bytes())),
        ("call", ["D", _, _, delivered, ..]) => delivery_kind(&line, message, delivered),
        ("call", ["A", ..]) => format!("A {}", frame_kind(&line)),
        ("call", ["R", "24", ..]) if at_wrap(message) => "R 24 at a wrap".into(),
        ("rpc", ["P", "-", ..]) => "P without header".into(),
        (_, ["R", number, ..]) => format!("R {number:>2}"),
        (_, [first, ..]) => first.to_string(),
        _ => String::new(),
    };
    match (command, line.split(' ').nth(1)) {
        ("rpc" | "rpcwrite", Some(form)) if kind != "?" => format!("{command} {form} {kind}"),
        _ => format!("{command} {kind}"),
    }
}

fn bytes(word: &[u8]) -> Vec<u8> {
    let mut bytes = Vec::new();
    text::parse_bytes(word, &mut bytes);
    bytes
}

fn at_wrap(message: Option<&OpenMessage>) -> bool {
    message.is_some_and(|message| burst::near_wrap(message.next_frame()))
}

/// Which reply, told by its own header: the info, the version and the size.
fn reply_kind(reply: &[u8]) -> String {
    let Reading::Frame(frame) = frame::read(reply) else {
        return "W no frame".into();
    };
    let header = frame.header;
    let name = match header.info {
        // In a session no Start of 07 is acknowledged.
        link::START_ACK if header.service == link::RPC => "Opening ACK",
        link::START_ACK => "Start ACK",
        link::START_NAK if header.session.0 == 0 => "Opening NAK",
        link::START_NAK => "Start NAK",
        link::END_ACK if header.service == link::RPC => "End ACK of 07",
        link::END_ACK => "End ACK",
        link::END_NAK => "End NAK",
        link::HEARTBEAT_ACK => "Heartbeat ACK",
        _ => "other reply",
    };
    let size = match header.size {
        0 => "empty",
        4 => "raw",
        _ => "with document",
    };
    format!("W {name}, version {}, {size}", header.version)
}

/// The frame that a `call` line brought.
fn frame_kind(line: &str) -> &'static str {
    let input = bytes(line.rsplit(' ').next().unwrap_or_default().as_bytes());
    let Reading::Frame(frame) = frame::read(&input) else {
        return "no frame";
    };
    match frame.header.frame_type {
        frame::CONTROL => "control",
        frame::SINGLE => "single",
        frame::FIRST => "first",
        _ => "consecutive",
    }
}

/// Which frame delivered how many bytes, and whether it ended a long burst.
fn delivery_kind(line: &str, message: Option<&OpenMessage>, delivered: &str) -> String {
    let frame = frame_kind(line);
    let size = match bytes(delivered.as_bytes()).len() {
        0 => "no bytes",
        1..=256 => "to 256",
        257..=2_048 => "to 2048",
        2_049..=65_535 => "to 65535",
        65_536 => "65536",
        _ => "above 65536",
    };
    let long = message.is_some_and(|message| message.count > 255);
    let frames = match frame {
        "consecutive" if long => ", above 255 frames",
        _ => "",
    };
    format!("D {frame} {size}{frames}")
}
