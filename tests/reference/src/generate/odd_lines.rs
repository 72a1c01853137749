//! Lines at the edge of what DRIVER.md reads: most are answered `?`, some
//! are read after all, some get no answer.
//!
//! Each is a usual line with one thing changed, so that nothing else is the
//! reason for its answer.

use super::call_lines::Calls;
use super::random::Random;
use super::values::LARGEST_OUT;
use super::{command_line, rpc_lines, RPC_SERVED};

/// The longest line that every program must read.
const LONGEST_LINE: usize = 300_000;

const BYTE: u64 = u8::MAX as u64;
const BITS16: u64 = u16::MAX as u64;
const BITS32: u64 = u32::MAX as u64;
const OUT: u64 = LARGEST_OUT as u64;

/// The largest number in each word behind `write`, `send` and `call`, and behind
/// the FORM of `rpc` and `rpcwrite`, but for HEX. DRIVER.md gives none for `new`.
const WRITE_LARGEST: [u64; 9] = [BYTE, 1, BYTE, BYTE, BYTE, BYTE, BITS32, BITS32, OUT];
const SEND_LARGEST: [u64; 7] = [BYTE, BYTE, BYTE, BITS32, BITS32, BITS32, OUT];
const CALL_LARGEST: [u64; 4] = [BITS16, BITS16, BITS32, OUT];
const RPC_LARGEST: [u64; 1] = [BYTE];
const RPCWRITE_LARGEST: [u64; 6] = [BYTE, BYTE, BITS32, BITS32, BITS32, OUT];

/// First words that are no command.
const NO_COMMANDS: [&[u8]; 31] = [
    b"reads",
    b"rea",
    b"READ",
    b"Read",
    b"writ",
    b"writes",
    b"Write",
    b"sen",
    b"sends",
    b"sEnd",
    b"payloa",
    b"payloads",
    b"Payload",
    b"cal",
    b"calls",
    b"Call",
    b"news",
    b"New",
    b"rp",
    b"rpcs",
    b"Rpc",
    b"rpcread",
    b"rpcwrit",
    b"rpcwrites",
    b"rpcWrite",
    b"query",
    b"?",
    b"-",
    b"0",
    b"read\0",
    b"\xef\xbb\xbfread",
];

/// Words in FORM's place that are none.
const NO_FORMS: [&[u8]; 16] = [
    b"rp", b"rpcs", b"RPC", b"Rpc", b"bul", b"bulks", b"Bulk", b"quer", b"querys", b"Query",
    b"hybrid", b"0", b"7", b"-", b"", b"rpc\0",
];

/// The fronts of the longest lines; HEX follows. The first is a frame of
/// 131,084 bytes with more behind it.
const FRONTS: [&str; 5] = [
    "read 5107000100020000",
    "write 5 0 1 7 0 1 9 1 99 ",
    "send 5 7 1 7 9 0 99 ",
    "payload ",
    "call 1 1 1 128 510700ff00020000",
];
const RPC_FRONTS: [&str; 6] = [
    "rpc rpc 1 ",
    "rpc rpc 5 ",
    "rpc bulk 5 ",
    "rpc query 5 00000001",
    "rpcwrite bulk 5 0 0 0 0 131084 - ",
    "rpcwrite rpc 5 0 0 0 0 131084 - ",
];

/// Where the usual lines come from.
pub enum Source<'a> {
    /// Any command that the driver serves.
    All(&'a mut Calls),
    /// `rpc` and `rpcwrite`.
    Rpc,
}

impl Source<'_> {
    fn line(&mut self, random: &mut Random) -> Vec<u8> {
        match self {
            Source::All(calls) => command_line(random, calls),
            Source::Rpc => rpc_lines::line(random),
        }
    }

    /// Whether any of its lines has a FORM.
    fn has_forms(&self) -> bool {
        RPC_SERVED || matches!(self, Source::Rpc)
    }

    fn front(&self, random: &mut Random) -> &'static str {
        match self {
            Source::All(_) if !RPC_SERVED || random.coin() => random.pick(&FRONTS),
            _ => random.pick(&RPC_FRONTS),
        }
    }
}

pub fn line(random: &mut Random, source: &mut Source) -> Vec<u8> {
    let forms = if source.has_forms() { 40 } else { 0 };
    match random.weighted(&[50, 100, 80, 120, 140, 180, 80, 140, 60, 2, forms]) {
        0 => Vec::new(),
        1 => comment(random, source),
        2 => other_command(random, source),
        3 => other_word_count(random, source),
        4 => other_spaces(random, source),
        5 => other_number(random, source),
        6 => zeros_in_front(random, source),
        7 => other_hex(random, source),
        8 => stray_bytes(random, source),
        9 => near_line_limit(random, source),
        _ => other_form(random, source),
    }
}

/// A readable line of usual length.
fn short_line(random: &mut Random, source: &mut Source) -> Vec<u8> {
    loop {
        let line = source.line(random);
        if line.len() < 400 {
            return line;
        }
    }
}

fn short_words(random: &mut Random, source: &mut Source) -> Vec<Vec<u8>> {
    let line = short_line(random, source);
    line.split(|&byte| byte == b' ').map(Vec::from).collect()
}

fn join(words: &[Vec<u8>]) -> Vec<u8> {
    words.join(&b' ')
}

fn comment(random: &mut Random, source: &mut Source) -> Vec<u8> {
    match random.below(4) {
        0 => b"#".to_vec(),
        1 => [b"#".to_vec(), short_line(random, source)].concat(),
        2 => [b"# ".to_vec(), short_line(random, source)].concat(),
        // A space in front: this is no comment.
        _ => [b" #".to_vec(), short_line(random, source)].concat(),
    }
}

/// The first word is no command, or a command without its words.
fn other_command(random: &mut Random, source: &mut Source) -> Vec<u8> {
    let mut words = short_words(random, source);
    words[0] = random.pick(&NO_COMMANDS).to_vec();
    if random.coin() {
        return join(&words);
    }
    let alone: &[u8] = random.pick(&[
        &b"read"[..],
        b"write",
        b"send",
        b"payload",
        b"new",
        b"new 5",
        b"call",
        b"call 1 2",
        b"rpc",
        b"rpc rpc",
        b"rpc bulk 5",
        b"rpcwrite",
        b"rpcwrite query 5 0",
    ]);
    alone.to_vec()
}

/// A word missing, doubled or added. (One of the numbers of `write` or `send`
/// missing leaves HEX in a number's place or too few words.)
fn other_word_count(random: &mut Random, source: &mut Source) -> Vec<u8> {
    let mut words = short_words(random, source);
    let place = random.between(1, words.len() - 1);
    match random.below(5) {
        0 => drop(words.pop()),
        1 => drop(words.remove(place)),
        2 => words.insert(place, words[place].clone()),
        3 => words.push(b"0".to_vec()),
        _ => words.push(b"-".to_vec()),
    }
    join(&words)
}

fn other_spaces(random: &mut Random, source: &mut Source) -> Vec<u8> {
    let mut line = short_line(random, source);
    let spaces: Vec<usize> = (0..line.len()).filter(|&i| line[i] == b' ').collect();
    let space = random.pick(&spaces);
    match random.below(6) {
        0 => line.insert(space, b' '),
        1 => line.push(b' '),
        2 => line.insert(0, b' '),
        3 => line[space] = b'\t',
        4 => drop(line.remove(space)),
        _ => line = vec![b' '; random.between(1, 3)],
    }
    line
}

/// A line cut into words, and one of its numbers' places with the largest number there.
fn number_place(random: &mut Random, source: &mut Source) -> (Vec<Vec<u8>>, usize, u64) {
    let (words, first, largest): (_, _, &[u64]) = loop {
        let words = short_words(random, source);
        match &words[0][..] {
            b"write" => break (words, 1, &WRITE_LARGEST),
            b"send" => break (words, 1, &SEND_LARGEST),
            b"call" => break (words, 1, &CALL_LARGEST),
            b"rpc" => break (words, 2, &RPC_LARGEST),
            b"rpcwrite" => break (words, 2, &RPCWRITE_LARGEST),
            _ => (),
        }
    };
    let place = random.below(largest.len());
    (words, first + place, largest[place])
}

/// A number too large, or no number.
fn other_number(random: &mut Random, source: &mut Source) -> Vec<u8> {
    let (mut words, place, largest) = number_place(random, source);
    words[place] = if random.coin() {
        too_large(random, largest)
    } else {
        no_number(random, &words[place])
    };
    join(&words)
}

/// The largest plus one, or a number whose low bits are a small one.
fn too_large(random: &mut Random, largest: u64) -> Vec<u8> {
    let largest = u128::from(largest);
    let small = random.below(6) as u128;
    let number = match random.below(6) {
        0..=2 => largest + 1,
        3 => largest + 1 + small,
        4 => (1 << 32) + small,
        _ => (1 << 64) + small,
    };
    let mut word = number.to_string().into_bytes();
    if random.once_in(8) {
        word.resize(40, b'0');
    }
    word
}

fn no_number(random: &mut Random, number: &[u8]) -> Vec<u8> {
    let with_front = |front: &[u8]| [front, number].concat();
    let with_end = |end: &[u8]| [number, end].concat();
    match random.below(10) {
        0 => with_front(b"+"),
        1 => with_front(b"-"),
        2 => with_front(b"0x"),
        3 => with_end(b".0"),
        4 => with_end(b"a"),
        5 => with_end(b"e0"),
        6 => with_end(b","),
        7 => with_end(&[random.pick(b"/:\0\xb2\xff")]),
        8 => b"-".to_vec(),
        _ => "\u{661}".into(),
    }
}

/// Still a number of the same value: DRIVER.md asks for decimal, no more.
fn zeros_in_front(random: &mut Random, source: &mut Source) -> Vec<u8> {
    let (mut words, place, _) = number_place(random, source);
    let count = random.pick(&[1, 1, 2, 3, 9, 10, 19, 20, 40]);
    words[place].splice(0..0, vec![b'0'; count]);
    join(&words)
}

/// The last word, or `rpcwrite`'s JSON before it, is no HEX, or it is `-`.
fn other_hex(random: &mut Random, source: &mut Source) -> Vec<u8> {
    let mut words = short_words(random, source);
    let before_last = words[0] == b"rpcwrite" && random.coin();
    let hex_place = words.len() - 1 - usize::from(before_last);
    let hex = &mut words[hex_place];
    let place = random.below(hex.len());
    match random.below(9) {
        0 => hex.make_ascii_uppercase(),
        1 => hex[place] = random.pick(b"ABCDEF"),
        2 => drop(hex.remove(place)),
        3 => hex.insert(place, random.pick(b"0f")),
        4 => hex[place] = random.pick(b"g/:`@G-.\0\x80\xff"),
        5 => *hex = b"-".to_vec(),
        6 => *hex = b"--".to_vec(),
        7 => hex.insert(0, b'-'),
        _ => hex.splice(0..0, *b"0x").for_each(drop),
    }
    join(&words)
}

/// An `rpc` or `rpcwrite` line whose FORM is none.
fn other_form(random: &mut Random, source: &mut Source) -> Vec<u8> {
    loop {
        let mut words = short_words(random, source);
        if words[0].starts_with(b"rpc") {
            words[1] = random.pick(&NO_FORMS).to_vec();
            return join(&words);
        }
    }
}

/// Bytes that no readable line holds: a carriage return or a zero at the
/// end, one byte changed to any other, or nothing but random bytes.
fn stray_bytes(random: &mut Random, source: &mut Source) -> Vec<u8> {
    let mut line = short_line(random, source);
    let place = random.below(line.len());
    match random.below(5) {
        0 => line.push(b'\r'),
        1 => line.push(0),
        2 => line[place] = random.byte(),
        3 => line = b"\r".to_vec(),
        _ => {
            let length = random.between(1, 30);
            line = random.bytes(length);
        }
    }
    line.retain(|&byte| byte != b'\n');
    line
}

/// Lines up to the longest that every program must read, and longer ones
/// that end in a bad digit: those cannot be read with any line buffer, so
/// that a program with a larger one answers the same.
fn near_line_limit(random: &mut Random, source: &Source) -> Vec<u8> {
    let front = source.front(random);
    // The longest line with an even number of digits.
    let longest_even = LONGEST_LINE - (LONGEST_LINE - front.len()) % 2;
    let length = match random.below(6) {
        0..=2 => longest_even,
        3 => LONGEST_LINE - random.below(3),
        4 => LONGEST_LINE + random.between(1, 3),
        _ => LONGEST_LINE + random.below(100_000),
    };
    let mut line = front.as_bytes().to_vec();
    line.resize(length, random.pick(b"0159"));
    if length > LONGEST_LINE {
        line[length - 1] = b'x';
    }
    line
}
