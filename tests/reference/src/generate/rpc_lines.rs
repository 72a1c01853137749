//! `rpc` and `rpcwrite` lines, all of them readable.

use super::random::Random;
use super::values;
use super::Line;
use crate::rpc::{Form, Header, HEADER_LENGTH};

/// The types of RPC and bulk that are refused, and some that are good if
/// only 4 bits are looked at.
const BAD_TYPES: [u8; 13] = [3, 3, 3, 4, 5, 7, 8, 14, 15, 15, 16, 18, 255];

const QUERY_TYPES: [u8; 4] = [0x00, 0x10, 0x20, 0xff];

/// The neighbours of the good ones, and RPC's types in both halves of a byte.
const BAD_QUERY_TYPES: [u8; 14] = [
    0x01, 0x01, 0x02, 0x0f, 0x0f, 0x11, 0x1f, 0x1f, 0x21, 0x2f, 0x30, 0xf0, 0xfe, 0xfe,
];

const FUNCTIONS: [u32; 8] = [
    0,
    1,
    2,
    0x0012_3456,
    0x00ff_ffff,
    0x0100_0000,
    0x0fff_fffe,
    0x0fff_ffff,
];

/// Over 28 bits; some are small if those above are cut off.
const BAD_FUNCTIONS: [u32; 8] = [
    0x1000_0000,
    0x1000_0000,
    0x1000_0001,
    0x2000_0000,
    0x7fff_ffff,
    0x8000_0001,
    0xf000_0000,
    u32::MAX,
];

const QUERY_IDS: [u32; 3] = [1, 2, 0xff_ffff];

/// The neighbours of the good ones, the good ones in another byte order, and
/// some whose 24 bits are good.
const BAD_QUERY_IDS: [u32; 16] = [
    0,
    0,
    3,
    3,
    0x00ff_fffe,
    0x00ff_fffe,
    0x0100_0000,
    0x0100_0000,
    0x0100_0001,
    0x01ff_ffff,
    0x0001_0000,
    0x0002_0000,
    0x00ff_ff00,
    0x0000_ffff,
    0x1000_0001,
    u32::MAX,
];

/// The lengths around a header, where the first thing to be seen is 40.
const SHORT_LENGTHS: [usize; 9] = [0, 1, 4, 10, 11, 11, 12, 12, 13];

/// JSON or bulk data that fills a frame, the largest out buffer, or one more.
const LONG_LENGTHS: [usize; 6] = [1_476, 65_524, 65_536, 131_060, 131_072, 131_073];

/// A payload in parts, good or not.
struct Draft {
    form: Form,
    version: u8,
    header: Header,
    json: Vec<u8>,
    bulk: Vec<u8>,
}

pub fn line(random: &mut Random) -> Vec<u8> {
    let mut draft = good(random);
    // More than one fault tries the order of the refusals.
    for _ in 0..random.pick(&[0, 0, 0, 0, 1, 1, 1, 2, 2, 4]) {
        spoil(random, &mut draft);
    }
    if random.coin() {
        read_line(random, &draft)
    } else {
        write_line(random, &draft)
    }
}

/// A payload that nothing refuses.
fn good(random: &mut Random) -> Draft {
    let form = random.pick(&[Form::Rpc, Form::Rpc, Form::Bulk, Form::Query, Form::Query]);
    let (json_length, bulk_length) = lengths(random, form);
    let message_type = match form {
        Form::Query => random.pick(&QUERY_TYPES),
        _ => random.between(0, 2) as u8,
    };
    Draft {
        form,
        version: random.between(1, 5) as u8,
        header: Header {
            message_type,
            function: good_function(random, form),
            correlation: values::id(random),
            json_size: json_length as u32,
        },
        json: random.bytes(json_length),
        bulk: random.bytes(bulk_length),
    }
}

fn good_function(random: &mut Random, form: Form) -> u32 {
    match form {
        Form::Query => random.pick(&QUERY_IDS),
        _ if random.coin() => random.pick(&FUNCTIONS),
        _ => random.bits32() >> 4,
    }
}

/// How long JSON and bulk data are; only one of them is long, so that the
/// line stays readable.
fn lengths(random: &mut Random, form: Form) -> (usize, usize) {
    let json = length(random);
    if form == Form::Rpc {
        return (json, 0);
    }
    match random.below(6) {
        0..=2 => (json, random.between(0, 3)),
        3 => (json, 0),
        // A handshake has bulk data alone.
        4 => (0, length(random)),
        _ => (random.between(0, 3), length(random)),
    }
}

fn length(random: &mut Random) -> usize {
    match random.weighted(&[120, 480, 160, 24, 3, 1]) {
        0 => 0,
        1 => random.between(1, 24),
        2 => random.between(25, 300),
        3 => random.pick(&[12, 255, 256, 257, 300]),
        4 => values::long_length(random, 65_536),
        _ => random.pick(&LONG_LENGTHS),
    }
}

/// Gives the draft something that may be a fault: one of 1 and 41 to 44.
fn spoil(random: &mut Random, draft: &mut Draft) {
    match random.weighted(&[2, 3, 5, 5, 10]) {
        0 => draft.version = random.pick(&values::BAD_VERSIONS),
        1 => draft.header.message_type = bad_type(random, draft.form),
        2 => draft.header.function = bad_function(random, draft.form),
        3 => draft.header.json_size = other_size(random, draft),
        _ => {
            let length = random.pick(&[0, 1, 1, 1, 2, 2, 12]);
            draft.bulk = random.bytes(length);
        }
    }
}

fn bad_type(random: &mut Random, form: Form) -> u8 {
    match form {
        _ if random.once_in(8) => random.byte(),
        Form::Query => random.pick(&BAD_QUERY_TYPES),
        _ => random.pick(&BAD_TYPES),
    }
}

fn bad_function(random: &mut Random, form: Form) -> u32 {
    match form {
        _ if random.once_in(8) => random.bits32(),
        Form::Query => random.pick(&BAD_QUERY_IDS),
        _ => random.pick(&BAD_FUNCTIONS),
    }
}

/// Around the JSON's length and around what is behind the header; also sizes
/// that are small if 12 is added without a carry.
fn other_size(random: &mut Random, draft: &Draft) -> u32 {
    let json = draft.json.len() as u32;
    let left = json + draft.bulk.len() as u32;
    match random.below(12) {
        0 => left,
        1 | 2 => left.saturating_sub(1),
        3 | 4 => left + 1,
        5 => json.saturating_sub(1),
        6 => json + 1,
        7 => left + HEADER_LENGTH as u32,
        8 => json.swap_bytes(),
        9 => 0,
        10 => u32::MAX,
        _ => random.pick(&[u32::MAX - 11, u32::MAX - 12, 0x8000_0000, 0x7fff_ffff]),
    }
}

fn read_line(random: &mut Random, draft: &Draft) -> Vec<u8> {
    let mut payload = raw(random, draft);
    let mut form = draft.form;
    match random.weighted(&[60, 8, 8, 8, 8, 8]) {
        0 => (),
        1 => payload.truncate(random.pick(&SHORT_LENGTHS)),
        2 => cut_or_extend(random, &mut payload),
        3 => flip_bit(random, &mut payload),
        4 => reverse_numbers(random, &mut payload),
        // The same bytes read as another form.
        _ => form = random.pick(&[Form::Rpc, Form::Bulk, Form::Query]),
    }
    let mut line = Line::of("rpc");
    line.word(name(form));
    line.number(u64::from(draft.version));
    line.bytes(&payload);
    line.end()
}

fn write_line(random: &mut Random, draft: &Draft) -> Vec<u8> {
    let due = head(draft) + draft.json.len() + draft.bulk.len();
    let out_length = values::out_length(random, due);
    let header = &draft.header;
    let mut line = Line::of("rpcwrite");
    line.word(name(draft.form));
    line.number(u64::from(draft.version));
    line.number(u64::from(header.message_type));
    for number in [header.function, header.correlation, header.json_size] {
        line.number(u64::from(number));
    }
    line.number(out_length as u64);
    line.bytes(&draft.json);
    line.bytes(&draft.bulk);
    line.end()
}

/// The payload's bytes without any check, its fields cut to their bits. Where
/// the form has no header, one is there now and then all the same.
fn raw(random: &mut Random, draft: &Draft) -> Vec<u8> {
    let mut bytes = Vec::new();
    if head(draft) > 0 || random.once_in(3) {
        let header = &draft.header;
        let first = match draft.form {
            Form::Query => u32::from(header.message_type) << 24 | header.function & 0x00ff_ffff,
            _ => u32::from(header.message_type) << 28 | header.function & 0x0fff_ffff,
        };
        for number in [first, header.correlation, header.json_size] {
            bytes.extend_from_slice(&number.to_be_bytes());
        }
    }
    bytes.extend_from_slice(&draft.json);
    bytes.extend_from_slice(&draft.bulk);
    bytes
}

fn head(draft: &Draft) -> usize {
    if draft.form == Form::Rpc && draft.version == 1 {
        0
    } else {
        HEADER_LENGTH
    }
}

/// A few bytes less or more, at the end.
fn cut_or_extend(random: &mut Random, payload: &mut Vec<u8>) {
    let count = random.pick(&[1, 1, 2, 12]);
    if random.coin() {
        payload.extend(random.bytes(count));
    } else {
        payload.truncate(payload.len().saturating_sub(count));
    }
}

/// One bit changed, mostly of the header's.
fn flip_bit(random: &mut Random, payload: &mut [u8]) {
    if payload.is_empty() {
        return;
    }
    let end = if random.once_in(6) {
        payload.len()
    } else {
        payload.len().min(HEADER_LENGTH)
    };
    payload[random.below(end)] ^= 1 << random.below(8);
}

/// The JSON size, or each of the header's numbers, least significant byte first.
fn reverse_numbers(random: &mut Random, payload: &mut [u8]) {
    let Some(header) = payload.first_chunk_mut::<HEADER_LENGTH>() else {
        return;
    };
    let first = if random.once_in(3) { 0 } else { 8 };
    header[first..].chunks_mut(4).for_each(<[u8]>::reverse);
}

fn name(form: Form) -> &'static str {
    match form {
        Form::Rpc => "rpc",
        Form::Bulk => "bulk",
        Form::Query => "query",
    }
}
