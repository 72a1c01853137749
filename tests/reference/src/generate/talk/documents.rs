//! The payloads of control frames: good documents with the tags that matter,
//! and others.

use crate::generate::payload_lines;
use crate::generate::random::Random;
use crate::link::version::ProtocolVersion;

/// Version strings that are none.
const BAD_VERSIONS: [&str; 22] = [
    "", "5", "5.4", "5.4.", ".4.1", "5..1", "5.4.1.0", "5.04.1", "05.4.1", "5.4.01", "5.00.0",
    "0.4.1", "0.0.0", "256.0.0", "5.256.0", "5.4.256", "+5.4.1", "5.4.1 ", " 5.4.1", "5,4,1",
    "5.4.1\0", "5.4.x",
];

/// Good ones below 5.0.0.
const OLD_VERSIONS: [&str; 7] = [
    "1.0.0",
    "2.0.0",
    "3.1.255",
    "4.0.0",
    "4.99.7",
    "4.255.255",
    "4.5.0",
];

/// Good ones from 5.0.0 on.
const NEW_VERSIONS: [&str; 12] = [
    "5.0.0",
    "5.0.0",
    "5.0.1",
    "5.4.1",
    "5.4.1",
    "5.4.0",
    "5.3.255",
    "5.255.255",
    "6.0.0",
    "10.0.0",
    "100.20.3",
    "255.255.255",
];

/// The whole document around some elements.
pub fn document(elements: &[Vec<u8>]) -> Vec<u8> {
    let inside = elements.concat();
    let length = inside.len() as u32 + 5;
    [&length.to_le_bytes()[..], &inside, &[0]].concat()
}

fn element(type_byte: u8, name: &str, value: &[u8]) -> Vec<u8> {
    [&[type_byte], name.as_bytes(), &[0], value].concat()
}

pub fn string(name: &str, text: &str) -> Vec<u8> {
    let length = text.len() as u32 + 1;
    let value = [&length.to_le_bytes()[..], text.as_bytes(), &[0]].concat();
    element(0x02, name, &value)
}

pub fn int32(name: &str, bits: u32) -> Vec<u8> {
    element(0x10, name, &bits.to_le_bytes())
}

fn int64(name: &str, bits: u64) -> Vec<u8> {
    element(0x12, name, &bits.to_le_bytes())
}

/// Adds elements that change nothing, in front and behind.
pub fn with_others(random: &mut Random, element: Option<Vec<u8>>) -> Vec<u8> {
    let mut elements: Vec<Vec<u8>> = element.into_iter().collect();
    for _ in 0..random.pick(&[0, 0, 0, 1, 2]) {
        let place = random.between(0, elements.len());
        elements.insert(place, unknown(random));
    }
    document(&elements)
}

fn unknown(random: &mut Random) -> Vec<u8> {
    match random.below(6) {
        0 => int32("height", 480),
        1 => string("videoCodec", "H264"),
        2 => element(0x0a, "", &[]),
        3 => element(0x08, "flag", &[random.below(2) as u8]),
        4 => element(
            0x03,
            "a",
            &document(&[int32("hashId", 1), string("protocolVersion", "x")]),
        ),
        _ => int64("mtU", random.bits64()),
    }
}

/// A good payload with this protocolVersion.
pub fn with_version(random: &mut Random, text: &str) -> Vec<u8> {
    with_others(random, Some(string("protocolVersion", text)))
}

pub fn bad_version(random: &mut Random) -> String {
    random.pick(&BAD_VERSIONS).into()
}

pub fn old_version(random: &mut Random) -> String {
    random.pick(&OLD_VERSIONS).into()
}

/// From 5.0.0 on, often the module's own version or one next to it.
pub fn new_version(random: &mut Random, module: ProtocolVersion) -> String {
    if random.coin() {
        return random.pick(&NEW_VERSIONS).into();
    }
    let minor = module.minor;
    let patch = module.patch;
    let near = random.pick(&[
        (minor, patch),
        (minor, patch.saturating_add(1)),
        (minor, patch.saturating_sub(1)),
        (minor.saturating_add(1), 0),
        (minor.saturating_sub(1), 255),
    ]);
    format!("5.{}.{}", near.0, near.1)
}

/// A payload at the limits of what can be read, or past them.
pub fn other(random: &mut Random) -> Vec<u8> {
    match random.below(9) {
        0 => {
            let length = random.between(1, 9);
            random.bytes(length)
        }
        1 => vec![0; random.between(1, 8)],
        2 => twice(random),
        3 => document(&[int32("mtu", 5)]),
        4 | 5 => long(random),
        6 | 7 => deep(random),
        _ => payload_lines::any_payload(random),
    }
}

/// A known tag twice, or of another type.
fn twice(random: &mut Random) -> Vec<u8> {
    match random.below(3) {
        0 => document(&[
            string("protocolVersion", "5.0.0"),
            string("protocolVersion", "5.0.0"),
        ]),
        1 => document(&[int32("hashId", 1), int32("hashId", 1)]),
        _ => document(&[string("hashId", "1")]),
    }
}

/// Around the limit of 1,024 bytes, both sides.
fn long(random: &mut Random) -> Vec<u8> {
    let length = random.pick(&[1_024, 1_024, 1_025, 1_025, 1_025, 1_026]);
    let front = tag(random);
    // The outer document and the string have 14 bytes besides the text.
    let text = "x".repeat(length - 14 - front.len());
    document(&[front, string("zz", &text)])
}

/// Around depth 8, both sides.
fn deep(random: &mut Random) -> Vec<u8> {
    let depth = random.pick(&[7, 8, 8, 9, 9, 10]);
    let mut inner = document(&[]);
    for _ in 2..depth {
        inner = document(&[element(random.pick(&[0x03, 0x04]), "d", &inner)]);
    }
    document(&[element(0x03, "d", &inner), tag(random)])
}

/// A tag that an opening or an End may ask for.
fn tag(random: &mut Random) -> Vec<u8> {
    if random.coin() {
        string("protocolVersion", "5.2.0")
    } else {
        int32("hashId", 39_027)
    }
}
