//! Damage to a frame's bytes.

use crate::generate::random::Random;

/// Bytes worth putting into a header: versions, types, services, infos.
const TELLING_BYTES: [u8; 14] = [
    0x00, 0x01, 0x04, 0x07, 0x0a, 0x0b, 0x0f, 0x10, 0x40, 0x50, 0x51, 0x53, 0xfe, 0xff,
];

/// The longest header.
const HEADER: usize = 12;

/// A byte changed, added or taken away, a cut, or bytes behind.
pub fn damage(random: &mut Random, bytes: &mut Vec<u8>) {
    if bytes.is_empty() {
        return;
    }
    let place = place(random, bytes.len());
    match random.weighted(&[30, 15, 40, 5, 5, 20]) {
        0 => bytes[place] ^= 1 << random.below(8),
        1 => bytes[place] = random.pick(&TELLING_BYTES),
        2 => cut(random, bytes),
        3 => bytes.insert(place, random.pick(&TELLING_BYTES)),
        4 => drop(bytes.remove(place)),
        _ => extend(random, bytes),
    }
}

/// Mostly in the header.
fn place(random: &mut Random, length: usize) -> usize {
    if random.once_in(4) {
        random.below(length)
    } else {
        random.below(length.min(HEADER))
    }
}

fn cut(random: &mut Random, bytes: &mut Vec<u8>) {
    let length = bytes.len();
    let keep = match random.below(4) {
        0 => length - 1,
        1 => random.below(length),
        _ => random.below(length.min(HEADER + 1)),
    };
    bytes.truncate(keep);
}

/// Bytes that the link must ignore: any, or the same frame again.
pub fn extend(random: &mut Random, bytes: &mut Vec<u8>) {
    if random.coin() && bytes.len() < 200 {
        bytes.extend_from_within(..);
    } else {
        let count = random.between(1, 12);
        bytes.extend(random.bytes(count));
    }
}
