//! `write` lines, all of them readable.

use super::headers;
use super::random::Random;
use super::values;
use super::Line;
use crate::frame::Header;

/// The longest payload there is, one byte above the largest data size.
const LONGEST: usize = 131_073;

pub fn line(random: &mut Random) -> Vec<u8> {
    let mut header = headers::good(random);
    match random.weighted(&[50, 25, 15, 10]) {
        0 => (),
        1 => headers::spoil(random, &mut header),
        2 => {
            headers::spoil(random, &mut header);
            headers::spoil(random, &mut header);
        }
        _ => header.version = random.byte(),
    }
    let length = payload_length(random, &header);
    let due = values::header_length(header.version) + length;
    let out_length = values::out_length(random, due);
    let payload = random.bytes(length);
    words(&header, out_length, &payload)
}

/// The claimed size in most cases, else another length. A long payload that
/// is refused anyway is there only very rarely.
fn payload_length(random: &mut Random, header: &Header) -> usize {
    let size = header.size as usize;
    let costly = size > 2_000 && size > values::largest(header.version);
    if size > LONGEST || costly && !random.once_in(40) {
        return random.below(40);
    }
    match random.weighted(&[80, 5, 5, 3, 4, 3]) {
        0 => size,
        1 => size.saturating_sub(1),
        2 => size + 1,
        3 => 0,
        4 => random.below(40),
        // Lengths that are one header more or less.
        _ => random.pick(&[size + 8, size + 12, size.saturating_sub(8)]),
    }
}

fn words(header: &Header, out_length: usize, payload: &[u8]) -> Vec<u8> {
    let mut line = Line::of("write");
    line.number(u64::from(header.version));
    line.number(u64::from(header.flag));
    line.number(u64::from(header.frame_type));
    line.number(u64::from(header.service.0));
    line.number(u64::from(header.info));
    line.number(u64::from(header.session.0));
    line.number(u64::from(header.size));
    line.number(u64::from(header.id.0));
    line.number(out_length as u64);
    line.bytes(payload);
    line.end()
}
