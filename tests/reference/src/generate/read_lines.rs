//! `read` lines, all of them readable.

use super::headers;
use super::random::Random;
use super::values;
use super::Line;
use crate::frame::FIRST;

pub fn line(random: &mut Random) -> Vec<u8> {
    let bytes = match random.weighted(&[28, 12, 20, 20, 12, 8]) {
        0 => whole(random),
        1 => with_bytes_behind(random),
        2 => truncated(random),
        3 => faulty(random),
        4 => damaged(random),
        _ => random_bytes(random),
    };
    let mut line = Line::of("read");
    line.bytes(&bytes);
    line.end()
}

/// A good frame.
fn whole(random: &mut Random) -> Vec<u8> {
    let header = headers::good(random);
    let mut bytes = headers::raw(&header);
    bytes.extend(random.bytes(header.size as usize));
    bytes
}

/// A good frame and what the reader must ignore: a few bytes or a frame.
fn with_bytes_behind(random: &mut Random) -> Vec<u8> {
    let mut bytes = whole(random);
    if random.coin() {
        let length = random.between(1, 20);
        bytes.extend(random.bytes(length));
    } else {
        bytes.extend(whole(random));
    }
    bytes
}

/// The front of a good frame, of any claimed size.
fn truncated(random: &mut Random) -> Vec<u8> {
    let mut bytes = if random.coin() {
        whole(random)
    } else {
        claiming_frame(random)
    };
    let keep = match random.below(5) {
        0 => bytes.len() - 1,
        1 => random.below(bytes.len()),
        _ => random.between(0, 12),
    };
    bytes.truncate(keep);
    bytes
}

/// A good header that claims any size, and a few bytes behind it.
fn claiming_frame(random: &mut Random) -> Vec<u8> {
    let mut header = headers::good(random);
    if header.frame_type != FIRST {
        header.size = values::claimed_size(random, header.version) as u32;
    }
    let mut bytes = headers::raw(&header);
    bytes.extend(random.bytes((header.size as usize).min(9)));
    bytes
}

/// A header with one or two faults, mostly with its payload behind it.
fn faulty(random: &mut Random) -> Vec<u8> {
    let mut header = headers::good(random);
    headers::spoil(random, &mut header);
    if random.coin() {
        headers::spoil(random, &mut header);
    }
    let mut bytes = headers::raw(&header);
    let length = payload_there(random, header.size);
    bytes.extend(random.bytes(length));
    if random.once_in(10) {
        bytes.truncate(random.between(6, 12));
    }
    bytes
}

/// A payload above the largest size is there in full only very rarely.
fn payload_there(random: &mut Random, size: u32) -> usize {
    match size {
        0..=1_500 => size as usize,
        131_073 if random.once_in(20) => size as usize,
        _ => random.below(40),
    }
}

/// A good frame with one to three bits flipped, mostly in its header.
fn damaged(random: &mut Random) -> Vec<u8> {
    let mut bytes = whole(random);
    for _ in 0..random.between(1, 3) {
        let end = if random.once_in(4) { bytes.len() } else { 8 };
        let place = random.below(end);
        bytes[place] ^= 1 << random.below(8);
    }
    bytes
}

/// Bytes of no plan, sometimes behind a good first half of a header.
fn random_bytes(random: &mut Random) -> Vec<u8> {
    let length = random.between(0, 40);
    let mut bytes = random.bytes(length);
    if random.coin() {
        let front = headers::raw(&headers::good(random));
        let kept = length.min(4);
        bytes[..kept].copy_from_slice(&front[..kept]);
    }
    bytes
}
