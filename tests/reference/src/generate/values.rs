//! The values worth trying: each limit of documents 01 and 02 and its neighbours.

use super::random::Random;
use crate::burst;

/// The largest data size in versions 1 and 2, and in 3 to 5.
const OLD_LARGEST: usize = 1_488;
const NEW_LARGEST: usize = 131_072;

/// The largest OUTLEN that DRIVER.md reads.
pub const LARGEST_OUT: usize = 131_084;

/// Frames and messages above this length are rare.
const USUAL_LARGEST: usize = 2_000;

/// 16, 17, 32, 81 and 255 would be read as 0, 1, 0, 1 and 15 if only 4 bits
/// were looked at.
pub const BAD_VERSIONS: [u8; 12] = [0, 0, 6, 6, 7, 8, 15, 16, 17, 32, 81, 255];

/// 8, 9 and 10 have the low bits of good types.
pub const BAD_TYPES: [u8; 9] = [4, 4, 5, 6, 7, 8, 9, 10, 255];

pub const SERVICES: [u8; 5] = [0x00, 0x07, 0x0a, 0x0b, 0x0f];

/// Those not listed, next to the listed ones.
pub const BAD_SERVICES: [u8; 13] = [
    0x01, 0x06, 0x08, 0x09, 0x0c, 0x0e, 0x10, 0x17, 0x70, 0x80, 0x87, 0xf0, 0xff,
];

pub const CONTROL_INFOS: [u8; 13] = [0, 1, 2, 3, 4, 5, 6, 7, 8, 9, 0xfd, 0xfe, 0xff];

pub const BAD_CONTROL_INFOS: [u8; 9] = [0x0a, 0x0a, 0x0b, 0x10, 0x7f, 0x80, 0xfb, 0xfc, 0xfc];

/// "First Frame size not 8": also 8 with its bytes in the wrong order.
pub const BAD_FIRST_SIZES: [u32; 9] = [0, 1, 7, 9, 16, 264, 1_488, 0x0800_0000, u32::MAX];

/// Above the largest in versions 1 and 2; 1,492 is one of the "Errors we have seen".
const ABOVE_OLD: [u32; 7] = [1_489, 1_489, 1_492, 1_500, 131_072, 131_073, u32::MAX];

/// Above the largest in versions 3 to 5, some with few low bits set.
const ABOVE_NEW: [u32; 8] = [
    131_073,
    131_073,
    131_084,
    0x0010_0000,
    0x7fff_ffff,
    0x8000_0000,
    0x8000_0001,
    u32::MAX,
];

pub const IDS: [u32; 8] = [0, 0, 1, 7, 0x7fff_ffff, 0x8000_0000, 0xffff_fffe, u32::MAX];

pub const SESSIONS: [u8; 7] = [0, 1, 2, 8, 127, 254, 255];

pub fn largest(version: u8) -> usize {
    if version <= 2 {
        OLD_LARGEST
    } else {
        NEW_LARGEST
    }
}

pub fn header_length(version: u8) -> usize {
    if version == 1 {
        8
    } else {
        12
    }
}

/// A data size above the largest of its version.
pub fn size_above(random: &mut Random, version: u8) -> u32 {
    if version <= 2 {
        random.pick(&ABOVE_OLD)
    } else {
        random.pick(&ABOVE_NEW)
    }
}

pub fn id(random: &mut Random) -> u32 {
    if random.coin() {
        random.pick(&IDS)
    } else {
        random.bits32()
    }
}

pub fn session(random: &mut Random) -> u8 {
    if random.coin() {
        random.pick(&SESSIONS)
    } else {
        random.byte()
    }
}

/// An info of a frame that may carry any.
pub fn any_info(random: &mut Random) -> u8 {
    if random.coin() {
        random.pick(&[0, 0, 1, 2, 9, 10, 0xfc, 0xfe, 0xff])
    } else {
        random.byte()
    }
}

/// A data size from `least` to the version's largest, mostly small.
pub fn size(random: &mut Random, version: u8, least: usize) -> usize {
    match random.weighted(&[130, 40, 12, 10, 4]) {
        0 => random.between(least, 24),
        1 => random.between(25, 200),
        2 => random.pick(&[1, 8, 1_487, 1_488]),
        3 => random.between(201, OLD_LARGEST),
        _ if version <= 2 => OLD_LARGEST,
        _ => rare_size(random),
    }
}

/// Any data size up to the version's largest, for frames whose payload is
/// not there in full: long ones cost nothing then.
pub fn claimed_size(random: &mut Random, version: u8) -> usize {
    let largest = largest(version);
    match random.below(4) {
        0 => random.pick(&[1, 8, 255, 256, 1_487, 1_488]),
        1 => random.between(largest - 1, largest),
        _ => random.between(1, largest),
    }
}

/// A size that only versions 3 to 5 have, now and then the largest.
fn rare_size(random: &mut Random) -> usize {
    if random.once_in(7) {
        return random.pick(&[65_535, 65_536, 65_537, NEW_LARGEST - 1, NEW_LARGEST]);
    }
    if random.once_in(3) {
        return random.pick(&[1_489, 1_492, USUAL_LARGEST, 4_096]);
    }
    long_length(random, NEW_LARGEST)
}

/// A length above the usual ones: each doubling is about as likely as the
/// one before it, so that the script stays small.
pub fn long_length(random: &mut Random, last: usize) -> usize {
    let mut end = USUAL_LARGEST;
    while end < last && random.between(1, 6) > 1 {
        end *= 2;
    }
    random.between(USUAL_LARGEST + 1, last.min(end * 2))
}

/// An out buffer's length, around the bytes due.
pub fn out_length(random: &mut Random, due: usize) -> usize {
    let length = match random.weighted(&[44, 16, 14, 4, 6, 12, 3, 1]) {
        0 => due,
        1 => due.saturating_sub(1),
        2 => due + 1,
        3 => 0,
        4 => random.pick(&[1, 7, 8, 9, 11, 12, 13, 19, 20, 21]),
        5 => due + random.below(300),
        6 => random.pick(&[LARGEST_OUT - 1, LARGEST_OUT]),
        _ => random.below(LARGEST_OUT + 1),
    };
    length.min(LARGEST_OUT)
}

/// The length of a message in `count` chunks: the longest, the shortest or
/// one between.
pub fn message_length(random: &mut Random, chunk: usize, count: usize) -> usize {
    let shortest = chunk * (count - 1) + 1;
    let longest = chunk * count;
    match random.below(3) {
        0 => shortest,
        1 => longest,
        _ => random.between(shortest, longest),
    }
}

/// A count of frames at one of the first three wraps of their numbers: 255,
/// 256, 257, 510 and so on, those of the first wrap more often.
pub fn count_at_wrap(random: &mut Random) -> usize {
    255 * random.pick(&[1, 1, 1, 1, 2, 2, 3]) + random.below(3)
}

/// Whether it is worth trying a wrong number in the k-th of `count` frames:
/// next to a wrap, and in the last frame behind one.
pub fn telling_number(k: usize, count: usize) -> bool {
    burst::near_wrap(k) || (k == count && count > 255)
}

/// A number that the k-th of `count` frames must not carry: 0 too early, the
/// last one's number instead of 0, one skipped, one again, 255 again behind a
/// wrap, the low byte of k.
pub fn wrong_number(random: &mut Random, k: usize, count: usize) -> u8 {
    let right = burst::frame_number(k, count);
    let were_it_not_last = burst::frame_number(k, count + 1);
    let next = right.wrapping_add(1);
    let before = right.wrapping_sub(1);
    let mut numbers = vec![0, 1, 255, were_it_not_last, next, before, k as u8];
    numbers.retain(|&number| number != right);
    random.pick(&numbers)
}

#[cfg(test)]
mod tests {
    use super::*;
    use std::collections::BTreeSet;

    #[test]
    fn wrong_numbers_are_those_that_a_wrap_invites() {
        let mut random = Random::of(1);
        for (k, count, wrong) in [
            // 0 and 2 after 255, 255 again.
            (256, 257, &[0, 2, 255][..]),
            (511, 766, &[0, 2, 255]),
            (255, 256, &[0, 1, 254]),
            // As if the numbers began anew at 0, or only behind 256.
            (257, 258, &[0, 1, 3, 255]),
            // The last frame carries its number instead of 0.
            (255, 255, &[1, 255]),
            (256, 256, &[1, 255]),
            (257, 257, &[1, 2, 255]),
            (400, 400, &[1, 144, 145, 255]),
            (2, 3, &[0, 1, 3, 255]),
        ] {
            assert!(k < 4 || telling_number(k, count), "{k} of {count}");
            let tried = (0..1_000).map(|_| wrong_number(&mut random, k, count));
            let tried: BTreeSet<u8> = tried.collect();
            assert!(tried.iter().eq(wrong), "{k} of {count}: {tried:?}");
        }
        assert!(!telling_number(253, 400) && !telling_number(258, 400));
        assert!(!telling_number(200, 200) && telling_number(508, 508));
    }
}
