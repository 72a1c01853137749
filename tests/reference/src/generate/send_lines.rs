//! `send` lines, all of them readable.

use super::random::Random;
use super::values;
use super::Line;

/// The words of a `send` line, but for OUTLEN, and the message's length.
struct Case {
    version: u8,
    service: u8,
    chunk: u32,
    k: u32,
    length: usize,
}

pub fn line(random: &mut Random) -> Vec<u8> {
    let mut case = good_case(random);
    match random.weighted(&[75, 17, 8]) {
        0 => (),
        1 => spoil(random, &mut case),
        _ => {
            spoil(random, &mut case);
            spoil(random, &mut case);
        }
    }
    let due = frame_length(&case);
    let out_length = values::out_length(random, due);
    words(random, &case, out_length)
}

/// A case whose version, service and chunk are good.
fn good_case(random: &mut Random) -> Case {
    let version = random.between(1, 5) as u8;
    let (chunk, length) = match random.weighted(&[250, 400, 180, 150, 12]) {
        0 => one_chunk(random, version),
        1 => few_chunks(random),
        2 => many_chunks(random),
        3 => limit_chunk(random, version),
        _ => long_message(random, version),
    };
    let k = frame_asked(random, chunk, length);
    Case {
        version,
        service: random.pick(&values::SERVICES),
        chunk: chunk as u32,
        k,
        length,
    }
}

/// A message that fits one chunk, sometimes just so; often an empty one.
fn one_chunk(random: &mut Random, version: u8) -> (usize, usize) {
    let length = match random.below(6) {
        0 => 0,
        1 => 1,
        _ => random.between(0, 200),
    };
    let least = length.max(1);
    let chunk = match random.below(4) {
        0 => least,
        1 => least + 1,
        2 => values::largest(version),
        _ => random.between(least, 1_488),
    };
    (chunk, length)
}

fn few_chunks(random: &mut Random) -> (usize, usize) {
    let chunk = random.between(1, 30);
    let count = random.between(2, 12);
    (chunk, values::message_length(random, chunk, count))
}

/// Around the wraps of the frames' numbers; longer messages in smaller chunks.
fn many_chunks(random: &mut Random) -> (usize, usize) {
    let count = match random.below(6) {
        0 => random.between(200, 300),
        _ => values::count_at_wrap(random),
    };
    let chunk = match count {
        ..=300 => random.pick(&[1, 1, 1, 2, 3, 4]),
        _ => random.pick(&[1, 1, 2]),
    };
    (chunk, values::message_length(random, chunk, count))
}

/// A chunk at its limits; its message is around it only if that is short.
fn limit_chunk(random: &mut Random, version: u8) -> (usize, usize) {
    let largest = values::largest(version);
    let chunk = random.pick(&[1, 2, 1_487, 1_488, largest - 1, largest]);
    let length = match chunk {
        1_487..=1_488 if random.coin() => random.pick(&[
            chunk - 1,
            chunk,
            chunk + 1,
            chunk + 4,
            2 * chunk,
            2 * chunk + 1,
        ]),
        _ => random.between(0, 120),
    };
    (chunk, length)
}

/// Around the largest total of 65,536: in one chunk, in more, and in one for
/// each byte or two. The sender's 18 needs such a message, so that most have
/// just the length for it.
fn long_message(random: &mut Random, version: u8) -> (usize, usize) {
    let length = match random.weighted(&[70, 5, 7, 18]) {
        0 => random.pick(&[65_535, 65_536, 65_536, 65_537, 65_537, 65_537]),
        1 => random.between(65_537, 131_073),
        2 => random.pick(&[131_071, 131_072, 131_073]),
        _ => values::long_length(random, 65_536),
    };
    let largest = values::largest(version);
    let chunk = match random.weighted(&[2, 3, 2, 5]) {
        0 => length.min(largest),
        1 => random.pick(&[255, 256, 257, 1_488, 8_192, 32_768, 65_535, 65_536]),
        2 => random.pick(&[65_536, 65_537, 131_071, 131_072]),
        _ => random.pick(&[1, 1, 2]),
    };
    (chunk.min(largest), length)
}

/// A k around the first frame, the last, the wraps, and the limits.
fn frame_asked(random: &mut Random, chunk: usize, length: usize) -> u32 {
    let last = last_frame(chunk, length);
    let at_wraps = if last < 254 { 2 } else { 60 };
    let number = match random.weighted(&[25, 12, 10, 20, 10, 4, 2, 15, at_wraps]) {
        0 => 0,
        1 => 1,
        2 => last.saturating_sub(1),
        3 => last,
        4 => last + 1,
        5 => u32::MAX as usize,
        6 => random.pick(&[2, 258, 65_535, 65_536, 0x8000_0000]),
        7 => random.between(0, last),
        _ => near_wrap(random, last),
    };
    number as u32
}

/// A frame next to a wrap of the numbers, mostly the first, the second or the
/// last wrap that the message has: 254 to 257, 509 to 512 and so on.
fn near_wrap(random: &mut Random, last: usize) -> usize {
    let wraps = (last / 255).max(1);
    let any = random.between(1, wraps);
    let wrap = random.pick(&[1, wraps.min(2), wraps, any]);
    255 * wrap - 1 + random.below(4)
}

/// The last frame's number: 0 if the message fits one chunk, else the count.
fn last_frame(chunk: usize, length: usize) -> usize {
    if length <= chunk {
        0
    } else {
        length.div_ceil(chunk)
    }
}

/// Gives the case a fault in version, service, chunk or k.
fn spoil(random: &mut Random, case: &mut Case) {
    match random.below(5) {
        0 => case.version = random.pick(&values::BAD_VERSIONS),
        1 => case.service = random.pick(&values::BAD_SERVICES),
        2 => case.chunk = 0,
        3 => case.chunk = values::size_above(random, case.version),
        _ => case.k = random.pick(&[1_000, u32::MAX]),
    }
}

/// The length of the frame asked for, if there is one.
fn frame_length(case: &Case) -> usize {
    let chunk = (case.chunk as usize).max(1);
    let k = case.k as usize;
    let last = last_frame(chunk, case.length);
    let payload = match k {
        0 if last == 0 => case.length,
        0 => 8,
        _ if k == last => case.length - (last - 1) * chunk,
        _ if k < last => chunk,
        _ => 0,
    };
    values::header_length(case.version) + payload
}

fn words(random: &mut Random, case: &Case, out_length: usize) -> Vec<u8> {
    let mut line = Line::of("send");
    line.number(u64::from(case.version));
    line.number(u64::from(case.service));
    line.number(u64::from(values::session(random)));
    line.number(u64::from(values::id(random)));
    line.number(u64::from(case.chunk));
    line.number(u64::from(case.k));
    line.number(out_length as u64);
    line.bytes(&random.bytes(case.length));
    line.end()
}

#[cfg(test)]
mod tests {
    use super::*;
    use crate::burst;
    use crate::driver::Driver;
    use std::collections::BTreeMap;

    /// How often a thing was seen.
    type Times<T> = BTreeMap<T, usize>;

    /// The number at this place of a line's words.
    fn number(line: &[u8], place: usize) -> usize {
        let word = line.split(|&byte| byte == b' ').nth(place).unwrap();
        String::from_utf8_lossy(word).parse().unwrap()
    }

    /// The frames asked for and written, as count and k, and all refusals.
    fn answers_to(lines: usize) -> (Times<(usize, usize)>, Times<String>) {
        let mut random = Random::of(1);
        let mut driver = Driver::default();
        let (mut written, mut refused) = (Times::new(), Times::new());
        for _ in 0..lines {
            let line = line(&mut random);
            let mut answer = Vec::new();
            driver.answer(&line, &mut answer);
            if answer.starts_with(b"B") {
                let message = line.rsplit(|&byte| byte == b' ').next().unwrap();
                let count = last_frame(number(&line, 5), message.len() / 2);
                *written.entry((count, number(&line, 6))).or_default() += 1;
            } else {
                let answer = String::from_utf8_lossy(&answer).into_owned();
                *refused.entry(answer).or_default() += 1;
            }
        }
        (written, refused)
    }

    #[test]
    fn every_wrap_and_every_refusal_is_tried() {
        let (written, refused) = answers_to(60_000);
        for refusal in ["R 1", "R 3", "R 10", "R 11", "R 18", "R 26"] {
            assert!(refused[refusal] > 150, "{refusal}: {}", refused[refusal]);
        }
        for count in [255, 256, 257, 510, 511, 512, 765, 766] {
            let near = (0..=count).filter(|&k| k + 2 > count || burst::near_wrap(k));
            for k in near {
                assert!(written.contains_key(&(count, k)), "{k} of {count}");
            }
        }
        for (count, k) in [
            (65_536, 65_536),
            (65_536, 65_535),
            (65_535, 65_535),
            (65_536, 0),
        ] {
            assert!(written.contains_key(&(count, k)), "{k} of {count}");
        }
        let of_many = written.keys().filter(|(count, _)| *count >= 32_768);
        assert!(of_many.filter(|(_, k)| burst::near_wrap(*k)).count() > 10);
    }
}
