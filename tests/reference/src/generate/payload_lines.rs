//! `payload` lines, all of them readable.
//!
//! They come in families: a payload made at random, and the same one
//! damaged with and without its length fields mended, cut and extended.

use super::draft::Draft;
use super::elements::{self, Faults};
use super::random::Random;
use super::Line;

/// The limits of a payload's length, 5 and 1,024, and their neighbours.
const LENGTHS: [usize; 6] = [1_022, 1_023, 1_024, 1_024, 1_025, 1_026];

/// Bytes worth putting anywhere: ends, types, small lengths, booleans.
const TELLING_BYTES: [u8; 16] = [
    0, 0, 0, 1, 2, 3, 4, 5, 8, 0x0a, 0x10, 0x12, 0x05, 0x11, 0x80, 0xff,
];

/// Small errors, and one in each of a length field's higher bytes.
const LENGTH_ERRORS: [i64; 10] = [1, 1, 1, -1, -1, 2, -4, 256, 0x0001_0000, 0x8000_0000];

const NO_FAULTS: Faults = Faults {
    left: 0,
    once_in: 1,
};

/// Which length fields are made true again after damage.
#[derive(Clone, Copy, PartialEq, Eq)]
enum Mended {
    None,
    Outer,
    All,
}

/// One line of a family.
pub fn line(random: &mut Random) -> Vec<u8> {
    let mut lines = family(random);
    let place = random.below(lines.len());
    lines.swap_remove(place)
}

/// A payload's lines: itself, and what damage makes of it.
pub fn family(random: &mut Random) -> Vec<Vec<u8>> {
    let draft = payload(random);
    let payloads = [
        draft.bytes.clone(),
        damaged(random, &draft, Mended::None),
        damaged(random, &draft, Mended::Outer),
        damaged(random, &draft, Mended::All),
        cut(random, &draft),
        extended(random, &draft),
        tiny(random),
    ];
    payloads.iter().map(|payload| written(payload)).collect()
}

/// A payload of any kind: one of a family's, as bytes.
pub fn any_payload(random: &mut Random) -> Vec<u8> {
    let draft = payload(random);
    match random.below(4) {
        0 => draft.bytes,
        1 => damaged(random, &draft, Mended::All),
        2 => damaged(random, &draft, Mended::Outer),
        _ => tiny(random),
    }
}

fn written(payload: &[u8]) -> Vec<u8> {
    let mut line = Line::of("payload");
    line.bytes(payload);
    line.end()
}

fn payload(random: &mut Random) -> Draft {
    match random.weighted(&[34, 40, 16, 10]) {
        0 => elements::payload(random, NO_FAULTS),
        1 => {
            let faults = some_faults(random);
            elements::payload(random, faults)
        }
        2 => deep(random),
        _ => long(random),
    }
}

fn some_faults(random: &mut Random) -> Faults {
    if random.once_in(4) {
        many_faults()
    } else {
        one_fault(random)
    }
}

fn one_fault(random: &mut Random) -> Faults {
    Faults {
        left: 1,
        once_in: random.pick(&[1, 2, 4, 8]),
    }
}

fn many_faults() -> Faults {
    Faults {
        left: usize::MAX,
        once_in: 5,
    }
}

/// Depths around the limit of 8, sometimes with a fault that comes before
/// or behind the depth's.
fn deep(random: &mut Random) -> Draft {
    let deepest = random.pick(&[2, 7, 8, 8, 8, 9, 9, 9, 10]);
    let faults = match random.below(4) {
        0 | 1 => NO_FAULTS,
        2 => some_faults(random),
        // Mostly in the innermost document: few elements come before it.
        _ => Faults {
            left: 1,
            once_in: 1,
        },
    };
    elements::deep_payload(random, deepest, faults)
}

fn long(random: &mut Random) -> Draft {
    let length = random.pick(&LENGTHS);
    let faults = if random.once_in(4) {
        one_fault(random)
    } else {
        NO_FAULTS
    };
    elements::payload_of_length(random, length, faults)
}

/// The payload with one to three bytes changed, added or taken away.
fn damaged(random: &mut Random, draft: &Draft, mended: Mended) -> Vec<u8> {
    let mut draft = draft.clone();
    for _ in 0..random.pick(&[1, 1, 1, 2, 3]) {
        damage(random, &mut draft, mended);
    }
    match mended {
        Mended::None => (),
        Mended::Outer => draft.mend_outer(),
        Mended::All => draft.mend_all(),
    }
    draft.bytes
}

fn damage(random: &mut Random, draft: &mut Draft, mended: Mended) {
    if draft.bytes.is_empty() {
        return;
    }
    let place = random.below(draft.bytes.len());
    // Adding and taking away without mending is always 30: less of that.
    let weights = match mended {
        Mended::None => [8, 4, 4, 1, 1],
        Mended::Outer => [3, 2, 3, 2, 2],
        Mended::All => [3, 2, 0, 3, 3],
    };
    match random.weighted(&weights) {
        0 => draft.bytes[place] = random.pick(&TELLING_BYTES),
        1 => draft.bytes[place] ^= 1 << random.below(8),
        2 => {
            let field = random.below(draft.fields());
            draft.falsify(field, random.pick(&LENGTH_ERRORS));
        }
        3 => draft.insert(place, random.pick(&TELLING_BYTES)),
        _ => draft.remove(place),
    }
}

/// The front of the payload, mostly with the outer length that fits it.
fn cut(random: &mut Random, draft: &Draft) -> Vec<u8> {
    let mut draft = draft.clone();
    let length = draft.bytes.len();
    let keep = match random.below(4) {
        0 => length - 1,
        1 => length - random.between(1, length.min(12)),
        _ => random.below(length),
    };
    draft.cut(keep);
    match random.below(4) {
        0 => (),
        1 | 2 => draft.mend_outer(),
        _ => draft.mend_all(),
    }
    draft.bytes
}

/// The payload with bytes behind it, mostly with the outer length that fits.
fn extended(random: &mut Random, draft: &Draft) -> Vec<u8> {
    let mut draft = draft.clone();
    let count = random.pick(&[1, 1, 2, 4, 9]);
    let more = if random.coin() {
        vec![0; count]
    } else {
        random.bytes(count)
    };
    draft.extend(&more);
    if !random.once_in(3) {
        draft.mend_outer();
    }
    draft.bytes
}

/// No bytes, too few for a length, the shortest documents, bytes of no plan.
fn tiny(random: &mut Random) -> Vec<u8> {
    let mut bytes = match random.below(5) {
        0 => return Vec::new(),
        1 => {
            let length = random.between(1, 4);
            random.bytes(length)
        }
        2 => vec![0; random.between(1, 8)],
        3 => {
            let length = random.between(4, 40);
            random.bytes(length)
        }
        _ => telling_bytes(random),
    };
    if bytes.len() >= 4 && !random.once_in(6) {
        let length = bytes.len() as u32;
        bytes[..4].copy_from_slice(&length.to_le_bytes());
    }
    bytes
}

/// Few bytes, each of which may be a type, an end or a small length: they
/// make every order of faults in little room.
fn telling_bytes(random: &mut Random) -> Vec<u8> {
    let mut bytes = vec![0; 4];
    for _ in 0..random.between(1, 16) {
        bytes.push(random.pick(&TELLING_BYTES));
    }
    if random.coin() {
        bytes.push(0);
    }
    bytes
}
