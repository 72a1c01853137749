//! What a stretch of lines is after.

use crate::generate::random::Random;

/// The messages that are begun.
#[derive(Clone, Copy, Debug, PartialEq, Eq)]
pub enum Messages {
    /// A few bytes in a few frames.
    Small,
    /// A few blocks.
    Blocks,
    /// As much as cap and room give, and a block more.
    Caps,
    /// As many frames as a patient mood can send: past one wrap or two.
    Long,
    /// The whole room, in few frames or in many.
    Whole,
    /// Any of these.
    Any,
}

/// The offers that openings bring.
#[derive(Clone, Copy, Debug, PartialEq, Eq)]
pub enum Offers {
    /// The bench program's: 32 and 64.
    Bench,
    /// No guarantee, large caps.
    Free,
    /// Caps of a few blocks.
    Tight,
    /// Guarantees that soon fill the room.
    Greedy,
    /// All of the room for one.
    Whole,
    /// Anything.
    Any,
}

/// The weights of openings, starts, ends, heartbeats, single frames, First
/// Frames and consecutive frames.
const USUAL: [usize; 7] = [4, 14, 12, 11, 14, 22, 45];
const PATIENT: [usize; 7] = [0, 2, 0, 2, 4, 4, 190];
const CROWDED: [usize; 7] = [5, 10, 8, 6, 8, 40, 25];
const WOVEN: [usize; 7] = [1, 8, 4, 2, 4, 30, 75];
const WHOLE: [usize; 7] = [0, 1, 1, 0, 2, 20, 80];

#[derive(Clone)]
pub struct Mood {
    /// How many sessions are wanted; with 9 the last opening is refused.
    pub sessions: usize,
    pub offers: Offers,
    pub messages: Messages,
    /// How many messages are open at a time, about.
    pub open_messages: usize,
    pub weights: [usize; 7],
    /// Of 100 frames, how many are wrong ones.
    pub faults: usize,
    /// Of 100 lines, how many are damaged.
    pub damage: usize,
    /// Whether a frame is sent twice now and then.
    pub repeats: bool,
    /// The longest payload of a frame in these lines.
    pub largest_payload: usize,
    /// Once in so many times a long frame is really sent.
    pub long_frames: usize,
    /// The lines still to come.
    pub left: usize,
}

/// The kinds of moods, in the order in which they come again and again: not
/// left to chance, so that a script of 10,000 lines has its share of each.
const ORDER: [Kind; 20] = [
    Kind::Usual,
    Kind::Crowded,
    Kind::Woven,
    Kind::Whole,
    Kind::Usual,
    Kind::Usual,
    Kind::Crowded,
    Kind::Usual,
    Kind::Woven,
    Kind::Crowded,
    Kind::Patient,
    Kind::Usual,
    Kind::Crowded,
    Kind::Usual,
    Kind::Woven,
    Kind::Whole,
    Kind::Usual,
    Kind::Crowded,
    Kind::Usual,
    Kind::Usual,
];

#[derive(Clone, Copy)]
enum Kind {
    Usual,
    Patient,
    Crowded,
    Woven,
    Whole,
}

impl Mood {
    /// The mood of this number, for frames with payloads of so many bytes at most.
    pub fn of(random: &mut Random, number: usize, largest_payload: usize) -> Self {
        match ORDER[number % ORDER.len()] {
            Kind::Usual => usual(random, largest_payload),
            Kind::Patient => patient(random, largest_payload),
            Kind::Crowded => crowded(random, largest_payload),
            Kind::Woven => woven(random, largest_payload),
            Kind::Whole => whole(random, largest_payload),
        }
    }
}

fn usual(random: &mut Random, largest_payload: usize) -> Mood {
    Mood {
        sessions: random.pick(&[1, 2, 3, 4, 5, 8, 9]),
        offers: random.pick(&[
            Offers::Bench,
            Offers::Free,
            Offers::Tight,
            Offers::Any,
            Offers::Any,
        ]),
        messages: random.pick(&[
            Messages::Small,
            Messages::Blocks,
            Messages::Blocks,
            Messages::Any,
        ]),
        open_messages: random.pick(&[2, 8, 40]),
        weights: USUAL,
        faults: random.pick(&[30, 30, 40, 50]),
        damage: random.pick(&[10, 10, 15, 20]),
        repeats: true,
        largest_payload,
        long_frames: 4,
        left: random.between(20, 150),
    }
}

/// Few faults, so that messages of some 255 to 520 frames come to their end.
fn patient(random: &mut Random, largest_payload: usize) -> Mood {
    Mood {
        sessions: random.pick(&[1, 1, 2]),
        offers: random.pick(&[Offers::Free, Offers::Free, Offers::Bench]),
        messages: Messages::Long,
        open_messages: random.pick(&[1, 1, 2]),
        weights: PATIENT,
        faults: random.pick(&[0, 0, 1]),
        damage: random.pick(&[0, 0, 1]),
        repeats: false,
        largest_payload,
        long_frames: 8,
        left: random.between(700, 1_100),
    }
}

/// Many sessions that ask for much room.
fn crowded(random: &mut Random, largest_payload: usize) -> Mood {
    Mood {
        sessions: random.pick(&[2, 3, 4, 7, 8, 8]),
        offers: random.pick(&[
            Offers::Greedy,
            Offers::Greedy,
            Offers::Bench,
            Offers::Free,
            Offers::Any,
        ]),
        messages: random.pick(&[Messages::Caps, Messages::Caps, Messages::Any]),
        open_messages: 40,
        weights: CROWDED,
        faults: random.pick(&[15, 25, 35]),
        damage: random.pick(&[5, 10, 15]),
        repeats: true,
        largest_payload,
        long_frames: 6,
        left: random.between(20, 150),
    }
}

/// Many messages of a few blocks at a time, most of which come to their end:
/// the free blocks are soon scattered.
fn woven(random: &mut Random, largest_payload: usize) -> Mood {
    Mood {
        sessions: random.pick(&[2, 4, 6, 8]),
        offers: random.pick(&[Offers::Bench, Offers::Free]),
        messages: Messages::Blocks,
        open_messages: 16,
        weights: WOVEN,
        faults: random.pick(&[2, 5, 10]),
        damage: random.pick(&[1, 3, 5]),
        repeats: false,
        largest_payload,
        long_frames: 1,
        left: random.between(60, 180),
    }
}

/// One session that has the room for itself.
fn whole(random: &mut Random, largest_payload: usize) -> Mood {
    Mood {
        sessions: 1,
        offers: Offers::Whole,
        messages: Messages::Whole,
        open_messages: 1,
        weights: WHOLE,
        faults: random.pick(&[0, 1]),
        damage: random.pick(&[0, 1]),
        repeats: false,
        largest_payload,
        long_frames: 1,
        left: random.between(15, 80),
    }
}

impl Offers {
    /// A guarantee and a cap, in range.
    pub fn guarantee_and_cap(self, random: &mut Random) -> (u16, u16) {
        match self {
            Offers::Bench => (32, 64),
            Offers::Free => (0, random.pick(&[128, 200, 255, 256, 256, 256])),
            Offers::Whole => random.pick(&[(0, 256), (100, 256), (256, 256)]),
            Offers::Tight => random.pick(&[
                (0, 0),
                (0, 1),
                (1, 2),
                (2, 3),
                (0, 4),
                (3, 6),
                (8, 10),
                (5, 16),
            ]),
            Offers::Greedy => random.pick(&[
                (100, 200),
                (100, 256),
                (100, 256),
                (64, 256),
                (128, 256),
                (32, 256),
                (30, 100),
                (255, 256),
                (256, 256),
            ]),
            Offers::Any => {
                let cap = random.pick(&[3, 20, 100, 256, 256]);
                let cap = random.between(0, cap);
                (random.between(0, cap.min(60)) as u16, cap as u16)
            }
        }
    }
}
