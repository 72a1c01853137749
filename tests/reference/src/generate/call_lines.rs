//! `new` and `call` lines that keep sessions, services and messages alive.
//!
//! Each line of the script is fed to a model, the reference's own driver, so
//! that the next one can go on from there.

use super::random::Random;
use super::talk::mood::Mood;
use super::talk::{self, Plan, Scene};
use super::values::LARGEST_OUT;
use super::Line;
use crate::driver::Driver;
use crate::frame;
use crate::link::{self, Link};

/// The longest payload of a frame, and the largest message of a link.
const LARGEST_PAYLOAD: usize = 131_072;
const LARGEST_MESSAGE: usize = 65_536;

/// The link's least out buffer.
const LEAST_OUT: usize = 128;

const HASHES: [u32; 6] = [39_027, 0, 1, 0x8000_0000, u32::MAX, 0x0102_0304];

/// Good mtus, the small ones more often: 15 is cheap there.
const MTUS: [u64; 12] = [
    1_500, 1_500, 1_500, 1_500, 1_501, 1_512, 2_000, 65_548, 131_083, 131_084, 131_084, 131_084,
];

/// The module's major versions, one link after another.
const MAJORS: [u64; 12] = [5, 4, 5, 3, 5, 2, 5, 5, 1, 5, 4, 5];

/// Each with one number out of range.
const BAD_SETTINGS: [[u64; 4]; 8] = [
    [0, 4, 1, 131_084],
    [6, 0, 0, 131_084],
    [255, 4, 1, 1_500],
    [5, 4, 1, 0],
    [5, 4, 1, 1_499],
    [4, 0, 0, 131_085],
    [1, 255, 255, 4_294_967_295],
    [0, 0, 0, 0],
];

/// The model and what the lines are after.
pub struct Calls {
    model: Driver,
    mood: Mood,
    /// How many moods and links there were.
    moods: usize,
    links: usize,
    /// The calls still to be made while there is no link.
    without_link: usize,
    /// The last frame, to be sent again now and then.
    last: Vec<u8>,
}

impl Calls {
    pub fn new(random: &mut Random) -> Self {
        Calls {
            model: Driver::default(),
            mood: Mood::of(random, 0, LARGEST_PAYLOAD),
            moods: 0,
            links: random.below(MAJORS.len()),
            without_link: random.between(1, 3),
            last: Vec::new(),
        }
    }

    /// The next line; it is not fed to the model yet.
    pub fn line(&mut self, random: &mut Random) -> Vec<u8> {
        let Some(link) = self.model.link() else {
            return self.line_without_link(random);
        };
        if self.mood.left == 0 {
            self.moods += 1;
            self.mood = Mood::of(random, self.moods, LARGEST_PAYLOAD);
            if !random.once_in(4) {
                return self.new_line(random);
            }
        }
        self.mood.left -= 1;
        let mut scene = Scene {
            random,
            link,
            mood: &self.mood,
        };
        let plan = talk::plan(&mut scene);
        let mut bytes = plan.bytes();
        if random.below(100) < self.mood.damage {
            talk::damage(random, &mut bytes);
        } else if self.mood.repeats && random.once_in(40) && self.last.len() < 400 {
            bytes.clone_from(&self.last);
        }
        self.last.clone_from(&bytes);
        call_line(random, &self.mood, &plan, link, &bytes)
    }

    /// Feeds a line of the script to the model.
    pub fn note(&mut self, line: &[u8]) {
        if line.starts_with(b"new") || line.starts_with(b"call") {
            self.model.answer(line, &mut Vec::new());
        }
    }

    /// Some calls that nobody can answer, then a link.
    fn line_without_link(&mut self, random: &mut Random) -> Vec<u8> {
        if self.without_link == 0 {
            self.without_link = random.below(3);
            return self.new_line(random);
        }
        self.without_link -= 1;
        let mut line = Line::of("call");
        for number in [32, 64, 39_027, 128] {
            line.number(number);
        }
        let bytes: &[u8] = random.pick(&[&[0x10, 7, 1, 0, 0, 0, 0, 0][..], &[0x60, 7], &[]]);
        line.bytes(bytes);
        line.end()
    }

    fn new_line(&mut self, random: &mut Random) -> Vec<u8> {
        let mut line = Line::of("new");
        for number in self.settings(random) {
            line.number(number);
        }
        line.end()
    }

    fn settings(&mut self, random: &mut Random) -> [u64; 4] {
        if random.once_in(6) {
            return random.pick(&BAD_SETTINGS);
        }
        self.links += 1;
        let major = MAJORS[self.links % MAJORS.len()];
        let minor = random.pick(&[4, 4, 0, 1, 255]);
        let patch = random.pick(&[1, 1, 0, 7, 255]);
        let mtu = match random.below(8) {
            0 => random.between(1_500, 131_084) as u64,
            _ => random.pick(&MTUS),
        };
        [major, minor, patch, mtu]
    }
}

fn call_line(random: &mut Random, mood: &Mood, plan: &Plan, link: &Link, bytes: &[u8]) -> Vec<u8> {
    let mut line = Line::of("call");
    let (guarantee, cap) = guarantee_and_cap(random, mood, plan);
    line.number(u64::from(guarantee));
    line.number(u64::from(cap));
    line.number(u64::from(hash(random)));
    line.number(out_length(random, plan.due(link)) as u64);
    line.bytes(bytes);
    line.end()
}

/// Out of range now and then, for 10; in range, but else of no meaning,
/// where the frame opens no session.
fn guarantee_and_cap(random: &mut Random, mood: &Mood, plan: &Plan) -> (u16, u16) {
    if random.once_in(40) {
        return random.pick(&[
            (1, 0),
            (33, 32),
            (256, 255),
            (0, 257),
            (257, 257),
            (65_535, 65_535),
            (0, 65_535),
        ]);
    }
    let header = &plan.header;
    let opening = header.frame_type == frame::CONTROL && header.info == link::START;
    if opening || random.once_in(4) {
        mood.offers.guarantee_and_cap(random)
    } else {
        random.pick(&[(32, 64), (0, 0), (256, 256), (100, 200)])
    }
}

fn hash(random: &mut Random) -> u32 {
    match random.below(3) {
        0 => random.bits32(),
        _ => random.pick(&HASHES),
    }
}

/// Around the bytes due: exactly so many, one less, plenty.
fn out_length(random: &mut Random, due: usize) -> usize {
    let least = due.max(LEAST_OUT);
    let length = match random.weighted(&[300, 120, 120, 20, 12, 3, 1]) {
        0 => least,
        1 if due > 0 => least - usize::from(random.coin()),
        1 | 2 => least + random.between(1, 200),
        3 => LEAST_OUT,
        4 => random.pick(&[0, 1, 126, 127, 127]),
        5 => LARGEST_MESSAGE,
        _ => random.pick(&[LARGEST_OUT - 1, LARGEST_OUT]),
    };
    length.min(LARGEST_OUT)
}
