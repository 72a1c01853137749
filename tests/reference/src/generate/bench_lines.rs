//! Hexadecimal lines for the bench program, kept alive in the same way as
//! `call` lines: the reference's own bench is the model.

use super::random::Random;
use super::talk::mood::Mood;
use super::talk::{self, Scene};
use crate::bench::{Bench, MOST_DIGITS};
use crate::text;

/// The longest payload behind a header of 12 bytes in 3,000 digits.
const LARGEST_PAYLOAD: usize = MOST_DIGITS / 2 - 12;

pub struct BenchLines {
    model: Bench,
    mood: Mood,
    /// How many moods there were.
    moods: usize,
}

impl BenchLines {
    pub fn new(random: &mut Random) -> Self {
        BenchLines {
            model: Bench::new(),
            mood: Mood::of(random, 0, LARGEST_PAYLOAD),
            moods: 0,
        }
    }

    /// The next line, already fed to the model.
    pub fn line(&mut self, random: &mut Random) -> Vec<u8> {
        if self.mood.left == 0 {
            self.moods += 1;
            self.mood = Mood::of(random, self.moods, LARGEST_PAYLOAD);
        }
        self.mood.left -= 1;
        let mut scene = Scene {
            random,
            link: self.model.link(),
            mood: &self.mood,
        };
        let mut bytes = talk::plan(&mut scene).bytes();
        if random.below(100) < self.mood.damage {
            talk::damage(random, &mut bytes);
        }
        let mut line = Vec::new();
        text::push_bytes(&bytes, &mut line);
        change(random, &mut line);
        self.model.answer(&line, &mut Vec::new());
        line
    }
}

/// Upper case often, and rarely what is judged before the link.
fn change(random: &mut Random, line: &mut Vec<u8>) {
    match random.weighted(&[1_000, 150, 100, 20, 25, 4, 8, 8]) {
        0 => (),
        1 => line.make_ascii_uppercase(),
        2 => mix_case(random, line),
        3 => odd(random, line),
        4 => spoil(random, line),
        5 => lengthen(random, line),
        6 => line.clear(),
        _ => line.extend_from_slice(b"00"),
    }
}

fn mix_case(random: &mut Random, line: &mut [u8]) {
    for digit in line {
        if random.coin() {
            digit.make_ascii_uppercase();
        }
    }
}

/// A digit more or less.
fn odd(random: &mut Random, line: &mut Vec<u8>) {
    if random.coin() {
        line.pop();
    } else {
        line.push(b'0');
    }
}

/// A byte that is no digit, anywhere.
fn spoil(random: &mut Random, line: &mut Vec<u8>) {
    if line.is_empty() {
        return;
    }
    let place = random.below(line.len());
    match random.below(5) {
        0 => line.push(b'\r'),
        1 => line.insert(0, b' '),
        2 => line.insert(0, b'#'),
        _ => line[place] = random.pick(b"gG/:@`-. \0\x7f\x80\xff"),
    }
}

/// To the limit of 3,000 digits and past it.
fn lengthen(random: &mut Random, line: &mut Vec<u8>) {
    let length = match random.below(5) {
        0 => MOST_DIGITS,
        1 => MOST_DIGITS + 1,
        2 | 3 => MOST_DIGITS + 2,
        _ => random.between(MOST_DIGITS, 9_000),
    };
    // A single frame of 1,488 bytes has exactly 3,000 digits.
    *line = b"41070001000005d000000001".to_vec();
    line.resize(length, random.pick(b"05aF"));
}
