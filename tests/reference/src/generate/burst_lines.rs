//! `new` and `call` lines that send long messages to their end, cut by the
//! reference's own sender (document 02, A2).
//!
//! Link after link, with one session and with two that send in turn. No model
//! is needed: all is accepted but the frames that are made wrong.

use super::random::Random;
use super::talk::{documents, Plan};
use super::{values, Line};
use crate::burst;
use crate::frame::{self, Header, MessageId, ServiceType, SessionId, NEWEST_VERSION};
use crate::link::{self, AUDIO, BULK, CONTROL_SERVICE, LEAST_OUT, RPC, VIDEO};
use crate::sender::{self, Outgoing};

/// The customer's 400 frames, and counts around the wraps of their numbers.
const COUNTS: [usize; 10] = [255, 256, 257, 258, 400, 509, 510, 511, 512, 766];

const VERSIONS: [u8; 5] = [1, 2, 3, 4, NEWEST_VERSION];

/// One burst of three is broken off by a wrong number and sent anew.
const BROKEN_OFF: [bool; 3] = [true, false, false];

const HASH: u32 = 39_027;

/// Where a header has its info.
const INFO: usize = 2;

/// What the next bursts are made from.
pub struct Bursts {
    counts: Deck<usize>,
    versions: Deck<u8>,
    broken_off: Deck<bool>,
    /// How many links there were.
    links: usize,
}

impl Bursts {
    pub fn new() -> Self {
        Bursts {
            counts: Deck::of(&COUNTS),
            versions: Deck::of(&VERSIONS),
            broken_off: Deck::of(&BROKEN_OFF),
            links: 0,
        }
    }

    /// All lines of the next link. The first one sends as many frames as
    /// there may be; after it one session and two take turns.
    pub fn link_lines(&mut self, random: &mut Random) -> Vec<Vec<u8>> {
        self.links += 1;
        if self.links == 1 {
            let largest = self.largest_burst(random);
            let frames = largest.whole(random);
            return lines_of(random, &[largest], vec![frames]);
        }
        let sessions = 1 + self.links as u8 % 2;
        let bursts: Vec<Burst> = (1..=sessions)
            .map(|id| self.burst(random, SessionId(id)))
            .collect();
        let frames = bursts.iter().map(|burst| self.frame_lines(random, burst));
        let frames = frames.collect();
        lines_of(random, &bursts, frames)
    }

    /// 65,536 frames of one byte: all of the room for one session.
    fn largest_burst(&mut self, random: &mut Random) -> Burst {
        let version = self.versions.draw(random);
        let offer = random.pick(&[(0, 256), (256, 256)]);
        let message = random.bytes(burst::LARGEST_TOTAL);
        Burst::of(random, SessionId(1), version, offer, 1, message)
    }

    /// A burst in chunks of a few bytes: at most 24 blocks.
    fn burst(&mut self, random: &mut Random, session: SessionId) -> Burst {
        let version = self.versions.draw(random);
        let count = self.counts.draw(random);
        let offer = random.pick(&[(32, 64), (0, 256), (0, 24), (100, 128), (24, 24)]);
        let chunk = random.between(1, 8);
        let length = values::message_length(random, chunk, count);
        let message = random.bytes(length);
        Burst::of(random, session, version, offer, chunk, message)
    }

    /// The burst to its end, now and then behind one that is broken off.
    fn frame_lines(&mut self, random: &mut Random, burst: &Burst) -> Vec<Vec<u8>> {
        let mut lines = Vec::new();
        if self.broken_off.draw(random) {
            lines = burst.broken_off(random);
        }
        lines.extend(burst.whole(random));
        lines
    }
}

/// Values that all come once in an order left to chance, then all again.
struct Deck<T: 'static> {
    all: &'static [T],
    left: Vec<T>,
}

impl<T: Copy> Deck<T> {
    fn of(all: &'static [T]) -> Self {
        let left = Vec::new();
        Deck { all, left }
    }

    fn draw(&mut self, random: &mut Random) -> T {
        if self.left.is_empty() {
            self.left.extend(self.all);
        }
        self.left.swap_remove(random.below(self.left.len()))
    }
}

/// A session and the one message that it sends.
struct Burst {
    session: SessionId,
    version: u8,
    guarantee: u16,
    cap: u16,
    service: ServiceType,
    id: MessageId,
    chunk: usize,
    count: usize,
    message: Vec<u8>,
}

impl Burst {
    fn of(
        random: &mut Random,
        session: SessionId,
        version: u8,
        (guarantee, cap): (u16, u16),
        chunk: usize,
        message: Vec<u8>,
    ) -> Self {
        Burst {
            session,
            version,
            guarantee,
            cap,
            service: service(random, version),
            id: MessageId(values::id(random)),
            chunk,
            count: message.len().div_ceil(chunk),
            message,
        }
    }

    /// The session's opening, what settles its version, and the service's start.
    fn opening_lines(&self) -> Vec<Vec<u8>> {
        let payload = match self.version {
            NEWEST_VERSION => documents::document(&[documents::string("protocolVersion", "5.4.1")]),
            _ => Vec::new(),
        };
        let mut opening = self.header(frame::CONTROL, RPC, link::START);
        opening.version = 1;
        opening.session = SessionId(0);
        let mut plans = vec![Plan::of(opening, payload)];
        if self.service == AUDIO || self.service == VIDEO {
            // A Start is acknowledged only in a session that is settled.
            let single = self.header(frame::SINGLE, RPC, 0);
            plans.push(Plan::of(single, vec![0xaa]));
            let start = self.header(frame::CONTROL, self.service, link::START);
            plans.push(Plan::of(start, Vec::new()));
        }
        let lines = plans.iter().map(|plan| self.call(LEAST_OUT, &plan.bytes()));
        lines.collect()
    }

    fn header(&self, frame_type: u8, service: ServiceType, info: u8) -> Header {
        Header {
            version: self.version,
            flag: false,
            frame_type,
            service,
            info,
            session: self.session,
            size: 0,
            id: self.id,
        }
    }

    /// All frames of the message. Out is large for the one that delivers
    /// alone, and now and then that one comes with a small one first: 11.
    fn whole(&self, random: &mut Random) -> Vec<Vec<u8>> {
        let mut lines = self.lines_before(self.count);
        let last = self.frame(self.count);
        if random.once_in(3) {
            lines.push(self.call(LEAST_OUT, &last));
        }
        lines.push(self.call(self.message.len(), &last));
        lines
    }

    /// The frames up to one whose number is wrong: 24, the message is dropped.
    fn broken_off(&self, random: &mut Random) -> Vec<Vec<u8>> {
        let k = self.telling_frame(random);
        let mut lines = self.lines_before(k);
        let mut frame = self.frame(k);
        frame[INFO] = values::wrong_number(random, k, self.count);
        lines.push(self.call(LEAST_OUT, &frame));
        lines
    }

    /// A frame to get wrong: one of those that carry 1 again, or any near them.
    fn telling_frame(&self, random: &mut Random) -> usize {
        let mut frames: Vec<usize> = (1..=self.count).collect();
        frames.retain(|&k| values::telling_number(k, self.count));
        if self.count > 256 && random.coin() {
            frames.retain(|&k| burst::frame_number(k, self.count) == 1);
        }
        random.pick(&frames)
    }

    /// The First Frame and the consecutive ones before the k-th.
    fn lines_before(&self, k: usize) -> Vec<Vec<u8>> {
        let frames = (0..k).map(|before| self.frame(before));
        frames.map(|frame| self.call(LEAST_OUT, &frame)).collect()
    }

    fn frame(&self, k: usize) -> Vec<u8> {
        let outgoing = Outgoing {
            version: self.version,
            service: self.service,
            session: self.session,
            id: self.id,
            chunk: self.chunk as u32,
            message: &self.message,
        };
        let mut frame = vec![0; LEAST_OUT];
        let length = sender::write_frame(&outgoing, k as u32, &mut frame)
            .expect("a chunk of a few bytes fits, and k is at most the count");
        frame.truncate(length);
        frame
    }

    fn call(&self, out_length: usize, bytes: &[u8]) -> Vec<u8> {
        let mut line = Line::of("call");
        line.number(u64::from(self.guarantee));
        line.number(u64::from(self.cap));
        line.number(u64::from(HASH));
        line.number(out_length as u64);
        line.bytes(bytes);
        line.end()
    }
}

/// A service that runs in this version or can be started there.
fn service(random: &mut Random, version: u8) -> ServiceType {
    match version {
        1 => random.pick(&[RPC, CONTROL_SERVICE]),
        2 => random.pick(&[RPC, CONTROL_SERVICE, BULK]),
        _ => random.pick(&[VIDEO, VIDEO, AUDIO, RPC, CONTROL_SERVICE, BULK]),
    }
}

/// A new link, its sessions' openings, and the lines of their bursts in turn.
fn lines_of(random: &mut Random, bursts: &[Burst], frames: Vec<Vec<Vec<u8>>>) -> Vec<Vec<u8>> {
    let newest = bursts.iter().map(|burst| burst.version).max();
    let mut lines = vec![new_line(random, newest.unwrap_or(NEWEST_VERSION))];
    lines.extend(bursts.iter().flat_map(Burst::opening_lines));
    lines.extend(in_turn(random, frames));
    lines
}

/// A link that knows this version.
fn new_line(random: &mut Random, version: u8) -> Vec<u8> {
    let mut line = Line::of("new");
    let major = random.between(usize::from(version), usize::from(NEWEST_VERSION));
    line.number(major as u64);
    line.number(random.pick(&[4, 0]));
    line.number(random.pick(&[1, 0]));
    line.number(random.pick(&[1_500, 131_084]));
    line.end()
}

/// A few lines of each list, again and again until none is left.
fn in_turn(random: &mut Random, lists: Vec<Vec<Vec<u8>>>) -> Vec<Vec<u8>> {
    let mut lists: Vec<_> = lists.into_iter().map(Vec::into_iter).collect();
    let mut lines = Vec::new();
    while lists.iter().any(|list| list.len() > 0) {
        for list in &mut lists {
            let few = random.between(1, 3);
            lines.extend(list.take(few));
        }
    }
    lines
}
