//! The link (document 01, "The link"): sessions, their services and open
//! messages, the room they share, and the one call that takes a frame.
//!
//! - [`version`]: version strings and their order.
//! - `session`: what one session keeps.
//! - `judge`: refusals 12 to 17.
//! - `opening`, `services`: control frames and their replies.
//! - `messages`: single frames and messages in parts, refusals 18 to 25.
//! - `replies`: the bytes of a reply.
//! - [`rules`]: document 01's "State rules", for tests.

mod judge;
mod messages;
mod opening;
mod replies;
pub mod rules;
mod services;
mod session;
pub mod version;

use std::collections::BTreeMap;

use crate::frame::{self, Frame, Reading, ServiceType, SessionId};
use crate::refusal::Refusal;
use crate::room::{BlockNumber, Room};
pub use session::{OpenMessage, Session};
use version::ProtocolVersion;

/// "At most 8 sessions."
pub const MOST_SESSIONS: usize = 8;

/// "out under 128 bytes (link)" is refused.
pub const LEAST_OUT: usize = 128;

/// "an mtu from 1,500 to 131,084"
pub const LEAST_MTU: u32 = 1_500;
pub const LARGEST_MTU: u32 = 131_084;

/// The blocks of the room, as a guarantee and a cap count them.
pub const LARGEST_CAP: u16 = 256;

/// The versions before negotiation by payload: many rules say min(M, 4).
const LAST_OLD_VERSION: u8 = 4;

/// The version with control payloads.
const PAYLOAD_VERSION: u8 = 5;

/// The services that a session starts and ends.
pub const RPC: ServiceType = ServiceType(0x07);
pub const AUDIO: ServiceType = ServiceType(0x0a);
pub const VIDEO: ServiceType = ServiceType(0x0b);

/// The others: "00 always runs, 0F from frame version 2".
pub const CONTROL_SERVICE: ServiceType = ServiceType(0x00);
pub const BULK: ServiceType = ServiceType(0x0f);

/// The control infos that the link takes or writes (000, "Frame Info").
pub const HEARTBEAT: u8 = 0x00;
pub const START: u8 = 0x01;
pub const START_ACK: u8 = 0x02;
pub const START_NAK: u8 = 0x03;
pub const END: u8 = 0x04;
pub const END_ACK: u8 = 0x05;
pub const END_NAK: u8 = 0x06;
pub const HEARTBEAT_ACK: u8 = 0xff;

/// What a link is created with.
#[derive(Clone, Copy, Debug, PartialEq, Eq)]
pub struct Settings {
    pub version: ProtocolVersion,
    pub mtu: u32,
}

impl Settings {
    /// "a module version M.m.p (M 1 to 5, others 0 to 255) and an mtu from
    /// 1,500 to 131,084"
    fn in_range(&self) -> bool {
        frame::version_listed(self.version.major) && (LEAST_MTU..=LARGEST_MTU).contains(&self.mtu)
    }

    /// min(M, 4)
    fn old_version(&self) -> u8 {
        self.version.major.min(LAST_OLD_VERSION)
    }
}

/// What each call offers to a session or service that it may start.
#[derive(Clone, Copy, Debug, PartialEq, Eq)]
pub struct Offer {
    pub guarantee: u16,
    pub cap: u16,
    pub hash: u32,
}

impl Offer {
    /// "G ≤ C ≤ 256"
    fn in_range(&self) -> bool {
        self.guarantee <= self.cap && self.cap <= LARGEST_CAP
    }
}

/// The answer to a call; what was written is at the front of out.
#[derive(Clone, Copy, Debug, PartialEq, Eq)]
pub enum Answer {
    /// The bytes needed in all.
    Short(usize),
    Refused(Refusal),
    Accepted {
        consumed: usize,
        effect: Effect,
    },
}

/// What an accepted frame led to.
#[derive(Clone, Copy, Debug, PartialEq, Eq)]
pub enum Effect {
    /// A reply of so many bytes.
    Reply(usize),
    /// A whole message of so many bytes.
    Delivery(ServiceType, usize),
    /// Nothing for the caller.
    Silent,
}

/// Whose message in the room: "One open message per session and service."
#[derive(Clone, Copy, Debug, PartialEq, Eq, PartialOrd, Ord)]
pub struct Place {
    pub session: SessionId,
    pub service: ServiceType,
}

/// A link and the pool it works on.
#[derive(Clone)]
pub struct Link {
    settings: Settings,
    sessions: BTreeMap<SessionId, Session>,
    room: Room<Place>,
}

impl Link {
    /// Creates a link without sessions; the pool's bytes stay as they are.
    pub fn new(settings: Settings, pool: Vec<u8>) -> Result<Self, Refusal> {
        if !settings.in_range() {
            return Err(Refusal::OutOfRange);
        }
        Ok(Link {
            settings,
            sessions: BTreeMap::new(),
            room: Room::over(pool),
        })
    }

    /// Takes "the one frame at the front, answers the bytes consumed (0 if
    /// Short or refused), and ignores what follows".
    ///
    /// "Lowest place in this order wins: 10, the reader's Short or 1 to 6,
    /// 11 (under 128), 12 to 17, then 18 to 21 or 22 to 25, then 11 for a
    /// delivery." Of the causes of 10 only the offer can occur here: the
    /// settings were judged by `new`, the pool has its size, and the state
    /// is the link's own (see [`rules`]).
    pub fn call(&mut self, offer: &Offer, input: &[u8], out: &mut [u8]) -> Answer {
        if !offer.in_range() {
            return Answer::Refused(Refusal::OutOfRange);
        }
        let frame = match frame::read(input) {
            Reading::Frame(frame) => frame,
            Reading::Short(needed) => return Answer::Short(needed),
            Reading::Refused(refusal) => return Answer::Refused(refusal),
        };
        if out.len() < LEAST_OUT {
            return Answer::Refused(Refusal::OutTooSmall);
        }
        match self.take(&frame, offer, out) {
            Ok(effect) => Answer::Accepted {
                consumed: frame.consumed,
                effect,
            },
            Err(refusal) => Answer::Refused(refusal),
        }
    }

    fn take(&mut self, frame: &Frame, offer: &Offer, out: &mut [u8]) -> Result<Effect, Refusal> {
        let header = &frame.header;
        // The opening "skips 12 to 17".
        if opening::is_opening(header) {
            return Ok(Effect::Reply(self.open(frame.payload, offer, out)));
        }
        self.judge(header)?;
        match header.frame_type {
            frame::CONTROL => Ok(self.control(frame, offer, out)),
            frame::SINGLE => self.single(frame, out),
            frame::FIRST => self.first(frame),
            _ => self.consecutive(frame, out),
        }
    }

    pub fn settings(&self) -> &Settings {
        &self.settings
    }

    /// The open sessions by rising id.
    pub fn sessions(&self) -> impl ExactSizeIterator<Item = (SessionId, &Session)> {
        self.sessions.iter().map(|(&id, session)| (id, session))
    }

    pub fn session(&self, id: SessionId) -> Option<&Session> {
        self.sessions.get(&id)
    }

    /// The blocks of an open message, in its order.
    pub fn blocks(&self, place: Place) -> &[BlockNumber] {
        self.room.blocks(place)
    }

    /// The blocks that a session's open messages hold.
    pub fn held(&self, id: SessionId) -> usize {
        let Some(session) = self.sessions.get(&id) else {
            return 0;
        };
        let places = session.messages().map(|(service, _)| Place {
            session: id,
            service,
        });
        places.map(|place| self.room.blocks(place).len()).sum()
    }

    /// "the sum over sessions of the larger of held and G"
    pub fn promised(&self) -> usize {
        self.sessions()
            .map(|(id, session)| self.held(id).max(session.guarantee()))
            .sum()
    }

    pub fn pool(&self) -> &[u8] {
        self.room.pool()
    }
}
