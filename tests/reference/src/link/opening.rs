//! The opening of a session (document 01, "Opening").

use super::replies::{self, Reply, NO_ID, NO_SESSION};
use super::version::{ProtocolVersion, FIRST_WITH_PAYLOADS};
use super::{
    Link, Offer, Session, LARGEST_CAP, MOST_SESSIONS, PAYLOAD_VERSION, RPC, START, START_ACK,
    START_NAK,
};
use crate::frame::{self, Header, SessionId};
use crate::payload;

/// "A version 1 Start Service, service 07, session 0".
pub fn is_opening(header: &Header) -> bool {
    header.version == 1
        && header.frame_type == frame::CONTROL
        && header.service == RPC
        && header.info == START
        && header.session == NO_SESSION
}

/// What the payload and M lead to.
enum Negotiation {
    /// ACK with header version min(M, 4) and a raw hash.
    Old,
    /// ACK with header version 5 and the version settled on.
    Settled(ProtocolVersion),
    /// NAK with rejectedParams ["protocolVersion"].
    Rejected,
}

impl Link {
    /// Answers an opening and the length of the reply.
    pub(super) fn open(&mut self, payload: &[u8], offer: &Offer, out: &mut [u8]) -> usize {
        let negotiation = self.negotiate(payload);
        if let Negotiation::Rejected = negotiation {
            return self.opening_nak(&replies::rejected("protocolVersion"), out);
        }
        // "then, with any M, no free row, or a state rule broken by G, gets a
        // NAK of data size 0": the new row would count with its G.
        let promised = self.promised() + usize::from(offer.guarantee);
        if self.sessions.len() >= MOST_SESSIONS || promised > usize::from(LARGEST_CAP) {
            return self.opening_nak(&[], out);
        }
        self.opening_ack(negotiation, offer, out)
    }

    fn negotiate(&self, payload: &[u8]) -> Negotiation {
        let module = self.settings.version;
        // "If M is below 5" nobody looks at the payload.
        if module.major < PAYLOAD_VERSION {
            return Negotiation::Old;
        }
        let Ok(tags) = payload::read(payload) else {
            return Negotiation::Rejected;
        };
        // "or there is no payload, or no protocolVersion"
        let Some(text) = tags.protocol_version else {
            return Negotiation::Old;
        };
        match ProtocolVersion::parse(text) {
            None => Negotiation::Rejected,
            // "or one below 5.0.0"
            Some(version) if version < FIRST_WITH_PAYLOADS => Negotiation::Old,
            // "settle on the lesser of both versions"
            Some(version) => Negotiation::Settled(version.min(module)),
        }
    }

    /// "NAKs of opening: header version min(M, 4), session 0, message id 0."
    fn opening_nak(&self, payload: &[u8], out: &mut [u8]) -> usize {
        let reply = Reply {
            version: self.settings.old_version(),
            service: RPC,
            info: START_NAK,
            session: NO_SESSION,
            id: NO_ID,
        };
        reply.write(payload, out)
    }

    fn opening_ack(&mut self, negotiation: Negotiation, offer: &Offer, out: &mut [u8]) -> usize {
        let settings = self.settings;
        let (version, settled, payload) = match negotiation {
            Negotiation::Settled(version) => {
                let document = replies::started(offer.hash, settings.mtu);
                let document = document.string("protocolVersion", &version.text());
                (PAYLOAD_VERSION, Some(PAYLOAD_VERSION), document.bytes())
            }
            _ => {
                // "unsettled (settled at 1 if M is 1)"
                let settled = (settings.version.major == 1).then_some(1);
                let hash = replies::raw_hash(offer.hash).to_vec();
                (settings.old_version(), settled, hash)
            }
        };
        let mut session = Session::opened(offer, settled);
        let id = self.lowest_free_id();
        let reply = Reply {
            version,
            service: RPC,
            info: START_ACK,
            session: id,
            id: session.count_ack(),
        };
        self.sessions.insert(id, session);
        reply.write(&payload, out)
    }

    /// "A new one gets the lowest id from 1 to 255 that isn't open."
    fn lowest_free_id(&self) -> SessionId {
        let mut ids = (1..=u8::MAX).map(SessionId);
        ids.find(|id| !self.sessions.contains_key(id))
            .expect("fewer than 255 sessions are open")
    }
}
