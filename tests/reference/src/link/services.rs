//! Control frames in a session (document 01, "In a session").

use super::replies::{self, Reply, NO_ID};
use super::{
    Effect, Link, Offer, Place, AUDIO, END, END_ACK, END_NAK, HEARTBEAT, HEARTBEAT_ACK,
    PAYLOAD_VERSION, RPC, START, START_ACK, START_NAK, VIDEO,
};
use crate::frame::{Frame, Header, MessageId, ServiceType, SessionId};
use crate::payload;

impl Link {
    /// A control frame that 12 to 17 let pass: its session is open, and its
    /// info is one of these four.
    pub(super) fn control(&mut self, frame: &Frame, offer: &Offer, out: &mut [u8]) -> Effect {
        let header = &frame.header;
        match header.info {
            START => Effect::Reply(self.start(frame, offer, out)),
            END => Effect::Reply(self.end(frame, out)),
            HEARTBEAT => Effect::Reply(self.reply(header, HEARTBEAT_ACK, NO_ID, &[], out)),
            // "a Heartbeat ACK received there is accepted silently"
            _ => Effect::Silent,
        }
    }

    /// "Start of 0A or 0B is acknowledged if [..]; any other Start gets a NAK
    /// of data size 0."
    fn start(&mut self, frame: &Frame, offer: &Offer, out: &mut [u8]) -> usize {
        let header = &frame.header;
        if !self.may_start(frame) {
            return self.reply(header, START_NAK, NO_ID, &[], out);
        }
        // "version 5: hashId, mtu; below: raw hash"
        let payload = if self.in_payload_version(header.session) {
            replies::started(offer.hash, self.settings.mtu).bytes()
        } else {
            replies::raw_hash(offer.hash).to_vec()
        };
        let session = self.open_session(header.session);
        session.start(header.service, offer.hash);
        let id = session.count_ack();
        self.reply(header, START_ACK, id, &payload, out)
    }

    /// "if settled at 3 or more, not running and, in version 5, the payload
    /// readable"
    fn may_start(&self, frame: &Frame) -> bool {
        let Header {
            session, service, ..
        } = frame.header;
        let row = &self.sessions[&session];
        (service == AUDIO || service == VIDEO)
            && row.settled_at_3_or_more()
            && row.hash(service).is_none()
            && (!self.in_payload_version(session) || payload::read(frame.payload).is_ok())
    }

    /// "End of a running 07, 0A or 0B with its own hash [..] gets an ACK of
    /// size 0 and drops that service's open message; ending 07 closes the
    /// session and frees its row. Else a NAK".
    fn end(&mut self, frame: &Frame, out: &mut [u8]) -> usize {
        let header = &frame.header;
        let Header {
            session, service, ..
        } = *header;
        let with_payload = self.in_payload_version(session);
        // Only 07, 0A and 0B have a hash: 00 and 0F never do.
        let Some(hash) = self.sessions[&session].hash(service) else {
            return self.reply(header, END_NAK, NO_ID, &[], out);
        };
        if hash_in(frame.payload, with_payload) != Some(hash) {
            // "in version 5, for a running 07, 0A or 0B, with rejectedParams
            // ["hashId"]; otherwise [..] of size 0"
            let rejected = replies::rejected("hashId");
            let payload: &[u8] = if with_payload { &rejected } else { &[] };
            return self.reply(header, END_NAK, NO_ID, payload, out);
        }
        let id = self.open_session(session).count_ack();
        let length = self.reply(header, END_ACK, id, &[], out);
        if service == RPC {
            self.close(session);
        } else {
            self.drop_message(Place { session, service });
            self.open_session(session).end(service);
        }
        length
    }

    /// The session's row goes, and the blocks of all its messages are free.
    fn close(&mut self, session: SessionId) {
        let services: Vec<ServiceType> = self.sessions[&session]
            .messages()
            .map(|(service, _)| service)
            .collect();
        for service in services {
            self.drop_message(Place { session, service });
        }
        self.sessions.remove(&session);
    }

    /// Settled at 5; an unsettled session goes by the older rules.
    fn in_payload_version(&self, session: SessionId) -> bool {
        self.sessions[&session].version() == Some(PAYLOAD_VERSION)
    }

    /// "Replies carry its id and version (unsettled: min(M, 4))."
    fn reply(
        &self,
        asked: &Header,
        info: u8,
        id: MessageId,
        payload: &[u8],
        out: &mut [u8],
    ) -> usize {
        let version = self.sessions[&asked.session].version();
        let reply = Reply {
            version: version.unwrap_or(self.settings.old_version()),
            service: asked.service,
            info,
            session: asked.session,
            id,
        };
        reply.write(payload, out)
    }
}

/// The hash that an End carries: "version 5: hashId; below: exactly 4 raw bytes".
fn hash_in(payload: &[u8], with_payload: bool) -> Option<u32> {
    if with_payload {
        return payload::read(payload).ok()?.hash_id;
    }
    let raw = <[u8; 4]>::try_from(payload).ok()?;
    Some(u32::from_be_bytes(raw))
}
