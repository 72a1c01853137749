//! What one session keeps.

use std::collections::BTreeMap;

use super::{Offer, AUDIO, BULK, CONTROL_SERVICE, RPC, VIDEO};
use crate::burst;
use crate::frame::{MessageId, ServiceType};

/// The counter's first number.
const FIRST_ACK: MessageId = MessageId(1);

/// An open message; its blocks are in the room.
#[derive(Clone, Copy, Debug, PartialEq, Eq)]
pub struct OpenMessage {
    pub id: MessageId,
    pub total: usize,
    pub count: usize,
    /// The frames still to come.
    pub to_come: usize,
    /// The bytes still missing.
    pub missing: usize,
}

impl OpenMessage {
    /// Which of its consecutive frames is due, the first one being 1.
    pub fn next_frame(&self) -> usize {
        self.count - self.to_come + 1
    }

    /// The number that this frame must carry.
    pub fn next_number(&self) -> u8 {
        burst::frame_number(self.next_frame(), self.count)
    }
}

/// "A session keeps its opening's G and C, a service its own start's hash."
#[derive(Clone, Debug)]
pub struct Session {
    guarantee: usize,
    cap: usize,
    version: Option<u8>,
    next_ack: MessageId,
    services: BTreeMap<ServiceType, u32>,
    messages: BTreeMap<ServiceType, OpenMessage>,
}

impl Session {
    /// A session as its opening leaves it, before the ACK is counted.
    pub(super) fn opened(offer: &Offer, version: Option<u8>) -> Self {
        Session {
            guarantee: usize::from(offer.guarantee),
            cap: usize::from(offer.cap),
            version,
            next_ack: FIRST_ACK,
            services: BTreeMap::from([(RPC, offer.hash)]),
            messages: BTreeMap::new(),
        }
    }

    pub fn guarantee(&self) -> usize {
        self.guarantee
    }

    pub fn cap(&self) -> usize {
        self.cap
    }

    /// None if unsettled.
    pub fn version(&self) -> Option<u8> {
        self.version
    }

    /// The message id of the next counted ACK.
    pub fn next_ack(&self) -> MessageId {
        self.next_ack
    }

    /// The running ones of 07, 0A, 0B with their hashes, in this order.
    pub fn services(&self) -> impl Iterator<Item = (ServiceType, u32)> + '_ {
        self.services
            .iter()
            .map(|(&service, &hash)| (service, hash))
    }

    /// The hash of a running 07, 0A or 0B.
    pub fn hash(&self, service: ServiceType) -> Option<u32> {
        self.services.get(&service).copied()
    }

    /// The open messages by rising service.
    pub fn messages(&self) -> impl Iterator<Item = (ServiceType, &OpenMessage)> + '_ {
        self.messages
            .iter()
            .map(|(&service, message)| (service, message))
    }

    pub fn message(&self, service: ServiceType) -> Option<&OpenMessage> {
        self.messages.get(&service)
    }

    /// "settled at 3 or more"
    pub fn settled_at_3_or_more(&self) -> bool {
        self.version.is_some_and(|version| version >= 3)
    }

    /// Whether frames of type 1 to 3 may come: "00 always runs, 0F from
    /// frame version 2".
    pub fn runs(&self, service: ServiceType, frame_version: u8) -> bool {
        match service {
            CONTROL_SERVICE => true,
            BULK => frame_version >= 2,
            _ => self.services.contains_key(&service),
        }
    }

    /// "its first accepted frame of type 1 or 2 fixes its version"
    pub(super) fn settle(&mut self, version: u8) {
        self.version.get_or_insert(version);
    }

    /// The number of this ACK; the next one gets the next number:
    /// "4,294,967,295 is followed by 0".
    pub(super) fn count_ack(&mut self) -> MessageId {
        let number = self.next_ack;
        self.next_ack = MessageId(number.0.wrapping_add(1));
        number
    }

    pub(super) fn start(&mut self, service: ServiceType, hash: u32) {
        debug_assert!(service == AUDIO || service == VIDEO);
        self.services.insert(service, hash);
    }

    pub(super) fn end(&mut self, service: ServiceType) {
        self.services.remove(&service);
    }

    pub(super) fn put_message(&mut self, service: ServiceType, message: OpenMessage) {
        self.messages.insert(service, message);
    }

    pub(super) fn drop_message(&mut self, service: ServiceType) {
        self.messages.remove(&service);
    }
}

#[cfg(test)]
mod tests {
    use super::*;

    #[test]
    fn the_counter_begins_at_1_and_goes_on_with_0() {
        let offer = Offer {
            guarantee: 0,
            cap: 0,
            hash: 0,
        };
        let mut session = Session::opened(&offer, None);
        assert_eq!(session.count_ack(), MessageId(1));
        assert_eq!(session.count_ack(), MessageId(2));
        // No script is long enough to get there.
        session.next_ack = MessageId(u32::MAX);
        assert_eq!(session.count_ack(), MessageId(u32::MAX));
        assert_eq!(session.count_ack(), MessageId(0));
        assert_eq!(session.next_ack(), MessageId(1));
    }

    #[test]
    fn a_version_is_settled_once() {
        let offer = Offer {
            guarantee: 0,
            cap: 0,
            hash: 0,
        };
        let mut session = Session::opened(&offer, None);
        assert!(!session.settled_at_3_or_more());
        session.settle(2);
        session.settle(4);
        assert_eq!(session.version(), Some(2));
        assert!(!session.settled_at_3_or_more());
        // "00 always runs, 0F from frame version 2"
        assert!(session.runs(CONTROL_SERVICE, 1) && session.runs(RPC, 1));
        assert!(session.runs(BULK, 2) && !session.runs(BULK, 1));
        assert!(!session.runs(AUDIO, 5) && !session.runs(VIDEO, 5));
    }
}
