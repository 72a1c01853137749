//! Frames that keep a link busy: sensible continuations of what is open, and
//! wrong ones next to them.
//!
//! The reference's own link is the model: it tells which sessions, services
//! and messages are open, with their ids, versions and hashes. `call_lines`
//! and `bench_lines` wrap the frames into lines and feed the lines to the
//! model.

mod damage;
pub mod documents;
mod faults;
mod messages;
pub mod mood;
mod openings;
mod services;

use super::headers;
use super::random::Random;
use crate::frame::{self, Header, MessageId, ServiceType, SessionId};
use crate::link::{self, Link, OpenMessage, Session};
pub use damage::damage;
use mood::Mood;

/// A frame that is about to be sent: the size is the payload's unless a
/// fault changes it.
#[derive(Clone)]
pub struct Plan {
    pub header: Header,
    pub payload: Vec<u8>,
}

impl Plan {
    pub fn of(header: Header, payload: Vec<u8>) -> Self {
        let size = payload.len() as u32;
        Plan {
            header: Header { size, ..header },
            payload,
        }
    }

    pub fn bytes(&self) -> Vec<u8> {
        let mut bytes = headers::raw(&self.header);
        bytes.extend_from_slice(&self.payload);
        bytes
    }

    /// The open message that this frame goes on with, if it is a consecutive one.
    fn message<'a>(&self, link: &'a Link) -> Option<&'a OpenMessage> {
        let header = &self.header;
        let session = link.session(header.session)?;
        let message = session.message(header.service)?;
        (header.frame_type == frame::CONSECUTIVE).then_some(message)
    }

    /// The bytes that a delivery would write if this frame is accepted.
    pub fn due(&self, link: &Link) -> usize {
        match self.header.frame_type {
            frame::SINGLE => self.payload.len(),
            _ => self.message(link).map_or(0, |message| message.total),
        }
    }
}

/// What a plan is made from.
pub struct Scene<'a> {
    pub random: &'a mut Random,
    pub link: &'a Link,
    pub mood: &'a Mood,
}

/// The next frame, sensible or wrong.
pub fn plan(scene: &mut Scene) -> Plan {
    let faults = scene.mood.faults;
    if scene.link.sessions().len() > 0 && scene.random.below(100) < faults {
        return faults::plan(scene);
    }
    let plan = sensible(scene);
    faults::misnumbered(scene, plan)
}

/// A frame that makes sense in the link's state, accepted or not.
fn sensible(scene: &mut Scene) -> Plan {
    let open = scene.link.sessions().len();
    let wanted = scene.mood.sessions;
    if open == 0 || (open < wanted.min(8) && scene.random.once_in(3)) {
        return openings::plan(scene);
    }
    if open > wanted && scene.random.once_in(4) {
        return services::end_of_session(scene);
    }
    match scene.random.weighted(&scene.mood.weights) {
        0 => openings::plan(scene),
        1 => services::start(scene),
        2 => services::end(scene),
        3 => services::heartbeat(scene),
        4 => messages::single(scene),
        5 if messages::all_open(scene).len() < scene.mood.open_messages => messages::first(scene),
        _ => messages::next(scene).unwrap_or_else(|| messages::first(scene)),
    }
}

impl<'a> Scene<'a> {
    /// One of the open sessions; there is one at least.
    fn any_session(&mut self) -> (SessionId, &'a Session) {
        let place = self.random.below(self.link.sessions().len());
        self.link
            .sessions()
            .nth(place)
            .expect("the place is below the number of sessions")
    }

    /// An open session that the test likes, if there is one.
    fn session_where(
        &mut self,
        test: impl Fn(&Session) -> bool,
    ) -> Option<(SessionId, &'a Session)> {
        let found: Vec<_> = self
            .link
            .sessions()
            .filter(|(_, session)| test(session))
            .collect();
        (!found.is_empty()).then(|| found[self.random.below(found.len())])
    }

    /// The version that a frame of this session should have; any allowed one
    /// if the session is unsettled, the newer ones more often.
    fn version_of(&mut self, session: &Session) -> u8 {
        let newest = self.link.settings().version.major.min(4);
        let any = self.random.pick(&[1, 2, 3, 3, 4, 4, 4, 4]).min(newest);
        session.version().unwrap_or(any)
    }

    /// The largest payload that the session takes in one frame, as far as
    /// the mood's lines go.
    fn largest_payload(&self, version: u8) -> usize {
        let largest = frame::largest_size(version) as usize;
        let by_mtu = match version {
            5 => self.link.settings().mtu as usize - 12,
            _ => largest,
        };
        largest.min(by_mtu).min(self.mood.largest_payload)
    }

    /// A service that runs in the session, the started ones more often.
    fn running_service(&mut self, session: &Session, version: u8) -> ServiceType {
        let mut services = vec![link::CONTROL_SERVICE, link::BULK];
        for (service, _) in session.services() {
            services.extend([service; 4]);
        }
        services.retain(|&service| session.runs(service, version));
        self.random.pick(&services)
    }

    /// A message id: few different ones, so that they meet.
    fn message_id(&mut self) -> MessageId {
        let id = match self.random.below(4) {
            0 => self.random.bits32(),
            1 => self.random.pick(&[0, u32::MAX, 0x8000_0000]),
            _ => self.random.between(1, 9) as u32,
        };
        MessageId(id)
    }

    /// A header of a frame in a session.
    fn header(
        &mut self,
        id: SessionId,
        version: u8,
        frame_type: u8,
        service: ServiceType,
    ) -> Header {
        Header {
            version,
            flag: false,
            frame_type,
            service,
            info: 0,
            session: id,
            size: 0,
            id: self.message_id(),
        }
    }
}
