//! Single frames, and messages cut into frames.

use super::mood::Messages;
use super::{Plan, Scene};
use crate::frame::{self, Header, ServiceType, SessionId};
use crate::generate::values;
use crate::link::{OpenMessage, Session};

const BLOCK: usize = 256;

/// Frames above this length are rare.
const USUAL_LONGEST: usize = 1_500;

/// Totals that need the whole room, and one that leaves a block.
const WHOLE_TOTALS: [usize; 6] = [65_536, 65_536, 65_536, 65_535, 65_281, 65_280];

/// An open message and where it is.
#[derive(Clone, Copy)]
pub struct Open<'a> {
    pub id: SessionId,
    pub service: ServiceType,
    pub session: &'a Session,
    pub message: &'a OpenMessage,
}

/// A single frame on a running service.
pub fn single(scene: &mut Scene) -> Plan {
    let (id, session) = scene.any_session();
    let version = scene.version_of(session);
    let service = scene.running_service(session, version);
    let mut header = scene.header(id, version, frame::SINGLE, service);
    header.info = scene.random.pick(&[0, 0, 0, 1, 9, 255]);
    let length = single_length(scene, version);
    let payload = scene.random.bytes(length);
    Plan::of(header, payload)
}

fn single_length(scene: &mut Scene, version: u8) -> usize {
    let largest = scene.largest_payload(version);
    let length = match scene.random.weighted(&[400, 90, 120, 60, 12, 4]) {
        0 => scene.random.between(1, 40),
        1 => 0,
        2 => scene.random.pick(&[127, 128, 129, 255, 256, 257]),
        3 => scene.random.between(41, 700),
        4 => scene.random.pick(&[1_488, largest.min(2_500)]),
        _ => scene
            .random
            .pick(&[largest, largest.min(65_536), largest.min(65_537), 5_000]),
    };
    length.min(largest)
}

/// A First Frame on a running service, mostly on one without an open message.
pub fn first(scene: &mut Scene) -> Plan {
    let (id, session) = scene.any_session();
    let version = scene.version_of(session);
    let mut service = scene.running_service(session, version);
    for _ in 0..3 {
        if session.message(service).is_none() {
            break;
        }
        service = scene.running_service(session, version);
    }
    let (total, count) = total_and_count(scene, id, session, version);
    first_frame(scene, id, version, service, total as u32, count as u32)
}

pub fn first_frame(
    scene: &mut Scene,
    id: SessionId,
    version: u8,
    service: ServiceType,
    total: u32,
    count: u32,
) -> Plan {
    let mut header = scene.header(id, version, frame::FIRST, service);
    header.info = scene.random.pick(&[0, 0, 0, 1, 255]);
    let payload = [total.to_be_bytes(), count.to_be_bytes()].concat();
    Plan::of(header, payload)
}

/// A total and a count that 18 allows.
fn total_and_count(
    scene: &mut Scene,
    id: SessionId,
    session: &Session,
    version: u8,
) -> (usize, usize) {
    let kind = match scene.mood.messages {
        Messages::Any => scene.random.pick(&[
            Messages::Small,
            Messages::Blocks,
            Messages::Caps,
            Messages::Long,
        ]),
        kind => kind,
    };
    let total = match kind {
        Messages::Small => scene.random.between(1, 500),
        Messages::Blocks => {
            let need = scene.random.between(1, 7);
            total_of_need(scene, need)
        }
        Messages::Caps | Messages::Any => {
            let need = need_at_a_limit(scene, id, session);
            total_of_need(scene, need)
        }
        Messages::Long => long_total(scene),
        Messages::Whole => scene.random.pick(&WHOLE_TOTALS),
    };
    // So many frames are needed at least, if none is to be too large.
    let least = total.div_ceil(scene.largest_payload(version));
    let count = match kind {
        Messages::Long => long_count(scene),
        _ if scene.random.once_in(20) => endless_count(scene, total),
        Messages::Whole => scene.random.pick(&[1, 2, 2, 3, 8, 20, 40, total]),
        _ => least + scene.random.pick(&[0, 0, 1, 1, 2, 3, 5]),
    };
    (total, count.clamp(least, total))
}

/// Often a byte in each of the frames, mostly one to six; rarely the whole room.
fn long_total(scene: &mut Scene) -> usize {
    match scene.random.below(12) {
        0 => 65_536,
        1 => scene.random.between(5_000, 20_000),
        2..=4 => scene.random.pick(&[255, 256, 257, 258, 400, 510, 511, 512]),
        _ => scene.random.between(255, 1_500),
    }
}

/// So many frames that a patient mood comes to their end, at the first two
/// wraps of their numbers and between.
fn long_count(scene: &mut Scene) -> usize {
    match scene.random.below(3) {
        0 => scene.random.between(255, 520),
        _ => scene
            .random
            .pick(&[255, 256, 256, 257, 257, 258, 400, 509, 510, 511, 512]),
    }
}

/// So many frames that hardly any mood comes to their end: one for each byte,
/// or around the wraps and the largest count.
fn endless_count(scene: &mut Scene, total: usize) -> usize {
    match scene.random.below(5) {
        0 | 1 => total,
        2 | 3 => values::count_at_wrap(scene.random),
        _ => scene.random.pick(&[65_535, 65_534, 32_768, 1_000]),
    }
}

/// A total that needs so many blocks, at both ends and between.
fn total_of_need(scene: &mut Scene, need: usize) -> usize {
    let need = need.clamp(1, 256);
    match scene.random.below(4) {
        0 => need * BLOCK,
        1 => (need - 1) * BLOCK + 1,
        _ => scene.random.between((need - 1) * BLOCK + 1, need * BLOCK),
    }
}

/// Blocks as many as cap or room still give, one more, or some fewer.
fn need_at_a_limit(scene: &mut Scene, id: SessionId, session: &Session) -> usize {
    let held = scene.link.held(id);
    let by_cap = session.cap() - held;
    let others = scene.link.promised() - held.max(session.guarantee());
    let by_room = 256 - others - held;
    let most = by_cap.min(by_room);
    match scene.random.weighted(&[4, 2, 3, 2, 6, 2, 5]) {
        0 => most,
        1 => by_cap,
        2 => by_cap + 1,
        3 => by_room,
        4 => by_room + 1,
        5 => session.guarantee().saturating_sub(held),
        _ => scene.random.between(1, most.max(1)),
    }
}

/// The right next frame of an open message, if there is one.
pub fn next(scene: &mut Scene) -> Option<Plan> {
    let open = any_open(scene)?;
    let limit = scene.largest_payload(open.session.version().unwrap_or(1));
    let size = next_size(scene, open.message, limit);
    if size > limit || (size > USUAL_LONGEST && !scene.random.once_in(scene.mood.long_frames)) {
        return None;
    }
    let header = next_header(&open);
    let payload = scene.random.bytes(size);
    Some(Plan::of(header, payload))
}

/// One of the open messages.
pub fn any_open<'a>(scene: &mut Scene<'a>) -> Option<Open<'a>> {
    let open: Vec<Open> = all_open(scene);
    (!open.is_empty()).then(|| open[scene.random.below(open.len())])
}

pub fn all_open<'a>(scene: &Scene<'a>) -> Vec<Open<'a>> {
    let mut open = Vec::new();
    for (id, session) in scene.link.sessions() {
        for (service, message) in session.messages() {
            open.push(Open {
                id,
                service,
                session,
                message,
            });
        }
    }
    open
}

/// The header that the message's next frame has.
pub fn next_header(open: &Open) -> Header {
    let message = open.message;
    Header {
        version: open.session.version().unwrap_or(1),
        flag: false,
        frame_type: frame::CONSECUTIVE,
        service: open.service,
        info: message.next_number(),
        session: open.id,
        size: 0,
        id: message.id,
    }
}

/// A size that leaves a byte at least and the limit at most for each frame
/// behind this one.
fn next_size(scene: &mut Scene, message: &OpenMessage, limit: usize) -> usize {
    let behind = message.to_come - 1;
    let most = message.missing - behind;
    if behind == 0 {
        return most;
    }
    let least = message.missing.saturating_sub(behind * limit).max(1);
    let even = message.missing.div_ceil(message.to_come);
    let size = match scene.random.weighted(&[60, 8, 4, 10]) {
        0 => even,
        1 => least,
        2 if most <= USUAL_LONGEST => most,
        _ => scene.random.between(1, 2 * even),
    };
    size.clamp(least.min(most), most)
}
