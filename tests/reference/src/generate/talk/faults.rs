//! Wrong frames: each of 12 to 25, and headers that the reader refuses.

use super::messages::{self, Open};
use super::{sensible, services, Plan, Scene};
use crate::frame::{self, MessageId, ServiceType, SessionId};
use crate::generate::{headers, values};
use crate::link::{self, Session, AUDIO, BULK, CONTROL_SERVICE, RPC, VIDEO};

/// Infos that no session takes.
const OTHER_INFOS: [u8; 9] = [0x02, 0x03, 0x05, 0x06, 0x07, 0x08, 0x09, 0xfd, 0xfe];

/// Totals and counts that 18 refuses; some of the numbers are good ones in
/// their low 16 bits.
const BAD_TOTALS: [(u32, u32); 22] = [
    (0, 0),
    (0, 1),
    (0, 65_536),
    (1, 0),
    (65_536, 0),
    (5, 6),
    (255, 256),
    (256, 257),
    (257, 258),
    (510, 511),
    (600, 65_538),
    (600, u32::MAX),
    (65_535, 65_536),
    (65_536, 65_537),
    (65_537, 2),
    (65_537, 256),
    (65_537, 65_536),
    (65_537, 65_537),
    (0x0001_0100, 1),
    (131_072, 65_536),
    (u32::MAX, 3),
    (u32::MAX, u32::MAX),
];

/// Once in so many times a frame at a wrap carries a wrong number: the other
/// faults hardly ever come there.
const WRAP_FAULTS: usize = 12;

/// A frame with one fault. Not every fault can be had in every state; then
/// the frame is a sensible one.
pub fn plan(scene: &mut Scene) -> Plan {
    let weights = [6, 12, 7, 44, 10, 6, 8, 6, 9, 9, 8, 13, 40, 3, 7, 14];
    let plan = match scene.random.weighted(&weights) {
        0 => Some(other_session(scene)),
        1 => Some(encrypted(scene)),
        2 => Some(other_version(scene)),
        3 => above_mtu(scene),
        4 => Some(not_running(scene)),
        5 => Some(other_info(scene)),
        6 => Some(bad_total(scene)),
        7 => opened_again(scene),
        8 => Some(none_open(scene)),
        9 => other_message(scene),
        10 => wrong_number(scene),
        11 => wrong_size(scene),
        12 => Some(spoilt(scene)),
        13 => Some(services::end_of_session(scene)),
        14 => too_new(scene),
        _ => Some(several(scene)),
    };
    plan.unwrap_or_else(|| sensible(scene))
}

/// 12
fn other_session(scene: &mut Scene) -> Plan {
    let mut plan = sensible(scene);
    let free = (1..=255)
        .map(SessionId)
        .find(|&id| scene.link.session(id).is_none());
    let free = free.map_or(255, |id| id.0);
    plan.header.session = SessionId(scene.random.pick(&[0, free, free, 9, 255]));
    plan
}

/// 13, also where 14 would be next; 5 in version 1 and on First Frames.
fn encrypted(scene: &mut Scene) -> Plan {
    let mut plan = sensible(scene);
    plan.header.flag = true;
    if scene.random.once_in(4) {
        plan.header.version = scene.random.between(2, 5) as u8;
    }
    plan
}

/// 14, if the session is settled or the version is 5.
fn other_version(scene: &mut Scene) -> Plan {
    let mut plan = sensible(scene);
    plan.header.version = scene.random.between(1, 5) as u8;
    plan
}

/// 14 in an unsettled session: above min(M, 4).
fn too_new(scene: &mut Scene) -> Option<Plan> {
    let (id, _) = scene.session_where(|session| session.version().is_none())?;
    let frame_type = scene
        .random
        .pick(&[frame::CONTROL, frame::SINGLE, frame::SINGLE]);
    let newest = scene.link.settings().version.major.min(4);
    let version = scene.random.pick(&[newest + 1, newest + 1, 5]);
    let mut header = scene.header(id, version, frame_type, RPC);
    header.info = scene.random.pick(&[link::START, link::END]);
    let length = scene.random.between(0, 9);
    let payload = scene.random.bytes(length);
    Some(Plan::of(header, payload))
}

/// Two or three changes to a header at once, which tries the order of 12 to 17.
fn several(scene: &mut Scene) -> Plan {
    let mut plan = sensible(scene);
    for _ in 0..scene.random.between(2, 3) {
        let random = &mut *scene.random;
        let header = &mut plan.header;
        match random.below(6) {
            0 => header.session = SessionId(random.pick(&[0, 9, 255])),
            1 => header.flag = true,
            2 | 3 => header.version = random.between(1, 5) as u8,
            4 => header.service = ServiceType(random.pick(&values::SERVICES)),
            _ => header.info = random.pick(&OTHER_INFOS),
        }
    }
    plan
}

/// 15, and as often the largest that 15 lets pass.
fn above_mtu(scene: &mut Scene) -> Option<Plan> {
    let largest = scene.link.settings().mtu as usize - 12;
    // Above the largest size of version 5 it would be 6.
    if largest >= 131_072 || (largest > 4_000 && !scene.random.once_in(50)) {
        return None;
    }
    let (id, _) = scene.session_where(|session| session.version() == Some(5))?;
    let frame_type = scene.random.pick(&[
        frame::CONTROL,
        frame::SINGLE,
        frame::SINGLE,
        frame::CONSECUTIVE,
    ]);
    let service = scene.random.pick(&[CONTROL_SERVICE, RPC, AUDIO]);
    let mut header = scene.header(id, 5, frame_type, service);
    header.info = scene
        .random
        .pick(&[link::HEARTBEAT, link::START, link::END]);
    let length = largest + scene.random.pick(&[0, 1, 1, 1, 1]);
    let payload = scene.random.bytes(length);
    Some(Plan::of(header, payload))
}

/// 16: 0A or 0B, or 0F in version 1.
fn not_running(scene: &mut Scene) -> Plan {
    let (id, session) = scene.any_session();
    let version = scene.version_of(session);
    let mut services = vec![AUDIO, VIDEO, BULK, BULK, BULK];
    services.retain(|&service| !session.runs(service, version));
    if services.is_empty() {
        services.push(AUDIO);
    }
    let service = scene.random.pick(&services);
    match scene.random.below(3) {
        0 => messages::first_frame(scene, id, version, service, 600, 2),
        kind => {
            let frame_type = [frame::SINGLE, frame::CONSECUTIVE][kind - 1];
            let header = scene.header(id, version, frame_type, service);
            let length = scene.random.between(1, 20);
            let payload = scene.random.bytes(length);
            Plan::of(header, payload)
        }
    }
}

/// 17
fn other_info(scene: &mut Scene) -> Plan {
    let (id, session) = scene.any_session();
    let version = scene.version_of(session);
    let service = ServiceType(scene.random.pick(&values::SERVICES));
    let mut header = scene.header(id, version, frame::CONTROL, service);
    header.info = if scene.random.once_in(3) {
        scene.random.pick(&[link::HEARTBEAT, link::HEARTBEAT_ACK])
    } else {
        scene.random.pick(&OTHER_INFOS)
    };
    Plan::of(header, Vec::new())
}

/// 18
fn bad_total(scene: &mut Scene) -> Plan {
    let (id, session) = scene.any_session();
    let version = scene.version_of(session);
    let service = scene.running_service(session, version);
    let (total, count) = scene.random.pick(&BAD_TOTALS);
    messages::first_frame(scene, id, version, service, total, count)
}

/// 19, with the same id or another.
fn opened_again(scene: &mut Scene) -> Option<Plan> {
    let open = messages::any_open(scene)?;
    let version = open.session.version()?;
    let mut plan = messages::first_frame(scene, open.id, version, open.service, 300, 2);
    if scene.random.coin() {
        plan.header.id = open.message.id;
    }
    Some(plan)
}

/// 22
fn none_open(scene: &mut Scene) -> Plan {
    let (id, session) = scene.any_session();
    let version = scene.version_of(session);
    let running = running_services(session, version);
    let quiet: Vec<ServiceType> = running
        .iter()
        .copied()
        .filter(|&service| session.message(service).is_none())
        .collect();
    let services = if quiet.is_empty() { running } else { quiet };
    let service = scene.random.pick(&services);
    let mut header = scene.header(id, version, frame::CONSECUTIVE, service);
    header.info = scene.random.pick(&[0, 0, 1, 2]);
    let length = scene.random.between(1, 20);
    let payload = scene.random.bytes(length);
    Plan::of(header, payload)
}

fn running_services(session: &Session, version: u8) -> Vec<ServiceType> {
    let listed = values::SERVICES.map(ServiceType);
    listed
        .into_iter()
        .filter(|&service| session.runs(service, version))
        .collect()
}

/// An open message, and the right next header with a payload of few bytes.
fn short_next<'a>(scene: &mut Scene<'a>) -> Option<(Open<'a>, Plan)> {
    let open = messages::any_open(scene)?;
    let header = messages::next_header(&open);
    let length = scene.random.between(1, 20);
    let payload = scene.random.bytes(length);
    Some((open, Plan::of(header, payload)))
}

/// 23; version 1 has no message id to be wrong.
fn other_message(scene: &mut Scene) -> Option<Plan> {
    let (open, mut plan) = short_next(scene)?;
    let id = open.message.id.0;
    let other = scene
        .random
        .pick(&[id ^ 1, id.wrapping_add(1), !id, id.swap_bytes(), 0]);
    plan.header.id = MessageId(other);
    Some(plan)
}

/// 24
fn wrong_number(scene: &mut Scene) -> Option<Plan> {
    let (open, mut plan) = short_next(scene)?;
    let message = open.message;
    plan.header.info = values::wrong_number(scene.random, message.next_frame(), message.count);
    Some(plan)
}

/// 24 at a wrap, now and then, instead of the right next frame.
pub fn misnumbered(scene: &mut Scene, mut plan: Plan) -> Plan {
    let Some(message) = plan.message(scene.link) else {
        return plan;
    };
    let k = message.next_frame();
    if values::telling_number(k, message.count) && scene.random.once_in(WRAP_FAULTS) {
        plan.header.info = values::wrong_number(scene.random, k, message.count);
    }
    plan
}

/// 25: more than is missing, too little left, or something left at the end.
fn wrong_size(scene: &mut Scene) -> Option<Plan> {
    let (open, plan) = short_next(scene)?;
    let message = open.message;
    let behind = message.to_come - 1;
    let right = message.missing - behind;
    let size = match scene.random.below(3) {
        0 => right + 1,
        1 => right + behind + 1,
        _ if behind == 0 && right > 1 => right - 1,
        _ => right + behind,
    };
    if size > 2_000 && !scene.random.once_in(6) {
        return Some(plan);
    }
    let payload = scene.random.bytes(size.max(1));
    Some(Plan::of(plan.header, payload))
}

/// 1 to 6
fn spoilt(scene: &mut Scene) -> Plan {
    let mut plan = sensible(scene);
    let header = &mut plan.header;
    match scene.random.below(9) {
        0 => header.frame_type = scene.random.between(4, 7) as u8,
        1 => header.version = scene.random.pick(&[0, 6, 7, 15]),
        2 => {
            header.frame_type = frame::CONTROL;
            header.info = scene.random.pick(&values::BAD_CONTROL_INFOS);
        }
        _ => headers::spoil(scene.random, header),
    }
    plan
}

#[cfg(test)]
mod tests {
    use super::*;
    use crate::burst;

    #[test]
    fn bad_totals_are_bad() {
        for (total, count) in BAD_TOTALS {
            let refused = burst::check_total(total as usize, count as usize).is_err();
            assert!(refused, "{total} {count}");
        }
    }
}
