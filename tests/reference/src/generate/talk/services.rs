//! Starts, ends and heartbeats in a session.

use super::documents;
use super::{Plan, Scene};
use crate::frame::{self, ServiceType, SessionId};
use crate::link::{self, Session, AUDIO, BULK, CONTROL_SERVICE, RPC, VIDEO};

/// A Start, mostly of 0A or 0B.
pub fn start(scene: &mut Scene) -> Plan {
    let able = scene.session_where(Session::settled_at_3_or_more);
    let (id, session) = match able {
        Some(found) if !scene.random.once_in(5) => found,
        _ => scene.any_session(),
    };
    let service = scene.random.pick(&[
        AUDIO,
        AUDIO,
        AUDIO,
        VIDEO,
        VIDEO,
        VIDEO,
        RPC,
        CONTROL_SERVICE,
        BULK,
    ]);
    let version = scene.version_of(session);
    let mut header = scene.header(id, version, frame::CONTROL, service);
    header.info = link::START;
    let payload = start_payload(scene);
    Plan::of(header, payload)
}

fn start_payload(scene: &mut Scene) -> Vec<u8> {
    let random = &mut *scene.random;
    match random.weighted(&[8, 4, 4]) {
        0 => Vec::new(),
        1 => documents::with_others(random, None),
        _ => documents::other(random),
    }
}

/// An End of any service, mostly of a running 0A or 0B with its own hash.
pub fn end(scene: &mut Scene) -> Plan {
    let busy = scene.session_where(|session| session.services().count() > 1);
    let (id, session) = match busy {
        Some(found) if !scene.random.once_in(3) => found,
        _ => scene.any_session(),
    };
    let running: Vec<ServiceType> = session.services().map(|(service, _)| service).collect();
    // The last of the running ones is 07 only if it is alone.
    let service = match scene.random.weighted(&[10, 4, 3]) {
        0 => running[running.len() - 1],
        1 => scene.random.pick(&running),
        _ => scene
            .random
            .pick(&[CONTROL_SERVICE, RPC, AUDIO, VIDEO, BULK]),
    };
    // Ending 07 closes the session: mostly with a wrong hash, then.
    let right = if service == RPC {
        scene.random.once_in(8)
    } else {
        !scene.random.once_in(3)
    };
    end_of(scene, id, session, service, right)
}

/// An End of 07 with the right hash, mostly in a session that is not busy.
pub fn end_of_session(scene: &mut Scene) -> Plan {
    let idle = scene.session_where(|session| session.messages().next().is_none());
    let (id, session) = match idle {
        Some(found) if !scene.random.once_in(3) => found,
        _ => scene.any_session(),
    };
    end_of(scene, id, session, RPC, true)
}

fn end_of(
    scene: &mut Scene,
    id: SessionId,
    session: &Session,
    service: ServiceType,
    right: bool,
) -> Plan {
    let version = scene.version_of(session);
    let mut header = scene.header(id, version, frame::CONTROL, service);
    header.info = link::END;
    let hash = session.hash(service).unwrap_or(39_027);
    let with_document = session.version() == Some(5);
    let payload = match (right, with_document) {
        (true, true) => right_document(scene, hash),
        (true, false) => hash.to_be_bytes().to_vec(),
        (false, _) => wrong_hash(scene, hash, with_document),
    };
    Plan::of(header, payload)
}

fn right_document(scene: &mut Scene, hash: u32) -> Vec<u8> {
    documents::with_others(scene.random, Some(documents::int32("hashId", hash)))
}

/// Another hash, the right one in a wrong form, or no hash.
fn wrong_hash(scene: &mut Scene, hash: u32, with_document: bool) -> Vec<u8> {
    let random = &mut *scene.random;
    let other = random.pick(&[hash ^ 1, hash.swap_bytes(), hash.wrapping_add(1), 0, !hash]);
    match random.below(8) {
        0 => Vec::new(),
        1 => documents::other(random),
        2 => documents::with_others(random, None),
        // The other version's form.
        3 if with_document => hash.to_be_bytes().to_vec(),
        3 => documents::document(&[documents::int32("hashId", hash)]),
        4 if with_document => documents::document(&[documents::string("hashId", "39027")]),
        // Not exactly 4 raw bytes.
        4 => hash.to_be_bytes()[..3].to_vec(),
        5 if !with_document => [&hash.to_be_bytes()[..], &[0]].concat(),
        _ if with_document => documents::document(&[documents::int32("hashId", other)]),
        _ => other.to_be_bytes().to_vec(),
    }
}

/// A Heartbeat or a Heartbeat ACK on service 00, rarely elsewhere.
pub fn heartbeat(scene: &mut Scene) -> Plan {
    let able = scene.session_where(Session::settled_at_3_or_more);
    let (id, session) = match able {
        Some(found) if !scene.random.once_in(4) => found,
        _ => scene.any_session(),
    };
    let service = scene.random.pick(&[
        CONTROL_SERVICE,
        CONTROL_SERVICE,
        CONTROL_SERVICE,
        RPC,
        AUDIO,
    ]);
    let version = scene.version_of(session);
    let mut header = scene.header(id, version, frame::CONTROL, service);
    header.info = scene
        .random
        .pick(&[link::HEARTBEAT, link::HEARTBEAT, link::HEARTBEAT_ACK]);
    let length = scene.random.pick(&[0, 0, 0, 1, 5, 30]);
    let payload = scene.random.bytes(length);
    Plan::of(header, payload)
}
