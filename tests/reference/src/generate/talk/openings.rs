//! Openings of all kinds.

use super::documents;
use super::{Plan, Scene};
use crate::frame::{self, SessionId};
use crate::link;

/// A version 1 Start Service of 07 in session 0.
pub fn plan(scene: &mut Scene) -> Plan {
    let mut header = scene.header(SessionId(0), 1, frame::CONTROL, link::RPC);
    header.info = link::START;
    let payload = payload(scene);
    Plan::of(header, payload)
}

fn payload(scene: &mut Scene) -> Vec<u8> {
    let module = scene.link.settings().version;
    let random = &mut *scene.random;
    match random.weighted(&[18, 48, 8, 8, 5, 8]) {
        0 => Vec::new(),
        1 => {
            let version = documents::new_version(random, module);
            documents::with_version(random, &version)
        }
        2 => {
            let version = documents::old_version(random);
            documents::with_version(random, &version)
        }
        3 => {
            let version = documents::bad_version(random);
            documents::with_version(random, &version)
        }
        4 => documents::with_others(random, None),
        _ => documents::other(random),
    }
}
