//! Headers: good ones, and ones with a fault.

use super::random::Random;
use super::values;
use crate::frame::{
    Header, MessageId, ServiceType, SessionId, CONSECUTIVE, CONTROL, FIRST, FIRST_FRAME_SIZE,
};

/// A header that refusals 1 to 6 let pass.
pub fn good(random: &mut Random) -> Header {
    let version = random.between(1, 5) as u8;
    let frame_type = random.between(0, 3) as u8;
    let flag_allowed = version > 1 && frame_type != FIRST;
    Header {
        version,
        flag: flag_allowed && random.once_in(4),
        frame_type,
        service: ServiceType(random.pick(&values::SERVICES)),
        info: good_info(random, frame_type),
        session: SessionId(values::session(random)),
        size: good_size(random, version, frame_type),
        id: MessageId(values::id(random)),
    }
}

fn good_info(random: &mut Random, frame_type: u8) -> u8 {
    if frame_type == CONTROL {
        random.pick(&values::CONTROL_INFOS)
    } else {
        values::any_info(random)
    }
}

fn good_size(random: &mut Random, version: u8, frame_type: u8) -> u32 {
    match frame_type {
        FIRST => FIRST_FRAME_SIZE,
        CONSECUTIVE => values::size(random, version, 1) as u32,
        _ => values::size(random, version, 0) as u32,
    }
}

/// Gives the header one of the faults 1 to 6. Two calls often leave two
/// faults, which tries the order of the refusals.
pub fn spoil(random: &mut Random, header: &mut Header) {
    match random.below(6) {
        0 => header.version = random.pick(&values::BAD_VERSIONS),
        1 => header.frame_type = random.pick(&values::BAD_TYPES),
        2 => header.service = ServiceType(random.pick(&values::BAD_SERVICES)),
        3 => spoil_info(random, header),
        4 => spoil_flag(random, header),
        _ => spoil_size(random, header),
    }
}

/// Now and then the frame type is left as it is, so that the info is no fault.
fn spoil_info(random: &mut Random, header: &mut Header) {
    header.info = random.pick(&values::BAD_CONTROL_INFOS);
    if !random.once_in(4) {
        header.frame_type = CONTROL;
    }
}

/// Sets the flag in version 1, or on a First Frame, or on both.
fn spoil_flag(random: &mut Random, header: &mut Header) {
    header.flag = true;
    match random.below(3) {
        0 => header.version = 1,
        1 => set_first(header),
        _ => {
            header.version = 1;
            set_first(header);
        }
    }
}

fn set_first(header: &mut Header) {
    header.frame_type = FIRST;
    header.size = FIRST_FRAME_SIZE;
}

fn spoil_size(random: &mut Random, header: &mut Header) {
    match random.below(4) {
        0 => {
            header.frame_type = FIRST;
            header.size = random.pick(&values::BAD_FIRST_SIZES);
        }
        1 => {
            header.frame_type = CONSECUTIVE;
            header.size = 0;
        }
        _ => header.size = values::size_above(random, header.version),
    }
}

/// The header's bytes without any check, cut to its fields' bits.
pub fn raw(header: &Header) -> Vec<u8> {
    let first = header.version << 4 | u8::from(header.flag) << 3 | header.frame_type & 7;
    let mut bytes = vec![first, header.service.0, header.info, header.session.0];
    bytes.extend_from_slice(&header.size.to_be_bytes());
    if header.version != 1 {
        bytes.extend_from_slice(&header.id.0.to_be_bytes());
    }
    bytes
}
