//! One frame: its header, the reader and the writers (document 01, "Frame layout").

use crate::refusal::Refusal;

/// A session's number; 0 is no session.
///
/// The three number types here are structs because document 01 says they
/// "must never be exchangeable by mistake".
#[derive(Clone, Copy, Debug, PartialEq, Eq, PartialOrd, Ord)]
pub struct SessionId(pub u8);

/// A service's number, listed or not.
#[derive(Clone, Copy, Debug, PartialEq, Eq, PartialOrd, Ord)]
pub struct ServiceType(pub u8);

/// A message's number.
#[derive(Clone, Copy, Debug, PartialEq, Eq, PartialOrd, Ord)]
pub struct MessageId(pub u32);

/// "Frame types: 0 control, 1 single, 2 first, 3 consecutive."
pub const CONTROL: u8 = 0;
pub const SINGLE: u8 = 1;
pub const FIRST: u8 = 2;
pub const CONSECUTIVE: u8 = 3;

/// The newest version there is.
pub const NEWEST_VERSION: u8 = 5;

/// A First Frame's data: total, then count, 4 bytes each.
pub const FIRST_FRAME_SIZE: u32 = 8;

/// The part of the header that every version has, and version 1's whole header.
const SHORT_HEADER: usize = 8;

/// The header with its message id, in versions 2 to 5.
const LONG_HEADER: usize = 12;

/// A frame header. It holds any values, also those that the rules refuse,
/// because the writer must answer for them too.
#[derive(Clone, Copy, Debug, PartialEq, Eq)]
pub struct Header {
    pub version: u8,
    pub flag: bool,
    pub frame_type: u8,
    pub service: ServiceType,
    pub info: u8,
    pub session: SessionId,
    pub size: u32,
    pub id: MessageId,
}

/// A frame found by the reader.
#[derive(Clone, Copy, Debug, PartialEq, Eq)]
pub struct Frame<'a> {
    pub header: Header,
    /// The part of the lent bytes behind the header.
    pub payload: &'a [u8],
    /// The frame's bytes in all.
    pub consumed: usize,
}

/// The reader's answer.
#[derive(Clone, Copy, Debug, PartialEq, Eq)]
pub enum Reading<'a> {
    Frame(Frame<'a>),
    /// Too few bytes are there; the number is "the bytes needed in all".
    Short(usize),
    Refused(Refusal),
}

/// Answers the frame at the front of `bytes` and ignores what follows it.
#[inline]
pub fn read(bytes: &[u8]) -> Reading<'_> {
    // "8 if fewer than 8 are there": nothing is judged before that.
    let Some(front) = bytes.first_chunk::<SHORT_HEADER>() else {
        return Reading::Short(SHORT_HEADER);
    };
    let mut header = header_without_id(front);
    // "Refusals 1 to 6 need 8 bytes and come before the second Short."
    if let Err(refusal) = check(&header) {
        return Reading::Refused(refusal);
    }
    let head = header_length(header.version);
    let whole = head + header.size as usize;
    let Some(frame) = bytes.get(..whole) else {
        return Reading::Short(whole);
    };
    let (head_bytes, payload) = frame.split_at(head);
    if let Some(id) = head_bytes[SHORT_HEADER..].first_chunk::<4>() {
        header.id = MessageId(u32::from_be_bytes(*id));
    }
    Reading::Frame(Frame {
        header,
        payload,
        consumed: whole,
    })
}

/// Writes the header alone to the front of `out` and answers its length.
///
/// It applies 1 to 6 to the header, then 11; the other bytes of `out` stay.
#[inline]
pub fn write_header(header: &Header, out: &mut [u8]) -> Result<usize, Refusal> {
    check(header)?;
    let head = header_length(header.version);
    let room = out.get_mut(..head).ok_or(Refusal::OutTooSmall)?;
    put_header(header, room);
    Ok(head)
}

/// Writes header and payload to the front of `out` and answers their length.
///
/// The other bytes of `out` stay, and all of them do if it is refused.
#[inline]
pub fn write(header: &Header, payload: &[u8], out: &mut [u8]) -> Result<usize, Refusal> {
    // The writer "applies 1 to 6 to them, refuses a data size unlike the
    // payload's length with 6, then 11 if the out buffer is too small".
    check(header)?;
    if header.size as usize != payload.len() {
        return Err(Refusal::Size);
    }
    let head = header_length(header.version);
    let whole = head + payload.len();
    let room = out.get_mut(..whole).ok_or(Refusal::OutTooSmall)?;
    let (head_room, payload_room) = room.split_at_mut(head);
    put_header(header, head_room);
    payload_room.copy_from_slice(payload);
    Ok(whole)
}

/// Judges a header by refusals 1 to 6; the lowest number wins.
#[inline]
pub fn check(header: &Header) -> Result<(), Refusal> {
    if !version_listed(header.version) {
        return Err(Refusal::Version);
    }
    if header.frame_type > CONSECUTIVE {
        return Err(Refusal::FrameType);
    }
    if !service_listed(header.service) {
        return Err(Refusal::Service);
    }
    // "Single and First Frames may carry any info", and a consecutive
    // frame's info is its number: only a control frame's is judged.
    if header.frame_type == CONTROL && !control_info_listed(header.info) {
        return Err(Refusal::ControlInfo);
    }
    if header.flag && (header.version == 1 || header.frame_type == FIRST) {
        return Err(Refusal::Flag);
    }
    if !size_allowed(header) {
        return Err(Refusal::Size);
    }
    Ok(())
}

/// Versions 1 to 5.
#[inline]
pub fn version_listed(version: u8) -> bool {
    (1..=NEWEST_VERSION).contains(&version)
}

/// "Services: 00, 07 RPC, 0A audio, 0B video, 0F bulk (hex)."
#[inline]
pub fn service_listed(service: ServiceType) -> bool {
    matches!(service.0, 0x00 | 0x07 | 0x0a | 0x0b | 0x0f)
}

/// "Control infos: 00 to 09, FD, FE, FF."
#[inline]
pub fn control_info_listed(info: u8) -> bool {
    matches!(info, 0x00..=0x09 | 0xfd..=0xff)
}

/// "Largest data size: 1,488 in versions 1 and 2 (000's table), 131,072 in 3 to 5."
#[inline]
pub fn largest_size(version: u8) -> u32 {
    if version <= 2 {
        1_488
    } else {
        131_072
    }
}

/// "Version 1 has an 8-byte header"; "versions 2 to 5 add a message id".
#[inline]
pub fn header_length(version: u8) -> usize {
    if version == 1 {
        SHORT_HEADER
    } else {
        LONG_HEADER
    }
}

/// The opposite of "First Frame size not 8, consecutive size 0, or above the largest".
#[inline]
fn size_allowed(header: &Header) -> bool {
    let of_its_type = match header.frame_type {
        FIRST => header.size == FIRST_FRAME_SIZE,
        CONSECUTIVE => header.size != 0,
        _ => true,
    };
    of_its_type && header.size <= largest_size(header.version)
}

/// The header's first 8 bytes; the message id stays 0, as version 1's reads.
#[inline]
fn header_without_id(front: &[u8; SHORT_HEADER]) -> Header {
    let [first, service, info, session, size @ ..] = *front;
    Header {
        version: first >> 4,
        flag: first & 0b1000 != 0,
        frame_type: first & 0b111,
        service: ServiceType(service),
        info,
        session: SessionId(session),
        size: u32::from_be_bytes(size),
        id: MessageId(0),
    }
}

/// Writes a checked header into exactly its room: "In version 1 it writes no
/// message id", so that room ends where the id would begin.
#[inline]
fn put_header(header: &Header, room: &mut [u8]) {
    room[0] = header.version << 4 | u8::from(header.flag) << 3 | header.frame_type;
    room[1] = header.service.0;
    room[2] = header.info;
    room[3] = header.session.0;
    room[4..SHORT_HEADER].copy_from_slice(&header.size.to_be_bytes());
    if room.len() == LONG_HEADER {
        room[SHORT_HEADER..].copy_from_slice(&header.id.0.to_be_bytes());
    }
}
