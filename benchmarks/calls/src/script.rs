//! Frames for the program `pace`: some once, then others again and again.

use reference::frame::{self, Header, MessageId, ServiceType, SessionId};

/// Largest data size of the frames that are appended: document 01's in versions 1 and 2.
const CHUNK: usize = 1_488;
/// Frames of so many bytes in a message that is dropped before it is complete.
pub const APPENDED: usize = 40;
/// The bytes of a block.
const BLOCK: usize = 256;
/// The largest message.
const TOTAL: usize = 65_536;

pub struct Script {
    pub first: Vec<Vec<u8>>,
    pub again: Vec<Vec<u8>>,
}

impl Script {
    /// What `pace` reads. A place holds the longest frame.
    pub fn bytes(&self, times: usize) -> Vec<u8> {
        let frames = self.first.iter().chain(&self.again);
        let place = frames.clone().map(Vec::len).max().unwrap_or(0);
        let lengths = [
            place,
            self.first.len() * place,
            self.again.len() * place,
            self.again.len() * times,
        ];
        let mut bytes = Vec::new();
        for number in lengths {
            bytes.extend_from_slice(&(number as u32).to_be_bytes());
        }
        for frame in frames {
            bytes.extend_from_slice(frame);
            bytes.resize(bytes.len() + place - frame.len(), 0);
        }
        bytes
    }
}

fn written(
    version: u8,
    frame_type: u8,
    service: u8,
    info: u8,
    session: u8,
    payload: &[u8],
) -> Vec<u8> {
    let header = Header {
        version,
        flag: false,
        frame_type,
        service: ServiceType(service),
        info,
        session: SessionId(session),
        size: payload.len() as u32,
        id: MessageId(if version == 1 { 0 } else { 7 }),
    };
    let mut bytes = vec![0; 12 + payload.len()];
    let length = frame::write(&header, payload, &mut bytes).expect("a frame that is accepted");
    bytes.truncate(length);
    bytes
}

/// A session of version 5, with the payload of document 01's "5.4.1".
fn opening() -> Vec<u8> {
    let mut payload = vec![32, 0, 0, 0, 2];
    payload.extend_from_slice(b"protocolVersion\0");
    payload.extend_from_slice(&[6, 0, 0, 0]);
    payload.extend_from_slice(b"5.4.1\0\0");
    written(1, 0, 0x07, 0x01, 0, &payload)
}

/// So many sessions, each with a message open or none.
#[derive(Clone, Copy)]
pub struct Load {
    pub sessions: u8,
    pub open: bool,
}

impl Load {
    fn frames(self) -> Vec<Vec<u8>> {
        let mut frames = vec![opening(); usize::from(self.sessions)];
        if self.open {
            frames.extend((1..=self.sessions).map(|session| announced(session, BLOCK, 1)));
        }
        frames
    }
}

/// 12: a session that is not open.
pub fn refusal(load: Load) -> Script {
    Script {
        first: load.frames(),
        again: vec![written(5, 1, 0x07, 0, 9, &[])],
    }
}

/// A Heartbeat.
pub fn reply(load: Load) -> Script {
    Script {
        first: load.frames(),
        again: vec![written(5, 0, 0x00, 0x00, 1, &[])],
    }
}

/// A Single Frame of 64 bytes.
pub fn single(load: Load) -> Script {
    Script {
        first: load.frames(),
        again: vec![written(5, 1, 0x07, 0, 1, &[0x5a; 64])],
    }
}

/// A First Frame of so many bytes in so many frames.
fn announced(session: u8, total: usize, count: usize) -> Vec<u8> {
    let mut payload = (total as u32).to_be_bytes().to_vec();
    payload.extend_from_slice(&(count as u32).to_be_bytes());
    written(5, 2, 0x07, 0, session, &payload)
}

/// A wrong number, which drops the message.
fn wrong() -> Vec<u8> {
    written(5, 3, 0x07, 255, 1, &[0x5a])
}

/// A message begins, grows by so many frames, and is dropped.
pub fn dropped(frames: usize) -> Script {
    let mut again = vec![announced(1, TOTAL, 45)];
    for number in 1..=frames {
        let payload: Vec<u8> = (0..CHUNK).map(|i| (i * 7 + number) as u8).collect();
        again.push(written(5, 3, 0x07, number as u8, 1, &payload));
    }
    again.push(wrong());
    Script {
        first: vec![opening()],
        again,
    }
}

/// A First Frame of so many blocks, and a wrong number that frees them again, while another session holds the first ones.
pub fn claimed(blocks: usize, held: usize) -> Script {
    let mut first = vec![opening(), opening()];
    if held > 0 {
        first.push(announced(2, held * BLOCK, 1));
    }
    Script {
        first,
        again: vec![announced(1, blocks * BLOCK, 1), wrong()],
    }
}

/// A message of all its bytes but one, then the last byte, which delivers it; or a wrong number.
pub fn message(whole: bool) -> Script {
    let payload: Vec<u8> = (0..TOTAL - 1).map(|i| (i * 7 + 13) as u8).collect();
    let last = if whole {
        written(5, 3, 0x07, 0, 1, &[0x5a])
    } else {
        wrong()
    };
    Script {
        first: vec![opening()],
        again: vec![
            announced(1, TOTAL, 2),
            written(5, 3, 0x07, 1, 1, &payload),
            last,
        ],
    }
}
