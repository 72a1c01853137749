//! `read HEX`

use super::{push_refusal, Buffers, Words};
use crate::frame::{self, Frame, Reading};
use crate::text;

pub fn answer(words: &mut Words, buffers: &mut Buffers, reply: &mut Vec<u8>) -> Option<()> {
    words.bytes(&mut buffers.input)?;
    words.end()?;
    match frame::read(&buffers.input) {
        Reading::Frame(frame) => push_frame(&frame, reply),
        Reading::Short(needed) => {
            reply.extend_from_slice(b"S ");
            text::push_number(needed as u64, reply);
        }
        Reading::Refused(refusal) => push_refusal(refusal, reply),
    }
    Some(())
}

/// `F version flag type service info session size id consumed HEX`
fn push_frame(frame: &Frame, reply: &mut Vec<u8>) {
    let header = &frame.header;
    reply.extend_from_slice(b"F ");
    for number in [
        u64::from(header.version),
        u64::from(header.flag),
        u64::from(header.frame_type),
        u64::from(header.service.0),
        u64::from(header.info),
        u64::from(header.session.0),
        u64::from(header.size),
        u64::from(header.id.0),
        frame.consumed as u64,
    ] {
        text::push_number(number, reply);
        reply.push(b' ');
    }
    text::push_bytes(frame.payload, reply);
}
