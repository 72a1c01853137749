//! `write version flag type service info session size id OUTLEN HEX`

use super::{push_written, Buffers, Words};
use crate::frame::{self, Header, MessageId, ServiceType, SessionId};

pub fn answer(words: &mut Words, buffers: &mut Buffers, reply: &mut Vec<u8>) -> Option<()> {
    let header = header(words)?;
    let out_length = words.out_length()?;
    words.bytes(&mut buffers.input)?;
    words.end()?;
    buffers.fill_out(out_length);
    let written = frame::write(&header, &buffers.input, &mut buffers.out);
    push_written(written, &buffers.out, reply);
    Some(())
}

/// The header's words; the fields stand here in the words' order.
fn header(words: &mut Words) -> Option<Header> {
    Some(Header {
        version: words.byte()?,
        flag: words.flag()?,
        frame_type: words.byte()?,
        service: ServiceType(words.byte()?),
        info: words.byte()?,
        session: SessionId(words.byte()?),
        size: words.bits32()?,
        id: MessageId(words.bits32()?),
    })
}
