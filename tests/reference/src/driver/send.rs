//! `send version service session id chunk k OUTLEN HEX`

use super::{push_written, Buffers, Words};
use crate::frame::{MessageId, ServiceType, SessionId};
use crate::sender::{self, Outgoing};

pub fn answer(words: &mut Words, buffers: &mut Buffers, reply: &mut Vec<u8>) -> Option<()> {
    let version = words.byte()?;
    let service = ServiceType(words.byte()?);
    let session = SessionId(words.byte()?);
    let id = MessageId(words.bits32()?);
    let chunk = words.bits32()?;
    let k = words.bits32()?;
    let out_length = words.out_length()?;
    words.bytes(&mut buffers.input)?;
    words.end()?;
    buffers.fill_out(out_length);
    let outgoing = Outgoing {
        version,
        service,
        session,
        id,
        chunk,
        message: &buffers.input,
    };
    let written = sender::write_frame(&outgoing, k, &mut buffers.out);
    push_written(written, &buffers.out, reply);
    Some(())
}
