//! `rpc FORM version HEX`

use super::{push_refusal, Buffers, Words};
use crate::rpc::{self, Payload};
use crate::text;

pub fn answer(words: &mut Words, buffers: &mut Buffers, reply: &mut Vec<u8>) -> Option<()> {
    let form = words.form()?;
    let version = words.byte()?;
    words.bytes(&mut buffers.input)?;
    words.end()?;
    match rpc::read(form, version, &buffers.input) {
        Ok(payload) => push_payload(&payload, reply),
        Err(refusal) => push_refusal(refusal, reply),
    }
    Some(())
}

/// `P type function correlation size JSON BULK`, the numbers `-` where there
/// is no header.
fn push_payload(payload: &Payload, reply: &mut Vec<u8>) {
    reply.extend_from_slice(b"P ");
    match payload.header {
        Some(header) => {
            for number in [
                u32::from(header.message_type),
                header.function,
                header.correlation,
                header.json_size,
            ] {
                text::push_number(u64::from(number), reply);
                reply.push(b' ');
            }
        }
        None => reply.extend_from_slice(b"- - - - "),
    }
    text::push_bytes(payload.json, reply);
    reply.push(b' ');
    text::push_bytes(payload.bulk, reply);
}
