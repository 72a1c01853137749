//! `payload HEX`

use super::{push_refusal, Buffers, Words};
use crate::payload::{self, Tags};
use crate::text;

pub fn answer(words: &mut Words, buffers: &mut Buffers, reply: &mut Vec<u8>) -> Option<()> {
    words.bytes(&mut buffers.input)?;
    words.end()?;
    match payload::read(&buffers.input) {
        Ok(tags) => push_tags(&tags, reply),
        Err(refusal) => push_refusal(refusal, reply),
    }
    Some(())
}

/// `T version=V hash=H mtu=M rejected=J`
fn push_tags(tags: &Tags, reply: &mut Vec<u8>) {
    reply.extend_from_slice(b"T version=");
    match tags.protocol_version {
        // "`=` alone, nothing behind it, if it has none": no `-`, which
        // stands for an absent tag here.
        Some(b"") => (),
        Some(text) => text::push_bytes(text, reply),
        None => reply.push(b'-'),
    }
    reply.extend_from_slice(b" hash=");
    push_bits(tags.hash_id.map(u64::from), reply);
    reply.extend_from_slice(b" mtu=");
    push_bits(tags.mtu, reply);
    reply.extend_from_slice(b" rejected=");
    reply.push(if tags.rejected_params { b'1' } else { b'-' });
}

/// "`-` or the tag's bits as an unsigned number"
fn push_bits(bits: Option<u64>, reply: &mut Vec<u8>) {
    match bits {
        Some(bits) => text::push_number(bits, reply),
        None => reply.push(b'-'),
    }
}
