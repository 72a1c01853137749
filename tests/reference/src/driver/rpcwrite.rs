//! `rpcwrite FORM version type function correlation size OUTLEN JSON BULK`

use super::{push_written, Buffers, Words};
use crate::rpc::{self, Header};

pub fn answer(words: &mut Words, buffers: &mut Buffers, reply: &mut Vec<u8>) -> Option<()> {
    let form = words.form()?;
    let version = words.byte()?;
    let header = header(words)?;
    let out_length = words.out_length()?;
    words.bytes(&mut buffers.input)?;
    words.bytes(&mut buffers.bulk)?;
    words.end()?;
    buffers.fill_out(out_length);
    let (json, bulk) = (&buffers.input, &buffers.bulk);
    let written = rpc::write(form, version, &header, json, bulk, &mut buffers.out);
    push_written(written, &buffers.out, reply);
    Some(())
}

/// The header's words; the fields stand here in the words' order.
fn header(words: &mut Words) -> Option<Header> {
    Some(Header {
        message_type: words.byte()?,
        function: words.bits32()?,
        correlation: words.bits32()?,
        json_size: words.bits32()?,
    })
}
