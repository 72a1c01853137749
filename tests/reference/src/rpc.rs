//! What is inside joined messages (document 02, A1): the RPC payload, the
//! bulk form and the security query. JSON stays uninterpreted.

use crate::frame;
use crate::refusal::Refusal;

/// The header of all three forms: "the 12-byte RPC header", and the security
/// query's fields of 8, 24, 32 and 32 bits.
pub const HEADER_LENGTH: usize = 12;

/// The bits of the header's first number that a function id and a query id take.
const FUNCTION_BITS: u32 = 28;
const QUERY_BITS: u32 = 24;

/// Which payload is read or written; whoever calls knows it by the service.
#[derive(Clone, Copy, Debug, PartialEq, Eq)]
pub enum Form {
    Rpc,
    /// "JSON then bulk data"
    Bulk,
    /// The security query, whose binary data is here called bulk data too.
    Query,
}

/// A header. It holds any values, also those that the rules refuse, because
/// the writer must answer for them too.
#[derive(Clone, Copy, Debug, PartialEq, Eq)]
pub struct Header {
    /// The RPC type or the query's type.
    pub message_type: u8,
    /// The function id or the query's id.
    pub function: u32,
    /// The correlation id or the query's sequence number.
    pub correlation: u32,
    pub json_size: u32,
}

/// A payload found by the reader.
#[derive(Clone, Copy, Debug, PartialEq, Eq)]
pub struct Payload<'a> {
    /// None where the form has no header: RPC at version 1.
    pub header: Option<Header>,
    pub json: &'a [u8],
    pub bulk: &'a [u8],
}

/// Answers the parts of a whole payload.
#[inline]
pub fn read(form: Form, version: u8, payload: &[u8]) -> Result<Payload<'_>, Refusal> {
    let header = read_header(form, version, payload)?;
    let (json, bulk) = match header {
        Some(header) => payload[HEADER_LENGTH..].split_at(header.json_size as usize),
        // "its payload is all JSON"
        None => (payload, &payload[payload.len()..]),
    };
    Ok(Payload { header, json, bulk })
}

/// Answers the header of a whole payload, all of which is judged: 1, then 40
/// to 44 in rising order. None where the form has no header.
#[inline]
pub fn read_header(form: Form, version: u8, payload: &[u8]) -> Result<Option<Header>, Refusal> {
    check_version(version)?;
    if !has_header(form, version) {
        return Ok(None);
    }
    let Some((front, behind)) = payload.split_first_chunk::<HEADER_LENGTH>() else {
        return Err(Refusal::PayloadTooShort);
    };
    let header = unpacked(form, front);
    check_type_and_id(form, &header)?;
    // Compared as numbers: 12 plus the size is never built, so nothing wraps.
    let size = u64::from(header.json_size);
    let left = behind.len() as u64;
    if size > left {
        return Err(Refusal::JsonSize);
    }
    if form == Form::Rpc && size < left {
        return Err(Refusal::BytesAfterJson);
    }
    Ok(Some(header))
}

/// Writes header, JSON and bulk data to the front of `out` and answers their
/// length. "The writer gives 1, 41, 42, then 43 if the JSON size isn't the
/// JSON's length, 44 for bulk on RPC, then 11."
///
/// The other bytes of `out` stay, and all of them do if it is refused.
#[inline]
pub fn write(
    form: Form,
    version: u8,
    header: &Header,
    json: &[u8],
    bulk: &[u8],
    out: &mut [u8],
) -> Result<usize, Refusal> {
    check_version(version)?;
    let head = if has_header(form, version) {
        check_type_and_id(form, header)?;
        if u64::from(header.json_size) != json.len() as u64 {
            return Err(Refusal::JsonSize);
        }
        HEADER_LENGTH
    } else {
        0
    };
    if form == Form::Rpc && !bulk.is_empty() {
        return Err(Refusal::BytesAfterJson);
    }
    let whole = head + json.len() + bulk.len();
    let room = out.get_mut(..whole).ok_or(Refusal::OutTooSmall)?;
    let (head_room, behind) = room.split_at_mut(head);
    if let Some(head_room) = head_room.first_chunk_mut() {
        *head_room = packed(form, header);
    }
    let (json_room, bulk_room) = behind.split_at_mut(json.len());
    json_room.copy_from_slice(json);
    bulk_room.copy_from_slice(bulk);
    Ok(whole)
}

/// 1, as of frames: it comes before all others, in every form.
#[inline]
fn check_version(version: u8) -> Result<(), Refusal> {
    if frame::version_listed(version) {
        Ok(())
    } else {
        Err(Refusal::Version)
    }
}

/// "At version 1 RPC alone has no such header": the other forms keep theirs.
#[inline]
fn has_header(form: Form, version: u8) -> bool {
    form != Form::Rpc || version != 1
}

/// Refusals 41 and 42. A function id that was read has 28 bits and is never
/// refused, so that reader and writer judge alike.
#[inline]
fn check_type_and_id(form: Form, header: &Header) -> Result<(), Refusal> {
    if !type_listed(form, header.message_type) {
        return Err(Refusal::MessageType);
    }
    if !id_allowed(form, header.function) {
        return Err(Refusal::FunctionId);
    }
    Ok(())
}

/// The opposite of "type not 0 to 2 (query: not 00, 10, 20 or FF)".
#[inline]
fn type_listed(form: Form, message_type: u8) -> bool {
    match form {
        Form::Rpc | Form::Bulk => message_type <= 2,
        Form::Query => matches!(message_type, 0x00 | 0x10 | 0x20 | 0xff),
    }
}

/// The opposite of "query id not 1, 2 or FFFFFF (all hex; in the writer also
/// a function id over 28 bits)".
#[inline]
fn id_allowed(form: Form, id: u32) -> bool {
    match form {
        Form::Rpc | Form::Bulk => id >> FUNCTION_BITS == 0,
        Form::Query => matches!(id, 1 | 2 | 0xff_ffff),
    }
}

/// How many bits of the header's first number the id takes; the type has the rest.
#[inline]
fn id_bits(form: Form) -> u32 {
    match form {
        Form::Rpc | Form::Bulk => FUNCTION_BITS,
        Form::Query => QUERY_BITS,
    }
}

/// The fields of 12 bytes: "Header numbers are most significant byte first".
#[inline]
fn unpacked(form: Form, front: &[u8; HEADER_LENGTH]) -> Header {
    let [a, b, c, d, e, f, g, h, size @ ..] = *front;
    let first = u32::from_be_bytes([a, b, c, d]);
    let bits = id_bits(form);
    Header {
        message_type: (first >> bits) as u8,
        function: first & ((1 << bits) - 1),
        correlation: u32::from_be_bytes([e, f, g, h]),
        json_size: u32::from_be_bytes(size),
    }
}

/// The 12 bytes of a checked header, whose type and id fit their bits.
#[inline]
fn packed(form: Form, header: &Header) -> [u8; HEADER_LENGTH] {
    let first = u32::from(header.message_type) << id_bits(form) | header.function;
    let mut bytes = [0; HEADER_LENGTH];
    bytes[..4].copy_from_slice(&first.to_be_bytes());
    bytes[4..8].copy_from_slice(&header.correlation.to_be_bytes());
    bytes[8..].copy_from_slice(&header.json_size.to_be_bytes());
    bytes
}
