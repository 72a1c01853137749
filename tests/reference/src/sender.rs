//! The message sender (document 01, "Sender"): the k-th frame of a message.

use crate::burst;
use crate::frame::{self, Header, MessageId, ServiceType, SessionId};
use crate::refusal::Refusal;

/// A message and how it is to be sent.
#[derive(Clone, Copy, Debug)]
pub struct Outgoing<'a> {
    pub version: u8,
    pub service: ServiceType,
    pub session: SessionId,
    pub id: MessageId,
    /// The most bytes of the message that one frame may carry.
    pub chunk: u32,
    pub message: &'a [u8],
}

/// Writes the k-th frame to the front of `out` and answers its length.
///
/// The refusals come in the "order 1, 3, 10, 18, 26, 11"; 11 is given by
/// the frame writer, whose other refusals cannot occur for these frames.
#[inline]
pub fn write_frame(outgoing: &Outgoing, k: u32, out: &mut [u8]) -> Result<usize, Refusal> {
    check_settings(outgoing)?;
    let count = count_of(outgoing)?;
    if k as usize > count {
        return Err(Refusal::PastLastFrame);
    }
    let message = outgoing.message;
    if count == 0 {
        return write_part(outgoing, frame::SINGLE, 0, message, out);
    }
    if k == 0 {
        let payload = first_payload(message.len(), count);
        return write_part(outgoing, frame::FIRST, 0, &payload, out);
    }
    let number = burst::frame_number(k as usize, count);
    let part = chunk_of(message, outgoing.chunk as usize, k as usize);
    write_part(outgoing, frame::CONSECUTIVE, number, part, out)
}

/// Refusals 1, 3 and 10, in this order.
#[inline]
fn check_settings(outgoing: &Outgoing) -> Result<(), Refusal> {
    if !frame::version_listed(outgoing.version) {
        return Err(Refusal::Version);
    }
    if !frame::service_listed(outgoing.service) {
        return Err(Refusal::Service);
    }
    let largest = frame::largest_size(outgoing.version);
    if !(1..=largest).contains(&outgoing.chunk) {
        return Err(Refusal::OutOfRange);
    }
    Ok(())
}

/// The number of consecutive frames: 0 "if the message fits one chunk", else
/// "length over chunk, rounded up".
///
/// Only the second case can be refused ("if more than one chunk"): an empty
/// message, or one above 65,536 bytes in one large chunk, is a single frame.
/// Its count is never 0 nor above the length, so that 18 is for a length
/// above 65,536 alone.
#[inline]
fn count_of(outgoing: &Outgoing) -> Result<usize, Refusal> {
    let length = outgoing.message.len();
    let chunk = outgoing.chunk as usize;
    if length <= chunk {
        return Ok(0);
    }
    let count = length.div_ceil(chunk);
    burst::check_total(length, count)?;
    Ok(count)
}

/// "A First Frame (total, then count)", most significant byte first.
/// Both numbers were checked: they fit 32 bits.
#[inline]
fn first_payload(total: usize, count: usize) -> [u8; frame::FIRST_FRAME_SIZE as usize] {
    let mut payload = [0; frame::FIRST_FRAME_SIZE as usize];
    payload[..4].copy_from_slice(&(total as u32).to_be_bytes());
    payload[4..].copy_from_slice(&(count as u32).to_be_bytes());
    payload
}

/// The k-th chunk, k counted from 1; the last one may be shorter.
#[inline]
fn chunk_of(message: &[u8], chunk: usize, k: usize) -> &[u8] {
    let start = (k - 1) * chunk;
    let end = message.len().min(start + chunk);
    &message[start..end]
}

/// Writes one frame of the message; the flag is never set, since encrypted
/// content is left to others.
#[inline]
fn write_part(
    outgoing: &Outgoing,
    frame_type: u8,
    info: u8,
    payload: &[u8],
    out: &mut [u8],
) -> Result<usize, Refusal> {
    let header = Header {
        version: outgoing.version,
        flag: false,
        frame_type,
        service: outgoing.service,
        info,
        session: outgoing.session,
        size: payload.len() as u32,
        id: outgoing.id,
    };
    frame::write(&header, payload, out)
}
