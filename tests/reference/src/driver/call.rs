//! `call G C HASH OUTLEN HEX`

use super::{push_refusal, Buffers, Words};
use crate::frame::SessionId;
use crate::link::{Answer, Effect, Link, Offer, OpenMessage, Place, Session};
use crate::text;

/// Reads the line as a whole first; without a link it cannot be served.
pub fn answer(
    words: &mut Words,
    buffers: &mut Buffers,
    link: Option<&mut Link>,
    reply: &mut Vec<u8>,
) -> Option<()> {
    let offer = Offer {
        guarantee: words.bits16()?,
        cap: words.bits16()?,
        hash: words.bits32()?,
    };
    let out_length = words.out_length()?;
    words.bytes(&mut buffers.input)?;
    words.end()?;
    let link = link?;
    buffers.fill_out(out_length);
    let answer = link.call(&offer, &buffers.input, &mut buffers.out);
    push_answer(&answer, &buffers.out, reply);
    reply.extend_from_slice(b" out=");
    push_number(text::check(&buffers.out) as usize, reply);
    reply.extend_from_slice(b" pool=");
    push_number(text::check(link.pool()) as usize, reply);
    reply.push(b' ');
    push_state(link, reply);
    Some(())
}

/// `S n`, `R n`, `W consumed HEX`, `D consumed SERVICE HEX` or `A consumed`.
fn push_answer(answer: &Answer, out: &[u8], reply: &mut Vec<u8>) {
    let (consumed, effect) = match *answer {
        Answer::Short(needed) => {
            reply.extend_from_slice(b"S ");
            return push_number(needed, reply);
        }
        Answer::Refused(refusal) => return push_refusal(refusal, reply),
        Answer::Accepted { consumed, effect } => (consumed, effect),
    };
    let letter = match effect {
        Effect::Reply(_) => b"W ",
        Effect::Delivery(..) => b"D ",
        Effect::Silent => b"A ",
    };
    reply.extend_from_slice(letter);
    push_number(consumed, reply);
    if let Effect::Delivery(service, _) = effect {
        reply.push(b' ');
        text::push_bytes(&[service.0], reply);
    }
    if let Effect::Reply(length) | Effect::Delivery(_, length) = effect {
        reply.push(b' ');
        text::push_bytes(&out[..length], reply);
    }
}

/// "`-` if no session is open, else the open sessions by rising id, joined by `;`"
fn push_state(link: &Link, reply: &mut Vec<u8>) {
    push_joined(link.sessions(), b';', reply, |(id, session), reply| {
        push_session(link, id, session, reply)
    });
}

/// `id,G,C,version,next,services,held,messages`
fn push_session(link: &Link, id: SessionId, session: &Session, reply: &mut Vec<u8>) {
    for number in [
        usize::from(id.0),
        session.guarantee(),
        session.cap(),
        // "version 0 if unsettled"
        usize::from(session.version().unwrap_or(0)),
        session.next_ack().0 as usize,
    ] {
        push_number(number, reply);
        reply.push(b',');
    }
    push_joined(session.services(), b'+', reply, |(service, hash), reply| {
        text::push_bytes(&[service.0], reply);
        reply.push(b'=');
        push_number(hash as usize, reply);
    });
    reply.push(b',');
    push_number(link.held(id), reply);
    reply.push(b',');
    push_joined(
        session.messages(),
        b'+',
        reply,
        |(service, message), reply| {
            let place = Place {
                session: id,
                service,
            };
            push_message(link, place, message, reply);
        },
    );
}

/// `SERVICE/ID/TOTAL/COUNT/FRAMESTOCOME/BYTESMISSING/BLOCKS`
fn push_message(link: &Link, place: Place, message: &OpenMessage, reply: &mut Vec<u8>) {
    text::push_bytes(&[place.service.0], reply);
    for number in [
        message.id.0 as usize,
        message.total,
        message.count,
        message.to_come,
        message.missing,
    ] {
        reply.push(b'/');
        push_number(number, reply);
    }
    reply.push(b'/');
    push_joined(link.blocks(place).iter(), b'.', reply, |block, reply| {
        push_number(usize::from(block.0), reply)
    });
}

/// Appends the items with `mark` between them, or `-` if there is none.
fn push_joined<T>(
    items: impl Iterator<Item = T>,
    mark: u8,
    reply: &mut Vec<u8>,
    mut push: impl FnMut(T, &mut Vec<u8>),
) {
    let start = reply.len();
    for item in items {
        if reply.len() > start {
            reply.push(mark);
        }
        push(item, reply);
    }
    if reply.len() == start {
        reply.push(b'-');
    }
}

fn push_number(number: usize, reply: &mut Vec<u8>) {
    text::push_number(number as u64, reply);
}
