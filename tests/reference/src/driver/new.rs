//! `new M m p MTU`

use super::{push_refusal, Words};
use crate::link::version::ProtocolVersion;
use crate::link::{Link, Settings};
use crate::room::POOL_SIZE;

/// "Replaces the link and its pool". A line that cannot be read replaces
/// nothing; "After a `new` that answered `R 10` there is no link".
pub fn answer(words: &mut Words, link: &mut Option<Link>, reply: &mut Vec<u8>) -> Option<()> {
    let version = ProtocolVersion {
        major: words.byte()?,
        minor: words.byte()?,
        patch: words.byte()?,
    };
    let mtu = words.bits32()?;
    words.end()?;
    *link = None;
    match Link::new(Settings { version, mtu }, new_pool()) {
        Ok(created) => {
            *link = Some(created);
            reply.extend_from_slice(b"ok");
        }
        Err(refusal) => push_refusal(refusal, reply),
    }
    Some(())
}

/// "byte i of a new pool is (i*7 + 13) mod 256"
fn new_pool() -> Vec<u8> {
    (0..POOL_SIZE).map(|i| (i * 7 + 13) as u8).collect()
}
