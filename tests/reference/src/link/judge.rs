//! Refusals 12 to 17: may this frame come in its session at all?

use super::{
    Link, Session, CONTROL_SERVICE, END, HEARTBEAT, HEARTBEAT_ACK, PAYLOAD_VERSION, START,
};
use crate::frame::{self, Header};
use crate::refusal::Refusal;

/// The header's length in version 5: "mtu minus 12".
const HEADER_LENGTH: u32 = 12;

impl Link {
    /// The lowest number wins.
    pub(super) fn judge(&self, header: &Header) -> Result<(), Refusal> {
        // "0 never is": no session gets the id 0.
        let Some(session) = self.session(header.session) else {
            return Err(Refusal::SessionNotOpen);
        };
        if header.flag {
            return Err(Refusal::Encrypted);
        }
        if !self.version_allowed(session, header.version) {
            return Err(Refusal::OtherVersion);
        }
        if session.version() == Some(PAYLOAD_VERSION)
            && header.size > self.settings.mtu - HEADER_LENGTH
        {
            return Err(Refusal::AboveMtu);
        }
        let control = header.frame_type == frame::CONTROL;
        if !control && !session.runs(header.service, header.version) {
            return Err(Refusal::ServiceNotRunning);
        }
        if control && !control_taken(session, header) {
            return Err(Refusal::ControlNotTaken);
        }
        Ok(())
    }

    /// The opposite of "version not the settled one; unsettled: above min(M, 4)".
    fn version_allowed(&self, session: &Session, version: u8) -> bool {
        match session.version() {
            Some(settled) => version == settled,
            None => version <= self.settings.old_version(),
        }
    }
}

/// The opposite of "control info other than 00, 01, 04, FF; or 00, FF not on
/// service 00 or not settled at 3 or more".
fn control_taken(session: &Session, header: &Header) -> bool {
    match header.info {
        START | END => true,
        HEARTBEAT | HEARTBEAT_ACK => {
            header.service == CONTROL_SERVICE && session.settled_at_3_or_more()
        }
        _ => false,
    }
}
