//! Single frames and messages in parts (document 01, "Messages").

use super::{Effect, Link, OpenMessage, Place, Session, LARGEST_CAP};
use crate::burst;
use crate::frame::{Frame, Header, SessionId};
use crate::refusal::Refusal;
use crate::room::{self, BlockNumber};

impl Link {
    /// "A single frame delivers its payload likewise."
    pub(super) fn single(&mut self, frame: &Frame, out: &mut [u8]) -> Result<Effect, Refusal> {
        let header = &frame.header;
        let length = frame.payload.len();
        let front = out.get_mut(..length).ok_or(Refusal::OutTooSmall)?;
        front.copy_from_slice(frame.payload);
        self.open_session(header.session).settle(header.version);
        Ok(Effect::Delivery(header.service, length))
    }

    /// A First Frame: 18 to 21, then it takes its blocks "and writes nothing".
    pub(super) fn first(&mut self, frame: &Frame) -> Result<Effect, Refusal> {
        let header = &frame.header;
        let (total, count) = total_and_count(frame.payload);
        burst::check_total(total, count)?;
        let session = &self.sessions[&header.session];
        if session.message(header.service).is_some() {
            return Err(Refusal::AlreadyOpen);
        }
        let need = room::needed(total);
        self.admit(header.session, need)?;
        let place = place_of(header);
        let looked = self.room.claim(place, need);
        // Document 02, A3. No answer tells the count.
        debug_assert_eq!(looked, behind_highest(self.room.blocks(place)));
        let session = self.open_session(header.session);
        session.settle(header.version);
        let message = OpenMessage {
            id: header.id,
            total,
            count,
            to_come: count,
            missing: total,
        };
        session.put_message(header.service, message);
        Ok(Effect::Silent)
    }

    /// "admitted if held + need ≤ C and the state rules hold after"
    fn admit(&self, id: SessionId, need: usize) -> Result<(), Refusal> {
        let session = &self.sessions[&id];
        let held = self.held(id);
        if held + need > session.cap() {
            return Err(Refusal::AboveCap);
        }
        let before = held.max(session.guarantee());
        let after = (held + need).max(session.guarantee());
        if self.promised() - before + after > usize::from(LARGEST_CAP) {
            return Err(Refusal::AboveRoom);
        }
        Ok(())
    }

    /// A consecutive frame: 22 to 25, for the last one 11, then its payload
    /// "goes to the message's blocks".
    pub(super) fn consecutive(&mut self, frame: &Frame, out: &mut [u8]) -> Result<Effect, Refusal> {
        let header = &frame.header;
        let place = place_of(header);
        let session = &self.sessions[&header.session];
        let message = *session
            .message(header.service)
            .ok_or(Refusal::NoMessageOpen)?;
        if header.id != message.id {
            return Err(Refusal::OtherMessage);
        }
        let after = match after_frame(&message, header.info, frame.payload.len()) {
            Ok(after) => after,
            Err(refusal) => {
                // 24 and 25: "message dropped"; the pool's bytes stay.
                self.drop_message(place);
                return Err(refusal);
            }
        };
        if after.to_come > 0 {
            self.room.append(place, frame.payload);
            self.open_session(header.session)
                .put_message(header.service, after);
            return Ok(Effect::Silent);
        }
        if out.len() < message.total {
            return Err(Refusal::OutTooSmall);
        }
        // "The last frame writes the message to the front of out [..] and
        // frees them."
        self.room.append(place, frame.payload);
        self.room.deliver(place, message.total, out);
        self.drop_message(place);
        Ok(Effect::Delivery(header.service, message.total))
    }

    /// The message is no longer open, and its blocks are free.
    pub(super) fn drop_message(&mut self, place: Place) {
        self.room.free(place);
        self.open_session(place.session).drop_message(place.service);
    }

    /// A session that was judged to be open.
    pub(super) fn open_session(&mut self, id: SessionId) -> &mut Session {
        self.sessions.get_mut(&id).expect("12 was judged")
    }
}

/// The message after one more frame, or 24 or 25.
fn after_frame(message: &OpenMessage, number: u8, size: usize) -> Result<OpenMessage, Refusal> {
    if number != message.next_number() {
        return Err(Refusal::FrameNumber);
    }
    let to_come = message.to_come - 1;
    // "After each frame, bytes still missing must be at least frames still
    // to come, and 0 when none is."
    let missing = message
        .missing
        .checked_sub(size)
        .ok_or(Refusal::FrameSizes)?;
    if missing < to_come || (to_come == 0 && missing != 0) {
        return Err(Refusal::FrameSizes);
    }
    Ok(OpenMessage {
        to_come,
        missing,
        ..*message
    })
}

/// "A First Frame (total, then count)", 4 bytes each; the reader gave it 8.
fn total_and_count(payload: &[u8]) -> (usize, usize) {
    let number = |bytes: &[u8]| {
        bytes
            .iter()
            .fold(0, |number, &byte| number << 8 | usize::from(byte))
    };
    (number(&payload[..4]), number(&payload[4..]))
}

/// The "highest block's number, from 0, plus 1"; they are in rising order.
fn behind_highest(blocks: &[BlockNumber]) -> usize {
    blocks.last().map_or(0, |block| usize::from(block.0) + 1)
}

fn place_of(header: &Header) -> Place {
    Place {
        session: header.session,
        service: header.service,
    }
}

#[cfg(test)]
mod tests {
    use super::*;
    use crate::driver::Driver;
    use crate::generate::{write_script, Form};

    /// An admitted First Frame.
    struct Admission {
        /// The blocks that the search for its own ones looked at.
        looked: usize,
        blocks: Vec<BlockNumber>,
        /// How many other sessions held blocks.
        others: usize,
    }

    impl Admission {
        /// That of the call between these two, if there is one. The count is
        /// told by the same claim, made again in the room that the call found.
        fn between(before: &Link, after: &Link) -> Option<Self> {
            let place = opened(before, after)?;
            let blocks = after.blocks(place);
            let mut room = before.room.clone();
            let looked = room.claim(place, blocks.len());
            assert_eq!(room.blocks(place), blocks);
            let others = before
                .sessions()
                .filter(|&(id, _)| id != place.session && before.held(id) > 0);
            Some(Admission {
                looked,
                blocks: blocks.to_vec(),
                others: others.count(),
            })
        }

        /// Whether blocks of other messages are between its own.
        fn scattered(&self) -> bool {
            let lowest = usize::from(self.blocks[0].0);
            behind_highest(&self.blocks) - lowest > self.blocks.len()
        }
    }

    /// The message that is open after a call and was not before it.
    fn opened(before: &Link, after: &Link) -> Option<Place> {
        let mut places = after.sessions().flat_map(|(session, row)| {
            let services = row.messages().map(|(service, _)| service);
            services.map(move |service| Place { session, service })
        });
        places.find(|&place| before.blocks(place).is_empty())
    }

    /// The admitted First Frames of a script.
    fn admissions(seed: u64) -> Vec<Admission> {
        let mut script = Vec::new();
        write_script(Form::Calls, seed, 2_500, &mut script).unwrap();
        let mut driver = Driver::default();
        let mut admissions = Vec::new();
        for line in script.split(|&byte| byte == b'\n') {
            let before = driver.link().cloned();
            driver.answer(line, &mut Vec::new());
            if let (Some(before), Some(after)) = (before, driver.link()) {
                admissions.extend(Admission::between(&before, after));
            }
        }
        admissions
    }

    #[test]
    fn the_search_of_a_first_frame_ends_at_its_highest_block() {
        let admissions: Vec<Admission> = (1..=8).flat_map(admissions).collect();
        for admission in &admissions {
            assert_eq!(admission.looked, behind_highest(&admission.blocks));
        }
        // The scripts hold what makes a search long: several sessions with
        // messages, and blocks between them that were freed again.
        let times = |test: fn(&&Admission) -> bool| admissions.iter().filter(test).count();
        assert!(admissions.len() >= 1_000, "{}", admissions.len());
        let crowded = times(|admission| admission.others >= 2);
        assert!(crowded >= 200, "{crowded}");
        let scattered = times(|admission| admission.scattered());
        assert!(scattered >= 80, "{scattered}");
        let to_the_end = times(|admission| admission.looked == room::BLOCK_COUNT);
        assert!(to_the_end >= 20, "{to_the_end}");
    }
}
