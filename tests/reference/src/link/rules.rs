//! Document 01's "State rules". A link keeps them of itself, and no script
//! can hand it another state, so `call` never asks; the tests do.

use std::collections::BTreeSet;

use super::{Link, OpenMessage, Place, Session, LARGEST_CAP, MOST_SESSIONS, PAYLOAD_VERSION, RPC};
use crate::burst;
use crate::frame::{ServiceType, SessionId};
use crate::room::{self, BlockNumber};

/// Whether all state rules hold.
pub fn hold(link: &Link) -> bool {
    // "ids distinct and not 0"; distinct they are as keys.
    let ids_good = link.sessions().all(|(id, _)| id != SessionId(0));
    let rows_good = link.sessions().all(|(id, row)| row_good(link, id, row));
    let sum_good = link.promised() <= usize::from(LARGEST_CAP);
    let few = link.sessions().len() <= MOST_SESSIONS;
    ids_good && rows_good && sum_good && few && blocks_disjoint(link)
}

fn row_good(link: &Link, id: SessionId, row: &Session) -> bool {
    // "G ≤ C ≤ 256 and held ≤ C in each row"
    let held = link.held(id);
    let bounded =
        row.guarantee() <= row.cap() && row.cap() <= usize::from(LARGEST_CAP) && held <= row.cap();
    // "each row's version is unsettled or one that an opening under M allows,
    // and 07 runs; an unsettled row has no open message"
    let runs = row.hash(RPC).is_some();
    let empty_if_unsettled = row.version().is_some() || row.messages().next().is_none();
    let messages_good = row.messages().all(|(service, message)| {
        let place = Place {
            session: id,
            service,
        };
        message_good(row, service, message)
            && link.blocks(place).len() == room::needed(message.total)
    });
    bounded && version_good(link, row) && runs && empty_if_unsettled && messages_good
}

/// Under M = 1 an opening settles at 1; else it leaves the row unsettled, and
/// a frame may settle it at 1 to min(M, 4); under M = 5 also at 5.
fn version_good(link: &Link, row: &Session) -> bool {
    let major = link.settings().version.major;
    match row.version() {
        None => major > 1,
        Some(PAYLOAD_VERSION) => major == PAYLOAD_VERSION,
        Some(version) => (1..=major.min(4)).contains(&version),
    }
}

/// "each open message is on a running service, its total and count as 18
/// allows, with 1 to count frames to come and bytes missing from that many to
/// total".
fn message_good(row: &Session, service: ServiceType, message: &OpenMessage) -> bool {
    let version = row.version().unwrap_or(0);
    row.runs(service, version)
        && burst::check_total(message.total, message.count).is_ok()
        && (1..=message.count).contains(&message.to_come)
        && (message.to_come..=message.total).contains(&message.missing)
}

/// "open messages hold disjoint blocks"
fn blocks_disjoint(link: &Link) -> bool {
    let mut seen: BTreeSet<BlockNumber> = BTreeSet::new();
    link.sessions().all(|(session, row)| {
        row.messages().all(|(service, _)| {
            let place = Place { session, service };
            link.blocks(place).iter().all(|&block| seen.insert(block))
        })
    })
}

#[cfg(test)]
mod tests {
    use super::*;
    use crate::frame::MessageId;
    use crate::link::version::ProtocolVersion;
    use crate::link::{Offer, Settings};

    /// A link with this message in its one session, which has the whole room.
    fn link_with(message: OpenMessage) -> Link {
        let version = ProtocolVersion {
            major: 5,
            minor: 4,
            patch: 1,
        };
        let settings = Settings {
            version,
            mtu: 1_500,
        };
        let offer = Offer {
            guarantee: 0,
            cap: LARGEST_CAP,
            hash: 1,
        };
        let place = Place {
            session: SessionId(1),
            service: RPC,
        };
        let mut row = Session::opened(&offer, Some(PAYLOAD_VERSION));
        row.put_message(place.service, message);
        let mut link = Link::new(settings, vec![0; room::POOL_SIZE]).unwrap();
        link.sessions.insert(place.session, row);
        link.room.claim(place, room::needed(message.total));
        link
    }

    /// Whether the rules hold with such a message when none of its frames has
    /// come, and when all but the last have.
    fn holds(total: usize, count: usize) -> [bool; 2] {
        [(count, total), (1, 1)].map(|(to_come, missing)| {
            let message = OpenMessage {
                id: MessageId(7),
                total,
                count,
                to_come,
                missing,
            };
            hold(&link_with(message))
        })
    }

    #[test]
    fn an_open_message_has_a_count_as_18_allows() {
        for (total, count) in [
            (1, 1),
            (256, 256),
            (257, 257),
            (400, 400),
            (65_536, 1),
            (65_536, 257),
            (65_536, 65_535),
            (65_536, 65_536),
        ] {
            assert_eq!(holds(total, count), [true, true], "{total} {count}");
        }
        for (total, count) in [
            (0, 0),
            (1, 0),
            (255, 256),
            (256, 257),
            (65_535, 65_536),
            (65_536, 65_537),
            (65_537, 65_536),
            (65_537, 65_537),
        ] {
            assert_eq!(holds(total, count), [false, false], "{total} {count}");
        }
    }
}
