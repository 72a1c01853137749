//! The operations of a sequence, and how they are drawn.

use std::fmt;

use reference::generate::random::Random;
use reference::room::{needed, Owner, Room, BLOCK_SIZE, POOL_SIZE};

/// Owners of a sequence are 1 to this at most.
pub const MOST_OWNERS: u8 = 40;

/// Sizes around a block's, and the payload of a frame of 1,500 bytes.
const SIZES: [usize; 6] = [0, 1, 255, 256, 257, 1_488];

pub enum Operation {
    Claim {
        owner: u8,
        count: usize,
    },
    Append {
        owner: u8,
        payload: Vec<u8>,
    },
    Deliver {
        owner: u8,
        due: usize,
        out_length: usize,
    },
    Release {
        low: u8,
        high: u8,
    },
}

impl Operation {
    /// An operation on owners up to `owners`, chosen to fit the room as it is:
    /// messages are mostly claimed for, filled, delivered and freed in this
    /// order, so that the room does not stay full or empty.
    pub fn draw(room: &Room, owners: u8, random: &mut Random) -> Self {
        let owner = draw_owner(room, owners, random);
        let capacity = room.blocks(Owner(owner)).len() * BLOCK_SIZE;
        let weights = if capacity == 0 {
            [60, 2, 2, 2]
        } else if room.length(Owner(owner)) < capacity {
            [3, 60, 15, 2]
        } else {
            [3, 6, 30, 30]
        };
        match random.weighted(&weights) {
            0 => Operation::Claim {
                owner,
                count: draw_count(room, random),
            },
            1 => Operation::Append {
                owner,
                payload: draw_payload(room, Owner(owner), random),
            },
            2 => draw_delivery(room, owner, random),
            _ => draw_release(owner, owners, random),
        }
    }
}

/// Any owner; but where nothing is free, mostly one that has blocks.
fn draw_owner(room: &Room, owners: u8, random: &mut Random) -> u8 {
    let holders: Vec<u8> = (1..=owners)
        .filter(|&owner| !room.blocks(Owner(owner)).is_empty())
        .collect();
    if room.free_blocks().len() == 0 && !random.once_in(8) {
        return random.pick(&holders);
    }
    random.between(1, owners as usize) as u8
}

/// Blocks to claim: what a message needs, or all that is free, or more than that.
fn draw_count(room: &Room, random: &mut Random) -> usize {
    let free = room.free_blocks().len();
    match random.below(24) {
        0 => free,
        1 => free + 1,
        2 => random.pick(&[257, 65_536, 65_537, 1 << 32, usize::MAX]),
        3 => needed(random.between(0, POOL_SIZE)),
        4..=14 => needed(random.between(0, 16 * BLOCK_SIZE)),
        _ => needed(random.pick(&SIZES)),
    }
}

/// A payload of a size worth trying at the end of what the message has.
fn draw_payload(room: &Room, owner: Owner, random: &mut Random) -> Vec<u8> {
    let length = room.length(owner);
    let to_border = BLOCK_SIZE - length % BLOCK_SIZE;
    let left = room.blocks(owner).len() * BLOCK_SIZE - length;
    let size = match random.below(16) {
        0 => to_border - 1,
        1 => to_border,
        2 => to_border + 1,
        3 => left,
        4 => left + 1,
        5 => random.between(0, left),
        6..=8 => random.between(0, 3_000),
        _ => random.pick(&SIZES),
    };
    random.bytes(size)
}

/// The whole message, a part, nothing, or all blocks and more; to a buffer
/// that is as long, shorter or longer.
fn draw_delivery(room: &Room, owner: u8, random: &mut Random) -> Operation {
    let length = room.length(Owner(owner));
    let all = room.blocks(Owner(owner)).len() * BLOCK_SIZE;
    let due = match random.below(8) {
        0 => 0,
        1 => all,
        2 => all + random.between(1, 300),
        3 | 4 => random.between(0, length),
        5 => (length / BLOCK_SIZE) * BLOCK_SIZE,
        _ => length,
    };
    let out_length = match random.below(6) {
        0 => random.between(0, due),
        1 => due.saturating_sub(1),
        2 => due + 1,
        3 => due + random.between(0, 600),
        _ => due,
    };
    Operation::Deliver {
        owner,
        due,
        out_length,
    }
}

/// Mostly one owner is freed, as the end of a message does; sometimes several
/// side by side, or none as the bounds are crossed.
fn draw_release(owner: u8, owners: u8, random: &mut Random) -> Operation {
    let other = random.between(0, owners as usize) as u8;
    let (low, high) = match random.below(12) {
        0 => (owner.min(other), owner.max(other)),
        1 => (owner.max(other), owner.min(other)),
        2 => (owner, owner.saturating_add(2)),
        _ => (owner, owner),
    };
    Operation::Release { low, high }
}

impl fmt::Display for Operation {
    fn fmt(&self, to: &mut fmt::Formatter) -> fmt::Result {
        match self {
            Operation::Claim { owner, count } => write!(to, "claim {count} blocks for {owner}"),
            Operation::Append { owner, payload } => {
                write!(to, "append {} bytes for {owner}", payload.len())
            }
            Operation::Deliver {
                owner,
                due,
                out_length,
            } => write!(to, "deliver {due} bytes of {owner} to {out_length}"),
            Operation::Release { low, high } => write!(to, "release {low} to {high}"),
        }
    }
}
