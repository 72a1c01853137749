//! Sequences of operations on one map and pool, each done twice: by the
//! reference's room, which has lists of blocks, and by the archive's functions.

use reference::generate::random::Random;
use reference::room::{BlockNumber, Owner, Room, BLOCK_COUNT, POOL_SIZE};

use crate::compare::{same, same_bytes, Difference, Guarded};
use crate::operation::{Operation, MOST_OWNERS};
use crate::proved;

/// The map's entry for a free block.
const FREE: u8 = 0;

pub struct Sequence {
    room: Room,
    map: Guarded,
    pool: Guarded,
    /// The payloads appended for each owner, one behind the other: what a
    /// delivery must give, whichever blocks it is in.
    sent: Vec<Vec<u8>>,
    owners: u8,
}

impl Sequence {
    pub fn start(random: &mut Random) -> Self {
        let pool = random.bytes(POOL_SIZE);
        Sequence {
            map: Guarded::of(&[FREE; BLOCK_COUNT]),
            pool: Guarded::of(&pool),
            room: Room::over(pool),
            sent: vec![Vec::new(); MOST_OWNERS as usize + 1],
            // Few owners have long messages, many have blocks in between others'.
            owners: random.pick(&[1, 2, 3, 8, 20, MOST_OWNERS]),
        }
    }

    pub fn draw(&self, random: &mut Random) -> Operation {
        Operation::draw(&self.room, self.owners, random)
    }

    /// Does the operation on both sides and compares everything.
    pub fn perform(
        &mut self,
        operation: &Operation,
        random: &mut Random,
    ) -> Result<(), Difference> {
        match operation {
            Operation::Claim { owner, count } => self.claim(*owner, *count)?,
            Operation::Append { owner, payload } => self.append(*owner, payload),
            Operation::Deliver {
                owner,
                due,
                out_length,
            } => self.deliver(*owner, *due, *out_length, random.byte())?,
            Operation::Release { low, high } => self.release(*low, *high),
        }
        self.map.holds("the map", &self.expected_map())?;
        self.pool.holds("the pool", self.room.pool())?;
        self.check_counts()?;
        (FREE..=MOST_OWNERS).try_for_each(|owner| self.check_blocks(owner))
    }

    fn claim(&mut self, owner: u8, count: usize) -> Result<(), Difference> {
        let expected = self.room.claim(Owner(owner), count);
        // New blocks may lie below old ones; then the message's bytes are others.
        let mut first_bytes = vec![0; self.room.length(Owner(owner))];
        self.room
            .deliver(Owner(owner), first_bytes.len(), &mut first_bytes);
        self.sent[owner as usize] = first_bytes;
        let looked = proved::claim(self.map.bytes_mut(), count, owner);
        same(|| "the blocks looked at".into(), expected, looked)
    }

    fn append(&mut self, owner: u8, payload: &[u8]) {
        let at = self.room.length(Owner(owner));
        let taken = self.room.append(Owner(owner), payload);
        self.sent[owner as usize].extend_from_slice(&payload[..taken]);
        proved::append(self.map.bytes(), owner, at, payload, self.pool.bytes_mut());
    }

    fn deliver(&self, owner: u8, due: usize, length: usize, fill: u8) -> Result<(), Difference> {
        let mut expected: Vec<u8> = (0..length).map(|i| fill ^ i as u8).collect();
        let mut out = Guarded::of(&expected);
        self.room.deliver(Owner(owner), due, &mut expected);
        proved::deliver(
            self.map.bytes(),
            owner,
            due,
            self.pool.bytes(),
            out.bytes_mut(),
        );
        out.holds("out", &expected)?;
        let sent = &self.sent[owner as usize];
        let written = sent.len().min(due).min(length);
        same_bytes("what was sent", &sent[..written], &out.bytes()[..written])
    }

    fn release(&mut self, low: u8, high: u8) {
        for owner in low..=high.min(MOST_OWNERS) {
            self.room.free(Owner(owner));
            self.sent[owner as usize].clear();
        }
        proved::release(self.map.bytes_mut(), low, high);
    }

    /// The map that the room's lists make. No block may be in two lists or in none.
    fn expected_map(&self) -> [u8; BLOCK_COUNT] {
        let mut owners = [None; BLOCK_COUNT];
        for owner in FREE..=MOST_OWNERS {
            for BlockNumber(block) in self.blocks(owner) {
                let before = owners[block as usize].replace(owner);
                assert_eq!(before, None, "the reference gave block {block} twice");
            }
        }
        owners.map(|owner| owner.expect("the reference has each block in a list"))
    }

    /// The reference's blocks of an owner, or its free ones.
    fn blocks(&self, owner: u8) -> Vec<BlockNumber> {
        match owner {
            FREE => self.room.free_blocks().collect(),
            _ => self.room.blocks(Owner(owner)).to_vec(),
        }
    }

    /// Every owner's count, the free ones' and that of one that never claims.
    fn check_counts(&self) -> Result<(), Difference> {
        let mut sum = 0;
        for owner in FREE..=MOST_OWNERS + 1 {
            let expected = match owner {
                FREE => self.room.free_blocks().len(),
                _ => self.room.blocks(Owner(owner)).len(),
            };
            let held = proved::held(self.map.bytes(), owner);
            same(|| format!("the count of {owner}"), expected, held)?;
            sum += held;
        }
        same(|| "the sum of all counts".into(), BLOCK_COUNT, sum)
    }

    /// The n-th block for each n, and the map's length behind the last.
    fn check_blocks(&self, owner: u8) -> Result<(), Difference> {
        let blocks = self.blocks(owner);
        let numbers = blocks.iter().map(|&BlockNumber(block)| block as usize);
        for (n, expected) in numbers.chain([BLOCK_COUNT; 2]).enumerate() {
            let block = proved::block(self.map.bytes(), owner, n);
            same(|| format!("block {n} of {owner}"), expected, block)?;
        }
        Ok(())
    }
}
