//! The room that open messages share (document 01, "Messages"; document 02,
//! A3): a pool of 65,536 bytes in 256 blocks.
//!
//! A message keeps the numbers of its blocks, the room keeps the numbers of
//! the free ones. There is no map from blocks to owners here: another program
//! that has one is compared with these lists.

use std::collections::{BTreeMap, BTreeSet};
use std::ops::RangeInclusive;

/// The bytes of a block.
pub const BLOCK_SIZE: usize = 256;

/// The blocks of the pool.
pub const BLOCK_COUNT: usize = 256;

/// The bytes of the pool.
pub const POOL_SIZE: usize = BLOCK_SIZE * BLOCK_COUNT;

/// Which block of the pool.
#[derive(Clone, Copy, Debug, PartialEq, Eq, PartialOrd, Ord)]
pub struct BlockNumber(pub u8);

/// Whose message. 0 is a name like any other here.
#[derive(Clone, Copy, Debug, PartialEq, Eq, PartialOrd, Ord)]
pub struct Owner(pub u8);

/// The blocks that a message of `total` bytes needs: "(total + 255) / 256".
pub fn needed(total: usize) -> usize {
    total.div_ceil(BLOCK_SIZE)
}

/// A message that is being put together.
#[derive(Clone, Default)]
struct Message {
    /// In rising order.
    blocks: Vec<BlockNumber>,
    /// The bytes already there.
    length: usize,
}

impl Message {
    /// Where in the pool the message's byte of this index is, if a block holds it.
    fn place(&self, index: usize) -> Option<usize> {
        let block = self.blocks.get(index / BLOCK_SIZE)?;
        Some(block.0 as usize * BLOCK_SIZE + index % BLOCK_SIZE)
    }
}

/// A search for free blocks. It lives for one claim alone, so that the room
/// keeps nothing of where it stopped.
struct Search<'a> {
    free: &'a mut BTreeSet<BlockNumber>,
    /// The numbers of the blocks that it has not looked at, in rising order.
    ahead: RangeInclusive<u8>,
    /// The blocks that it has looked at.
    looked: usize,
}

impl<'a> Search<'a> {
    fn among(free: &'a mut BTreeSet<BlockNumber>) -> Self {
        Search {
            free,
            ahead: 0..=u8::MAX,
            looked: 0,
        }
    }

    /// Takes the next free block: "resume from the last one found". A block
    /// counts when it is looked at, whether it is free or not.
    fn take_next(&mut self) -> Option<BlockNumber> {
        for number in self.ahead.by_ref() {
            self.looked += 1;
            let block = BlockNumber(number);
            if self.free.remove(&block) {
                return Some(block);
            }
        }
        None
    }
}

/// The pool, the messages in it, and what is free. A message goes by the
/// name of its owner; the link names it by session and service.
#[derive(Clone)]
pub struct Room<Name = Owner> {
    pool: Vec<u8>,
    free: BTreeSet<BlockNumber>,
    messages: BTreeMap<Name, Message>,
}

impl<Name: Ord> Room<Name> {
    /// A room with every block free. The pool may hold any bytes: taking
    /// blocks "writes nothing", so what was there stays until it is appended over.
    pub fn over(pool: Vec<u8>) -> Self {
        assert_eq!(pool.len(), POOL_SIZE, "a pool has one size");
        Room {
            pool,
            free: (0..=u8::MAX).map(BlockNumber).collect(),
            messages: BTreeMap::new(),
        }
    }

    /// The owner "takes the lowest free blocks in rising order and writes
    /// nothing". If fewer than `count` are free, it takes these.
    ///
    /// Answers how many blocks were looked at: "the search counts the blocks
    /// it looks at, proved for an admitted First Frame to be its highest
    /// block's number, from 0, plus 1". It stops with the last block that is
    /// wanted; if fewer are free, it has looked at every block of the pool.
    ///
    /// No message takes blocks twice in document 01. If one does, its blocks
    /// are ordered anew, as their numbers alone tell the order.
    pub fn claim(&mut self, owner: Name, count: usize) -> usize {
        let blocks = &mut self.messages.entry(owner).or_default().blocks;
        let mut search = Search::among(&mut self.free);
        for _ in 0..count {
            let Some(lowest) = search.take_next() else {
                break;
            };
            blocks.push(lowest);
        }
        let looked = search.looked;
        blocks.sort();
        looked
    }

    /// The payload goes "right behind the bytes already there; no other pool
    /// byte changes". Answers how many bytes there were blocks for.
    pub fn append(&mut self, owner: Name, payload: &[u8]) -> usize {
        let Some(message) = self.messages.get_mut(&owner) else {
            return 0;
        };
        let before = message.length;
        for &byte in payload {
            let Some(place) = message.place(message.length) else {
                break;
            };
            self.pool[place] = byte;
            message.length += 1;
        }
        message.length - before
    }

    /// Writes the first `due` bytes of the owner's blocks "to the front of
    /// out, following its blocks one after another", as far as there are
    /// blocks and room in `out`. "Bytes of out past those written stay."
    pub fn deliver(&self, owner: Name, due: usize, out: &mut [u8]) {
        let Some(message) = self.messages.get(&owner) else {
            return;
        };
        for (index, byte) in out.iter_mut().take(due).enumerate() {
            let Some(place) = message.place(index) else {
                break;
            };
            *byte = self.pool[place];
        }
    }

    /// All blocks of the owner are free again; their bytes stay.
    pub fn free(&mut self, owner: Name) {
        if let Some(message) = self.messages.remove(&owner) {
            self.free.extend(message.blocks);
        }
    }

    /// The owner's blocks, in rising order.
    pub fn blocks(&self, owner: Name) -> &[BlockNumber] {
        match self.messages.get(&owner) {
            Some(message) => &message.blocks,
            None => &[],
        }
    }

    /// The bytes that the owner's message has so far.
    pub fn length(&self, owner: Name) -> usize {
        self.messages
            .get(&owner)
            .map_or(0, |message| message.length)
    }

    /// The free blocks, in rising order.
    pub fn free_blocks(&self) -> impl ExactSizeIterator<Item = BlockNumber> + '_ {
        self.free.iter().copied()
    }

    pub fn pool(&self) -> &[u8] {
        &self.pool
    }
}
