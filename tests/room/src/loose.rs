//! Single calls on maps and pools that no sequence of operations made: any
//! bytes, any lengths, any positions. Each is compared with a definition of
//! a few lines, over the list of all places in the pool that are the owner's.

use std::fmt;

use reference::generate::random::Random;
use reference::room::{BLOCK_COUNT, BLOCK_SIZE, POOL_SIZE};

use crate::compare::{same, Difference, Fault, Guarded};
use crate::proved;

/// Draws one call and compares it.
pub fn run(random: &mut Random) -> Result<(), Fault> {
    match random.below(6) {
        0 => needed(random),
        1 => counts(random),
        2 => claim(random),
        3 => release(random),
        4 => append(random),
        _ => deliver(random),
    }
}

/// The name of what a function returns, where it returns one thing.
fn answer() -> String {
    "the answer".into()
}

fn needed(random: &mut Random) -> Result<(), Fault> {
    let total = match random.below(4) {
        0 => random.between(0, 1_024),
        1 => random.between(0, BLOCK_COUNT) * BLOCK_SIZE + random.below(2),
        2 => random.bits64() as usize >> random.below(64),
        _ => usize::MAX - random.below(1_024),
    };
    // Full blocks, and one for the rest: no sum here can be too large.
    let blocks = total / BLOCK_SIZE + usize::from(total % BLOCK_SIZE > 0);
    same(answer, blocks, proved::needed(total))
        .map_err(|found| found.during(format!("needed {total}")))
}

fn counts(random: &mut Random) -> Result<(), Fault> {
    let map = draw_map(random);
    let owner = draw_owner(&map, random);
    let blocks: Vec<usize> = (0..map.len()).filter(|&b| map[b] == owner).collect();
    let n = match random.below(4) {
        0 => random.pick(&[blocks.len(), blocks.len() + 1, 256, usize::MAX]),
        _ => random.between(0, blocks.len()),
    };
    let nth = blocks.get(n).copied().unwrap_or(map.len());
    let lent = Guarded::of(&map);
    let held = proved::held(lent.bytes(), owner);
    let block = proved::block(lent.bytes(), owner, n);
    let fault = |found: Difference| found.during(format!("count {owner} in {map:02x?}"));
    same(|| "the count".into(), blocks.len(), held).map_err(fault)?;
    same(|| format!("block {n}"), nth, block).map_err(fault)?;
    lent.holds("the map", &map).map_err(fault)
}

fn claim(random: &mut Random) -> Result<(), Fault> {
    let map = draw_map(random);
    let owner = draw_owner(&map, random);
    let free: Vec<usize> = (0..map.len()).filter(|&b| map[b] == 0).collect();
    let count = match random.below(4) {
        0 => random.pick(&[free.len(), free.len() + 1, 256, 257, 1 << 32, usize::MAX]),
        _ => random.between(0, free.len()),
    };
    let mut expected = map.clone();
    for &block in free.iter().take(count) {
        expected[block] = owner;
    }
    // Up to the last block that is taken, or all if more are wanted.
    let taken = free.iter().take(count).last();
    let looked = match taken {
        _ if count > free.len() => map.len(),
        Some(&last) => last + 1,
        None => 0,
    };
    let mut lent = Guarded::of(&map);
    let answered = proved::claim(lent.bytes_mut(), count, owner);
    let fault =
        |found: Difference| found.during(format!("claim {count} for {owner} in {map:02x?}"));
    same(|| "the blocks looked at".into(), looked, answered).map_err(fault)?;
    lent.holds("the map", &expected).map_err(fault)
}

fn release(random: &mut Random) -> Result<(), Fault> {
    let map = draw_map(random);
    let low = draw_owner(&map, random);
    let high = match random.below(4) {
        0 => draw_owner(&map, random),
        1 => low.saturating_add(2),
        _ => low,
    };
    let freed = |entry: u8| low <= entry && entry <= high;
    let expected: Vec<u8> = map.iter().map(|&e| if freed(e) { 0 } else { e }).collect();
    let mut lent = Guarded::of(&map);
    proved::release(lent.bytes_mut(), low, high);
    let fault = |found: Difference| found.during(format!("release {low} to {high} in {map:02x?}"));
    lent.holds("the map", &expected).map_err(fault)
}

fn append(random: &mut Random) -> Result<(), Fault> {
    let lent = Lent::draw(random);
    let at = draw_position(lent.places.len(), random);
    let size = draw_size(lent.places.len().saturating_sub(at), random);
    let bytes = random.bytes(size);
    let mut expected = lent.pool.clone();
    for (&place, &byte) in lent.places.iter().skip(at).zip(&bytes) {
        expected[place] = byte;
    }
    let map = Guarded::of(&lent.map);
    let payload = Guarded::of(&bytes);
    let mut pool = Guarded::of(&lent.pool);
    proved::append(
        map.bytes(),
        lent.owner,
        at,
        payload.bytes(),
        pool.bytes_mut(),
    );
    let fault = |found: Difference| found.during(format!("append {size} bytes at {at} {lent}"));
    pool.holds("the pool", &expected).map_err(fault)?;
    payload.holds("the payload", &bytes).map_err(fault)?;
    map.holds("the map", &lent.map).map_err(fault)
}

fn deliver(random: &mut Random) -> Result<(), Fault> {
    let lent = Lent::draw(random);
    let due = draw_position(lent.places.len(), random);
    let size = draw_size(due.min(lent.places.len()), random);
    let mut expected = random.bytes(size);
    let mut out = Guarded::of(&expected);
    for (byte, &place) in expected.iter_mut().zip(&lent.places).take(due) {
        *byte = lent.pool[place];
    }
    let map = Guarded::of(&lent.map);
    let pool = Guarded::of(&lent.pool);
    proved::deliver(map.bytes(), lent.owner, due, pool.bytes(), out.bytes_mut());
    let fault = |found: Difference| found.during(format!("deliver {due} bytes to {size} {lent}"));
    out.holds("out", &expected).map_err(fault)?;
    pool.holds("the pool", &lent.pool).map_err(fault)?;
    map.holds("the map", &lent.map).map_err(fault)
}

/// What append and deliver are lent.
struct Lent {
    map: Vec<u8>,
    pool: Vec<u8>,
    owner: u8,
    /// Where the bytes of the owner's blocks are, in order, if the pool has them.
    places: Vec<usize>,
}

impl Lent {
    fn draw(random: &mut Random) -> Self {
        let map = draw_map(random);
        let owner = draw_owner(&map, random);
        let length = draw_pool_length(random);
        let blocks = (0..map.len()).filter(|&block| map[block] == owner);
        let places = blocks
            .flat_map(|block| block * BLOCK_SIZE..(block + 1) * BLOCK_SIZE)
            .filter(|&place| place < length)
            .collect();
        let pool = random.bytes(length);
        Lent {
            map,
            pool,
            owner,
            places,
        }
    }
}

impl fmt::Display for Lent {
    fn fmt(&self, to: &mut fmt::Formatter) -> fmt::Result {
        let (owner, length, map) = (self.owner, self.pool.len(), &self.map);
        write!(to, "for {owner}, pool of {length} bytes, map {map:02x?}")
    }
}

/// Mostly of 256 entries: of few owners at random, of few in runs, of one, or any bytes.
fn draw_map(random: &mut Random) -> Vec<u8> {
    let length = match random.below(4) {
        0 => random.pick(&[0, 1, 2, 15, 16, 17, 255, 257, 300, 1_000]),
        _ => BLOCK_COUNT,
    };
    let first = random.pick(&[0, 0, 1, 7, 0xf0]);
    let owners = random.pick(&[1, 2, 3, 10]);
    match random.below(4) {
        0 => random.bytes(length),
        1 => draw_runs(length, first, owners, random),
        _ => (0..length)
            .map(|_| first + random.below(owners) as u8)
            .collect(),
    }
}

fn draw_runs(length: usize, first: u8, owners: usize, random: &mut Random) -> Vec<u8> {
    let mut map = Vec::new();
    while map.len() < length {
        let owner = first + random.below(owners) as u8;
        let run = random.between(1, 40).min(length - map.len());
        map.resize(map.len() + run, owner);
    }
    map
}

/// Mostly an owner that the map has.
fn draw_owner(map: &[u8], random: &mut Random) -> u8 {
    if map.is_empty() || random.once_in(8) {
        return random.byte();
    }
    random.pick(map)
}

fn draw_pool_length(random: &mut Random) -> usize {
    match random.below(4) {
        0 => POOL_SIZE,
        1 => random.pick(&[0, 1, 255, 256, 257, 65_279, 65_280, 65_281, 65_535, 65_537]),
        2 => random.between(0, 2_000),
        _ => random.between(0, POOL_SIZE + 10_000),
    }
}

/// A position among so many bytes, at a block's border, at their end, or past it.
fn draw_position(count: usize, random: &mut Random) -> usize {
    match random.below(8) {
        0 => count,
        1 => count + random.between(0, 600),
        2 => random.pick(&[0, 1, 255, 256, 257, POOL_SIZE, 1 << 32, usize::MAX]),
        3 | 4 => random.between(0, count) / BLOCK_SIZE * BLOCK_SIZE,
        _ => random.between(0, count),
    }
}

/// A size worth trying where so many bytes are possible.
fn draw_size(possible: usize, random: &mut Random) -> usize {
    match random.below(8) {
        0 => possible,
        1 => possible + random.between(1, 600),
        2 => random.between(0, possible),
        3 => random.between(0, 3_000),
        _ => random.pick(&[0, 1, 255, 256, 257, 1_488]),
    }
}
