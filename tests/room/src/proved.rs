//! The archive's functions, each with slices for its pointers and lengths.

mod c {
    extern "C" {
        pub fn tilambok_room_needed(total: usize) -> usize;
        pub fn tilambok_room_held(map: *const u8, map_length: usize, owner: u8) -> usize;
        pub fn tilambok_room_block(map: *const u8, map_length: usize, owner: u8, n: usize)
            -> usize;
        pub fn tilambok_room_claim(
            map: *mut u8,
            map_length: usize,
            count: usize,
            owner: u8,
        ) -> usize;
        pub fn tilambok_room_release(map: *mut u8, map_length: usize, low: u8, high: u8);
        pub fn tilambok_room_append(
            map: *const u8,
            map_length: usize,
            owner: u8,
            at: usize,
            payload: *const u8,
            payload_length: usize,
            pool: *mut u8,
            pool_length: usize,
        );
        pub fn tilambok_room_deliver(
            map: *const u8,
            map_length: usize,
            owner: u8,
            due: usize,
            pool: *const u8,
            pool_length: usize,
            out: *mut u8,
            out_length: usize,
        );
    }
}

// SAFETY, for every call here: each pointer comes from a slice and goes with
// that slice's length, and Rust lets no mutable slice overlap another one.

/// The blocks that `total` bytes need.
pub fn needed(total: usize) -> usize {
    unsafe { c::tilambok_room_needed(total) }
}

/// How many entries of the map are the owner's; owner 0 is for free blocks.
pub fn held(map: &[u8], owner: u8) -> usize {
    unsafe { c::tilambok_room_held(map.as_ptr(), map.len(), owner) }
}

/// The number of the owner's n-th block, or the map's length.
pub fn block(map: &[u8], owner: u8, n: usize) -> usize {
    unsafe { c::tilambok_room_block(map.as_ptr(), map.len(), owner, n) }
}

/// Gives the lowest free blocks to the owner, and answers how many blocks it
/// looked at. The map may be of any length.
pub fn claim(map: &mut [u8], count: usize, owner: u8) -> usize {
    unsafe { c::tilambok_room_claim(map.as_mut_ptr(), map.len(), count, owner) }
}

/// Frees the blocks of the owners from `low` to `high`.
/// The map may be of any length.
pub fn release(map: &mut [u8], low: u8, high: u8) {
    unsafe { c::tilambok_room_release(map.as_mut_ptr(), map.len(), low, high) }
}

/// Writes the payload behind the first `at` bytes of the owner's blocks.
pub fn append(map: &[u8], owner: u8, at: usize, payload: &[u8], pool: &mut [u8]) {
    unsafe {
        c::tilambok_room_append(
            map.as_ptr(),
            map.len(),
            owner,
            at,
            payload.as_ptr(),
            payload.len(),
            pool.as_mut_ptr(),
            pool.len(),
        )
    }
}

/// Writes the first `due` bytes of the owner's blocks to the front of `out`.
pub fn deliver(map: &[u8], owner: u8, due: usize, pool: &[u8], out: &mut [u8]) {
    unsafe {
        c::tilambok_room_deliver(
            map.as_ptr(),
            map.len(),
            owner,
            due,
            pool.as_ptr(),
            pool.len(),
            out.as_mut_ptr(),
            out.len(),
        )
    }
}
