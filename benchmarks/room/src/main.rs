//! The block room's functions, called through the C archive, on the same data in the same run: claims and counts against
//! plain Rust loops, appends and delivery against memcpy. Figures are ratios; a time alone says little on a shared machine.

// The comparison's own bindings; not all of them are measured.
#[allow(dead_code)]
#[path = "../../../tests/room/src/proved.rs"]
mod proved;

use std::hint::black_box;
use std::time::Instant;

const BLOCKS: usize = 256;
const POOL: usize = 65_536;
/// The payload of a frame of 1,500 bytes.
const PAYLOAD: usize = 1_488;
const DEEP: usize = 60_000;
const OWNER: u8 = 9;
/// So many maps, each a different one, that a branch predictor does not learn them.
const MAPS: usize = 512;
/// The same work is timed so often, and the least time counts.
const ROUNDS: usize = 1_000;
const APPENDS: usize = 1_000;
const DELIVERIES: usize = 20;

/// Bytes from a page's start: how far two buffers lie apart within a page changes the speed of copies, and would differ from run to run.
#[repr(align(4096))]
struct Paged<const N: usize>([u8; N]);

/// What the calls of a round are done to, made anew before each round.
type Maps = Vec<[u8; BLOCKS]>;

/// With branches, as one writes it; answers how many blocks it looked at. One without is faster only where free blocks lie among others without any order.
#[inline(never)]
fn claim_plain(map: &mut [u8], count: usize, owner: u8) -> usize {
    let mut left = count;
    let mut looked = 0;
    for entry in map {
        if left == 0 {
            break;
        }
        looked += 1;
        if *entry == 0 {
            *entry = owner;
            left -= 1;
        }
    }
    looked
}

/// The sum is kept in 16 bits, enough for a map: the compiler makes far slower code of one in 64.
#[inline(never)]
fn held_plain(map: &[u8], owner: u8) -> usize {
    let mut count = 0u16;
    for &entry in map {
        count += u16::from(entry == owner);
    }
    count as usize
}

/// The least times of a call, in nanoseconds, of two ways to do the same work `calls` times, timed in turn. What `prepare`
/// does before each of them is not timed.
fn least_times<T>(
    calls: usize,
    data: &mut T,
    prepare: impl Fn(&mut T),
    ways: [&dyn Fn(&mut T); 2],
) -> [f64; 2] {
    let mut least = [f64::INFINITY; 2];
    for _ in 0..ROUNDS {
        for (way, best) in ways.iter().zip(least.iter_mut()) {
            prepare(data);
            let start = Instant::now();
            way(data);
            *best = best.min(start.elapsed().as_nanos() as f64 / calls as f64);
        }
    }
    least
}

/// Maps of which each entry is free so many times in 256, and else of some owner.
fn maps(free: usize) -> Maps {
    let mut state = 1u64;
    let mut entry = || {
        state = state
            .wrapping_mul(6_364_136_223_846_793_005)
            .wrapping_add(1);
        let bits = (state >> 33) as usize;
        if bits % 256 < free {
            0
        } else {
            1 + (bits / 256 % 16) as u8
        }
    };
    (0..MAPS).map(|_| [(); BLOCKS].map(|()| entry())).collect()
}

fn print_loop(what: &str, [proved, plain]: [f64; 2], target: f64) {
    let ratio = proved / plain;
    println!("{what}: proved {proved:7.1} ns, plain loop {plain:7.1} ns, proved/plain {ratio:.2} (target: at most {target:.2})");
}

fn print_copy(what: &str, [proved, memcpy]: [f64; 2], target: usize) {
    let share = 100.0 * memcpy / proved;
    println!("{what}: proved {proved:7.1} ns, memcpy {memcpy:7.1} ns, memcpy's speed reached {share:.0} % (target: at least {target} %)");
}

/// Claims of so many blocks.
fn measure_claim(what: &str, before: &Maps, count: usize, target: f64) {
    let times = least_times(
        MAPS,
        &mut before.clone(),
        |maps| maps.copy_from_slice(before),
        [
            &|maps| {
                for map in maps {
                    black_box(proved::claim(black_box(map), count, OWNER));
                    black_box(&map);
                }
            },
            &|maps| {
                for map in maps {
                    black_box(claim_plain(black_box(map), count, OWNER));
                    black_box(&map);
                }
            },
        ],
    );
    print_loop(what, times, target);
}

/// Document 02, A3: searches for 1, 16 and 256 blocks, on an empty map, on one whose first half is held, and on one with every second block held.
fn measure_searches() {
    let maps = |held: fn(usize) -> bool| -> Maps {
        vec![std::array::from_fn(|block| u8::from(held(block))); MAPS]
    };
    for (what, before) in [
        ("empty map        ", maps(|_| false)),
        ("first half held  ", maps(|block| block < BLOCKS / 2)),
        ("every second held", maps(|block| block % 2 == 0)),
    ] {
        check_same(&before);
        for count in [1, 16, 256] {
            measure_claim(
                &format!("room: claim {count:3}, {what}"),
                &before,
                count,
                1.0,
            );
        }
    }
}

fn measure_held(what: &str, maps: &Maps) {
    let times = least_times(
        MAPS,
        &mut (),
        |_| (),
        [
            &|_| {
                for map in maps {
                    black_box(proved::held(black_box(map), OWNER));
                }
            },
            &|_| {
                for map in maps {
                    black_box(held_plain(black_box(map), OWNER));
                }
            },
        ],
    );
    print_loop(what, times, 1.2);
}

/// Appends to a message that has all blocks; answers the time of one.
fn measure_append(what: &str, at: usize) -> f64 {
    let map = [OWNER; BLOCKS];
    // The payload lies in its frame, behind a header of 12 bytes.
    let frame = Box::new(Paged([7; 12 + PAYLOAD]));
    let payload = &frame.0[12..];
    let times = least_times(
        APPENDS,
        &mut *Box::new(Paged([0; POOL])),
        |_| (),
        [
            &|pool| {
                for _ in 0..APPENDS {
                    proved::append(black_box(&map), OWNER, at, black_box(payload), &mut pool.0);
                    black_box(&pool);
                }
            },
            &|pool| {
                for _ in 0..APPENDS {
                    pool.0[at..at + PAYLOAD].copy_from_slice(black_box(payload));
                    black_box(&pool);
                }
            },
        ],
    );
    print_copy(what, times, 40);
    times[0]
}

fn measure_delivery() {
    let map = [OWNER; BLOCKS];
    let pool = Box::new(Paged([7; POOL]));
    let times = least_times(
        DELIVERIES,
        &mut *Box::new(Paged([0; POOL])),
        |_| (),
        [
            &|out| {
                for _ in 0..DELIVERIES {
                    proved::deliver(black_box(&map), OWNER, POOL, black_box(&pool.0), &mut out.0);
                    black_box(&out);
                }
            },
            &|out| {
                for _ in 0..DELIVERIES {
                    out.0.copy_from_slice(black_box(&pool.0));
                    black_box(&out);
                }
            },
        ],
    );
    print_copy("room: deliver 65,536 bytes        ", times, 50);
}

/// Both sides do the same on this data, or nothing is measured.
fn check_same(maps: &Maps) {
    for map in maps {
        for count in [0, 1, 16, BLOCKS, BLOCKS + 1] {
            let (mut proved, mut plain) = (*map, *map);
            let looked = proved::claim(&mut proved, count, OWNER);
            assert_eq!(looked, claim_plain(&mut plain, count, OWNER));
            assert_eq!(proved, plain);
            assert_eq!(proved::held(&proved, OWNER), held_plain(&plain, OWNER));
        }
    }
    let bytes: Vec<u8> = (0..POOL).map(|i| (i * 7 + i / 256) as u8).collect();
    let (mut pool, mut out) = (vec![0; POOL], vec![0; POOL]);
    for (index, payload) in bytes.chunks(PAYLOAD).enumerate() {
        proved::append(&[OWNER; BLOCKS], OWNER, index * PAYLOAD, payload, &mut pool);
    }
    proved::deliver(&[OWNER; BLOCKS], OWNER, POOL, &pool, &mut out);
    assert_eq!(out, bytes);
}

fn main() {
    let (all_free, mixed, none_free) = (maps(256), maps(128), maps(0));
    [&all_free, &mixed, &none_free]
        .into_iter()
        .for_each(check_same);
    // All that is free and one block more, so that the whole map is looked at.
    measure_claim(
        "room: claim, all 256 blocks free  ",
        &all_free,
        BLOCKS + 1,
        1.2,
    );
    measure_claim(
        "room: claim, half of them free    ",
        &mixed,
        BLOCKS + 1,
        1.2,
    );
    measure_claim(
        "room: claim, none free            ",
        &none_free,
        BLOCKS + 1,
        1.2,
    );
    measure_searches();
    measure_held("room: count                       ", &mixed);
    let start = measure_append("room: append 1,488 bytes at 0     ", 0);
    let deep = measure_append("room: append 1,488 bytes at 60,000", DEEP);
    println!(
        "room: append at 60,000 takes {:.2} times as long as at 0 (target: at most 2.00)",
        deep / start
    );
    measure_delivery();
}
