//! Small worked cases of the block room.

use reference::room::{needed, BlockNumber, Owner, Room, BLOCK_SIZE, POOL_SIZE};

const ANN: Owner = Owner(1);
const BOB: Owner = Owner(2);
const CAY: Owner = Owner(3);

fn room() -> Room {
    Room::over(vec![0xee; POOL_SIZE])
}

fn numbers(room: &Room, owner: Owner) -> Vec<u8> {
    let blocks = room.blocks(owner).iter();
    blocks.map(|&BlockNumber(number)| number).collect()
}

#[test]
fn a_total_needs_whole_blocks() {
    let figures = [
        (0, 0),
        (1, 1),
        (255, 1),
        (256, 1),
        (257, 2),
        (1_488, 6),
        (65_536, 256),
    ];
    for (total, blocks) in figures {
        assert_eq!(needed(total), blocks, "{total}");
    }
}

#[test]
fn the_lowest_free_blocks_are_taken() {
    let mut room = room();
    room.claim(ANN, 2);
    room.claim(BOB, 3);
    room.free(ANN);
    room.claim(CAY, 4);
    assert_eq!(numbers(&room, ANN), []);
    assert_eq!(numbers(&room, BOB), [2, 3, 4]);
    assert_eq!(numbers(&room, CAY), [0, 1, 5, 6]);
    assert_eq!(room.free_blocks().next(), Some(BlockNumber(7)));
    assert!(room.pool().iter().all(|&byte| byte == 0xee));
}

#[test]
fn a_claim_of_too_many_takes_what_is_there() {
    let mut room = room();
    room.claim(ANN, 250);
    room.claim(BOB, usize::MAX);
    assert_eq!(numbers(&room, BOB), [250, 251, 252, 253, 254, 255]);
    assert_eq!(room.free_blocks().len(), 0);
}

/// A room in which each owner in turn took one block, and those of even or of
/// odd numbers were freed again: owner and block have the same number.
fn every_second_block_free(first: u8) -> Room {
    let mut room = room();
    for number in 0..=u8::MAX {
        assert_eq!(room.claim(Owner(number), 1), usize::from(number) + 1);
    }
    for number in (first..=u8::MAX).step_by(2) {
        room.free(Owner(number));
    }
    room
}

#[test]
fn a_search_for_nothing_looks_at_nothing() {
    let mut room = room();
    assert_eq!(room.claim(ANN, 0), 0);
    room.claim(BOB, 128);
    assert_eq!(room.claim(ANN, 0), 0);
    room.claim(BOB, 128);
    assert_eq!(room.claim(ANN, 0), 0);
    assert_eq!(numbers(&room, ANN), []);
}

#[test]
fn a_search_in_an_empty_room_looks_at_what_it_takes() {
    for count in [1, 2, 16, 255, 256] {
        let mut room = room();
        assert_eq!(room.claim(ANN, count), count);
        assert_eq!(numbers(&room, ANN).len(), count);
    }
}

#[test]
fn a_search_looks_at_the_held_blocks_in_front() {
    for (count, looked) in [(1, 129), (2, 130), (16, 144), (128, 256)] {
        let mut room = room();
        room.claim(ANN, 128);
        assert_eq!(room.claim(BOB, count), looked);
        assert_eq!(numbers(&room, BOB)[0], 128);
        assert_eq!(numbers(&room, BOB).len(), count);
    }
}

#[test]
fn a_search_looks_at_the_held_blocks_between() {
    for (first, count, looked) in [
        (0, 1, 1),
        (0, 2, 3),
        (0, 16, 31),
        (0, 128, 255),
        (1, 1, 2),
        (1, 2, 4),
        (1, 16, 32),
        (1, 128, 256),
    ] {
        let mut room = every_second_block_free(first);
        assert_eq!(room.claim(Owner(first), count), looked);
        let taken = (first..=u8::MAX).step_by(2).take(count);
        assert_eq!(numbers(&room, Owner(first)), Vec::from_iter(taken));
    }
}

#[test]
fn a_search_that_finds_too_few_looks_at_every_block() {
    let six_free = || {
        let mut room = room();
        room.claim(ANN, 6);
        room.claim(BOB, 250);
        room.free(ANN);
        room
    };
    // With the last block that is wanted it stops.
    for (count, looked) in [(5, 5), (6, 6), (7, 256), (256, 256)] {
        let mut room = six_free();
        assert_eq!(room.claim(CAY, count), looked);
        assert_eq!(numbers(&room, CAY).len(), count.min(6));
    }
    let mut room = six_free();
    room.claim(ANN, 6);
    assert_eq!(room.claim(CAY, 1), 256);
    assert_eq!(numbers(&room, CAY), []);
}

#[test]
fn a_search_for_more_than_256_looks_at_256() {
    for count in [257, 65_536, usize::MAX] {
        let mut room = room();
        assert_eq!(room.claim(ANN, count), 256);
        assert_eq!(numbers(&room, ANN), Vec::from_iter(0..=255));
        assert_eq!(room.claim(BOB, count), 256);
        assert_eq!(numbers(&room, BOB), []);
    }
}

#[test]
fn each_search_begins_at_block_0() {
    let mut room = room();
    assert_eq!(room.claim(ANN, 2), 2);
    assert_eq!(room.claim(BOB, 2), 4);
    assert_eq!(room.claim(BOB, 3), 7);
    assert_eq!(numbers(&room, BOB), [2, 3, 4, 5, 6]);
    room.free(ANN);
    // What Bob has further up is not looked at.
    assert_eq!(room.claim(BOB, 1), 1);
    assert_eq!(numbers(&room, BOB), [0, 2, 3, 4, 5, 6]);
    assert_eq!(room.claim(BOB, 2), 8);
    assert_eq!(numbers(&room, BOB), [0, 1, 2, 3, 4, 5, 6, 7]);
}

#[test]
fn a_payload_goes_on_in_the_owners_next_block() {
    let mut room = room();
    room.claim(ANN, 1);
    room.claim(BOB, 1);
    room.free(ANN);
    room.claim(CAY, 2);
    assert_eq!(room.append(CAY, &[7; 255]), 255);
    assert_eq!(room.append(CAY, &[8, 9]), 2);
    // Block 1 is Bob's: the last byte is in block 2.
    assert_eq!(room.pool()[254..257], [7, 8, 0xee]);
    assert_eq!(room.pool()[2 * BLOCK_SIZE..][..2], [9, 0xee]);
    let mut out = [0; 300];
    room.deliver(CAY, 257, &mut out);
    assert_eq!(out[253..259], [7, 7, 8, 9, 0, 0]);
}

#[test]
fn appending_and_delivery_stop_where_the_blocks_end() {
    let mut room = room();
    room.claim(ANN, 1);
    assert_eq!(room.append(ANN, &[5; 300]), 256);
    assert_eq!(room.append(ANN, &[5]), 0);
    assert_eq!(room.append(BOB, &[5]), 0);
    assert_eq!(room.pool()[255..257], [5, 0xee]);
    let mut out = [0; 300];
    room.deliver(ANN, 300, &mut out);
    assert_eq!(out[255..257], [5, 0]);
}
