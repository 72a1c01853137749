//! The link: single frames, messages in parts, their blocks and limits.

mod talk;

use talk::{first, hash_document, next, opening, Talk, PLAIN};

#[test]
fn ending_a_service_drops_its_message_alone() {
    let mut talk = Talk::with_version_5("5 4 1 131084");
    talk.call("500a01010000000000000000");
    talk.says(&first(10, 1, 300, 2), "A 20");
    talk.says(&first(7, 1, 300, 2), "A 20");
    assert!(talk
        .state()
        .ends_with(",4,07/7/300/2/2/300/2.3+0a/7/300/2/2/300/0.1"));
    talk.call(&format!(
        "500a04010000001100000000{}",
        hash_document(39_027)
    ));
    assert_eq!(talk.state(), "1,32,64,5,4,07=39027,2,07/7/300/2/2/300/2.3");
    // A new one takes the lowest free blocks, which are not together.
    talk.says(&first(0, 1, 600, 2), "A 20");
    assert!(talk.state().contains("00/7/600/2/2/600/0.1.4+07/7"));
}

#[test]
fn ending_07_frees_the_id_and_all_blocks() {
    let mut talk = Talk::with_version_5("5 4 1 131084");
    talk.call(&opening("5.4.1"));
    talk.says(&first(7, 1, 300, 2), "A 20");
    talk.says(&first(0, 1, 300, 2), "A 20");
    talk.says(&first(7, 2, 300, 2), "A 20");
    talk.call(&format!(
        "500704010000001100000000{}",
        hash_document(39_027)
    ));
    assert_eq!(talk.state(), "2,32,64,5,2,07=39027,2,07/7/300/2/2/300/4.5");
    // The lowest id, with a counter of its own that begins at 1 again.
    talk.says(PLAIN, "W 8 40070201000000040000000100009873");
}

#[test]
fn a_message_is_put_together_and_delivered() {
    let mut talk = Talk::with_version_5("5 4 1 131084");
    talk.says(&first(7, 1, 600, 3), "A 20");
    talk.says(&next(7, 1, 1, 255), "A 267");
    talk.says(&next(7, 1, 2, 2), "A 14");
    assert!(talk.state().ends_with("07/7/600/3/1/343/0.1.2"));
    // One byte too few in out: refused, and nothing is lost.
    talk.out = 599;
    talk.refuses(&next(7, 1, 0, 343), 11);
    talk.out = 600;
    let told = talk.call(&next(7, 1, 0, 343));
    assert_eq!(told.answer, format!("D 355 07 {}", "ab".repeat(600)));
    assert_eq!(told.state, "1,32,64,5,2,07=39027,0,-");
}

#[test]
fn sizes_must_leave_a_byte_for_each_frame() {
    // Total 5 in 3 frames: the first may have 1 to 3 bytes.
    for (size, good) in [
        (1, true),
        (3, true),
        (4, false),
        (5, false),
        (6, false),
        (1_000, false),
    ] {
        let mut talk = Talk::with_version_5("5 4 1 131084");
        talk.call(&first(7, 1, 5, 3));
        let told = talk.call(&next(7, 1, 1, size));
        assert_eq!(told.answer.starts_with("A "), good, "{size}");
        assert_eq!(told.answer == "R 25", !good, "{size}");
        // "message dropped"
        assert_eq!(told.state.ends_with(",0,-"), !good, "{size}");
    }
    // The last one must bring all that is missing.
    for (size, good) in [(4, false), (5, true), (6, false)] {
        let mut talk = Talk::with_version_5("5 4 1 131084");
        talk.call(&first(7, 1, 5, 1));
        let told = talk.call(&next(7, 1, 0, size));
        assert_eq!(told.answer.starts_with("D "), good, "{size}");
    }
}

#[test]
fn numbers_must_follow_each_other() {
    for (number, good) in [(0, false), (1, false), (2, true), (3, false)] {
        let mut talk = Talk::with_version_5("5 4 1 131084");
        talk.call(&first(7, 1, 50, 3));
        talk.says(&next(7, 1, 1, 5), "A 17");
        let told = talk.call(&next(7, 1, number, 5));
        assert_eq!(told.answer == "R 24", !good, "{number}");
        assert_eq!(told.state.ends_with(",0,-"), !good, "{number}");
    }
    // The last one carries 0, not its number.
    let mut talk = Talk::with_version_5("5 4 1 131084");
    talk.call(&first(7, 1, 5, 1));
    talk.says(&next(7, 1, 1, 5), "R 24");
}

#[test]
fn totals_and_counts_at_their_limits() {
    for (total, count, good) in [
        (0, 0, false),
        (0, 1, false),
        (1, 0, false),
        (1, 1, true),
        (1, 2, false),
        (256, 256, true),
        (255, 256, false),
        (256, 257, false),
        (257, 257, true),
        (300, 257, true),
        (400, 400, true),
        (65_536, 256, true),
        (65_537, 256, false),
        (65_536, 257, true),
        (65_536, 65_535, true),
        (65_536, 65_536, true),
        (65_536, 65_537, false),
        (65_535, 65_535, true),
        (65_535, 65_536, false),
        (65_537, 65_536, false),
        (65_537, 65_537, false),
        (600, u32::MAX, false),
        (u32::MAX, u32::MAX, false),
        (0x0001_0000 << 8, 1, false),
    ] {
        let mut talk = Talk::new("5 4 1 131084");
        talk.offer = "0 256 1".into();
        talk.call(&opening("5.4.1"));
        let answer = if good { "A 20" } else { "R 18" };
        talk.says(&first(7, 1, total, count), answer);
    }
}

#[test]
fn the_largest_message_in_256_frames() {
    let mut talk = Talk::new("5 4 1 131084");
    talk.offer = "256 256 1".into();
    talk.call(&opening("5.4.1"));
    talk.says(&first(7, 1, 65_536, 256), "A 20");
    for number in 1..=255 {
        talk.says(&next(7, 1, number, 256), "A 268");
    }
    talk.out = 65_535;
    talk.refuses(&next(7, 1, 0, 256), 11);
    talk.out = 65_536;
    talk.says(
        &next(7, 1, 0, 256),
        &format!("D 268 07 {}", "ab".repeat(65_536)),
    );
}

#[test]
fn single_frames_deliver_beside_an_open_message() {
    let mut talk = Talk::with_version_5("5 4 1 131084");
    talk.says(&first(7, 1, 300, 2), "A 20");
    let before = talk.state();
    talk.says("5107ff01000000020000000701ff", "D 14 07 01ff");
    talk.says("510000010000000000000007", "D 12 00 -");
    assert_eq!(talk.state(), before);
    // Any size up to the largest, if out has room for it.
    talk.out = 131_072;
    let large = format!("5107000100020000 00000007 {}", "cd".repeat(131_072));
    talk.says(&large, &format!("D 131084 07 {}", "cd".repeat(131_072)));
    talk.out = 131_071;
    talk.refuses(&large, 11);
}
