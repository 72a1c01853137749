//! The link: document 01's marked figures, and the order of the answers.

mod talk;

use talk::{first, next, opening, Talk, PLAIN, REJECTED_VERSION};

#[test]
fn the_plain_opening_and_its_nak() {
    let mut talk = Talk::new("5 4 1 131084");
    talk.says(PLAIN, "W 8 40070201000000040000000100009873");
    assert_eq!(talk.state(), "1,32,64,0,2,07=39027,0,-");
    for id in 2..=8 {
        talk.says(
            PLAIN,
            &format!("W 8 400702{id:02x}000000040000000100009873"),
        );
    }
    // "NAK: `40 07 03` and nine zeros", for want of a row.
    talk.says(PLAIN, "W 8 400703000000000000000000");
    assert_eq!(talk.state().split(';').count(), 8);
}

#[test]
fn the_payload_for_5_4_1_has_32_bytes_and_the_ack_57() {
    let payload = opening("5.4.1");
    assert!(payload.starts_with("10070100 00000020 20000000"));
    let ack = "39000000 10 68617368496400 73980000 12 6d747500 0c00020000000000 \
               02 70726f746f636f6c56657273696f6e00 06000000 352e342e31 00 00";
    let ack: String = ack.split(' ').collect();
    assert_eq!(ack.len(), 2 * 57);
    let mut talk = Talk::new("5 4 1 131084");
    talk.says(&payload, &format!("W 40 500702010000003900000001{ack}"));
    assert_eq!(talk.state(), "1,32,64,5,2,07=39027,0,-");
}

#[test]
fn bad_payloads_get_the_nak_of_49() {
    let rejected: String = REJECTED_VERSION.split(' ').collect();
    assert_eq!(rejected.len(), 2 * 49);
    let nak = format!("400703000000003100000000{rejected}");
    for bad in ["5.04.1", "0.4.1", "5.4", "256.0.0"] {
        let mut talk = Talk::new("5 4 1 131084");
        let told = talk.call(&opening(bad));
        assert!(told.answer.ends_with(&nak), "{bad}: {told:?}");
        assert_eq!(told.state, "-");
    }
    let mut talk = Talk::new("5 4 1 131084");
    talk.says("10070100 00000001 00", &format!("W 9 {nak}"));
    // It comes before the NAK of size 0.
    talk.offer = "256 256 0".into();
    talk.call(PLAIN);
    talk.says("10070100 00000001 00", &format!("W 9 {nak}"));
    talk.says(PLAIN, "W 8 400703000000000000000000");
}

#[test]
fn a_first_frame_of_600_bytes_takes_3_blocks() {
    let mut talk = Talk::with_version_5("5 4 1 131084");
    talk.says(
        "52 07 00 01 00 00 00 08 00 00 00 07 00 00 02 58 00 00 00 02",
        "A 20",
    );
    assert_eq!(
        talk.state(),
        "1,32,64,5,2,07=39027,3,07/7/600/2/2/600/0.1.2"
    );
}

#[test]
fn blocks_for_256_257_and_65536_bytes() {
    for (total, blocks) in [(1, 1), (256, 1), (257, 2), (65_536, 256)] {
        let mut talk = Talk::new("5 4 1 131084");
        talk.offer = "0 256 39027".into();
        talk.call(&opening("5.4.1"));
        talk.says(&first(7, 1, total, 1), "A 20");
        assert!(
            talk.state().contains(&format!(",{blocks},07/7/")),
            "{total}"
        );
    }
}

/// A is session 1, B session 2.
fn room_of_a_and_b() -> Talk {
    let mut talk = Talk::new("5 4 1 131084");
    talk.offer = "100 200 1".into();
    talk.call(&opening("5.4.1"));
    talk.offer = "100 256 1".into();
    talk.call(&opening("5.4.1"));
    talk
}

#[test]
fn the_room_of_a_and_b() {
    let asks = |session, blocks: u32| first(7, session, 256 * blocks, 1);
    let mut talk = room_of_a_and_b();
    talk.refuses(&asks(2, 157), 21);
    talk.refuses(&asks(1, 201), 20);
    talk.says(&asks(2, 156), "A 20");
    talk.refuses(&asks(1, 101), 21);
    talk.refuses(&asks(1, 201), 20);
    talk.says(&asks(1, 100), "A 20");
    // Nothing is left, for A on another service either.
    talk.refuses(&first(0, 1, 1, 1), 21);
}

#[test]
fn the_answers_come_in_their_order() {
    let mut talk = Talk::with_version_5("5 4 1 1500");
    let whole = |front, size| format!("{front} {size:08x} 00000009 {}", "00".repeat(size));
    // 10 before Short and 1, these before 11, that before 12.
    talk.offer = "2 1 0".into();
    talk.refuses("-", 10);
    talk.refuses("6007000000000000", 10);
    talk.offer = "0 257 0".into();
    talk.refuses("6007000000000000", 10);
    talk.offer = "0 256 0".into();
    talk.out = 0;
    talk.says("5007", "S 8");
    talk.refuses("6007000000000000", 1);
    talk.out = 127;
    talk.refuses(&whole("59070009", 1), 11);
    talk.refuses(PLAIN, 11);
    talk.out = 128;
    // 12: session 9; 13: the flag; 14: version 4; 15: 1,489 bytes; 16: 0A.
    talk.refuses(&whole("490a0009", 1_489), 12);
    talk.refuses(&whole("490a0001", 1_489), 13);
    talk.refuses(&whole("410a0001", 1_489), 14);
    talk.refuses(&whole("510a0001", 1_489), 15);
    talk.refuses(&whole("510a0001", 1_488), 16);
    talk.refuses(&whole("51070001", 1_488), 11);
    // 17: control frames; 15 comes first there too.
    talk.refuses(&whole("50070201", 1_489), 15);
    talk.refuses(&whole("50070201", 1_488), 17);
}

#[test]
fn the_answers_to_message_frames_come_in_their_order() {
    let mut talk = Talk::with_version_5("5 4 1 1500");
    // 18 to 21, each before the next.
    talk.refuses(&first(7, 1, 70_000, 1), 18);
    talk.says(&first(7, 1, 300, 2), "A 20");
    talk.refuses(&first(7, 1, 70_000, 1), 18);
    talk.refuses(&first(7, 1, 65_536, 1), 19);
    talk.refuses(&first(0, 1, 65_536, 1), 20);
    // 22, then 23 before 24 before 25.
    talk.refuses(&next(0, 1, 9, 1_000), 22);
    talk.refuses(&next(7, 1, 9, 1_000).replace("00000007", "00000008"), 23);
    talk.says(&next(7, 1, 9, 1_000), "R 24");
    talk.refuses(&next(7, 1, 1, 1), 22);
}
