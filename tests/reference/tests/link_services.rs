//! The link: openings, versions, services, heartbeats, ACK counters.

mod talk;

use talk::{hash_document, hex, opening, Talk, PLAIN, REJECTED_HASH};

#[test]
fn old_modules_answer_in_their_version() {
    for (major, ack, settled) in [
        (1, "10070201 00000004", 1),
        (2, "20070201 00000004 00000001", 0),
        (3, "30070201 00000004 00000001", 0),
        (4, "40070201 00000004 00000001", 0),
    ] {
        // "If M is below 5" the payload is not even read.
        for payload in ["00000000", "00000003 ffffff"] {
            let mut talk = Talk::new(&format!("{major} 0 0 1500"));
            let told = talk.call(&format!("10070100 {payload}"));
            let consumed = if payload.len() == 8 { 8 } else { 11 };
            let ack = ack.replace(' ', "");
            assert_eq!(told.answer, format!("W {consumed} {ack}00009873"));
            assert_eq!(told.state, format!("1,32,64,{settled},2,07=39027,0,-"));
        }
        let mut talk = Talk::new(&format!("{major} 0 0 1500"));
        talk.offer = "256 256 0".into();
        talk.call(PLAIN);
        // A version 1 NAK has no message id.
        let zeros = if major == 1 { 5 } else { 9 };
        talk.says(PLAIN, &format!("W 8 {major}00703{}", "00".repeat(zeros)));
    }
}

#[test]
fn the_lesser_of_both_versions_is_settled_on() {
    for (module, asked, settled) in [
        ("5 4 1", "5.0.0", "5.0.0"),
        ("5 4 1", "5.4.0", "5.4.0"),
        ("5 4 1", "5.4.2", "5.4.1"),
        ("5 4 1", "5.10.0", "5.4.1"),
        ("5 4 1", "5.3.255", "5.3.255"),
        ("5 4 1", "6.0.0", "5.4.1"),
        ("5 0 0", "255.255.255", "5.0.0"),
        ("5 255 255", "5.255.254", "5.255.254"),
    ] {
        let mut talk = Talk::new(&format!("{module} 1500"));
        let told = talk.call(&opening(asked));
        let text = hex(settled.as_bytes());
        assert!(
            told.answer.ends_with(&format!("{text}0000")),
            "{asked}: {told:?}"
        );
        assert!(told.answer.contains(" 50070201000000"), "{asked}");
        assert!(told.state.starts_with("1,32,64,5,"), "{asked}");
    }
}

#[test]
fn versions_below_5_are_negotiated_the_old_way() {
    for asked in ["4.255.255", "1.0.0", "4.0.0"] {
        let mut talk = Talk::new("5 4 1 131084");
        let told = talk.call(&opening(asked));
        assert!(
            told.answer.ends_with(" 40070201000000040000000100009873"),
            "{asked}"
        );
        assert_eq!(told.state, "1,32,64,0,2,07=39027,0,-");
    }
    // A readable payload without protocolVersion.
    let mut talk = Talk::new("5 4 1 131084");
    talk.says(
        "10070100 00000005 0500000000",
        "W 13 40070201000000040000000100009873",
    );
}

#[test]
fn a_guarantee_may_fill_the_room_but_not_more() {
    let mut talk = Talk::new("5 4 1 131084");
    talk.offer = "100 256 1".into();
    talk.call(PLAIN);
    talk.offer = "157 200 1".into();
    talk.says(PLAIN, "W 8 400703000000000000000000");
    talk.offer = "156 200 1".into();
    talk.says(PLAIN, "W 8 40070202000000040000000100000001");
    talk.offer = "1 1 1".into();
    talk.says(PLAIN, "W 8 400703000000000000000000");
    talk.offer = "0 0 1".into();
    talk.says(PLAIN, "W 8 40070203000000040000000100000001");
}

#[test]
fn the_openings_header_is_exact() {
    let mut talk = Talk::new("5 4 1 131084");
    // Another version, service or session is none; info 04 is an End.
    talk.refuses("200701000000000000000000", 12);
    talk.refuses("100a010000000000", 12);
    talk.refuses("1007040000000000", 12);
    talk.refuses("1007010100000000", 12);
    talk.refuses("1107010000000000", 12);
    talk.refuses("1807010000000000", 5);
}

#[test]
fn an_unsettled_session_is_settled_by_an_accepted_frame_of_type_1_or_2() {
    let mut talk = Talk::new("5 4 1 131084");
    talk.call(PLAIN);
    // Control frames and refused frames leave it unsettled; its NAKs have
    // version min(M, 4), whatever the frame's version.
    talk.says("200a0101000000000000000a", "W 12 400a03010000000000000000");
    talk.says("1007040100000000", "W 8 400706010000000000000000");
    talk.refuses("500701010000000000000000", 14);
    talk.refuses("510700010000000000000000", 14);
    talk.refuses("400000010000000000000000", 17);
    talk.refuses("110f000100000000", 16);
    talk.refuses("430700010000000100000001ff", 22);
    talk.out = 128;
    let long = format!("31070001 00000081 00000001 {}", "11".repeat(129));
    talk.refuses(&long, 11);
    assert_eq!(talk.state(), "1,32,64,0,2,07=39027,0,-");
    talk.says("310f00010000000100000001ff", "D 13 0f ff");
    assert_eq!(talk.state(), "1,32,64,3,2,07=39027,0,-");
    talk.refuses("410700010000000000000000", 14);
    talk.says("300000010000000000000000", "W 12 3000ff010000000000000000");
}

#[test]
fn a_first_frame_settles_too() {
    let mut talk = Talk::new("4 0 0 131084");
    talk.call(PLAIN);
    talk.says("1207000100000008 00000064 00000002", "A 16");
    assert_eq!(talk.state(), "1,32,64,1,2,07=39027,1,07/0/100/2/2/100/0");
    // In version 1 every message id reads as 0.
    talk.says("1307010100000001 aa", "A 9");
    talk.says(
        &format!("1307000100000063 {}", "bb".repeat(99)),
        &format!("D 107 07 aa{}", "bb".repeat(99)),
    );
}

#[test]
fn services_start_with_the_hash_of_their_own_call() {
    let mut talk = Talk::with_version_5("5 4 1 1500");
    talk.offer = "0 0 4294967295".into();
    let ack = "1e000000 10 68617368496400 ffffffff 12 6d747500 dc05000000000000 00";
    let ack: String = ack.split(' ').collect();
    talk.says(
        "500a01010000000000000000",
        &format!("W 12 500a02010000001e00000002{ack}"),
    );
    // Running already; an unreadable payload; services that no one starts.
    talk.says("500a01010000000000000000", "W 12 500a03010000000000000000");
    talk.says(
        "500b0101000000010000000000",
        "W 13 500b03010000000000000000",
    );
    talk.says("500701010000000000000000", "W 12 500703010000000000000000");
    talk.says("500001010000000000000000", "W 12 500003010000000000000000");
    talk.says("500f01010000000000000000", "W 12 500f03010000000000000000");
    talk.offer = "0 0 5".into();
    let told = talk.call("500b010100000005000000000500000000");
    assert!(told.answer.starts_with("W 17 500b02010000001e00000003"));
    assert_eq!(told.state, "1,32,64,5,4,07=39027+0a=4294967295+0b=5,0,-");
}

#[test]
fn below_version_5_hashes_are_raw() {
    let mut talk = Talk::new("3 0 0 1500");
    talk.call(PLAIN);
    talk.says("310700010000000000000000", "D 12 07 -");
    talk.offer = "0 0 16909060".into();
    // The payload of a Start is not read below version 5.
    talk.says(
        "300a0101000000010000000000",
        "W 13 300a0201000000040000000201020304",
    );
    talk.says(
        "300a0401000000040000000004030201",
        "W 16 300a06010000000000000000",
    );
    talk.says(
        "300a0401000000050000000001020304ff",
        "W 17 300a06010000000000000000",
    );
    talk.says(
        "300a0401000000030000000001020304",
        "W 15 300a06010000000000000000",
    );
    talk.says(
        "300a0401000000040000000001020304",
        "W 16 300a05010000000000000003",
    );
    talk.says(
        "300a0401000000040000000001020304",
        "W 16 300a06010000000000000000",
    );
    assert_eq!(talk.state(), "1,32,64,3,4,07=39027,0,-");
}

#[test]
fn an_end_in_version_5_needs_the_hash_id() {
    let rejected: String = REJECTED_HASH.split(' ').collect();
    assert_eq!(rejected.len(), 2 * 40);
    let nak = format!("500706010000002800000000{rejected}");
    let mut talk = Talk::with_version_5("5 4 1 131084");
    // No payload, no hashId, another hash, raw bytes.
    talk.says("500704010000000000000000", &format!("W 12 {nak}"));
    talk.says("5007040100000005000000000500000000", &format!("W 17 {nak}"));
    talk.says(
        &format!("500704010000001100000000{}", hash_document(39_028)),
        &format!("W 29 {nak}"),
    );
    talk.says("50070401000000040000000000009873", &format!("W 16 {nak}"));
    // Not running, and never running: of size 0.
    talk.says("500a04010000000000000000", "W 12 500a06010000000000000000");
    talk.says("500004010000000000000000", "W 12 500006010000000000000000");
    talk.says("500f04010000000000000000", "W 12 500f06010000000000000000");
    let told = talk.call(&format!(
        "500704010000001100000000{}",
        hash_document(39_027)
    ));
    assert_eq!(told.answer, "W 29 500705010000000000000002");
    assert_eq!(told.state, "-");
}

#[test]
fn heartbeats_have_no_number_and_are_not_counted() {
    let mut talk = Talk::with_version_5("5 4 1 131084");
    let before = talk.state();
    talk.says(
        "5000000100000002000000090102",
        "W 14 5000ff010000000000000000",
    );
    talk.says("5000ff010000000000000009", "A 12");
    assert_eq!(talk.state(), before);
    talk.refuses("500700010000000000000009", 17);
    talk.refuses("5007ff010000000000000009", 17);
    // Not in version 2.
    let mut talk = Talk::new("2 0 0 1500");
    talk.call(PLAIN);
    talk.call("210700010000000000000000");
    talk.refuses("200000010000000000000009", 17);
}

#[test]
fn each_session_counts_its_own_acks() {
    let mut talk = Talk::with_version_5("5 4 1 131084");
    talk.call(&opening("5.4.1"));
    talk.call("500a01010000000000000000");
    talk.call("500b01010000000000000000");
    let state = talk.state();
    assert!(state.starts_with("1,32,64,5,4,"), "{state}");
    assert!(state.contains(";2,32,64,5,2,"), "{state}");
}
