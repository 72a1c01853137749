//! Document 01's figures and limits for control payloads.

use reference::payload::{self, Tags};
use reference::refusal::Refusal;

/// An element: type, key, its 0, value.
fn element(type_byte: u8, key: &str, value: &[u8]) -> Vec<u8> {
    [&[type_byte], key.as_bytes(), &[0], value].concat()
}

/// A document of these bytes between its length and its final 0.
fn document(elements: &[&[u8]]) -> Vec<u8> {
    unended(&[&elements.concat(), &[0]])
}

/// A document of exactly these bytes behind its length.
fn unended(bytes: &[&[u8]]) -> Vec<u8> {
    let bytes = bytes.concat();
    let length = bytes.len() as u32 + 4;
    [&length.to_le_bytes()[..], &bytes].concat()
}

/// A string's value: its length, its bytes, a 0.
fn string(text: &[u8]) -> Vec<u8> {
    let length = text.len() as u32 + 1;
    [&length.to_le_bytes()[..], text, &[0]].concat()
}

fn version(text: &str) -> Vec<u8> {
    element(2, "protocolVersion", &string(text.as_bytes()))
}

fn read(payload: &[u8]) -> Result<Tags<'_>, u8> {
    payload::read(payload).map_err(Refusal::number)
}

/// The refusal of a document with these bytes between length and final 0.
fn refusal(elements: &[&[u8]]) -> Option<u8> {
    read(&document(elements)).err()
}

/// Documents inside each other: the outer one is depth 1, the innermost, at
/// `depth`, is `inner`.
fn nested(depth: usize, type_byte: u8, inner: Vec<u8>) -> Vec<u8> {
    (1..depth).fold(inner, |inside, _| {
        document(&[&element(type_byte, "n", &inside)])
    })
}

const NULL: [u8; 3] = [0x0a, b'x', 0];
const NO_TAGS: Tags = Tags {
    protocol_version: None,
    hash_id: None,
    mtu: None,
    rejected_params: false,
};

#[test]
fn the_32_byte_payload_is_read() {
    let mut figure = vec![0x20, 0, 0, 0, 2];
    figure.extend(b"protocolVersion\0");
    figure.extend([6, 0, 0, 0]);
    figure.extend(b"5.4.1\0\0");
    assert_eq!(figure.len(), 32);
    assert_eq!(figure, document(&[&version("5.4.1")]));
    let tags = Tags {
        protocol_version: Some(b"5.4.1"),
        ..NO_TAGS
    };
    assert_eq!(read(&figure), Ok(tags));
}

#[test]
fn the_57_byte_ack_payload_is_read() {
    // "hashId (int32), mtu (int64), protocolVersion (string), in this order"
    let hash = element(0x10, "hashId", &39_027u32.to_le_bytes());
    let mtu = element(0x12, "mtu", &131_084u64.to_le_bytes());
    let ack = document(&[&hash, &mtu, &version("5.4.1")]);
    assert_eq!(ack.len(), 57);
    let tags = Tags {
        protocol_version: Some(b"5.4.1"),
        hash_id: Some(39_027),
        mtu: Some(131_084),
        rejected_params: false,
    };
    assert_eq!(read(&ack), Ok(tags));
}

#[test]
fn the_49_byte_nak_payload_is_read() {
    let names = document(&[&element(2, "0", &string(b"protocolVersion"))]);
    let nak = document(&[&element(4, "rejectedParams", &names)]);
    assert_eq!(nak.len(), 49);
    let tags = Tags {
        rejected_params: true,
        ..NO_TAGS
    };
    assert_eq!(read(&nak), Ok(tags));
}

#[test]
fn no_bytes_are_no_tags() {
    assert_eq!(read(&[]), Ok(NO_TAGS));
    assert_eq!(read(&[5, 0, 0, 0, 0]), Ok(NO_TAGS));
}

#[test]
fn numbers_are_least_significant_first_and_unsigned() {
    let hash = element(0x10, "hashId", &[0x73, 0x98, 0, 0x80]);
    let mtu = element(0x12, "mtu", &[1, 2, 3, 4, 5, 6, 7, 0xff]);
    let payload = document(&[&mtu, &hash]);
    let tags = read(&payload).unwrap();
    assert_eq!(tags.hash_id, Some(0x8000_9873));
    assert_eq!(tags.mtu, Some(0xff07_0605_0403_0201));
}

#[test]
fn version_strings_are_not_judged_here() {
    for text in [&b""[..], b"\0", b"5.04.1", b"5\x004.1\0", b"\xff\x80"] {
        let payload = document(&[&element(2, "protocolVersion", &string(text))]);
        assert_eq!(read(&payload).unwrap().protocol_version, Some(text));
    }
}

#[test]
fn every_read_type_is_skipped() {
    let empty = document(&[]);
    let values: [(u8, &[u8]); 8] = [
        (0x01, &[0xff; 8]),
        (0x02, &[1, 0, 0, 0, 0]),
        (0x03, &empty),
        (0x04, &empty),
        (0x08, &[1]),
        (0x0a, &[]),
        (0x10, &[0xff; 4]),
        (0x12, &[0xff; 8]),
    ];
    let mut all = Vec::new();
    for (type_byte, value) in values {
        // Unknown names: an empty one, one twice, one next to a known one.
        for key in ["", "height", "height", "mtu2", "hashID"] {
            all.extend(element(type_byte, key, value));
        }
    }
    assert_eq!(read(&document(&[&all])), Ok(NO_TAGS));
    assert_eq!(
        read(&document(&[&element(3, "", &document(&[&all]))])),
        Ok(NO_TAGS)
    );
}

#[test]
fn refusal_30_is_the_length() {
    for payload in [&[0][..], &[5], &[5, 0, 0], &[4, 0, 0, 0], &[0, 0, 0, 0]] {
        assert_eq!(read(payload), Err(30), "{payload:?}");
    }
    for length in [0, 4, 6, 0x0500_0000, 0x8000_0005, u32::MAX] {
        let payload = [&u32::to_le_bytes(length)[..], &[0]].concat();
        assert_eq!(read(&payload), Err(30), "{length}");
    }
    // A whole document and a byte behind it.
    assert_eq!(read(&[5, 0, 0, 0, 0, 0]), Err(30));
    // 30 comes first, whatever else is wrong.
    assert_eq!(read(&[9, 0, 0, 0, 5, 5, 5, 5]), Err(30));
    assert_eq!(read(&[8, 0, 0, 0, 5, 5, 5, 5]), Err(31));
}

#[test]
fn payloads_end_at_1024() {
    let of_length = |length: usize| {
        let text = vec![b'x'; length - 4 - 3 - 4 - 1 - 1];
        document(&[&element(2, "z", &string(&text))])
    };
    for (length, answer) in [
        (1_023, Ok(NO_TAGS)),
        (1_024, Ok(NO_TAGS)),
        (1_025, Err(30)),
        (70_000, Err(30)),
    ] {
        let payload = of_length(length);
        assert_eq!(payload.len(), length);
        assert_eq!(read(&payload), answer);
    }
}

#[test]
fn refusal_31_is_for_every_other_type() {
    for type_byte in 1..=255 {
        let read_type = [1, 2, 3, 4, 8, 10, 16, 18].contains(&type_byte);
        // The key runs past the document, which is judged after the type.
        let expected = if read_type { 32 } else { 31 };
        assert_eq!(read(&unended(&[&[type_byte]])), Err(expected));
        assert_eq!(
            refusal(&[&element(3, "a", &unended(&[&[type_byte]]))]),
            Some(expected)
        );
    }
}

#[test]
fn refusal_32_is_for_what_runs_past() {
    // A key without a 0 inside its own document; its parent has more.
    assert_eq!(read(&unended(&[b"\x10abc"])), Err(32));
    assert_eq!(
        refusal(&[&element(3, "a", &unended(&[b"\x10abc"]))]),
        Some(32)
    );
    // Values one byte short, and just not short but then without an end.
    for (type_byte, width) in [(0x01, 8), (0x08, 1), (0x10, 4), (0x12, 8), (0x0a, 0)] {
        let whole = element(type_byte, "a", &vec![0; width]);
        assert_eq!(refusal(&[&whole]), None);
        assert_eq!(read(&unended(&[&whole])), Err(32));
        assert_eq!(read(&unended(&[&whole[..whole.len() - 1]])), Err(32));
        // The parent's bytes do not help a nested document.
        let inside = unended(&[&whole[..whole.len() - 1]]);
        assert_eq!(refusal(&[&element(3, "n", &inside), &[0; 9]]), Some(32));
    }
    // A key whose 0 is the document's last byte: the value is missing.
    for type_byte in [1, 2, 3, 4, 8, 10, 16, 18] {
        assert_eq!(read(&unended(&[&element(type_byte, "a", &[])])), Err(32));
    }
}

#[test]
fn refusal_32_is_for_strings() {
    let with = |value: &[u8], behind: &[u8]| {
        let payload = unended(&[&element(2, "a", value), behind]);
        read(&payload).map(drop)
    };
    assert_eq!(with(&[1, 0, 0, 0, 0], &[0]), Ok(()));
    assert_eq!(with(&[0, 0, 0, 0], &[0]), Err(32));
    assert_eq!(with(&[0, 0, 0, 0, 0], &[0]), Err(32));
    assert_eq!(with(&[1, 0, 0, 0, 1], &[0]), Err(32));
    // One too long takes the document's end, two too long runs past it.
    assert_eq!(with(&[2, 0, 0, 0, 0], &[0]), Err(32));
    assert_eq!(with(&[3, 0, 0, 0, 0], &[0]), Err(32));
    assert_eq!(with(&[1, 0, 0, 0x80, 0], &[0]), Err(32));
    assert_eq!(with(&[0xff; 4], &[0, 0]), Err(32));
    assert_eq!(with(&[3, 0, 0, 0, 0, 0, 0], &[0]), Ok(()));
    assert_eq!(with(&[3, 0, 0, 0, b'a', b'b', b'c'], &[0]), Err(32));
}

#[test]
fn refusal_32_is_for_booleans() {
    for byte in 0..=255 {
        let expected = if byte < 2 { None } else { Some(32) };
        assert_eq!(refusal(&[&element(8, "a", &[byte])]), expected);
    }
}

#[test]
fn refusal_32_is_for_nested_lengths() {
    for (length, expected) in [
        (0u32, Some(32)),
        (4, Some(32)),
        (5, None),
        // Taking the parent's last byte, then one past it.
        (6, Some(32)),
        (7, Some(32)),
        (0x8000_0005, Some(32)),
        (u32::MAX, Some(32)),
    ] {
        for type_byte in [3, 4] {
            let value = [&length.to_le_bytes()[..], &[0]].concat();
            assert_eq!(
                refusal(&[&element(type_byte, "a", &value)]),
                expected,
                "{length}"
            );
        }
    }
    assert_eq!(read(&unended(&[b"\x03a\0\x05\0\0"])), Err(32));
}

#[test]
fn refusal_32_is_for_ends() {
    // A 0 in a type's place before the document's last byte.
    assert_eq!(read(&[6, 0, 0, 0, 0, 0]), Err(32));
    assert_eq!(refusal(&[&[0], &NULL]), Some(32));
    assert_eq!(refusal(&[&element(3, "a", &unended(&[&[0, 0]]))]), Some(32));
    // The document used up without a 0.
    assert_eq!(read(&unended(&[&NULL])), Err(32));
    assert_eq!(refusal(&[&element(4, "a", &unended(&[&NULL]))]), Some(32));
    // A nested document that uses up its parent too.
    assert_eq!(read(&unended(&[&element(3, "a", &document(&[]))])), Err(32));
}

#[test]
fn depth_ends_at_8() {
    for type_byte in [3, 4] {
        assert_eq!(read(&nested(1, type_byte, document(&[]))), Ok(NO_TAGS));
        assert_eq!(read(&nested(8, type_byte, document(&[&NULL]))), Ok(NO_TAGS));
        assert_eq!(read(&nested(9, type_byte, document(&[&NULL]))), Err(33));
        assert_eq!(read(&nested(10, type_byte, document(&[&NULL]))), Err(33));
    }
    // The same depth twice is no deeper.
    let down = nested(7, 3, document(&[]));
    let twice = document(&[&element(3, "a", &down), &element(4, "b", &down)]);
    assert_eq!(read(&twice), Ok(NO_TAGS));
}

#[test]
fn refusal_33_comes_before_its_length() {
    for value in [
        &[][..],
        &[0],
        &[4, 0, 0, 0, 0],
        &[0xff; 4],
        &[5, 0, 0, 0, 0],
    ] {
        let inner = unended(&[&element(3, "n", value)]);
        assert_eq!(read(&nested(8, 3, inner.clone())), Err(33), "{value:?}");
        // One level up, it is the length.
        assert_eq!(read(&nested(7, 3, inner)), Err(32), "{value:?}");
    }
    // But not before the key.
    assert_eq!(read(&nested(8, 3, unended(&[b"\x03n"]))), Err(32));
}

#[test]
fn refusal_34_is_for_known_tags() {
    let empty = document(&[]);
    let known: [(&str, u8, &[u8]); 4] = [
        ("protocolVersion", 2, &[1, 0, 0, 0, 0]),
        ("hashId", 0x10, &[0; 4]),
        ("mtu", 0x12, &[0; 8]),
        ("rejectedParams", 4, &empty),
    ];
    for (key, right, value) in known {
        let good = element(right, key, value);
        assert_eq!(refusal(&[&good]), None);
        assert_eq!(refusal(&[&good, &NULL, &good]), Some(34));
        for other in [1, 2, 3, 4, 8, 10, 16, 18] {
            // Judged before the value, so it need not be there.
            let expected = if other == right { 32 } else { 34 };
            let bare = element(other, key, &[]);
            assert_eq!(read(&unended(&[&bare])), Err(expected), "{key} {other}");
            assert_eq!(read(&unended(&[&good, &bare])), Err(34), "{key} {other}");
            // The key comes first.
            assert_eq!(read(&unended(&[&bare[..bare.len() - 1]])), Err(32));
        }
        // So does the type.
        assert_eq!(refusal(&[&element(5, key, value)]), Some(31));
        // "Only top-level tags count": not in a nested document, twice and of any type.
        let inside = document(&[&good, &good, &element(0x0a, key, &[])]);
        assert_eq!(read(&document(&[&element(3, "a", &inside)])), Ok(NO_TAGS));
        assert_eq!(refusal(&[&good, &element(3, "a", &inside)]), None);
    }
}

#[test]
fn the_first_fault_in_byte_order_wins() {
    let faults: [(&[u8], u8); 4] = [
        (b"\x05a\0", 31),
        (b"\x08a\0\x02", 32),
        (b"\x0amtu\0", 34),
        // A nested document with an unread type inside, then other faults.
        (b"\x03a\0\x06\0\0\0\x05\x08", 31),
    ];
    for (first, number) in faults {
        for (second, _) in faults {
            assert_eq!(refusal(&[first, second]), Some(number));
            assert_eq!(refusal(&[&NULL, first, second]), Some(number));
        }
        // No end, or a 0 before it, is found only behind all that.
        assert_eq!(read(&unended(&[first])), Err(number));
        assert_eq!(refusal(&[first, &[0]]), Some(number));
    }
    // A nested length is judged before what is inside, but one that takes the
    // parent's last byte does not run past it.
    assert_eq!(refusal(&[b"\x03a\0\x08\0\0\0\x05\0"]), Some(32));
    assert_eq!(refusal(&[b"\x03a\0\x07\0\0\0\x05\0"]), Some(31));
    assert_eq!(refusal(&[b"\x03a\0\x04\0\0\0\x05\0"]), Some(32));
}
