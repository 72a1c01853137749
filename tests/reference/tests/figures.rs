//! Document 01's worked figures and limits, for reader, writer and sender.

use reference::frame::{
    self, Frame, Header, MessageId, Reading, ServiceType, SessionId, CONSECUTIVE, CONTROL, FIRST,
    SINGLE,
};
use reference::refusal::Refusal;
use reference::sender::{write_frame, Outgoing};

const RPC: ServiceType = ServiceType(7);

fn bytes(hex: &str) -> Vec<u8> {
    let digits: String = hex.split(' ').collect();
    let mut bytes = Vec::new();
    reference::text::parse_bytes(digits.as_bytes(), &mut bytes).unwrap();
    bytes
}

/// A single frame's header in version 5, to be changed where a test needs it.
fn single(size: u32) -> Header {
    Header {
        version: 5,
        flag: false,
        frame_type: SINGLE,
        service: RPC,
        info: 0,
        session: SessionId(1),
        size,
        id: MessageId(7),
    }
}

/// The reader's and the header writer's common judgement of a header.
fn judge(header: Header) -> Result<(), u8> {
    let mut out = [0xee; 12];
    let answer = frame::write_header(&header, &mut out);
    if answer.is_err() {
        assert_eq!(out, [0xee; 12]);
    }
    answer.map(drop).map_err(Refusal::number)
}

/// Reads `head` with enough bytes behind it for any frame.
fn refusal_of(head: &str) -> Option<u8> {
    let mut bytes = bytes(head);
    bytes.resize(140_000, 0);
    match frame::read(&bytes) {
        Reading::Refused(refusal) => Some(refusal.number()),
        _ => None,
    }
}

#[test]
fn the_opening_is_read() {
    let lent = bytes("10 07 01 00 00 00 00 00");
    let header = Header {
        version: 1,
        frame_type: CONTROL,
        info: 1,
        session: SessionId(0),
        id: MessageId(0),
        ..single(0)
    };
    let frame = Frame {
        header,
        payload: &[],
        consumed: 8,
    };
    assert_eq!(frame::read(&lent), Reading::Frame(frame));
}

#[test]
fn the_nak_is_written() {
    let header = Header {
        version: 4,
        frame_type: CONTROL,
        info: 3,
        session: SessionId(0),
        id: MessageId(0),
        ..single(0)
    };
    let mut out = [0xee; 13];
    assert_eq!(frame::write(&header, &[], &mut out), Ok(12));
    assert_eq!(out[..12], bytes("40 07 03 00 00 00 00 00 00 00 00 00"));
    assert_eq!(out[12], 0xee);
}

#[test]
fn the_first_frame_is_read_and_sent() {
    let figure = bytes("52 07 00 01 00 00 00 08 00 00 00 07 00 00 02 58 00 00 00 02");
    let Reading::Frame(frame) = frame::read(&figure) else {
        panic!("not a frame");
    };
    let header = Header {
        frame_type: FIRST,
        ..single(8)
    };
    assert_eq!(frame.header, header);
    assert_eq!(frame.payload[..4], 600u32.to_be_bytes());
    assert_eq!(frame.payload[4..], 2u32.to_be_bytes());
    assert_eq!(frame.consumed, 20);
    // 300 and 599 are the smallest and the largest chunk that give 2 frames.
    for chunk in [300, 599] {
        assert_eq!(sent(5, chunk, &[9; 600], 0), Ok(figure.clone()));
    }
}

#[test]
fn the_bench_case_is_read_and_written() {
    assert_eq!(refusal_of("60 07 00 00 00 00 00 00"), Some(1));
    let ack = bytes("40 07 02 01 00 00 00 04 00 00 00 01 00 00 98 73");
    let Reading::Frame(frame) = frame::read(&ack) else {
        panic!("not a frame");
    };
    assert_eq!(frame.header.id, MessageId(1));
    assert_eq!(frame.payload, 39_027u32.to_be_bytes());
    let mut out = [0; 16];
    assert_eq!(frame::write(&frame.header, frame.payload, &mut out), Ok(16));
    assert_eq!(out[..], ack);
}

#[test]
fn short_tells_the_bytes_needed_in_all() {
    let frame = bytes("51 07 00 01 00 00 00 02 00 00 00 07 aa bb");
    for there in 0..8 {
        assert_eq!(frame::read(&frame[..there]), Reading::Short(8));
    }
    for there in 8..14 {
        assert_eq!(frame::read(&frame[..there]), Reading::Short(14));
    }
    let old = bytes("11 07 00 01 00 00 00 02 aa");
    assert_eq!(frame::read(&old), Reading::Short(10));
    // Fewer than 8 bytes are not judged, 8 are.
    assert_eq!(frame::read(&[0xff; 7]), Reading::Short(8));
    assert_eq!(frame::read(&[0xff; 8]), Reading::Refused(Refusal::Version));
    let largest = bytes("31 07 00 01 00 02 00 00");
    assert_eq!(frame::read(&largest), Reading::Short(131_084));
}

#[test]
fn every_version_and_type_is_judged() {
    for version in 0..=255 {
        let good = (1..=5).contains(&version);
        let header = Header {
            version,
            ..single(0)
        };
        assert_eq!(judge(header), if good { Ok(()) } else { Err(1) });
    }
    for frame_type in 0..=255 {
        let header = Header {
            frame_type,
            ..single(8)
        };
        assert_eq!(judge(header), if frame_type < 4 { Ok(()) } else { Err(2) });
    }
}

#[test]
fn every_service_and_info_is_judged() {
    for byte in 0..=255 {
        let header = Header {
            service: ServiceType(byte),
            ..single(0)
        };
        let listed = [0x00, 0x07, 0x0a, 0x0b, 0x0f].contains(&byte);
        assert_eq!(judge(header), if listed { Ok(()) } else { Err(3) });
        for frame_type in [SINGLE, FIRST, CONSECUTIVE] {
            let header = Header {
                frame_type,
                info: byte,
                ..single(8)
            };
            assert_eq!(judge(header), Ok(()));
        }
        let header = Header {
            frame_type: CONTROL,
            info: byte,
            ..single(0)
        };
        let listed = byte <= 9 || byte >= 0xfd;
        assert_eq!(judge(header), if listed { Ok(()) } else { Err(4) });
    }
}

#[test]
fn the_flag_is_refused_in_version_1_and_on_first_frames() {
    for version in 1..=5 {
        for frame_type in 0..=3 {
            let header = Header {
                version,
                flag: true,
                frame_type,
                ..single(8)
            };
            let refused = version == 1 || frame_type == FIRST;
            assert_eq!(judge(header), if refused { Err(5) } else { Ok(()) });
        }
    }
}

#[test]
fn sizes_end_at_the_largest() {
    // Taking 1,492 as version 1's limit is one of the "Errors we have seen".
    let limits = [1_488, 1_488, 131_072, 131_072, 131_072];
    for (version, limit) in (1..=5).zip(limits) {
        for frame_type in [CONTROL, SINGLE, CONSECUTIVE] {
            for size in [0, 1, 8, limit, limit + 1, limit + 4, u32::MAX] {
                let header = Header {
                    version,
                    frame_type,
                    ..single(size)
                };
                let refused = size > limit || frame_type == CONSECUTIVE && size == 0;
                assert_eq!(judge(header), if refused { Err(6) } else { Ok(()) });
            }
        }
        for size in [0, 7, 8, 9, limit] {
            let header = Header {
                version,
                frame_type: FIRST,
                ..single(size)
            };
            assert_eq!(judge(header), if size == 8 { Ok(()) } else { Err(6) });
        }
    }
}

#[test]
fn the_lowest_refusal_wins() {
    for (head, number) in [
        ("0f 01 0a 00 ff ff ff ff", 1),
        ("1f 01 0a 00 ff ff ff ff", 2),
        ("18 01 0a 00 ff ff ff ff", 3),
        ("18 07 0a 00 ff ff ff ff", 4),
        ("18 07 01 00 ff ff ff ff", 5),
        ("10 07 01 00 ff ff ff ff", 6),
    ] {
        assert_eq!(refusal_of(head), Some(number), "{head}");
    }
    assert_eq!(refusal_of("10 07 01 00 00 00 05 d0"), None);
}

#[test]
fn the_writer_judges_size_before_room() {
    let write = |size, length, room| {
        let mut out = vec![0xee; room];
        let payload = vec![0xaa; length];
        let answer = frame::write(&single(size), &payload, &mut out);
        if answer.is_err() {
            assert!(out.iter().all(|&byte| byte == 0xee));
        }
        answer.map_err(Refusal::number)
    };
    assert_eq!(write(3, 3, 15), Ok(15));
    assert_eq!(write(3, 3, 14), Err(11));
    assert_eq!(write(3, 2, 14), Err(6));
    assert_eq!(write(3, 4, 0), Err(6));
    assert_eq!(write(131_072, 131_072, 131_084), Ok(131_084));
    assert_eq!(write(131_072, 131_072, 131_083), Err(11));
    assert_eq!(write(131_073, 131_073, 131_085), Err(6));
}

#[test]
fn version_1_has_no_message_id() {
    let header = Header {
        version: 1,
        ..single(1)
    };
    let mut out = [0xee; 10];
    assert_eq!(frame::write(&header, &[0xaa], &mut out), Ok(9));
    assert_eq!(out[..], bytes("11 07 00 01 00 00 00 01 aa ee"));
    let Reading::Frame(frame) = frame::read(&out) else {
        panic!("not a frame");
    };
    assert_eq!(frame.header.id, MessageId(0));
    assert_eq!(frame.consumed, 9);
}

#[test]
fn what_is_written_is_read_again() {
    let payload = bytes("00 01 02 03 04 05 06 07");
    for version in 2..=5 {
        for frame_type in 0..=3 {
            for flag in [false, frame_type != FIRST] {
                let header = Header {
                    version,
                    flag,
                    frame_type,
                    info: 0xfe,
                    session: SessionId(0x81),
                    id: MessageId(0x8182_8384),
                    ..single(8)
                };
                let mut out = [0xee; 25];
                assert_eq!(frame::write(&header, &payload, &mut out), Ok(20));
                let frame = Frame {
                    header,
                    payload: &payload,
                    consumed: 20,
                };
                assert_eq!(frame::read(&out), Reading::Frame(frame));
                let mut head = [0; 12];
                assert_eq!(frame::write_header(&header, &mut head), Ok(12));
                assert_eq!(head[..], out[..12]);
            }
        }
    }
}

/// The k-th frame of a message to session 1, service 07, message id 7.
fn sent(version: u8, chunk: u32, message: &[u8], k: u32) -> Result<Vec<u8>, u8> {
    let outgoing = Outgoing {
        version,
        service: RPC,
        session: SessionId(1),
        id: MessageId(7),
        chunk,
        message,
    };
    let mut out = vec![0xee; 131_084];
    let length = write_frame(&outgoing, k, &mut out).map_err(Refusal::number)?;
    assert!(out[length..].iter().all(|&byte| byte == 0xee));
    // Exactly this room is needed.
    let mut room = vec![0; length];
    assert_eq!(write_frame(&outgoing, k, &mut room), Ok(length));
    assert_eq!(room, out[..length]);
    let mut room = vec![0xee; length - 1];
    let refused = write_frame(&outgoing, k, &mut room);
    assert_eq!(refused, Err(Refusal::OutTooSmall));
    assert!(room.iter().all(|&byte| byte == 0xee));
    out.truncate(length);
    Ok(out)
}

#[test]
fn a_message_of_one_chunk_is_a_single_frame() {
    let empty = bytes("31 07 00 01 00 00 00 00 00 00 00 07");
    assert_eq!(sent(3, 1, &[], 0), Ok(empty));
    assert_eq!(sent(3, 1, &[], 1), Err(26));
    let full = bytes("11 07 00 01 00 00 00 03 01 02 03");
    assert_eq!(sent(1, 3, &[1, 2, 3], 0), Ok(full));
    assert_eq!(sent(1, 3, &[1, 2, 3], 1), Err(26));
    assert_eq!(sent(1, 3, &[1, 2, 3], u32::MAX), Err(26));
    // Only more than one chunk is limited to 65,536.
    let long = vec![1; 131_072];
    assert_eq!(sent(5, 131_072, &long, 0).map(|f| f.len()), Ok(131_084));
    assert_eq!(sent(5, 131_071, &long, 0), Err(18));
}

#[test]
fn a_longer_message_has_its_frames() {
    let message = [1, 2, 3, 4, 5];
    let frames: Vec<_> = (0..5).map(|k| sent(2, 2, &message, k)).collect();
    let first = bytes("22 07 00 01 00 00 00 08 00 00 00 07 00 00 00 05 00 00 00 03");
    let one = bytes("23 07 01 01 00 00 00 02 00 00 00 07 01 02");
    let two = bytes("23 07 02 01 00 00 00 02 00 00 00 07 03 04");
    let last = bytes("23 07 00 01 00 00 00 01 00 00 00 07 05");
    let expected = [Ok(first), Ok(one), Ok(two), Ok(last), Err(26)];
    assert_eq!(frames[..], expected);
}

/// The number of the k-th frame of a message in so many frames of one byte.
fn number_of(k: u32, count: usize) -> Result<u8, u8> {
    sent(4, 1, &vec![9; count], k).map(|frame| frame[2])
}

#[test]
fn the_number_after_255_is_1_again() {
    // Frame 256 of 256 carries 0, frame 256 of 257 carries 1.
    for (k, count, number) in [
        (254, 255, 254),
        (255, 255, 0),
        (254, 256, 254),
        (255, 256, 255),
        (256, 256, 0),
        (255, 257, 255),
        (256, 257, 1),
        (257, 257, 0),
        (257, 258, 2),
        (258, 258, 0),
        (509, 511, 254),
        (510, 510, 0),
        (510, 511, 255),
        (511, 511, 0),
        (511, 512, 1),
        (512, 512, 0),
        (512, 513, 2),
        (765, 766, 255),
        (766, 767, 1),
        (1, 65_536, 1),
        (65_534, 65_536, 254),
        (65_535, 65_536, 255),
        (65_536, 65_536, 0),
    ] {
        assert_eq!(number_of(k, count), Ok(number), "{k} of {count}");
    }
    for count in [255, 256, 257, 258, 65_536] {
        assert_eq!(number_of(count as u32 + 1, count), Err(26));
    }
}

#[test]
fn the_customers_400_frames() {
    let message: Vec<u8> = (0..1_200).map(|i| (i / 3) as u8).collect();
    let first = bytes("5207000100000008 00000007 000004b0 00000190");
    assert_eq!(sent(5, 3, &message, 0), Ok(first));
    for k in 1..=400 {
        let frame = sent(5, 3, &message, k).unwrap();
        // 1 to 255, then 1 to 144, then the last.
        let number = if k == 400 { 0 } else { (k - 1) % 255 + 1 };
        assert_eq!(frame[..3], [0x53, 7, number as u8], "{k}");
        assert_eq!(frame[12..], [(k - 1) as u8; 3], "{k}");
    }
    assert_eq!(sent(5, 3, &message, 401), Err(26));
    // The last one may be shorter.
    assert_eq!(sent(4, 2, &[9; 257], 129).map(|frame| frame.len()), Ok(13));
}

#[test]
fn totals_end_at_65536() {
    let message = vec![9; 65_537];
    // From a frame for each byte to two frames.
    for (chunk, count) in [
        (1, "00 01 00 00"),
        (2, "00 00 80 00"),
        (255, "00 00 01 02"),
        (256, "00 00 01 00"),
        (257, "00 00 01 00"),
        (65_535, "00 00 00 02"),
    ] {
        let head = "52 07 00 01 00 00 00 08 00 00 00 07 00 01 00 00";
        let figure = bytes(&format!("{head} {count}"));
        assert_eq!(sent(5, chunk, &message[..65_536], 0), Ok(figure), "{chunk}");
        // A byte more is 18, whatever the chunk and k.
        for k in [0, 1, 256, 65_536, 65_537, u32::MAX] {
            assert_eq!(sent(5, chunk, &message, k), Err(18), "{chunk} {k}");
        }
    }
    assert_eq!(sent(5, 65_536, &message, 0), Err(18));
    assert_eq!(sent(1, 1_488, &message, 0), Err(18));
    assert!(sent(1, 1_488, &message[..65_536], 45).is_ok());
    // In one chunk there is no limit but the chunk's.
    assert!(sent(5, 65_536, &message[..65_536], 0).is_ok());
    assert!(sent(5, 65_537, &message, 0).is_ok());
}

#[test]
fn the_senders_refusals_have_their_order() {
    let long = vec![9; 65_537];
    let number = |version, service, chunk, message, k, room| {
        let outgoing = Outgoing {
            version,
            service: ServiceType(service),
            session: SessionId(0),
            id: MessageId(0),
            chunk,
            message,
        };
        let mut out = vec![0; room];
        write_frame(&outgoing, k, &mut out).map_err(Refusal::number)
    };
    assert_eq!(number(6, 1, 0, &long[..], 9, 0), Err(1));
    assert_eq!(number(5, 1, 0, &long, 9, 0), Err(3));
    assert_eq!(number(5, 0, 0, &long, 9, 0), Err(10));
    assert_eq!(number(5, 0, 131_073, &long, 9, 0), Err(10));
    assert_eq!(number(2, 0, 1_489, &long, 9, 0), Err(10));
    assert_eq!(number(2, 0, 1_488, &long, 9, 0), Err(18));
    assert_eq!(number(2, 0, 1_488, &long[..1_489], 3, 0), Err(26));
    assert_eq!(number(2, 0, 1_488, &long[..1_489], 2, 12), Err(11));
    assert_eq!(number(2, 0, 1_488, &long[..1_489], 2, 13), Ok(13));
}
