//! Document 02, A2: bursts of more than 255 frames, cut by the sender and
//! joined by the link.

mod talk;

use reference::frame::{MessageId, ServiceType, SessionId};
use reference::link::version::ProtocolVersion;
use reference::link::{rules, Answer, Effect, Link, Offer, Settings};
use reference::refusal::Refusal;
use reference::sender::{write_frame, Outgoing};
use talk::{first, next, Talk};

const SERVICE: ServiceType = ServiceType(0);
const SESSION: SessionId = SessionId(1);

/// The whole room for one session.
const OFFER: Offer = Offer {
    guarantee: 0,
    cap: 256,
    hash: 39_027,
};

/// A link with one session, which the burst's First Frame settles.
fn open_link() -> Link {
    let version = ProtocolVersion {
        major: 5,
        minor: 4,
        patch: 1,
    };
    let settings = Settings {
        version,
        mtu: 1_500,
    };
    let mut link = Link::new(settings, vec![0; 65_536]).unwrap();
    let opening = [0x10, 7, 1, 0, 0, 0, 0, 0];
    let answer = link.call(&OFFER, &opening, &mut [0; 128]);
    assert!(matches!(answer, Answer::Accepted { consumed: 8, .. }));
    link
}

fn burst(version: u8, chunk: u32, message: &[u8]) -> Outgoing<'_> {
    Outgoing {
        version,
        service: SERVICE,
        session: SESSION,
        id: MessageId(7),
        chunk,
        message,
    }
}

/// The k-th frame as the sender writes it.
fn frame(burst: &Outgoing, k: usize) -> Vec<u8> {
    let mut frame = vec![0; 12 + burst.chunk.max(8) as usize];
    let length = write_frame(burst, k as u32, &mut frame).unwrap();
    frame.truncate(length);
    frame
}

/// The link accepts the First Frame and the consecutive ones before the k-th.
fn sends_before(link: &mut Link, burst: &Outgoing, k: usize) {
    for before in 0..k {
        let frame = frame(burst, before);
        let answer = link.call(&OFFER, &frame, &mut [0; 128]);
        let accepted = Answer::Accepted {
            consumed: frame.len(),
            effect: Effect::Silent,
        };
        assert_eq!(answer, accepted, "{before}");
        if before % 255 <= 1 {
            assert!(rules::hold(link), "{before}");
        }
    }
}

/// The burst is sent to its end and delivers its message whole.
fn travels(link: &mut Link, burst: &Outgoing) {
    let message = burst.message;
    let count = message.len().div_ceil(burst.chunk as usize);
    sends_before(link, burst, count);
    let last = frame(burst, count);
    let delivered = Answer::Accepted {
        consumed: last.len(),
        effect: Effect::Delivery(SERVICE, message.len()),
    };
    let mut out = vec![0xee; message.len().max(128) + 1];
    assert_eq!(link.call(&OFFER, &last, &mut out), delivered);
    assert!(out.starts_with(message));
    assert_eq!(out.last(), Some(&0xee));
    assert_eq!(link.held(SESSION), 0);
}

/// Bytes that are others after 255 frames and after 256.
fn message(length: usize) -> Vec<u8> {
    (0..length).map(|i| (i * 7 + i / 251) as u8).collect()
}

#[test]
fn what_the_sender_cuts_the_link_joins() {
    for version in 1..=4 {
        let mut link = open_link();
        for count in [254, 255, 256, 257, 258, 400, 509, 510, 511, 512, 766] {
            travels(&mut link, &burst(version, 1, &message(count)));
            travels(&mut link, &burst(version, 3, &message(3 * count - 2)));
        }
    }
}

#[test]
fn a_frame_for_each_of_65536_bytes() {
    travels(&mut open_link(), &burst(4, 1, &message(65_536)));
    travels(&mut open_link(), &burst(1, 1, &message(65_535)));
    travels(&mut open_link(), &burst(2, 2, &message(65_535)));
}

#[test]
fn one_number_is_right_at_a_wrap() {
    for (k, count, right) in [
        (254, 255, 254),
        (255, 255, 0),
        (255, 256, 255),
        (256, 256, 0),
        (256, 257, 1),
        (257, 257, 0),
        (257, 258, 2),
        (400, 400, 0),
        (510, 510, 0),
        (510, 511, 255),
        (511, 511, 0),
        (511, 512, 1),
        (512, 512, 0),
    ] {
        let message = message(count);
        let burst = burst(4, 1, &message);
        let mut link = open_link();
        sends_before(&mut link, &burst, k);
        for number in 0..=255 {
            let good = answers_number(link.clone(), &burst, k, number);
            assert_eq!(good, number == right, "{number} for {k} of {count}");
        }
    }
}

/// Whether the k-th frame is accepted with this number; if not, it is 24 and
/// the message is dropped: nothing goes on with it, and it can be sent anew.
fn answers_number(mut link: Link, burst: &Outgoing, k: usize, number: u8) -> bool {
    let good = frame(burst, k);
    let mut numbered = good.clone();
    numbered[2] = number;
    let mut out = vec![0; burst.message.len().max(128)];
    match link.call(&OFFER, &numbered, &mut out) {
        Answer::Accepted { .. } => return true,
        answer => assert_eq!(answer, Answer::Refused(Refusal::FrameNumber)),
    }
    assert!(rules::hold(&link));
    assert_eq!(link.held(SESSION), 0);
    let none_open = Answer::Refused(Refusal::NoMessageOpen);
    assert_eq!(link.call(&OFFER, &good, &mut out), none_open);
    if number == 0 {
        travels(&mut link, burst);
    }
    false
}

#[test]
fn the_customers_video_message_of_400_frames() {
    let mut talk = Talk::with_version_5("5 4 1 131084");
    let told = talk.call("500b01010000000000000000");
    assert!(told.answer.starts_with("W 12 500b0201"), "{told:?}");
    talk.says(&first(0x0b, 1, 800, 400), "A 20");
    // 1 to 255, then 1 to 144, then the last.
    for number in (1..=255).chain(1..=144) {
        talk.says(&next(0x0b, 1, number, 2), "A 14");
    }
    assert!(talk.state().ends_with(",4,0b/7/800/400/1/2/0.1.2.3"));
    let whole = format!("D 14 0b {}", "ab".repeat(800));
    talk.says(&next(0x0b, 1, 0, 2), &whole);
    assert!(talk.state().ends_with(",0,-"));
}
