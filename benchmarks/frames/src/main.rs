//! Frames read and written per second: the proved functions, called through the C archive, against the reference's own reader and
//! writer and against memcpy, on the same data in the same run. Figures are ratios; a time alone says little on a shared machine.

use reference::frame::{self, Header, MessageId, Reading, ServiceType, SessionId};
use std::hint::black_box;
use std::time::Instant;

/// Frame sizes of the benchmark: header alone, a small network packet, the largest frame.
const FRAME_SIZES: [usize; 3] = [12, 1_500, 131_084];
const HEADER: usize = 12;
/// The status of a call that was not refused.
const DONE: u32 = 0;
/// The same work is timed so often, and the least time counts.
const ROUNDS: usize = 15;
const BYTES_A_ROUND: usize = 64 << 20;
const MOST_CALLS: usize = 2_000_000;

extern "C" {
    fn tilambok_read_frame(bytes: *const u8, length: usize, fields: *mut u8, fields_length: usize, value: *mut u32) -> u32;
    #[allow(clippy::too_many_arguments)]
    fn tilambok_write_frame(
        version: u8,
        flag: u8,
        frame_type: u8,
        service: u8,
        info: u8,
        session: u8,
        size: u32,
        message: u32,
        payload: *const u8,
        payload_length: usize,
        out: *mut u8,
        out_length: usize,
        value: *mut u32,
    ) -> u32;
}

/// Some frames of one size, one behind the other, enough of them that a branch predictor does not learn a single one.
struct Frames {
    bytes: Vec<u8>,
    size: usize,
    headers: Vec<Header>,
}

fn header(index: usize, payload: usize) -> Header {
    let services = [0x00, 0x07, 0x0a, 0x0b, 0x0f];
    Header {
        version: 3 + (index % 3) as u8,
        flag: false,
        frame_type: if payload == 0 { 0 } else { 1 + 2 * (index % 2) as u8 },
        service: ServiceType(services[index % 5]),
        info: (index % 10) as u8,
        session: SessionId((index % 255) as u8),
        size: payload as u32,
        id: MessageId(index as u32 * 2_654_435),
    }
}

fn frames(size: usize) -> Frames {
    let count = ((1 << 20) / size).clamp(4, 1_024);
    let headers: Vec<Header> = (0..count).map(|i| header(i, size - HEADER)).collect();
    let payload: Vec<u8> = (0..size - HEADER).map(|i| (i * 7 + 13) as u8).collect();
    let mut bytes = vec![0; count * size];
    for (h, out) in headers.iter().zip(bytes.chunks_mut(size)) {
        frame::write(h, &payload, out).expect("a frame that the reference accepts");
    }
    Frames { bytes, size, headers }
}

#[inline(never)]
fn read_reference(bytes: &[u8]) -> Reading<'_> {
    frame::read(bytes)
}

#[inline(never)]
fn write_reference(header: &Header, payload: &[u8], out: &mut [u8]) -> usize {
    frame::write(header, payload, out).unwrap_or(0)
}

fn read_proved(bytes: &[u8], fields: &mut [u8; 16], value: &mut u32) -> u32 {
    // SAFETY: the pointers are valid for their lengths and do not overlap.
    unsafe { tilambok_read_frame(bytes.as_ptr(), bytes.len(), fields.as_mut_ptr(), fields.len(), value) }
}

fn write_proved(h: &Header, payload: &[u8], out: &mut [u8], value: &mut u32) -> u32 {
    // SAFETY: the pointers are valid for their lengths and do not overlap.
    unsafe {
        tilambok_write_frame(
            h.version,
            h.flag as u8,
            h.frame_type,
            h.service.0,
            h.info,
            h.session.0,
            h.size,
            h.id.0,
            payload.as_ptr(),
            payload.len(),
            out.as_mut_ptr(),
            out.len(),
            value,
        )
    }
}

/// The least time of a call, in nanoseconds, of each of several ways to do the same work, timed in turn. A way goes once over all
/// frames each time it is called, so that nothing but the calls is timed.
fn least_times(frames: &Frames, ways: &mut [&mut dyn FnMut()]) -> Vec<f64> {
    let count = frames.headers.len();
    let turns = ((BYTES_A_ROUND / frames.size).clamp(1_000, MOST_CALLS) / count).max(1);
    let mut least = vec![f64::INFINITY; ways.len()];
    for _ in 0..ROUNDS {
        for (way, best) in ways.iter_mut().zip(least.iter_mut()) {
            let start = Instant::now();
            for _ in 0..turns {
                way();
            }
            *best = best.min(start.elapsed().as_nanos() as f64 / (turns * count) as f64);
        }
    }
    least
}

fn measure_reading(frames: &Frames) {
    let mut fields = [0u8; 16];
    let mut value = 0;
    let least = least_times(
        frames,
        &mut [
            &mut || {
                for bytes in frames.bytes.chunks_exact(frames.size) {
                    black_box(read_proved(black_box(bytes), &mut fields, &mut value));
                    black_box(&fields);
                }
            },
            &mut || {
                for bytes in frames.bytes.chunks_exact(frames.size) {
                    let reading = read_reference(black_box(bytes));
                    black_box(&reading);
                }
            },
        ],
    );
    println!(
        "read  {:>7} bytes: proved {:9.1} ns, reference {:9.1} ns, proved/reference {:.2}",
        frames.size,
        least[0],
        least[1],
        least[0] / least[1]
    );
}

fn measure_writing(frames: &Frames) {
    let payload = frames.bytes[HEADER..frames.size].to_vec();
    let mut out = [vec![0u8; frames.size], vec![0u8; frames.size], vec![0u8; frames.size]];
    let [first, second, third] = &mut out;
    let mut value = 0;
    let least = least_times(
        frames,
        &mut [
            &mut || {
                for header in &frames.headers {
                    black_box(write_proved(header, black_box(&payload), first, &mut value));
                    black_box(&first);
                }
            },
            &mut || {
                for header in &frames.headers {
                    black_box(write_reference(header, black_box(&payload), second));
                    black_box(&second);
                }
            },
            &mut || {
                for header in &frames.headers {
                    third[HEADER..].copy_from_slice(black_box(&payload));
                    black_box((header, &third));
                }
            },
        ],
    );
    println!(
        "write {:>7} bytes: proved {:9.1} ns, reference {:9.1} ns, proved/reference {:.2}, memcpy's speed reached {:.0} %",
        frames.size,
        least[0],
        least[1],
        least[0] / least[1],
        100.0 * least[2] / least[0]
    );
}

/// Both programs give the same bytes and counts on this data, or nothing is measured.
fn check_same(frames: &Frames) {
    let payload = &frames.bytes[HEADER..frames.size];
    let mut out = vec![0u8; frames.size];
    for (h, bytes) in frames.headers.iter().zip(frames.bytes.chunks(frames.size)) {
        let (mut fields, mut written, mut consumed) = ([0u8; 16], 0, 0);
        assert_eq!(write_proved(h, payload, &mut out, &mut written), DONE);
        assert_eq!(read_proved(bytes, &mut fields, &mut consumed), DONE);
        assert_eq!([written, consumed], [frames.size as u32; 2]);
        assert_eq!(out, bytes);
        assert_eq!(fields[5], h.session.0);
    }
}

fn main() {
    let all: Vec<Frames> = FRAME_SIZES.iter().map(|&size| frames(size)).collect();
    all.iter().for_each(check_same);
    all.iter().for_each(measure_reading);
    all.iter().for_each(measure_writing);
}
