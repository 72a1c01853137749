//! RPC payloads read and written per second: the proved functions, called through the C archive, against the reference's own reader and
//! writer, on the same data in the same run. Figures are ratios; a time alone says little on a shared machine.

use reference::refusal::Refusal;
use reference::rpc::{self, Form, Header};
use std::hint::black_box;
use std::time::Instant;

const HEADER: usize = rpc::HEADER_LENGTH;
const FIELDS: usize = 16;
/// The status of a call that was not refused.
const DONE: u32 = 0;
/// A payload of the benchmark: the header and this many bytes of JSON; no bulk data.
const JSON: usize = 300;
const SIZE: usize = HEADER + JSON;
/// So many payloads of one form, that a branch predictor does not learn a single one.
const COUNT: usize = 1_024;
/// The same work is timed so often, and the least time counts.
const ROUNDS: usize = 31;
const TURNS: usize = 500;
const VERSION: u8 = 5;

const FORMS: [(&str, Form); 3] = [("RPC", Form::Rpc), ("bulk", Form::Bulk), ("query", Form::Query)];

extern "C" {
    fn tilambok_read_rpc(form: u8, version: u8, payload: *const u8, length: usize, fields: *mut u8, fields_length: usize, value: *mut u32) -> u32;
    #[allow(clippy::too_many_arguments)]
    fn tilambok_write_rpc(
        form: u8,
        version: u8,
        kind: u8,
        id: u32,
        number: u32,
        size: u32,
        json: *const u8,
        json_length: usize,
        bulk: *const u8,
        bulk_length: usize,
        out: *mut u8,
        out_length: usize,
        value: *mut u32,
    ) -> u32;
}

/// Some payloads of one form, one behind the other.
struct Payloads {
    form: Form,
    name: &'static str,
    bytes: Vec<u8>,
    headers: Vec<Header>,
    json: Vec<u8>,
}

fn header(form: Form, index: usize) -> Header {
    let query = form == Form::Query;
    Header {
        message_type: if query { [0x00, 0x10, 0x20, 0xff][index % 4] } else { (index % 3) as u8 },
        function: if query { [1, 2, 0xff_ffff][index % 3] } else { index as u32 * 262_139 },
        correlation: index as u32 * 2_654_435,
        json_size: JSON as u32,
    }
}

fn payloads((name, form): (&'static str, Form)) -> Payloads {
    let headers: Vec<Header> = (0..COUNT).map(|i| header(form, i)).collect();
    let json: Vec<u8> = (0..JSON).map(|i| (i * 7 + 13) as u8).collect();
    let mut bytes = vec![0; COUNT * SIZE];
    for (h, out) in headers.iter().zip(bytes.chunks_mut(SIZE)) {
        rpc::write(form, VERSION, h, &json, &[], out).expect("a payload that the reference accepts");
    }
    Payloads { form, name, bytes, headers, json }
}

#[inline(never)]
fn read_reference(form: Form, version: u8, payload: &[u8]) -> Result<Option<Header>, Refusal> {
    rpc::read_header(form, version, payload)
}

#[inline(never)]
fn write_reference(form: Form, version: u8, header: &Header, json: &[u8], bulk: &[u8], out: &mut [u8]) -> usize {
    rpc::write(form, version, header, json, bulk, out).unwrap_or(0)
}

/// The reference's reader with its header handed out as a C caller gets it: the same 16 bytes, status and value. So both sides do the same work.
#[inline(never)]
fn read_reference_fields(form: Form, version: u8, payload: &[u8], fields: &mut [u8; FIELDS], value: &mut u32) -> u32 {
    match rpc::read_header(form, version, payload) {
        Ok(Some(h)) => {
            fields[..4].copy_from_slice(&[1, h.message_type, HEADER as u8, 0]);
            fields[4..8].copy_from_slice(&h.function.to_be_bytes());
            fields[8..12].copy_from_slice(&h.correlation.to_be_bytes());
            fields[12..].copy_from_slice(&h.json_size.to_be_bytes());
            *value = HEADER as u32;
            DONE
        }
        Ok(None) => {
            fields.fill(0);
            *value = 0;
            DONE
        }
        Err(refusal) => refusal as u32,
    }
}

fn read_proved(form: u8, version: u8, payload: &[u8], fields: &mut [u8; FIELDS], value: &mut u32) -> u32 {
    // SAFETY: the pointers are valid for their lengths and do not overlap.
    unsafe { tilambok_read_rpc(form, version, payload.as_ptr(), payload.len(), fields.as_mut_ptr(), fields.len(), value) }
}

fn write_proved(form: u8, version: u8, h: &Header, json: &[u8], bulk: &[u8], out: &mut [u8], value: &mut u32) -> u32 {
    // SAFETY: the pointers are valid for their lengths and do not overlap.
    unsafe {
        tilambok_write_rpc(
            form,
            version,
            h.message_type,
            h.function,
            h.correlation,
            h.json_size,
            json.as_ptr(),
            json.len(),
            bulk.as_ptr(),
            bulk.len(),
            out.as_mut_ptr(),
            out.len(),
            value,
        )
    }
}

/// The least time of a call, in nanoseconds, of each of several ways to do the same work, timed in turn. A way goes once over all
/// payloads each time it is called, so that nothing but the calls is timed; all write to the same buffer.
fn least_times(ways: &mut [&mut dyn FnMut(&mut [u8])]) -> Vec<f64> {
    let mut out = vec![0u8; SIZE];
    let mut least = vec![f64::INFINITY; ways.len()];
    for _ in 0..ROUNDS {
        for (way, best) in ways.iter_mut().zip(least.iter_mut()) {
            let start = Instant::now();
            for _ in 0..TURNS {
                way(&mut out);
            }
            *best = best.min(start.elapsed().as_nanos() as f64 / (TURNS * COUNT) as f64);
        }
    }
    least
}

fn print(what: &str, name: &str, least: &[f64]) {
    println!(
        "{what} {name:>5}, JSON of {JSON} bytes: proved {:6.2} ns, reference {:6.2} ns, proved/reference {:.2}",
        least[0],
        least[1],
        least[0] / least[1]
    );
}

/// Form and version are hidden from the compiler, which sees the reference's function and not the archive's.
fn measure_reading(p: &Payloads) {
    let mut fields = [0u8; FIELDS];
    let mut reference_fields = [0u8; FIELDS];
    let (mut value, mut reference_value) = (0, 0);
    let least = least_times(&mut [
        &mut |_| {
            for bytes in p.bytes.chunks_exact(SIZE) {
                black_box(read_proved(black_box(p.form as u8), black_box(VERSION), black_box(bytes), &mut fields, &mut value));
                black_box(&fields);
            }
        },
        &mut |_| {
            for bytes in p.bytes.chunks_exact(SIZE) {
                let reading = read_reference(black_box(p.form), black_box(VERSION), black_box(bytes));
                black_box(&reading);
            }
        },
        &mut |_| {
            for bytes in p.bytes.chunks_exact(SIZE) {
                let (form, version) = (black_box(p.form), black_box(VERSION));
                black_box(read_reference_fields(form, version, black_box(bytes), &mut reference_fields, &mut reference_value));
                black_box(&reference_fields);
            }
        },
    ]);
    assert_eq!((fields, value), (reference_fields, reference_value), "both hand out the same");
    print("read ", p.name, &least[..2]);
    print("read, fields handed out ", p.name, &[least[0], least[2]]);
}

fn measure_writing(p: &Payloads) {
    // What both are lent is hidden from the compiler here and not at each call: two stores of an empty slice's halves that are then loaded as
    // one would be waited for on one side alone.
    let (json, bulk): (&[u8], &[u8]) = (black_box(&p.json), black_box(&[]));
    let mut value = 0;
    let least = least_times(&mut [
        &mut |out| {
            for header in &p.headers {
                black_box(write_proved(black_box(p.form as u8), black_box(VERSION), header, json, bulk, out, &mut value));
                black_box(&out);
            }
        },
        &mut |out| {
            for header in &p.headers {
                black_box(write_reference(black_box(p.form), black_box(VERSION), header, json, bulk, out));
                black_box(&out);
            }
        },
    ]);
    print("write", p.name, &least);
}

/// Both give the same bytes and numbers on this data, or nothing is measured.
fn check_same(p: &Payloads) {
    let mut out = vec![0u8; SIZE];
    let number = |bytes: &[u8]| bytes.iter().fold(0u32, |n, &b| n << 8 | u32::from(b));
    for (h, bytes) in p.headers.iter().zip(p.bytes.chunks(SIZE)) {
        let (mut fields, mut written, mut read) = ([0u8; FIELDS], 0, 0);
        assert_eq!(write_proved(p.form as u8, VERSION, h, &p.json, &[], &mut out, &mut written), DONE);
        assert_eq!(out, bytes);
        assert_eq!(read_proved(p.form as u8, VERSION, bytes, &mut fields, &mut read), DONE);
        assert_eq!([written, read], [HEADER as u32; 2]);
        assert_eq!(fields[1], h.message_type);
        assert_eq!([number(&fields[4..8]), number(&fields[8..12]), number(&fields[12..])], [h.function, h.correlation, h.json_size]);
        assert_eq!(read_reference(p.form, VERSION, bytes), Ok(Some(*h)));
    }
}

fn main() {
    let all: Vec<Payloads> = FORMS.map(payloads).into();
    all.iter().for_each(check_same);
    all.iter().for_each(measure_reading);
    all.iter().for_each(measure_writing);
}
