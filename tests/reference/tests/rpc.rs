//! Document 02's request A1: RPC payloads, their driver lines and the scripts of them.

use std::collections::{BTreeMap, BTreeSet};

use reference::census;
use reference::driver::Driver;
use reference::generate::{write_script, Form as ScriptForm};
use reference::refusal::Refusal;
use reference::rpc::{self, Form, Header, Payload};

const FORMS: [Form; 3] = [Form::Rpc, Form::Bulk, Form::Query];

/// A payload of the header's 12 bytes and what is behind them.
fn payload(header: [u8; 12], behind: &[u8]) -> Vec<u8> {
    [&header[..], behind].concat()
}

/// A payload of a good header (type 0, id 1) with this JSON size.
fn sized(size: u32, behind: &[u8]) -> Vec<u8> {
    let [a, b, c, d] = size.to_be_bytes();
    payload([0, 0, 0, 1, 0, 0, 0, 9, a, b, c, d], behind)
}

fn read(form: Form, version: u8, payload: &[u8]) -> Result<Payload<'_>, u8> {
    rpc::read(form, version, payload).map_err(Refusal::number)
}

/// The reader's refusal, or 0.
fn refused(form: Form, version: u8, payload: &[u8]) -> u8 {
    read(form, version, payload).err().unwrap_or(0)
}

fn header(message_type: u8, function: u32, correlation: u32, json_size: u32) -> Header {
    Header {
        message_type,
        function,
        correlation,
        json_size,
    }
}

/// What the writer writes into a buffer of exactly that length.
fn written(form: Form, version: u8, header: &Header, json: &[u8], bulk: &[u8]) -> Vec<u8> {
    let mut out = vec![0xee; 1_000];
    let length = rpc::write(form, version, header, json, bulk, &mut out).unwrap();
    assert!(out[length..].iter().all(|&byte| byte == 0xee));
    out.truncate(length);
    out
}

/// The writer's refusal into `room` bytes, or 0; refused, nothing is written.
fn unwritten(form: Form, version: u8, header: &Header, parts: [&[u8]; 2], room: usize) -> u8 {
    let mut out = vec![0xee; room];
    match rpc::write(form, version, header, parts[0], parts[1], &mut out) {
        Ok(_) => 0,
        Err(refusal) => {
            assert!(out.iter().all(|&byte| byte == 0xee));
            refusal.number()
        }
    }
}

/// Both directions: these bytes are read as these parts, and these parts written as these bytes.
fn both_ways(form: Form, bytes: &[u8], header: Header, json: &[u8], bulk: &[u8]) {
    for version in 2..=5 {
        let parts = Payload {
            header: Some(header),
            json,
            bulk,
        };
        assert_eq!(read(form, version, bytes), Ok(parts));
        assert_eq!(written(form, version, &header, json, bulk), bytes);
    }
}

#[test]
fn an_rpc_request() {
    let json = br#"{"appName":"a"}"#;
    let bytes = payload([0, 0, 0, 1, 0, 0, 0, 1, 0, 0, 0, 15], json);
    both_ways(Form::Rpc, &bytes, header(0, 1, 1, 15), json, b"");
    // A notification of the largest function id, without JSON.
    let bytes = payload([0x2f, 0xff, 0xff, 0xff, 0, 0, 0, 0, 0, 0, 0, 0], b"");
    both_ways(Form::Rpc, &bytes, header(2, 0x0fff_ffff, 0, 0), b"", b"");
}

#[test]
fn a_response_with_correlation_id() {
    let json = br#"{"success":true}"#;
    let bytes = payload([0x10, 0, 0x80, 5, 0x81, 2, 3, 4, 0, 0, 0, 16], json);
    let header = header(1, 0x8005, 0x8102_0304, 16);
    both_ways(Form::Rpc, &bytes, header, json, b"");
}

#[test]
fn a_bulk_message_is_json_then_data() {
    let bytes = payload([0, 0, 0, 32, 0, 0, 0, 7, 0, 0, 0, 2], b"{}\xff\x00\xee");
    both_ways(
        Form::Bulk,
        &bytes,
        header(0, 32, 7, 2),
        b"{}",
        b"\xff\x00\xee",
    );
    // No data, no JSON, neither.
    both_ways(Form::Bulk, &sized(2, b"{}"), header(0, 1, 9, 2), b"{}", b"");
    both_ways(Form::Bulk, &sized(0, b"{}"), header(0, 1, 9, 0), b"", b"{}");
    both_ways(Form::Bulk, &sized(0, b""), header(0, 1, 9, 0), b"", b"");
}

#[test]
fn a_query_handshake() {
    let request = payload([0, 0, 0, 1, 0, 0, 1, 2, 0, 0, 0, 0], b"\x16\x03\x01");
    both_ways(
        Form::Query,
        &request,
        header(0, 1, 258, 0),
        b"",
        b"\x16\x03\x01",
    );
    let response = payload([0x10, 0, 0, 1, 0, 0, 1, 2, 0, 0, 0, 0], b"\x16");
    both_ways(
        Form::Query,
        &response,
        header(0x10, 1, 258, 0),
        b"",
        b"\x16",
    );
    // An internal error has JSON and one byte of data.
    let error = payload(
        [0x20, 0, 0, 2, 0xff, 0xff, 0xff, 0xff, 0, 0, 0, 2],
        b"{}\x99",
    );
    both_ways(
        Form::Query,
        &error,
        header(0x20, 2, u32::MAX, 2),
        b"{}",
        b"\x99",
    );
    let invalid = payload([0xff, 0xff, 0xff, 0xff, 0, 0, 0, 0, 0, 0, 0, 0], b"");
    both_ways(
        Form::Query,
        &invalid,
        header(0xff, 0xff_ffff, 0, 0),
        b"",
        b"",
    );
}

#[test]
fn one_payload_for_each_refusal() {
    assert_eq!(refused(Form::Rpc, 6, &sized(2, b"{}")), 1);
    assert_eq!(refused(Form::Rpc, 5, &sized(0, b"")[..11]), 40);
    // The erroneous response of document 000 is none of 0 to 2.
    let erroneous = payload([0x30, 0, 0, 1, 0, 0, 0, 0, 0, 0, 0, 0], b"");
    assert_eq!(refused(Form::Rpc, 5, &erroneous), 41);
    let reserved = payload([0, 0, 0, 3, 0, 0, 0, 0, 0, 0, 0, 0], b"");
    assert_eq!(refused(Form::Query, 5, &reserved), 42);
    assert_eq!(refused(Form::Rpc, 5, &sized(3, b"{}")), 43);
    assert_eq!(refused(Form::Rpc, 5, &sized(1, b"{}")), 44);
}

#[test]
fn the_reader_judges_in_order() {
    // Too short, of a bad type and id, with a size past the end: each fault mended, the next is seen.
    let mut bytes = vec![0x31, 0, 0, 3, 0, 0, 0, 0, 0, 0, 0];
    assert_eq!(refused(Form::Query, 0, &bytes), 1);
    assert_eq!(refused(Form::Query, 1, &bytes), 40);
    bytes.push(2);
    assert_eq!(refused(Form::Query, 1, &bytes), 41);
    bytes[0] = 0x10;
    assert_eq!(refused(Form::Query, 1, &bytes), 42);
    bytes[3] = 2;
    assert_eq!(refused(Form::Query, 1, &bytes), 43);
    bytes.extend(b"{}");
    assert_eq!(refused(Form::Query, 1, &bytes), 0);
    // Data is refused on RPC alone, and a query's 42 is no RPC's.
    bytes.push(0);
    bytes[3] = 3;
    assert_eq!(refused(Form::Query, 2, &bytes), 42);
    assert_eq!(refused(Form::Bulk, 2, &bytes), 0);
    assert_eq!(refused(Form::Rpc, 2, &bytes), 44);
}

#[test]
fn the_writer_judges_in_order() {
    let mut head = header(3, 0x1000_0000, 0, 3);
    let parts: [&[u8]; 2] = [b"{}", b"b"];
    assert_eq!(unwritten(Form::Rpc, 0, &head, parts, 0), 1);
    assert_eq!(unwritten(Form::Rpc, 2, &head, parts, 0), 41);
    head.message_type = 2;
    assert_eq!(unwritten(Form::Rpc, 2, &head, parts, 0), 42);
    head.function = 0x0fff_ffff;
    assert_eq!(unwritten(Form::Rpc, 2, &head, parts, 0), 43);
    head.json_size = 2;
    assert_eq!(unwritten(Form::Rpc, 2, &head, parts, 0), 44);
    assert_eq!(unwritten(Form::Bulk, 2, &head, parts, 14), 11);
    assert_eq!(unwritten(Form::Bulk, 2, &head, parts, 15), 0);
    assert_eq!(unwritten(Form::Rpc, 2, &head, [b"{}", b""], 13), 11);
    assert_eq!(unwritten(Form::Rpc, 2, &head, [b"{}", b""], 14), 0);
}

#[test]
fn the_writer_refuses_any_other_size() {
    for form in FORMS {
        for (size, expected) in [
            (1, 43),
            (2, 0),
            (3, 43),
            (0, 43),
            (u32::MAX, 43),
            (0x0200_0000, 43),
        ] {
            let head = header(0, 1, 0, size);
            assert_eq!(
                unwritten(form, 5, &head, [b"{}", b""], 20),
                expected,
                "{form:?} {size}"
            );
        }
    }
}

#[test]
fn one_is_judged_first_in_every_form() {
    for form in FORMS {
        for version in 0..=255 {
            let good = (1..=5).contains(&version);
            let empty = match (good, form, version) {
                (false, ..) => 1,
                (true, Form::Rpc, 1) => 0,
                _ => 40,
            };
            assert_eq!(refused(form, version, b""), empty, "{form:?} {version}");
            let head = header(0, 1, 0, 0);
            let expected = if good { 0 } else { 1 };
            assert_eq!(unwritten(form, version, &head, [b"", b""], 12), expected);
        }
    }
}

#[test]
fn types_are_listed() {
    for form in [Form::Rpc, Form::Bulk] {
        for message_type in 0..=255 {
            let expected = if message_type <= 2 { 0 } else { 41 };
            let head = header(message_type, 0, 0, 0);
            assert_eq!(unwritten(form, 5, &head, [b"", b""], 12), expected);
            if message_type < 16 {
                let bytes = payload([message_type << 4, 0, 0, 0, 0, 0, 0, 0, 0, 0, 0, 0], b"");
                assert_eq!(refused(form, 5, &bytes), expected);
            }
        }
    }
    for message_type in 0..=255 {
        let listed = [0x00, 0x10, 0x20, 0xff].contains(&message_type);
        let expected = if listed { 0 } else { 41 };
        let bytes = payload([message_type, 0, 0, 1, 0, 0, 0, 0, 0, 0, 0, 0], b"");
        assert_eq!(refused(Form::Query, 5, &bytes), expected);
        let head = header(message_type, 1, 0, 0);
        assert_eq!(unwritten(Form::Query, 5, &head, [b"", b""], 12), expected);
    }
}

#[test]
fn ids_are_listed() {
    for id in [0u32, 1, 2, 3, 4, 0x100, 0x1_0000, 0xff_fffe, 0xff_ffff] {
        let listed = [1, 2, 0xff_ffff].contains(&id);
        let expected = if listed { 0 } else { 42 };
        let [_, a, b, c] = id.to_be_bytes();
        let bytes = payload([0x20, a, b, c, 0, 0, 0, 0, 0, 0, 0, 0], b"");
        assert_eq!(refused(Form::Query, 5, &bytes), expected, "{id}");
        let head = header(0x20, id, 0, 0);
        assert_eq!(
            unwritten(Form::Query, 5, &head, [b"", b""], 12),
            expected,
            "{id}"
        );
    }
    for (id, query, function) in [
        (0x0100_0000, 42, 0),
        (0x0100_0001, 42, 0),
        (0x0fff_ffff, 42, 0),
        (0x1000_0000, 42, 42),
        (0x1000_0001, 42, 42),
        (u32::MAX, 42, 42),
    ] {
        let head = header(0, id, 0, 0);
        assert_eq!(
            unwritten(Form::Query, 5, &head, [b"", b""], 12),
            query,
            "{id}"
        );
        for form in [Form::Rpc, Form::Bulk] {
            assert_eq!(unwritten(form, 5, &head, [b"", b""], 12), function, "{id}");
        }
    }
}

#[test]
fn a_json_size_does_not_wrap() {
    for form in FORMS {
        for size in [
            3,
            0x0200_0000,
            0x8000_0002,
            u32::MAX - 11,
            u32::MAX - 9,
            u32::MAX,
        ] {
            assert_eq!(refused(form, 5, &sized(size, b"{}")), 43, "{form:?} {size}");
        }
        assert_eq!(refused(form, 5, &sized(2, b"{}")), 0);
        let less = if form == Form::Rpc { 44 } else { 0 };
        assert_eq!(refused(form, 5, &sized(1, b"{}")), less);
        assert_eq!(refused(form, 5, &sized(0, b"{}")), less);
    }
}

#[test]
fn version_1_has_no_header_on_rpc_alone() {
    for bytes in [&b""[..], b"{}", &[0xff; 11], &[0xff; 12], &sized(7, b"{}")] {
        let all_json = Payload {
            header: None,
            json: bytes,
            bulk: b"",
        };
        assert_eq!(read(Form::Rpc, 1, bytes), Ok(all_json));
        // Whatever the header's fields are, they are ignored.
        let ignored = header(255, u32::MAX, 7, 77);
        assert_eq!(written(Form::Rpc, 1, &ignored, bytes, b""), bytes);
        assert_eq!(unwritten(Form::Rpc, 1, &ignored, [bytes, b"b"], 0), 44);
        if !bytes.is_empty() {
            assert_eq!(
                unwritten(Form::Rpc, 1, &ignored, [bytes, b""], bytes.len() - 1),
                11
            );
        }
    }
    for form in [Form::Bulk, Form::Query] {
        assert_eq!(refused(form, 1, b"{}"), 40);
        let head = header(0, 1, 9, 2);
        assert_eq!(written(form, 1, &head, b"{}", b"b"), sized(2, b"{}b"));
        assert_eq!(read(form, 1, &sized(2, b"{}b")).unwrap().header, Some(head));
    }
}

#[test]
fn read_header_judges_the_whole_payload() {
    let bytes = sized(2, b"{}");
    assert_eq!(
        rpc::read_header(Form::Rpc, 5, &bytes),
        Ok(Some(header(0, 1, 9, 2)))
    );
    assert_eq!(rpc::read_header(Form::Rpc, 1, &bytes), Ok(None));
    assert_eq!(
        rpc::read_header(Form::Rpc, 5, &bytes[..13]),
        Err(Refusal::JsonSize)
    );
}

// ---- lines

fn answer(line: &str) -> String {
    let mut reply = Vec::new();
    assert!(Driver::default().answer(line.as_bytes(), &mut reply));
    String::from_utf8(reply).unwrap()
}

#[test]
fn reading_is_answered() {
    for (line, expected) in [
        ("rpc rpc 5 100080058102030400000002 ", "?"),
        (
            "rpc rpc 5 1000800581020304000000027b7d",
            "P 1 32773 2164392708 2 7b7d -",
        ),
        ("rpc rpc 2 000000010000000100000000", "P 0 1 1 0 - -"),
        (
            "rpc bulk 5 0000002000000007000000027b7dff",
            "P 0 32 7 2 7b7d ff",
        ),
        ("rpc bulk 5 000000200000000700000000ff", "P 0 32 7 0 - ff"),
        (
            "rpc query 3 ffffffffffffffff00000000",
            "P 255 16777215 4294967295 0 - -",
        ),
        ("rpc rpc 1 7b7d", "P - - - - 7b7d -"),
        ("rpc rpc 1 -", "P - - - - - -"),
        ("rpc rpc 0 -", "R 1"),
        ("rpc rpc 2 -", "R 40"),
        ("rpc bulk 1 -", "R 40"),
        ("rpc query 1 -", "R 40"),
    ] {
        assert_eq!(answer(line), expected, "{line}");
    }
}

#[test]
fn writing_is_answered() {
    let hex = "1000800581020304000000027b7d";
    // CHECK of the 14 bytes and one more, by the rule of DRIVER.md.
    let out = [16, 0, 128, 5, 129, 2, 3, 4, 0, 0, 0, 2, 0x7b, 0x7d, 0xee];
    let check = out
        .iter()
        .fold(7, |x: u64, &b: &u64| (x * 31 + b) % (1 << 32));
    assert_eq!(
        answer("rpcwrite rpc 5 1 32773 2164392708 2 15 7b7d -"),
        format!("B 14 {check} {hex}")
    );
    // The empty buffer's CHECK is 7.
    assert_eq!(
        answer("rpcwrite rpc 1 255 4294967295 4294967295 4294967295 0 - -"),
        "B 0 7 -"
    );
    for (line, expected) in [
        ("rpcwrite rpc 6 3 268435456 0 9 0 7b7d ff", "R 1"),
        ("rpcwrite rpc 5 3 268435456 0 9 0 7b7d ff", "R 41"),
        ("rpcwrite rpc 5 2 268435456 0 9 0 7b7d ff", "R 42"),
        ("rpcwrite rpc 5 2 268435455 0 9 0 7b7d ff", "R 43"),
        ("rpcwrite rpc 5 2 268435455 0 2 0 7b7d ff", "R 44"),
        ("rpcwrite rpc 5 2 268435455 0 2 0 7b7d -", "R 11"),
        ("rpcwrite rpc 1 2 268435455 0 9 0 7b7d ff", "R 44"),
        ("rpcwrite rpc 1 2 268435455 0 9 1 7b7d -", "R 11"),
        ("rpcwrite query 5 16 16777216 0 0 12 - -", "R 42"),
    ] {
        assert_eq!(answer(line), expected, "{line}");
    }
}

#[test]
fn what_cannot_be_read_is_answered_with_a_question_mark() {
    for line in [
        "rpc",
        "rpc rpc",
        "rpc rpc 5",
        "rpc rpc 5 ",
        "rpc rpc 5 0",
        "rpc rpc 5 - -",
        "rpc rpc 256 -",
        "rpc rpc -1 -",
        "rpc RPC 5 -",
        "rpc hybrid 5 -",
        "rpc 5 -",
        "rpc  rpc 5 -",
        "rpc rpc 0 AA",
        "rpcwrite rpc 5 0 0 0 0 12 -",
        "rpcwrite rpc 5 0 0 0 0 12 - - -",
        "rpcwrite rpc 5 256 0 0 0 12 - -",
        "rpcwrite rpc 5 0 4294967296 0 0 12 - -",
        "rpcwrite rpc 5 0 0 4294967296 0 12 - -",
        "rpcwrite rpc 5 0 0 0 4294967296 12 - -",
        "rpcwrite rpc 5 0 0 0 0 131085 - -",
        "rpcwrite rpc 5 0 0 0 0 12 0 -",
        "rpcwrite rpc 0 0 0 0 0 12 - 0",
        "rpcwrite rpc 1 - - - - 12 - -",
        "rpcread rpc 5 -",
    ] {
        assert_eq!(answer(line), "?", "{line}");
    }
    assert_eq!(answer("rpc rpc 0005 -"), "R 40");
}

// ---- scripts

fn script(lines: u64) -> Vec<u8> {
    let mut script = Vec::new();
    write_script(ScriptForm::Rpc, 1, lines, &mut script).unwrap();
    script
}

#[test]
fn scripts_reach_every_answer_in_every_form() {
    let script = script(50_000);
    assert!(script.len() < 30_000_000, "{}", script.len());
    let census = census::take(&script[..]).unwrap();
    let mut expected = vec![
        "rpc ?".to_string(),
        "rpcwrite ?".into(),
        "rpc rpc P without header".into(),
    ];
    for form in ["rpc", "bulk", "query"] {
        let mut kinds = vec!["rpc P", "rpc R  1", "rpc R 40", "rpc R 41", "rpc R 43"];
        kinds.extend([
            "rpcwrite B",
            "rpcwrite R  1",
            "rpcwrite R 41",
            "rpcwrite R 42",
        ]);
        kinds.extend(["rpcwrite R 43", "rpcwrite R 11"]);
        match form {
            "rpc" => kinds.extend(["rpc R 44", "rpcwrite R 44"]),
            "query" => kinds.push("rpc R 42"),
            _ => (),
        }
        expected.extend(kinds.iter().map(|kind| {
            let (command, answer) = kind.split_once(' ').unwrap();
            format!("{command} {form} {answer}")
        }));
    }
    for kind in &expected {
        let times = census.get(kind).copied().unwrap_or(0);
        assert!(times > 100, "{kind}: {times}");
    }
    // Beside these there are only lines that cannot be read.
    for kind in census.keys() {
        assert!(expected.contains(kind) || kind.ends_with(" ?"), "{kind}");
    }
}

/// Which values stand in each word of the readable lines of a command and form.
fn values_of(script: &[u8], command: &str, form: &str) -> BTreeMap<usize, BTreeSet<String>> {
    let mut values = BTreeMap::<usize, BTreeSet<String>>::new();
    for line in String::from_utf8_lossy(script).lines() {
        let words: Vec<&str> = line.split(' ').collect();
        if words[0] == command && words.get(1) == Some(&form) && answer(line) != "?" {
            for (place, word) in words.iter().enumerate() {
                values.entry(place).or_default().insert(word.to_string());
            }
        }
    }
    values
}

#[test]
fn scripts_hold_every_limit() {
    let script = script(20_000);
    let has = |values: &BTreeSet<String>, wanted: &[u32]| {
        for number in wanted {
            assert!(values.contains(&number.to_string()), "{number}");
        }
    };
    for form in ["rpc", "bulk", "query"] {
        let read = values_of(&script, "rpc", form);
        has(&read[&2], &[0, 1, 2, 3, 4, 5, 6, 255]);
        for digits in [22, 24, 26] {
            assert!(
                read[&3].iter().any(|hex| hex.len() == digits),
                "{form} {digits}"
            );
        }
        assert!(read[&3].contains("-"));
        let write = values_of(&script, "rpcwrite", form);
        has(&write[&2], &[0, 1, 2, 3, 4, 5, 6, 255]);
        if form == "query" {
            has(
                &write[&3],
                &[0, 1, 0x0f, 0x10, 0x11, 0x1f, 0x20, 0x21, 0xfe, 0xff],
            );
            has(&write[&4], &[0, 1, 2, 3, 0xff_fffe, 0xff_ffff, 0x100_0000]);
        } else {
            has(&write[&3], &[0, 1, 2, 3, 15]);
            has(&write[&4], &[0, 0x0fff_ffff, 0x1000_0000]);
        }
        has(&write[&6], &[0, u32::MAX]);
        has(&write[&7], &[0, 131_084]);
        assert!(write[&9].contains("-") && write[&9].len() > 1);
    }
}
