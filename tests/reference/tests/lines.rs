//! DRIVER.md's lines, and the scripts made of them.

use std::collections::BTreeMap;

use reference::driver::{serve, Driver};
use reference::generate::{write_script, Form};

fn answers(script: &[u8]) -> Vec<u8> {
    let mut answers = Vec::new();
    serve(script, &mut answers).unwrap();
    answers
}

fn script(form: Form, seed: u64, lines: u64) -> Vec<u8> {
    let mut script = Vec::new();
    write_script(form, seed, lines, &mut script).unwrap();
    script
}

fn check(line: &str, answer: &str) {
    let given = answers(line.as_bytes());
    assert_eq!(
        String::from_utf8_lossy(&given),
        format!("{answer}\n"),
        "{line}"
    );
}

#[test]
fn reading_is_answered() {
    check("read 1007010000000000", "F 1 0 0 7 1 0 0 0 8 -");
    check("read 6007000000000000", "R 1");
    check(
        "read 40070201000000040000000100009873ff",
        "F 4 0 0 7 2 1 4 1 16 00009873",
    );
    check("read 59ff", "S 8");
    check("read -", "S 8");
    check(
        "read 590a0001000000020000000799ff",
        "F 5 1 1 10 0 1 2 7 14 99ff",
    );
}

#[test]
fn writing_is_answered() {
    // CHECK of ten bytes, worked out by the rule of DRIVER.md.
    let out = [0x11, 7, 0, 1, 0, 0, 0, 1, 0xaa, 0xee];
    let check_of = out
        .iter()
        .fold(7, |x: u64, &b: &u64| (x * 31 + b) % (1 << 32));
    let answer = format!("B 9 {check_of} 1107000100000001aa");
    check("write 1 0 1 7 0 1 1 7 10 aa", &answer);
    check("send 1 7 1 7 1 0 10 aa", &answer);
    check("write 1 0 1 7 0 1 1 7 8 aa", "R 11");
    check("write 1 0 1 7 0 1 2 7 10 aa", "R 6");
    check("write 255 0 1 7 0 1 1 7 10 aa", "R 1");
    check("send 1 7 1 7 1 1 10 aa", "R 26");
}

#[test]
fn payloads_are_answered() {
    let none = "T version=- hash=- mtu=- rejected=-";
    check("payload -", none);
    check("payload 0500000000", none);
    check("payload 00", "R 30");
    check("payload 0600000000", "R 30");
    check("payload 050000000f", "R 31");
    check("payload 0500000001", "R 32");
    check("payload 0a0000000a6d74750000", "R 34");
    check(
        "payload 200000000270726f746f636f6c56657273696f6e0006000000352e342e310000",
        "T version=352e342e31 hash=- mtu=- rejected=-",
    );
    // A version of no bytes is not an absent one.
    check(
        "payload 1b0000000270726f746f636f6c56657273696f6e00010000000000",
        "T version= hash=- mtu=- rejected=-",
    );
    check(
        "payload 390000001068617368496400ffffffff126d747500ffffffffffffffff\
         0270726f746f636f6c56657273696f6e0006000000352e0034000000",
        "T version=352e003400 hash=4294967295 mtu=18446744073709551615 rejected=-",
    );
    check(
        "payload 1a0000000472656a6563746564506172616d7300050000000000",
        "T version=- hash=- mtu=- rejected=1",
    );
}

#[test]
fn what_cannot_be_read_is_answered_with_a_question_mark() {
    for line in [
        "read",
        "read ",
        "read  00",
        "read 00 ",
        " read 00",
        "read 0",
        "read 0G",
        "read 00 00",
        "read AA",
        "read 00\r",
        "\r",
        " ",
        "reads 00",
        "READ 00",
        "read\t00",
        "payload",
        "payload 0",
        "payload 00 00",
        "payload - -",
        "new 5 4 1",
        "new 5 4 1 1500 0",
        "call 1 1 1 128 -",
        "write 1 2 1 7 0 1 1 7 10 aa",
        "write 256 0 1 7 0 1 1 7 10 aa",
        "write 1 0 1 7 0 1 1 4294967296 10 aa",
        "write 1 0 1 7 0 1 1 7 131085 aa",
        "write 1 0 1 7 0 1 1 7 +10 aa",
        "write 1 0 1 7 0 1 1 7 10",
        "send 1 7 1 7 1 4294967296 10 aa",
    ] {
        check(line, "?");
    }
}

#[test]
fn zeros_in_front_are_read() {
    check(
        "write 001 00 1 7 0 1 1 7 0000000000000000000000008 aa",
        "R 11",
    );
}

#[test]
fn empty_lines_and_comments_get_no_answer() {
    assert_eq!(answers(b"\n#\n# read 00\n\nread -\n\n#"), b"S 8\n");
    assert_eq!(answers(b"read -\nread -"), b"S 8\nS 8\n");
    assert_eq!(answers(b" #\n\xff\xfe\x00\n"), b"?\n?\n");
}

#[test]
fn lines_are_read_up_to_300000_bytes() {
    let line = |length| {
        let mut line = b"send 5 7 1 7 9 0 99 ".to_vec();
        line.resize(length, b'0');
        line.extend_from_slice(b"\nread -\n");
        line
    };
    assert_eq!(answers(&line(300_000)), b"R 18\nS 8\n");
    assert_eq!(answers(&line(300_002)), b"?\nS 8\n");
    assert_eq!(answers(&line(900_002)), b"?\nS 8\n");
}

#[test]
fn scripts_depend_on_the_seed_alone() {
    for form in [
        Form::All,
        Form::Frames,
        Form::Payloads,
        Form::Rpc,
        Form::Calls,
        Form::Bursts,
        Form::Bench,
    ] {
        let long = script(form, 7, 2_000);
        assert_eq!(long, script(form, 7, 2_000));
        assert_ne!(long, script(form, 8, 2_000));
        let short = script(form, 7, 500);
        assert_eq!(short, long[..short.len()]);
        let lines = long.split(|&byte| byte == b'\n').count() - 1;
        assert_eq!(lines, 2_000);
    }
}

/// Each command's answers in a script, by their kind and, if refused, number.
fn kinds(script: &[u8]) -> BTreeMap<(String, String), usize> {
    let mut driver = Driver::default();
    let mut kinds = BTreeMap::new();
    for line in script.split(|&byte| byte == b'\n') {
        let mut answer = Vec::new();
        driver.answer(line, &mut answer);
        let command = line.split(|&byte| byte == b' ').next().unwrap();
        let length = if answer.starts_with(b"R") { 4 } else { 1 };
        answer.truncate(length);
        let key = [command, &answer].map(|word| String::from_utf8_lossy(word).into_owned());
        let [command, answer] = key;
        *kinds.entry((command, answer)).or_default() += 1;
    }
    kinds
}

#[test]
fn scripts_reach_every_answer() {
    let script = script(Form::All, 1, 20_000);
    assert!(script.len() < 24_000_000, "{}", script.len());
    let kinds = kinds(&script);
    for (command, answers) in [
        ("read", "F,S,R 1,R 2,R 3,R 4,R 5,R 6,?"),
        ("write", "B,R 1,R 2,R 3,R 4,R 5,R 6,R 11,?"),
        ("send", "B,R 1,R 3,R 10,R 11,R 26,?"),
        ("payload", "T,R 30,R 31,R 32,R 33,R 34,?"),
        ("rpc", "P,R 1,R 40,R 41,R 42,R 43,R 44,?"),
        ("rpcwrite", "B,R 1,R 11,R 41,R 42,R 43,R 44,?"),
        ("call", "W,D,A,S,R 10,R 11,R 20,?"),
    ] {
        for answer in answers.split(',') {
            let times = kinds.get(&(command.into(), answer.into()));
            assert!(
                times.is_some_and(|&times| times > 50),
                "{command} {answer}: {times:?}"
            );
        }
    }
    // The sender's 18 takes 131,074 digits and more since A2, so that a script
    // can hold few. That `send` lines alone are often enough answered so is
    // tested beside them, in `src/generate/send_lines.rs`.
    let times = kinds.get(&("send".into(), "R 18".into()));
    assert!(times.is_some_and(|&times| times >= 5), "{times:?}");
}

#[test]
fn frame_scripts_are_readable() {
    let script = script(Form::Frames, 1, 5_000);
    for (command, answer) in kinds(&script).into_keys() {
        let last = command.is_empty() && answer.is_empty();
        assert!(last || command == "read" || command == "write", "{command}");
        assert_ne!(answer, "?");
    }
}

#[test]
fn payload_scripts_reach_every_answer_often() {
    let script = script(Form::Payloads, 1, 20_000);
    assert!(script.starts_with(b"payload "));
    let kinds = kinds(&script);
    // The last is the empty line behind the last newline.
    assert_eq!(kinds.len(), 7, "{kinds:?}");
    for answer in ["T", "R 30", "R 31", "R 32", "R 33", "R 34"] {
        let times = kinds[&("payload".into(), answer.into())];
        assert!(times > 400, "{answer}: {times}");
    }
}

/// Which tags there are in an answer `T ...`.
fn tags_there(answer: &str) -> Option<Vec<bool>> {
    let tags = answer.strip_prefix("T ")?.split(' ');
    Some(tags.map(|tag| !tag.ends_with("=-")).collect())
}

#[test]
fn payload_scripts_reach_every_set_of_tags() {
    let answers = answers(&script(Form::Payloads, 1, 20_000));
    let mut times = BTreeMap::new();
    for answer in String::from_utf8(answers).unwrap().lines() {
        if let Some(tags) = tags_there(answer) {
            *times.entry(tags).or_insert(0) += 1;
        }
    }
    assert_eq!(times.len(), 16);
    assert!(times.values().all(|&times| times > 80), "{times:?}");
}
