//! `new` and `call` lines, and the scripts made of them.

use reference::census;
use reference::driver::{serve, Driver};
use reference::generate::{write_script, Form};
use reference::link::rules;

fn answers(script: &str) -> Vec<String> {
    let mut answers = Vec::new();
    serve(script.as_bytes(), &mut answers).unwrap();
    let answers = String::from_utf8(answers).unwrap();
    answers.lines().map(String::from).collect()
}

fn script(form: Form, seed: u64, lines: u64) -> Vec<u8> {
    let mut script = Vec::new();
    write_script(form, seed, lines, &mut script).unwrap();
    script
}

fn check_of(bytes: impl Iterator<Item = u64>) -> u64 {
    bytes.fold(7, |x, byte| (x * 31 + byte) % (1 << 32))
}

/// The check of a new pool.
fn new_pool() -> u64 {
    check_of((0..65_536).map(|i| (i * 7 + 13) % 256))
}

#[test]
fn a_link_is_created_in_range() {
    for (line, answer) in [
        ("new 5 4 1 131084", "ok"),
        ("new 1 0 0 1500", "ok"),
        ("new 5 255 255 1500", "ok"),
        ("new 0 4 1 131084", "R 10"),
        ("new 6 4 1 131084", "R 10"),
        ("new 5 4 1 1499", "R 10"),
        ("new 5 4 1 131085", "R 10"),
        ("new 5 4 1 4294967295", "R 10"),
        ("new 256 4 1 131084", "?"),
        ("new 5 4 1 4294967296", "?"),
        ("new 5 4 1", "?"),
        ("new 5 4 1 131084 0", "?"),
        ("new", "?"),
    ] {
        assert_eq!(answers(line), [answer], "{line}");
    }
}

#[test]
fn calls_need_a_link() {
    let call = "call 32 64 39027 128 -";
    let script =
        format!("{call}\nnew 5 4 1 131084\n{call}\nnew 5 4\n{call}\nnew 0 4 1 131084\n{call}\n");
    let answers = answers(&script);
    let out = check_of((0..128).map(|_| 0xee));
    let short = format!("S 8 out={out} pool={} -", new_pool());
    assert_eq!(answers, ["?", "ok", &short, "?", &short, "R 10", "?"]);
}

#[test]
fn calls_are_read_as_a_whole() {
    for line in [
        "call",
        "call 32 64 39027 128",
        "call 32 64 39027 128 - -",
        "call 65536 65536 39027 128 -",
        "call 32 64 4294967296 128 -",
        "call 32 64 39027 131085 -",
        "call 2 1 39027 128 0",
        "call 2 1 39027 128 0G",
    ] {
        let answers = answers(&format!("new 5 4 1 131084\n{line}\n"));
        assert_eq!(answers, ["ok", "?"], "{line}");
    }
    let answers = answers("new 5 4 1 131084\ncall 65535 65535 39027 0 -\n");
    assert_eq!(answers[1], format!("R 10 out=7 pool={} -", new_pool()));
}

/// The check of an out buffer with these bytes at its front.
fn out_with(front: &[u64], length: usize) -> u64 {
    let rest = std::iter::repeat_n(0xee, length - front.len());
    check_of(front.iter().copied().chain(rest))
}

/// The check of a new pool with these bytes at its front.
fn pool_with(front: &[u64]) -> u64 {
    let rest = (front.len() as u64..65_536).map(|i| (i * 7 + 13) % 256);
    check_of(front.iter().copied().chain(rest))
}

const SESSION: &str = "new 4 0 0 1500\ncall 32 64 39027 128 1007010000000000\n";
const MESSAGE: &str = "call 32 64 39027 128 42070001000000080000000a0000000500000002\n";

#[test]
fn the_checks_are_of_out_and_pool_after_the_call() {
    let script = [
        SESSION,
        MESSAGE,
        "call 32 64 39027 130 430701010000000100000000aa\n",
        "call 32 64 39027 130 43070101000000010000000aaa\n",
        "call 32 64 39027 129 43070001000000040000000abbccddee00\n",
    ];
    let answers = answers(&script.concat());
    let reply = [0x40, 7, 2, 1, 0, 0, 0, 4, 0, 0, 0, 1, 0, 0, 0x98, 0x73];
    let message = [0xaa, 0xbb, 0xcc, 0xdd, 0xee];
    let open = "1,32,64,4,2,07=39027,1,07/10/5/2/2/5/0";
    let new = new_pool();
    let (out_128, out_130) = (out_with(&[], 128), out_with(&[], 130));
    let with_reply = out_with(&reply, 128);
    let with_message = out_with(&message, 129);
    let (pool_1, pool_5) = (pool_with(&message[..1]), pool_with(&message));
    let expected = [
        "ok".to_string(),
        format!("W 8 40070201000000040000000100009873 out={with_reply} pool={new} 1,32,64,0,2,07=39027,0,-"),
        // A First Frame "writes nothing".
        format!("A 20 out={out_128} pool={new} {open}"),
        format!("R 23 out={out_130} pool={new} {open}"),
        format!("A 13 out={out_130} pool={pool_1} {}", open.replace("/2/5/0", "/1/4/0")),
        // The last frame's bytes go to the pool as well as to out; the byte
        // behind the frame goes nowhere.
        format!("D 16 07 aabbccddee out={with_message} pool={pool_5} 1,32,64,4,2,07=39027,0,-"),
    ];
    assert_eq!(answers, expected);
}

#[test]
fn a_dropped_message_leaves_the_pool() {
    let script = [
        SESSION,
        MESSAGE,
        "call 32 64 39027 128 43070201000000010000000aaa\n",
    ];
    let answers = answers(&script.concat());
    assert!(answers[3].starts_with("R 24 "));
    assert!(answers[3].contains(&format!(" pool={} 1,32,64,4,2,07=39027,0,-", new_pool())));
}

#[test]
fn call_scripts_are_readable_and_the_rules_hold() {
    let script = script(Form::Calls, 3, 6_000);
    let mut driver = Driver::default();
    for line in script.split(|&byte| byte == b'\n') {
        assert!(line.len() < 300_000);
        let linked = driver.link().is_some();
        let mut answer = Vec::new();
        driver.answer(line, &mut answer);
        assert_eq!(answer == b"?", !linked && line.starts_with(b"call"));
        assert!(
            driver.link().is_none_or(rules::hold),
            "{}",
            String::from_utf8_lossy(line)
        );
    }
}

/// How often each kind of answer is given to 10,000 lines, at least.
const OFTEN: [(&str, usize); 28] = [
    ("call S", 100),
    ("call ?", 2),
    ("call A control", 20),
    ("call A first", 300),
    ("call A consecutive", 1_000),
    ("call D single no bytes", 20),
    ("call D single to", 200),
    ("call D consecutive", 100),
    ("call D consecutive 65536", 1),
    ("call W Opening ACK, version 1", 5),
    ("call W Opening ACK, version 2", 5),
    ("call W Opening ACK, version 3", 5),
    ("call W Opening ACK, version 4", 50),
    ("call W Opening ACK, version 5", 50),
    ("call W Opening NAK, version 4, empty", 30),
    ("call W Opening NAK, version 4, with document", 20),
    ("call W Start ACK, version 3", 10),
    ("call W Start ACK, version 4", 10),
    ("call W Start ACK, version 5", 30),
    ("call W Start NAK", 100),
    ("call W End ACK of 07", 50),
    ("call W End ACK, version", 20),
    ("call W End NAK, version 5, with document", 20),
    ("call W End NAK, version 5, empty", 5),
    ("call W End NAK", 100),
    ("call W Heartbeat ACK", 30),
    ("new ok", 20),
    ("new R 10", 2),
];

#[test]
fn call_scripts_reach_every_answer_often() {
    let script = script(Form::Calls, 1, 10_000);
    assert!(script.len() < 20_000_000, "{}", script.len());
    let census = census::take(&script[..]).unwrap();
    let times = |front: &str| -> usize {
        let kinds = census.iter().filter(|(kind, _)| kind.starts_with(front));
        kinds.map(|(_, times)| times).sum()
    };
    for refusal in (1..=6).chain(10..=25) {
        let times = times(&format!("call R {refusal:>2}"));
        assert!(times >= 30, "{refusal}: {times}");
    }
    for (kind, least) in OFTEN {
        assert!(times(kind) >= least, "{kind}: {}", times(kind));
    }
}
