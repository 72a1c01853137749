//! The bench program: document 01's whole case, and what is judged before
//! the link.

use reference::bench;
use reference::generate::{write_script, Form};

fn output(input: &[u8]) -> String {
    let mut output = Vec::new();
    bench::run(input, &mut output).unwrap();
    String::from_utf8(output).unwrap()
}

#[test]
fn the_whole_case() {
    let expected = "1 W 40070201000000040000000100009873\n2 R 1\n";
    assert_eq!(output(b"1007010000000000\n6007000000000000\n"), expected);
    // The last line needs no newline.
    assert_eq!(output(b"1007010000000000\n6007000000000000"), expected);
}

#[test]
fn lines_are_counted_whatever_they_are() {
    assert_eq!(output(b""), "");
    // An empty line is a frame of no bytes: Short.
    assert_eq!(output(b"\n"), "1 X\n");
    assert_eq!(output(b"\n\n6007000000000000"), "1 X\n2 X\n3 R 1\n");
}

#[test]
fn what_is_judged_before_the_link() {
    for line in [
        &b"-"[..],
        b"#",
        b"0",
        b"100701000000000",
        b"1007010000000000 ",
        b" 1007010000000000",
        b"1007010000000000\r",
        b"100701000000000g",
        b"0x1007010000000000",
        b"10070100000000",
        b"400701010000000000000000aa",
        b"100701000000000000",
        b"\xff\xff",
        &[b'g'; 4_000],
    ] {
        let shown = String::from_utf8_lossy(line);
        assert_eq!(output(line), "1 X\n", "{shown}");
    }
}

#[test]
fn digits_are_read_in_either_case_and_written_in_lower() {
    let input = b"1007010000000000\n410700010000000200000001aBCd\n41070001000000020000000AffFF\n";
    let output = output(input);
    let lines: Vec<&str> = output.lines().collect();
    assert_eq!(lines[1..], ["2 D 07 abcd", "3 D 07 ffff"]);
}

#[test]
fn no_bytes_are_no_part() {
    let input = b"1007010000000000\n410f00010000000000000001\n4000ff010000000000000001\n";
    let output = output(input);
    let lines: Vec<&str> = output.lines().collect();
    assert_eq!(lines[1..], ["2 D 0f", "3 A"]);
}

#[test]
fn a_line_has_at_most_3000_digits() {
    let single = |size: usize| {
        let frame = format!("4107000100{size:06x}00000001{}", "5a".repeat(size));
        format!("1007010000000000\n{frame}\n6007000000000000\n")
    };
    let whole = output(single(1_488).as_bytes());
    let lines: Vec<&str> = whole.lines().collect();
    assert_eq!(lines[1], format!("2 D 07 {}", "5a".repeat(1_488)));
    let longer = output(single(1_489).as_bytes());
    assert!(longer.ends_with("\n2 X\n3 R 1\n"), "{longer}");
    let longest = output(single(131_072).as_bytes());
    assert!(longest.ends_with("\n2 X\n3 R 1\n"));
}

#[test]
fn a_refused_header_has_no_end() {
    // Bytes after it, or too few for its size: the reader refuses it anyway.
    assert_eq!(output(b"6007000000000000ffff"), "1 R 1\n");
    assert_eq!(output(b"50070a00ffffffff"), "1 R 4\n");
}

#[test]
fn bench_scripts_reach_every_answer() {
    let mut script = Vec::new();
    write_script(Form::Bench, 1, 10_000, &mut script).unwrap();
    let output = output(&script);
    assert_eq!(output.lines().count(), 10_000);
    let times = |front: &str| {
        let lines = output.lines().filter_map(|line| line.split_once(' '));
        lines
            .filter(|(_, answer)| *answer == front || answer.starts_with(&format!("{front} ")))
            .count()
    };
    for refusal in (1..=6).chain(12..=14).chain(16..=25) {
        let times = times(&format!("R {refusal}"));
        assert!(times >= 20, "{refusal}: {times}");
    }
    for front in ["A", "X", "W", "D 00", "D 07", "D 0a", "D 0b", "D 0f"] {
        assert!(times(front) >= 20, "{front}: {}", times(front));
    }
}
