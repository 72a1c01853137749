//! A program run to its end: what it wrote, and the most memory that it held.

use std::fs::File;
use std::io::{Read, Write};
use std::path::Path;
use std::process::{Child, Command, Stdio};

/// Linux's `struct rusage` as far as it is read: two times of two words each, then the largest resident size in KB.
#[repr(C)]
struct Usage {
    times: [i64; 4],
    largest: i64,
    rest: [i64; 13],
}

extern "C" {
    fn wait4(pid: i32, status: *mut i32, options: i32, usage: *mut Usage) -> i32;
}

/// Waits for the child; its largest resident size in KB.
fn largest(child: Child) -> i64 {
    let mut usage = Usage {
        times: [0; 4],
        largest: 0,
        rest: [0; 13],
    };
    let mut status = 0;
    // SAFETY: both pointers are valid, and nobody else waits for this child.
    let waited = unsafe { wait4(child.id() as i32, &mut status, 0, &mut usage) };
    assert_eq!(waited, child.id() as i32, "the child is waited for");
    assert_eq!(status, 0, "the program ended well");
    usage.largest
}

/// On bytes, which are written by another thread: what it wrote, and its largest size.
pub fn run(program: &Path, arguments: &[&str], input: &[u8]) -> (String, i64) {
    let mut child = Command::new(program)
        .args(arguments)
        .stdin(Stdio::piped())
        .stdout(Stdio::piped())
        .spawn()
        .expect("the program starts");
    let mut stdin = child.stdin.take().expect("a pipe");
    let mut stdout = child.stdout.take().expect("a pipe");
    let mut text = String::new();
    std::thread::scope(|scope| {
        scope.spawn(move || stdin.write_all(input).expect("the program reads"));
        stdout.read_to_string(&mut text).expect("text");
    });
    (text, largest(child))
}

/// On a file, with the output thrown away: its largest size.
pub fn run_file(program: &Path, arguments: &[&str], input: &Path) -> i64 {
    let child = Command::new(program)
        .args(arguments)
        .stdin(File::open(input).expect("the lines"))
        .stdout(Stdio::null())
        .spawn()
        .expect("the program starts");
    largest(child)
}
