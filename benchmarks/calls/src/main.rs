//! The link's calls and the bench program against the reference's, on the same data in the same run. Figures are ratios; a time
//! alone says little on a shared machine.
//!
//! The proved calls are made by the program `pace`, which is timed from outside: a run with no repetition is taken off. The
//! reference's are made in this process. The proved call checks the state rules each time; so does the reference where
//! `with rules` is said, by its own functions for them.

mod child;
mod script;

use reference::link::version::ProtocolVersion;
use reference::link::{rules, Answer, Link, Offer, Settings};
use script::{Load, Script};
use std::hint::black_box;
use std::io::Read;
use std::path::{Path, PathBuf};
use std::time::Instant;

/// The same work is timed so often, and the least time counts.
const ROUNDS: usize = 7;
/// Turns in one timing; a hundredth of them where a turn has long frames.
const CALLS: usize = 400_000;
const POOL: usize = 65_536;
const OUT: usize = 65_536;

const OFFER: Offer = Offer {
    guarantee: 0,
    cap: 256,
    hash: 39_027,
};

fn settings() -> Settings {
    Settings {
        version: ProtocolVersion {
            major: 5,
            minor: 4,
            patch: 1,
        },
        mtu: 131_084,
    }
}

/// The reference's link over a script: how many calls were accepted.
fn reference(script: &Script, times: usize, with_rules: bool) -> u64 {
    let mut link = Link::new(settings(), vec![0; POOL]).expect("settings in range");
    let mut out = vec![0u8; OUT];
    let mut accepted = 0;
    let mut call = |frame: &[u8]| {
        if with_rules {
            assert!(rules::hold(&link));
        }
        if let Answer::Accepted { .. } = link.call(&OFFER, black_box(frame), &mut out) {
            accepted += 1;
        }
        black_box(&out);
    };
    script.first.iter().for_each(|frame| call(frame));
    for _ in 0..times {
        script.again.iter().for_each(|frame| call(frame));
    }
    accepted
}

/// Seconds of a run.
fn timed<T>(work: impl FnOnce() -> T) -> f64 {
    let start = Instant::now();
    black_box(work());
    start.elapsed().as_secs_f64()
}

/// Seconds of `times` repetitions by the program, the reference and the reference with its rules.
fn seconds(pace: &Path, script: &Script, times: usize) -> [f64; 3] {
    let expected = reference(script, times, false);
    let run = |times: usize| {
        let input = script.bytes(times);
        timed(|| child::run(pace, &[], &input))
    };
    let (text, _) = child::run(pace, &[], &script.bytes(times));
    assert_eq!(text.trim().parse(), Ok(expected), "the two accept alike");
    let mut least = [f64::INFINITY; 4];
    for _ in 0..ROUNDS {
        let now = [
            run(times),
            run(0),
            timed(|| reference(script, times, false)),
            timed(|| reference(script, times, true)),
        ];
        for (best, now) in least.iter_mut().zip(now) {
            *best = best.min(now);
        }
    }
    [least[0] - least[1], least[2], least[3]]
}

/// Nanoseconds of one of `calls` calls that `longer` has more than `shorter`, in each of so many turns.
fn each(
    pace: &Path,
    longer: &Script,
    shorter: Option<&Script>,
    calls: usize,
    times: usize,
) -> [f64; 3] {
    let long = seconds(pace, longer, times);
    let short = shorter.map_or([0.0; 3], |script| seconds(pace, script, times));
    let mut result = [0.0; 3];
    for (way, value) in result.iter_mut().enumerate() {
        *value = (long[way] - short[way]) * 1e9 / (times * calls) as f64;
    }
    result
}

fn show(what: &str, [proved, plain, with_rules]: [f64; 3]) {
    println!(
        "call that {what}: proved {proved:8.1} ns, reference {plain:8.1} ns (with rules {with_rules:8.1} ns), proved/reference {:.2} (with rules {:.2})",
        proved / plain,
        proved / with_rules
    );
}

/// Small calls, on a link with one session and with eight, without and with a message open in each.
fn small_calls(pace: &Path) {
    for load in [(1, false), (1, true), (8, false), (8, true)]
        .map(|(sessions, open)| Load { sessions, open })
    {
        let on = format!(
            "{} open, {} message each",
            load.sessions,
            if load.open { "a" } else { "no" }
        );
        for (what, script) in [
            ("refuses", script::refusal(load)),
            ("replies", script::reply(load)),
            ("delivers a Single Frame of 64 bytes", script::single(load)),
        ] {
            show(
                &format!("{what} (sessions: {on})"),
                each(pace, &script, None, 1, CALLS),
            );
        }
    }
}

fn calls(pace: &Path) {
    small_calls(pace);
    let appended = script::APPENDED;
    let longer = script::dropped(appended);
    let shorter = script::dropped(0);
    let append = each(pace, &longer, Some(&shorter), appended, CALLS / 100);
    show("appends 1,488 bytes", append);
    let whole = script::message(true);
    let broken = script::message(false);
    let deliver = each(pace, &whole, Some(&broken), 1, CALLS / 100);
    show("delivers 65,536 bytes, less one that drops them", deliver);
}

/// A First Frame and the frame that drops its message, in the mean of both: blocks that it takes, and blocks held in front of them.
fn first_frames(pace: &Path) {
    for (blocks, held) in [(1, 0), (16, 0), (256, 0), (1, 128), (16, 128), (128, 128)] {
        let times = each(pace, &script::claimed(blocks, held), None, 2, CALLS / 4);
        show(
            &format!("claims blocks, or drops them ({blocks}, behind {held} held)"),
            times,
        );
    }
}

/// The cost of a call early and late in a run, of messages that come, are dropped and come again.
fn flat(pace: &Path) {
    let script = script::dropped(script::APPENDED);
    let length = script.again.len();
    let (few, many) = (1, 1_000_000 / length);
    let time = |times: usize| {
        let input = script.bytes(times);
        timed(|| child::run(pace, &[], &input))
    };
    let mut least = [f64::INFINITY; 3];
    for _ in 0..ROUNDS {
        for (best, times) in least.iter_mut().zip([few, few + many, few + 2 * many]) {
            *best = best.min(time(times));
        }
    }
    let each = |time: f64| time * 1e9 / (many * length) as f64;
    let (early, late) = (each(least[1] - least[0]), each(least[2] - least[1]));
    println!(
        "cost per call: the million after {} calls {early:.1} ns, the next million {late:.1} ns, late/early {:.3}",
        few * length,
        late / early
    );
}

/// Both programs on the same lines, and the bench's largest memory on a hundredth of them and on all.
fn bench(bench: &Path, reference: &Path, lines: &Path) {
    let few = lines.with_extension("few");
    let size = head(lines, &few);
    let mut least = [f64::INFINITY; 2];
    let mut memory = [child::run_file(bench, &[], &few), 0];
    for _ in 0..ROUNDS {
        least[0] = least[0].min(timed(|| memory[1] = child::run_file(bench, &[], lines)));
        least[1] = least[1].min(timed(|| child::run_file(reference, &["--bench"], lines)));
    }
    println!(
        "bench on {:.0} MB of lines: proved {:.2} s, reference {:.2} s, proved/reference {:.2}",
        size as f64 / 1e6,
        least[0],
        least[1],
        least[0] / least[1]
    );
    println!(
        "bench's memory: {} KB on a hundredth of the lines, {} KB on all",
        memory[0], memory[1]
    );
}

/// A hundredth of the lines to a file of their own; all lines' bytes. Nothing large is kept here, since a child's largest memory
/// is at first that of this process.
fn head(lines: &Path, few: &Path) -> u64 {
    let input = std::fs::File::open(lines).expect("the lines");
    let size = input.metadata().expect("a file").len();
    let mut part = std::fs::File::create(few).expect("a file beside the lines");
    std::io::copy(&mut input.take(size / 100), &mut part).expect("room for a hundredth");
    size
}

fn main() {
    let arguments: Vec<PathBuf> = std::env::args_os().skip(1).map(PathBuf::from).collect();
    let [pace, proved, reference, lines] = &arguments[..] else {
        eprintln!("usage: calls PACE BENCH REFERENCE LINES");
        std::process::exit(2);
    };
    calls(pace);
    first_frames(pace);
    flat(pace);
    bench(proved, reference, lines);
}
