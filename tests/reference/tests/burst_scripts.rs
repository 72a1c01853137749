//! Long bursts in scripts (document 02, A2): that they come to their end, and
//! what goes wrong at a wrap.

use std::collections::BTreeSet;
use std::sync::LazyLock;

use reference::bench::Bench;
use reference::burst;
use reference::census;
use reference::driver::Driver;
use reference::frame::{self, Frame, Header, Reading, CONSECUTIVE, FIRST};
use reference::generate::{write_script, Form};
use reference::link::Link;
use reference::text;

fn script(form: Form, seed: u64, lines: u64) -> Vec<u8> {
    let mut script = Vec::new();
    write_script(form, seed, lines, &mut script).unwrap();
    script
}

fn lines(script: &[u8]) -> impl Iterator<Item = &[u8]> {
    let script = script.strip_suffix(b"\n").unwrap_or(script);
    script.split(|&byte| byte == b'\n')
}

/// The bytes of a line's last word, which is all of a bench line.
fn input(line: &[u8]) -> Vec<u8> {
    let word = line.rsplit(|&byte| byte == b' ').next().unwrap();
    let mut bytes = Vec::new();
    text::parse_bytes(&word.to_ascii_lowercase(), &mut bytes);
    bytes
}

/// A First Frame, or the k-th consecutive one of an open message.
struct Step {
    header: Header,
    total: usize,
    count: usize,
    k: usize,
    /// `R` and its number, else the letter alone.
    answer: String,
}

impl Step {
    /// None if the line is no such frame.
    fn of(link: Option<&Link>, line: &[u8]) -> Option<Self> {
        let input = input(line);
        let Reading::Frame(frame) = frame::read(&input) else {
            return None;
        };
        let header = frame.header;
        let message = link?.session(header.session)?.message(header.service);
        let (total, count, k) = match (header.frame_type, message) {
            (FIRST, _) => (number(&frame, 0), number(&frame, 4), 0),
            (CONSECUTIVE, Some(open)) => (open.total, open.count, open.next_frame()),
            _ => return None,
        };
        Some(Step {
            header,
            total,
            count,
            k,
            answer: String::new(),
        })
    }

    fn answered(self, answer: &str) -> Self {
        let few = if answer.starts_with('R') { 2 } else { 1 };
        let words: Vec<&str> = answer.split(' ').take(few).collect();
        Step {
            answer: words.join(" "),
            ..self
        }
    }

    /// An accepted First Frame.
    fn begins(&self) -> bool {
        self.k == 0 && self.answer == "A"
    }

    fn delivers(&self) -> bool {
        self.answer == "D"
    }

    fn misnumbered(&self) -> bool {
        self.answer == "R 24"
    }

    /// The same message of the same session.
    fn same_burst(&self, other: &Step) -> bool {
        let name = |step: &Step| (step.header.session, step.header.service, step.header.id);
        name(self) == name(other) && (self.total, self.count) == (other.total, other.count)
    }
}

/// The number of 4 bytes at this place of a First Frame's payload.
fn number(first: &Frame, place: usize) -> usize {
    let bytes = first.payload[place..].first_chunk().unwrap();
    u32::from_be_bytes(*bytes) as usize
}

/// The steps of a script of `new` and `call` lines.
fn call_steps(script: &[u8]) -> Vec<Step> {
    let mut driver = Driver::default();
    let mut steps = Vec::new();
    for line in lines(script) {
        let step = Step::of(driver.link(), line);
        let mut answer = Vec::new();
        driver.answer(line, &mut answer);
        let answer = String::from_utf8(answer).unwrap();
        steps.extend(step.map(|step| step.answered(&answer)));
    }
    steps
}

/// The steps of a bench script; line numbers stand before its answers.
fn bench_steps(script: &[u8]) -> Vec<Step> {
    let mut bench = Bench::new();
    let mut steps = Vec::new();
    for line in lines(script) {
        let step = Step::of(Some(bench.link()), line);
        let mut answer = Vec::new();
        bench.answer(line, &mut answer);
        let answer = String::from_utf8(answer).unwrap();
        let (_, answer) = answer.split_once(' ').unwrap();
        steps.extend(step.map(|step| step.answered(answer)));
    }
    steps
}

/// What the scripts of calls and of the bench must hold, in 40,000 lines.
fn check_long_bursts(steps: &[Step]) {
    let times = |test: &dyn Fn(&Step) -> bool| steps.iter().filter(|step| test(step)).count();
    let ended = times(&|step| step.delivers() && step.count > 255);
    assert!(ended >= 8, "{ended}");
    let wrong = times(&|step| step.misnumbered() && burst::near_wrap(step.k));
    assert!(wrong >= 4, "{wrong}");
    for counts in [255..256, 256..257, 257..258, 400..401, 509..513, 764..768] {
        let begun = times(&|step| step.begins() && counts.contains(&step.count));
        assert!(begun >= 1, "{counts:?}");
    }
    let a_byte_each = times(&|step| step.begins() && step.count > 256 && step.count == step.total);
    assert!(a_byte_each >= 50, "{a_byte_each}");
    let endless = times(&|step| step.begins() && step.count > 4_000);
    assert!(endless >= 3, "{endless}");
    for bad in [(256, 257), (65_536, 65_537), (65_537, 65_537)] {
        let refused = times(&|step| (step.total, step.count) == bad && step.answer == "R 18");
        assert!(refused >= 1, "{bad:?}");
    }
}

#[test]
fn call_scripts_have_long_bursts() {
    let steps = call_steps(&script(Form::Calls, 1, 40_000));
    check_long_bursts(&steps);
    let whole_room = |step: &Step| step.begins() && step.count == 65_536;
    assert!(steps.iter().any(whole_room));
}

#[test]
fn bench_scripts_have_long_bursts() {
    check_long_bursts(&bench_steps(&script(Form::Bench, 1, 40_000)));
}

const SEED: u64 = 41;

static BURSTS: LazyLock<Vec<u8>> = LazyLock::new(|| script(Form::Bursts, SEED, 70_000));
static BURST_STEPS: LazyLock<Vec<Step>> = LazyLock::new(|| call_steps(&BURSTS));

const COUNTS: [usize; 10] = [255, 256, 257, 258, 400, 509, 510, 511, 512, 766];

#[test]
fn the_largest_burst_comes_first() {
    let delivered: Vec<&Step> = BURST_STEPS.iter().filter(|step| step.delivers()).collect();
    assert_eq!((delivered[0].total, delivered[0].count), (65_536, 65_536));
    assert!(delivered[0].same_burst(&BURST_STEPS[0]));
    let others = delivered[1..].iter().map(|step| step.count);
    let others: BTreeSet<usize> = others.collect();
    assert!(others.iter().all(|count| COUNTS.contains(count)));
    assert!(others.range(256..).count() >= 5, "{others:?}");
    // A shorter script holds only a part of it.
    let part = call_steps(&script(Form::Bursts, SEED, 20_000));
    assert!(part.iter().all(|step| step.same_burst(&part[0])));
    assert!(part.iter().all(|step| step.answer == "A"));
}

#[test]
fn bursts_are_of_all_versions_and_in_turn() {
    let begun = || BURST_STEPS.iter().filter(|step| step.begins());
    let versions: BTreeSet<u8> = begun().map(|step| step.header.version).collect();
    assert!(versions.into_iter().eq(1..=5));
    let services: BTreeSet<u8> = begun().map(|step| step.header.service.0).collect();
    assert!(services.len() >= 3, "{services:?}");
    let turns = BURST_STEPS
        .windows(2)
        .filter(|pair| pair[0].header.session != pair[1].header.session);
    assert!(turns.count() > 300);
}

#[test]
fn a_burst_with_a_wrong_number_is_sent_anew() {
    let mut wrong = 0;
    for (place, step) in BURST_STEPS.iter().enumerate() {
        if !step.misnumbered() {
            continue;
        }
        assert!(burst::near_wrap(step.k) || step.k == step.count);
        let session = step.header.session;
        let mut behind = BURST_STEPS[place + 1..].iter();
        let anew = behind.find(|step| step.header.session == session);
        assert!(anew.is_none_or(|anew| anew.begins() && anew.same_burst(step)));
        wrong += usize::from(burst::near_wrap(step.k));
    }
    assert!(wrong >= 2, "{wrong}");
}

#[test]
fn out_is_small_but_for_deliveries() {
    let mut large = 0;
    for line in lines(&BURSTS) {
        let words: Vec<&[u8]> = line.split(|&byte| byte == b' ').collect();
        assert!(words[0] == b"call" || words[0] == b"new");
        large += usize::from(words[0] == b"call" && words[4] != b"128");
    }
    let delivered = BURST_STEPS.iter().filter(|step| step.delivers());
    assert_eq!(large, delivered.count());
}

#[test]
fn nothing_else_goes_wrong_in_a_burst() {
    let census = census::take(&BURSTS[..]).unwrap();
    assert_eq!(census.values().sum::<usize>(), 70_000);
    assert_eq!(census["call D consecutive 65536, above 255 frames"], 1);
    assert!(census["call R 24 at a wrap"] >= 2);
    let expected = [
        "new ok",
        "call A first",
        "call A consecutive",
        "call D consecutive",
        "call D single",
        "call R 11",
        "call R 24",
        "call W Opening ACK",
        "call W Start ACK",
    ];
    for kind in census.keys() {
        let known = expected.iter().any(|front| kind.starts_with(front));
        assert!(known, "{kind}");
    }
}

/// The counts of a script's First Frames, in their order.
fn counts_begun(script: &[u8]) -> Vec<usize> {
    let counts = lines(script).filter_map(|line| match frame::read(&input(line)) {
        Reading::Frame(frame) if frame.header.frame_type == FIRST => Some(number(&frame, 4)),
        _ => None,
    });
    counts.collect()
}

#[test]
fn the_seed_orders_the_bursts() {
    let orders: BTreeSet<Vec<usize>> = (1..=4)
        .map(|seed| counts_begun(&script(Form::Bursts, seed, 90_000)))
        .collect();
    assert_eq!(orders.len(), 4);
    for order in orders {
        assert_eq!(order.iter().filter(|&&count| count == 65_536).count(), 1);
        let counts = BTreeSet::from_iter(order);
        assert!(COUNTS.iter().all(|count| counts.contains(count)));
    }
}
