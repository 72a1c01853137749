//! Asks the link through the driver's lines; for the tests beside it.

// Each of them uses some of this.
#![allow(dead_code)]

use reference::driver::Driver;
use reference::link::rules;

/// A link behind the driver, and what the last call left.
pub struct Talk {
    pub driver: Driver,
    /// `G C HASH` of each call.
    pub offer: String,
    pub out: usize,
}

/// An answer without its checks, and the state behind it.
#[derive(Debug, PartialEq)]
pub struct Told {
    pub answer: String,
    pub state: String,
}

impl Talk {
    pub fn new(settings: &str) -> Self {
        let mut driver = Driver::default();
        let mut answer = Vec::new();
        driver.answer(format!("new {settings}").as_bytes(), &mut answer);
        assert_eq!(answer, b"ok");
        Talk {
            driver,
            offer: "32 64 39027".into(),
            out: 65_536,
        }
    }

    pub fn call(&mut self, hex: &str) -> Told {
        let hex: String = hex.split(' ').collect();
        let line = format!("call {} {} {hex}", self.offer, self.out);
        let mut answer = Vec::new();
        self.driver.answer(line.as_bytes(), &mut answer);
        let answer = String::from_utf8(answer).unwrap();
        assert!(rules::hold(self.driver.link().unwrap()), "{line}");
        let (front, behind) = answer.split_once(" out=").expect(&line);
        let state = behind.rsplit(' ').next().unwrap();
        Told {
            answer: front.into(),
            state: state.into(),
        }
    }

    pub fn says(&mut self, hex: &str, answer: &str) {
        assert_eq!(self.call(hex).answer, answer, "{hex}");
    }

    /// The call is answered so and leaves the state as it was.
    pub fn refuses(&mut self, hex: &str, number: u8) {
        let before = self.state();
        let told = self.call(hex);
        assert_eq!(told.answer, format!("R {number}"), "{hex}");
        assert_eq!(told.state, before, "{hex}");
    }

    /// The state, told by a call that is Short.
    pub fn state(&mut self) -> String {
        let told = self.call("-");
        assert_eq!(told.answer, if self.good_offer() { "S 8" } else { "R 10" });
        told.state
    }

    pub fn good_offer(&self) -> bool {
        let words: Vec<u32> = self
            .offer
            .split(' ')
            .map(|word| word.parse().unwrap())
            .collect();
        words[0] <= words[1] && words[1] <= 256
    }

    /// A version 5 session with the id 1.
    pub fn with_version_5(settings: &str) -> Self {
        let mut talk = Talk::new(settings);
        let told = talk.call(&opening("5.4.1"));
        assert!(told.answer.starts_with("W 40 5007020100000039"), "{told:?}");
        talk
    }
}

pub fn hex(bytes: &[u8]) -> String {
    bytes.iter().map(|byte| format!("{byte:02x}")).collect()
}

/// The opening with this protocolVersion.
pub fn opening(version: &str) -> String {
    let text = hex(version.as_bytes());
    let payload = 27 + version.len();
    format!(
        "10070100 {payload:08x} {payload:02x}000000 02 70726f746f636f6c56657273696f6e00 {:02x}000000 {text}0000",
        version.len() + 1
    )
}

/// A First Frame in version 5.
pub fn first(service: u8, session: u8, total: u32, count: u32) -> String {
    format!("52{service:02x}00{session:02x} 00000008 00000007 {total:08x} {count:08x}")
}

/// A consecutive frame in version 5, of the byte AB so many times.
pub fn next(service: u8, session: u8, number: u8, size: usize) -> String {
    format!(
        "53{service:02x}{number:02x}{session:02x} {size:08x} 00000007 {}",
        "ab".repeat(size)
    )
}

/// hashId alone.
pub fn hash_document(hash: u32) -> String {
    format!("11000000 10 68617368496400 {} 00", hex(&hash.to_le_bytes()))
}

pub const PLAIN: &str = "10 07 01 00 00 00 00 00";

pub const REJECTED_VERSION: &str = "310000000472656a6563746564506172616d73001c00000002300010000000\
                                70726f746f636f6c56657273696f6e000000";
pub const REJECTED_HASH: &str = "280000000472656a6563746564506172616d73001300000002300007000000\
                             6861736849640000 00";
