//! Random BSON documents: good ones, and ones with planted faults.

use super::draft::Draft;
use super::random::Random;

const STRING: u8 = 0x02;
const DOCUMENT: u8 = 0x03;
const ARRAY: u8 = 0x04;
const BOOLEAN: u8 = 0x08;
const NULL: u8 = 0x0a;
const INT32: u8 = 0x10;
const INT64: u8 = 0x12;

const READ_TYPES: [u8; 8] = [0x01, STRING, DOCUMENT, ARRAY, BOOLEAN, NULL, INT32, INT64];

/// BSON's other types, and bytes next to the read ones that are no type.
const UNREAD_TYPES: [u8; 20] = [
    0x05, 0x06, 0x07, 0x09, 0x0b, 0x0c, 0x0d, 0x0e, 0x0f, 0x11, 0x13, 0x7f, 0xff, 0x14, 0x20, 0x80,
    0x82, 0x90, 0x1a, 0xfe,
];

/// "Known tags, in every payload", with their types.
const KNOWN: [(&[u8], u8); 4] = [
    (b"protocolVersion", STRING),
    (b"hashId", INT32),
    (b"mtu", INT64),
    (b"rejectedParams", ARRAY),
];

/// Names that are unknown, some next to known ones.
const OTHER_NAMES: [&[u8]; 16] = [
    b"height",
    b"",
    b"0",
    b"1",
    b"a",
    b"mt",
    b"mtu2",
    b"MTU",
    b"hashID",
    b"hashId ",
    b"protocolVersio",
    b"protocolVersions",
    b"rejectedParam",
    b"secondaryTransports",
    b"\xff\xfe",
    b"k\xc3\xa9y",
];

/// Good and bad version strings; `payload` answers both alike.
const VERSIONS: [&[u8]; 24] = [
    b"5.4.1",
    b"5.4.1",
    b"5.0.0",
    b"1.0.0",
    b"255.255.255",
    b"4.99.7",
    b"5.04.1",
    b"0.4.1",
    b"256.0.0",
    b"5.256.0",
    b"5.4",
    b"5.4.1.0",
    b"5..1",
    b"5.4.",
    b".4.1",
    b"+5.4.1",
    b"5.4.1 ",
    b"5,4,1",
    b"",
    b"\0",
    b"5.4.1\0",
    b"5\0.4.1",
    b"\0\0\0\0",
    b"\xff\x00\x80",
];

/// Bit patterns at the ends of their ranges, and with all bytes different.
const BITS: [u64; 10] = [
    0,
    1,
    39_027,
    0x0102_0304_0506_0708,
    0x7fff_ffff,
    0x8000_0000,
    0xffff_ffff,
    0x7fff_ffff_ffff_ffff,
    0x8000_0000_0000_0000,
    u64::MAX,
];

/// Lengths at the lower limits of strings and documents, negative and huge ones.
const BAD_LENGTHS: [u32; 9] = [0, 0, 1, 4, 4, 5, 0x7fff_ffff, 0x8000_0005, u32::MAX];

/// How many faults are still to be planted, and how readily.
#[derive(Clone, Copy)]
pub struct Faults {
    pub left: usize,
    pub once_in: usize,
}

/// Puts a document together.
struct Maker<'a> {
    random: &'a mut Random,
    faults: Faults,
    draft: Draft,
}

/// A whole payload with any of the known tags.
pub fn payload(random: &mut Random, faults: Faults) -> Draft {
    let mut maker = Maker::of(random, faults);
    let outer = maker.draft.open_document();
    maker.top_elements();
    maker.ending();
    maker.draft.close(outer);
    maker.draft
}

/// A payload with documents inside each other down to depth `deepest`.
pub fn deep_payload(random: &mut Random, deepest: usize, faults: Faults) -> Draft {
    let mut maker = Maker::of(random, faults);
    maker.chain(1, deepest);
    maker.draft
}

/// A payload of exactly `length` bytes, its last element a string that fills
/// it up; a good one, if the tags in front of it are few enough.
pub fn payload_of_length(random: &mut Random, length: usize, faults: Faults) -> Draft {
    let mut maker = Maker::of(random, faults);
    let outer = maker.draft.open_document();
    maker.top_elements();
    // Type, a key of one letter, its 0, the length; a 0 at both ends.
    let rest = length.saturating_sub(maker.draft.bytes.len() + 3 + 4 + 1 + 1);
    maker.draft.put(&[STRING, b'z', 0]);
    let filling = vec![b'x'; rest];
    maker.text(&filling);
    maker.draft.put(&[0]);
    maker.draft.close(outer);
    maker.draft
}

impl<'a> Maker<'a> {
    fn of(random: &'a mut Random, faults: Faults) -> Self {
        Maker {
            random,
            faults,
            draft: Draft::default(),
        }
    }

    /// Whether a fault is due at this place.
    fn faulty(&mut self) -> bool {
        let due = self.faults.left > 0 && self.random.once_in(self.faults.once_in);
        self.faults.left -= usize::from(due);
        due
    }

    /// Some known tags and some unknown ones, in any order.
    fn top_elements(&mut self) {
        let mut elements: Vec<(&[u8], Option<u8>)> = Vec::new();
        for (name, type_byte) in KNOWN {
            if self.random.coin() {
                elements.push((name, Some(type_byte)));
            }
        }
        for _ in 0..self.random.pick(&[0, 0, 1, 1, 2, 4]) {
            elements.push((self.random.pick(&OTHER_NAMES), None));
        }
        if self.faulty() {
            // One more known tag: half of the time it is there already.
            elements.push(
                self.random
                    .pick(&KNOWN.map(|(name, kind)| (name, Some(kind)))),
            );
        }
        while !elements.is_empty() {
            let place = self.random.below(elements.len());
            let (name, type_byte) = elements.swap_remove(place);
            let usual = type_byte.unwrap_or_else(|| self.read_type(1));
            self.element(name, usual, 1);
        }
    }

    /// Elements inside a nested document: known names are nothing special here.
    fn nested_elements(&mut self, depth: usize) {
        for _ in 0..self.random.pick(&[0, 1, 1, 2, 3]) {
            let name = self.any_name();
            let type_byte = self.read_type(depth);
            self.element(name, type_byte, depth);
        }
    }

    fn any_name(&mut self) -> &'static [u8] {
        if self.random.coin() {
            self.random.pick(&KNOWN).0
        } else {
            self.random.pick(&OTHER_NAMES)
        }
    }

    /// A read type; nested ones are rarer the deeper they are, to find an end.
    fn read_type(&mut self, depth: usize) -> u8 {
        let type_byte = self.random.pick(&READ_TYPES);
        let nested = type_byte == DOCUMENT || type_byte == ARRAY;
        if nested && !self.random.once_in(depth) {
            return INT32;
        }
        type_byte
    }

    /// An element whose type may be spoiled. The value goes with the type
    /// written or, as often, with the usual one.
    fn element(&mut self, name: &[u8], usual: u8, depth: usize) {
        let mut type_byte = usual;
        if self.faulty() {
            type_byte = if self.random.coin() {
                self.random.pick(&READ_TYPES)
            } else {
                self.random.pick(&UNREAD_TYPES)
            };
        }
        self.start(type_byte, name);
        let of_type = if self.random.once_in(8) {
            usual
        } else {
            type_byte
        };
        if of_type == STRING && name == b"protocolVersion" {
            let version = self.random.pick(&VERSIONS);
            self.text(version);
        } else {
            self.value(of_type, depth);
        }
    }

    fn start(&mut self, type_byte: u8, name: &[u8]) {
        self.draft.put(&[type_byte]);
        self.draft.put(name);
        self.draft.put(&[0]);
    }

    fn value(&mut self, type_byte: u8, depth: usize) {
        match type_byte {
            STRING => self.any_text(),
            DOCUMENT | ARRAY => self.nested(depth + 1),
            BOOLEAN => self.boolean(),
            NULL => (),
            INT32 => self.bits(4),
            0x01 | INT64 => self.bits(8),
            _ => self.unread_value(type_byte),
        }
    }

    fn bits(&mut self, width: usize) {
        let bits = if self.random.coin() {
            self.random.pick(&BITS)
        } else {
            self.random.bits64()
        };
        self.draft.put(&bits.to_le_bytes()[..width]);
    }

    fn boolean(&mut self) {
        let byte = if self.faulty() {
            self.random.pick(&[2, 2, 3, 0x80, 0xff])
        } else {
            self.random.pick(&[0, 1])
        };
        self.draft.put(&[byte]);
    }

    fn any_text(&mut self) {
        let length = self.random.pick(&[0, 0, 1, 2, 5, 9, 20]);
        let text: Vec<u8> = (0..length)
            .map(|_| self.random.pick(b"\0az09.\x7f\x80\xc3\xa9"))
            .collect();
        self.text(&text);
    }

    /// A string. Its faults: the last byte not 0, the length one too long,
    /// one too short, or wrong whatever follows.
    fn text(&mut self, text: &[u8]) {
        let field = self.draft.open_string();
        self.draft.put(text);
        self.draft.put(&[0]);
        self.draft.close(field);
        if self.faulty() {
            self.falsify(field);
        }
    }

    fn falsify(&mut self, field: usize) {
        match self.random.below(4) {
            0 => {
                let length = self.random.pick(&BAD_LENGTHS);
                self.draft.write_length(field, length);
            }
            1 => {
                let last = self.draft.bytes.len() - 1;
                self.draft.bytes[last] = self.random.pick(&[1, b'.', 0xff]);
            }
            // Two too long goes one past the parent, if it ends right behind.
            _ => {
                let more = self.random.pick(&[1, 1, 2, 2, -1, -1, 3, 256]);
                self.draft.falsify(field, more);
            }
        }
    }

    fn nested(&mut self, depth: usize) {
        let field = self.draft.open_document();
        self.nested_elements(depth);
        self.ending();
        self.draft.close(field);
        if self.faulty() {
            self.falsify(field);
        }
    }

    /// A document at `depth` that holds the next one, down to `deepest`.
    fn chain(&mut self, depth: usize, deepest: usize) {
        let field = self.draft.open_document();
        if depth < deepest {
            self.chain_link(depth, deepest);
            self.ending();
        } else if self.faulty() {
            self.stump();
        } else {
            self.nested_elements(depth);
            self.ending();
        }
        self.draft.close(field);
        // The outer length's faults are the damage's business.
        if depth > 1 && self.faulty() {
            self.falsify(field);
        }
    }

    fn chain_link(&mut self, depth: usize, deepest: usize) {
        let name = match (depth, self.random.below(3)) {
            (_, 0) => &b"0"[..],
            // Elsewhere than in the outer document, any name does.
            (2.., 1) => self.any_name(),
            _ => b"n",
        };
        let type_byte = self.random.pick(&[DOCUMENT, ARRAY]);
        if self.random.once_in(12) {
            self.element(b"before", INT32, depth);
        }
        self.start(type_byte, name);
        self.chain(depth + 1, deepest);
        if self.random.once_in(4) {
            self.element(b"behind", BOOLEAN, depth);
        }
    }

    /// A nested document of which at most its length is there, and no end
    /// behind it: whether it is too deep is "judged before its length".
    fn stump(&mut self) {
        let type_byte = self.random.pick(&[DOCUMENT, ARRAY]);
        let name = self.any_name();
        self.start(type_byte, name);
        if self.random.once_in(4) {
            // Not even the key's 0, which comes before the depth.
            self.draft.bytes.pop();
            return;
        }
        let length = self.random.pick(&BAD_LENGTHS).to_le_bytes();
        let there = self.random.pick(&[0, 0, 1, 3, 4, 4]);
        self.draft.put(&length[..there]);
        if self.random.coin() {
            self.draft.put(&[0]);
        }
    }

    /// A document's end: its 0, or one of the faults there.
    fn ending(&mut self) {
        if !self.faulty() {
            return self.draft.put(&[0]);
        }
        let type_byte = self.random.pick(&READ_TYPES);
        let name = self.any_name();
        match self.random.below(6) {
            // No 0 at all.
            0 => (),
            // A 0 in a type's place before the end.
            1 => {
                let behind = self
                    .random
                    .pick(&[&[0][..], &[0, 0], &[1, 0], &[5], &[0x10, 0, 0]]);
                self.draft.put(&[0]);
                self.draft.put(behind);
            }
            // A key whose 0 is the last byte.
            2 | 3 => self.start(type_byte, name),
            // A key without its 0, or nothing behind the type.
            4 => {
                self.draft.put(&[type_byte]);
                self.draft.put(name);
            }
            // A value, whole or in part, and no 0 behind it.
            _ => {
                let length = self.random.pick(&[1, 3, 4, 5, 7, 8]);
                self.start(type_byte, name);
                self.draft.put(&self.random.bytes(length));
            }
        }
    }

    /// What bsonspec.org puts behind the types that are not read.
    fn unread_value(&mut self, type_byte: u8) {
        match type_byte {
            0x05 => {
                self.draft.put(&[3, 0, 0, 0, 0]);
                self.draft.put(&self.random.bytes(3));
            }
            0x07 => self.draft.put(&self.random.bytes(12)),
            0x09 | 0x11 => self.bits(8),
            0x0b => self.draft.put(b"^a.*\0i\0"),
            0x0c => {
                self.text(b"name");
                self.draft.put(&self.random.bytes(12));
            }
            0x0d | 0x0e => self.any_text(),
            0x0f => self
                .draft
                .put(&[15, 0, 0, 0, 2, 0, 0, 0, b'c', 0, 5, 0, 0, 0, 0]),
            0x13 => self.draft.put(&self.random.bytes(16)),
            // 06, 7F and FF have no value; the others are no types.
            _ => (),
        }
    }
}
