//! A control payload: one BSON document and its known tags (document 01,
//! "Control payloads"; the layout of a document is bsonspec.org's).

use crate::refusal::Refusal;

/// "A payload is one document of 5 to 1,024 bytes".
const SHORTEST: usize = 5;
const LONGEST: usize = 1_024;

/// "nested inside each other to depth 8, the outer one being 1"
const OUTER_DEPTH: usize = 1;
const DEEPEST: usize = 8;

/// A document's and a string's length field.
const LENGTH_FIELD: usize = 4;

/// Stands in a type's place behind a document's last element.
const END: u8 = 0;

/// "Read types: 01, 02, 03, 04, 08 (0 or 1), 0A, 10, 12 (hex)."
const DOUBLE: u8 = 0x01;
const STRING: u8 = 0x02;
const DOCUMENT: u8 = 0x03;
const ARRAY: u8 = 0x04;
const BOOLEAN: u8 = 0x08;
const NULL: u8 = 0x0a;
const INT32: u8 = 0x10;
const INT64: u8 = 0x12;

/// The known tags that a payload holds.
#[derive(Clone, Copy, Debug, Default, PartialEq, Eq)]
pub struct Tags<'a> {
    /// The string without its final 0; nobody has judged yet whether it is a version.
    pub protocol_version: Option<&'a [u8]>,
    /// "An int32 hashId is the hash's same 32 bits."
    pub hash_id: Option<u32>,
    pub mtu: Option<u64>,
    /// Whether it is there; what is in it is read but not kept.
    pub rejected_params: bool,
}

/// Reads a whole payload.
pub fn read(payload: &[u8]) -> Result<Tags<'_>, Refusal> {
    // "data size 0 means no tags"
    if payload.is_empty() {
        return Ok(Tags::default());
    }
    // "30 comes first": nothing else is looked at before the length. With
    // fewer than 4 bytes there is none, so it is not the lent length either.
    let mut rest = Rest(payload);
    let length = rest.length().map_err(|_| Refusal::DocumentLength)?;
    if length != payload.len() || !(SHORTEST..=LONGEST).contains(&length) {
        return Err(Refusal::DocumentLength);
    }
    read_tags(rest)
}

/// Walks the outer document, which alone has tags.
fn read_tags(mut rest: Rest) -> Result<Tags, Refusal> {
    let mut tags = Tags::default();
    // "an element is judged by type, key, 34, then value"
    while let Some(element) = rest.element()? {
        if let Some(known) = tags.known(element.key) {
            if known.there || known.type_byte != element.type_byte {
                return Err(Refusal::KnownTag);
            }
        }
        let value = rest.value(element.type_byte, OUTER_DEPTH)?;
        tags.keep(element.key, value);
    }
    Ok(tags)
}

/// Walks the elements of a document or array inside another one. "Only
/// top-level tags count": known names mean nothing here.
fn skip_nested(mut rest: Rest, depth: usize) -> Result<(), Refusal> {
    while let Some(element) = rest.element()? {
        rest.value(element.type_byte, depth)?;
    }
    Ok(())
}

/// What 34 needs to know about a known tag.
struct Known {
    type_byte: u8,
    there: bool,
}

impl<'a> Tags<'a> {
    /// "Known tags, in every payload: protocolVersion (02), hashId (10), mtu
    /// (12), rejectedParams (04)."
    fn known(&self, key: &[u8]) -> Option<Known> {
        let (type_byte, there) = match key {
            b"protocolVersion" => (STRING, self.protocol_version.is_some()),
            b"hashId" => (INT32, self.hash_id.is_some()),
            b"mtu" => (INT64, self.mtu.is_some()),
            b"rejectedParams" => (ARRAY, self.rejected_params),
            _ => return None,
        };
        Some(Known { type_byte, there })
    }

    /// Keeps a known tag's value. The type was judged before: a value of
    /// another kind belongs to an unknown tag, which is skipped.
    fn keep(&mut self, key: &[u8], value: Value<'a>) {
        match (key, value) {
            (b"protocolVersion", Value::Text(text)) => self.protocol_version = Some(text),
            (b"hashId", Value::Bits32(bits)) => self.hash_id = Some(bits),
            (b"mtu", Value::Bits64(bits)) => self.mtu = Some(bits),
            (b"rejectedParams", Value::Nested) => self.rejected_params = true,
            _ => (),
        }
    }
}

/// An element up to its value.
struct Element<'a> {
    type_byte: u8,
    key: &'a [u8],
}

/// A value that was read; only the kinds that a known tag may have are kept.
enum Value<'a> {
    /// A string without its final 0.
    Text(&'a [u8]),
    Bits32(u32),
    Bits64(u64),
    Nested,
    Other,
}

/// The bytes of one document that are still to be read, up to its own end:
/// what is not in here "runs past its document".
struct Rest<'a>(&'a [u8]);

impl<'a> Rest<'a> {
    fn take(&mut self, count: usize) -> Result<&'a [u8], Refusal> {
        let (taken, rest) = self.0.split_at_checked(count).ok_or(Refusal::Malformed)?;
        self.0 = rest;
        Ok(taken)
    }

    /// "BSON numbers least significant first"
    fn number(&mut self, width: usize) -> Result<u64, Refusal> {
        let bytes = self.take(width)?;
        Ok(bytes
            .iter()
            .rev()
            .fold(0, |number, &byte| number << 8 | u64::from(byte)))
    }

    /// A length field. BSON's lengths have a sign; a negative one is read as
    /// a large one, which runs past every document.
    fn length(&mut self) -> Result<usize, Refusal> {
        let number = self.number(LENGTH_FIELD)?;
        usize::try_from(number).map_err(|_| Refusal::Malformed)
    }

    /// The next element's type and key, or None at the document's end.
    fn element(&mut self) -> Result<Option<Element<'a>>, Refusal> {
        // 32 if there is no byte: "the document used up without one".
        let type_byte = self.take(1)?[0];
        if type_byte == END {
            // "a 0 in a type's place before its document's last byte"
            let last = self.0.is_empty();
            return if last {
                Ok(None)
            } else {
                Err(Refusal::Malformed)
            };
        }
        if !type_read(type_byte) {
            return Err(Refusal::TypeNotRead);
        }
        let key = self.key()?;
        Ok(Some(Element { type_byte, key }))
    }

    /// A key without its 0. A key whose 0 is the document's last byte is
    /// still inside; the value or the end is then missing.
    fn key(&mut self) -> Result<&'a [u8], Refusal> {
        let end = self.0.iter().position(|&byte| byte == 0);
        let key = self.take(end.ok_or(Refusal::Malformed)?)?;
        self.take(1)?;
        Ok(key)
    }

    /// Reads the value of an element of a document at `depth`.
    fn value(&mut self, type_byte: u8, depth: usize) -> Result<Value<'a>, Refusal> {
        match type_byte {
            DOUBLE => self.number(8).map(|_| Value::Other),
            STRING => self.text().map(Value::Text),
            DOCUMENT | ARRAY => self.nested(depth + 1).map(|()| Value::Nested),
            BOOLEAN => self.boolean().map(|()| Value::Other),
            NULL => Ok(Value::Other),
            INT32 => self.number(4).map(|bits| Value::Bits32(bits as u32)),
            INT64 => self.number(8).map(Value::Bits64),
            _ => Err(Refusal::TypeNotRead),
        }
    }

    /// A string: "length 0 or its last byte not 0" is 32.
    fn text(&mut self) -> Result<&'a [u8], Refusal> {
        let length = self.length()?;
        match self.take(length)? {
            [text @ .., 0] => Ok(text),
            _ => Err(Refusal::Malformed),
        }
    }

    /// "boolean not 0 or 1" is 32.
    fn boolean(&mut self) -> Result<(), Refusal> {
        match self.number(1)? {
            0 | 1 => Ok(()),
            _ => Err(Refusal::Malformed),
        }
    }

    /// A document or array inside this document, itself at `depth`.
    fn nested(&mut self, depth: usize) -> Result<(), Refusal> {
        // "depth 9, judged before its length"
        if depth > DEEPEST {
            return Err(Refusal::TooDeep);
        }
        let length = self.length()?;
        // "nested length under 5"; the length counts its own field too.
        if length < SHORTEST {
            return Err(Refusal::Malformed);
        }
        let inside = self.take(length - LENGTH_FIELD)?;
        skip_nested(Rest(inside), depth)
    }
}

fn type_read(type_byte: u8) -> bool {
    matches!(
        type_byte,
        DOUBLE | STRING | DOCUMENT | ARRAY | BOOLEAN | NULL | INT32 | INT64
    )
}
