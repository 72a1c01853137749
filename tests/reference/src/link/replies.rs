//! The bytes of a reply: "We write only the reply payloads above."

use crate::frame::{self, Header, MessageId, ServiceType, SessionId};

/// A reply's header, but for its size.
pub struct Reply {
    pub version: u8,
    pub service: ServiceType,
    pub info: u8,
    pub session: SessionId,
    pub id: MessageId,
}

/// "NAKs, and Heartbeat ACKs (size 0, not counted), have message id 0."
pub const NO_ID: MessageId = MessageId(0);

/// "NAKs of opening: [..] session 0"
pub const NO_SESSION: SessionId = SessionId(0);

impl Reply {
    /// Writes the reply to the front of `out` and answers its length. The
    /// longest reply has 73 bytes, and `out` has 128 at least.
    pub fn write(&self, payload: &[u8], out: &mut [u8]) -> usize {
        let header = Header {
            version: self.version,
            flag: false,
            frame_type: frame::CONTROL,
            service: self.service,
            info: self.info,
            session: self.session,
            size: payload.len() as u32,
            id: self.id,
        };
        frame::write(&header, payload, out).expect("a reply is a good frame and fits")
    }
}

/// "the hash as 4 raw bytes, most significant first"
pub fn raw_hash(hash: u32) -> [u8; 4] {
    hash.to_be_bytes()
}

/// A BSON document that is being written: "BSON numbers least significant first".
pub struct Document(Vec<u8>);

impl Document {
    pub fn new() -> Self {
        Document(Vec::new())
    }

    fn key(&mut self, type_byte: u8, key: &str) {
        self.0.push(type_byte);
        self.0.extend_from_slice(key.as_bytes());
        self.0.push(0);
    }

    pub fn int32(mut self, key: &str, bits: u32) -> Self {
        self.key(0x10, key);
        self.0.extend_from_slice(&bits.to_le_bytes());
        self
    }

    pub fn int64(mut self, key: &str, bits: u64) -> Self {
        self.key(0x12, key);
        self.0.extend_from_slice(&bits.to_le_bytes());
        self
    }

    pub fn string(mut self, key: &str, text: &str) -> Self {
        self.key(0x02, key);
        let length = text.len() as u32 + 1;
        self.0.extend_from_slice(&length.to_le_bytes());
        self.0.extend_from_slice(text.as_bytes());
        self.0.push(0);
        self
    }

    pub fn array(mut self, key: &str, array: Document) -> Self {
        self.key(0x04, key);
        self.0.extend(array.bytes());
        self
    }

    /// The whole document: its length, the elements, the final 0.
    pub fn bytes(self) -> Vec<u8> {
        let length = self.0.len() as u32 + 5;
        let mut bytes = length.to_le_bytes().to_vec();
        bytes.extend(self.0);
        bytes.push(0);
        bytes
    }
}

/// rejectedParams with one name in it; "Array keys (written 0, 1, ...)".
pub fn rejected(name: &str) -> Vec<u8> {
    let names = Document::new().string("0", name);
    Document::new().array("rejectedParams", names).bytes()
}

/// The ACK of a start in version 5: hashId, mtu.
pub fn started(hash: u32, mtu: u32) -> Document {
    Document::new()
        .int32("hashId", hash)
        .int64("mtu", u64::from(mtu))
}
