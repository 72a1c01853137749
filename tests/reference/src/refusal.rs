//! The numbers that refuse a call: those of document 01's table "Answer
//! numbers", and those that document 02 adds.

/// A refusal. The comments quote the table's "Given exactly when", 18 as
/// request A2 left it, from 40 on the text of request A1.
#[derive(Clone, Copy, Debug, PartialEq, Eq)]
#[repr(u8)]
pub enum Refusal {
    /// "version 0 or above 5"
    Version = 1,
    /// "frame type above 3"
    FrameType = 2,
    /// "service not listed"
    Service = 3,
    /// "control info not listed"
    ControlInfo = 4,
    /// "flag set in version 1 or on a First Frame"
    Flag = 5,
    /// "First Frame size not 8, consecutive size 0, or above the largest";
    /// the writer also "refuses a data size unlike the payload's length with 6".
    Size = 6,
    /// "settings, offer or chunk (0 or above largest) out of range"
    OutOfRange = 10,
    /// "out under 128 bytes (link), or too small for the bytes due"
    OutTooSmall = 11,
    /// "session not open (0 never is; opening excepted)"
    SessionNotOpen = 12,
    /// "encryption flag set"
    Encrypted = 13,
    /// "version not the settled one; unsettled: above min(M, 4)"
    OtherVersion = 14,
    /// "settled at 5, data size above mtu minus 12"
    AboveMtu = 15,
    /// "type 1 to 3 on a service not running; 00 always runs, 0F from frame version 2"
    ServiceNotRunning = 16,
    /// "control info other than 00, 01, 04, FF; or 00, FF not on service 00
    /// or not settled at 3 or more"
    ControlNotTaken = 17,
    /// "total 0 or above 65,536, count 0 or above total; sender: likewise,
    /// if more than one chunk"
    TotalOrCount = 18,
    /// "message already open"
    AlreadyOpen = 19,
    /// "held + need above C"
    AboveCap = 20,
    /// "sum of larger-of-held-and-G above 256"
    AboveRoom = 21,
    /// "no message open"
    NoMessageOpen = 22,
    /// "other message id"
    OtherMessage = 23,
    /// "frame number wrong; message dropped"
    FrameNumber = 24,
    /// "sizes wrong; message dropped"
    FrameSizes = 25,
    /// "sender: k past the last frame"
    PastLastFrame = 26,
    /// "document length not the lent length, or not 5 to 1,024"
    DocumentLength = 30,
    /// "type not read"
    TypeNotRead = 31,
    /// "key, value or nested document runs past its document; string length 0
    /// or its last byte not 0; nested length under 5; a 0 in a type's place
    /// before its document's last byte, or the document used up without one;
    /// boolean not 0 or 1"
    Malformed = 32,
    /// "depth 9, judged before its length"
    TooDeep = 33,
    /// "known tag twice or of another type"
    KnownTag = 34,
    /// "payload under 12 bytes"
    PayloadTooShort = 40,
    /// "type not 0 to 2 (query: not 00, 10, 20 or FF)"
    MessageType = 41,
    /// "query id not 1, 2 or FFFFFF (all hex; in the writer also a function id
    /// over 28 bits)"
    FunctionId = 42,
    /// "JSON size past the end"; writer: "if the JSON size isn't the JSON's length"
    JsonSize = 43,
    /// "bytes after the JSON on RPC"; writer: "bulk on RPC"
    BytesAfterJson = 44,
}

impl Refusal {
    /// The number in the document.
    pub fn number(self) -> u8 {
        self as u8
    }
}
