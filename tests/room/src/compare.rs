//! Differences, and buffers that show a write past their ends.

use std::fmt::{Debug, Write};

/// What was compared, and both sides of it.
#[derive(Debug)]
pub struct Difference {
    pub what: String,
    pub reference: String,
    pub proved: String,
}

impl Difference {
    pub fn during(self, operation: String) -> Fault {
        Fault {
            operation,
            difference: self,
        }
    }
}

/// A difference and the operation that showed it.
pub struct Fault {
    pub operation: String,
    pub difference: Difference,
}

/// Nothing, if both sides are the same. `what` is asked only if they are not.
pub fn same<T: PartialEq + Debug>(
    what: impl FnOnce() -> String,
    reference: T,
    proved: T,
) -> Result<(), Difference> {
    if reference == proved {
        return Ok(());
    }
    Err(Difference {
        what: what(),
        reference: format!("{reference:?}"),
        proved: format!("{proved:?}"),
    })
}

/// Like [`same`], for many bytes: only those around the first differing one
/// are shown.
pub fn same_bytes(what: &str, reference: &[u8], proved: &[u8]) -> Result<(), Difference> {
    if reference == proved {
        return Ok(());
    }
    let mut pairs = reference.iter().zip(proved);
    // If no byte differs, one side is longer, and differs where the other ends.
    let first = pairs
        .position(|(a, b)| a != b)
        .unwrap_or(reference.len().min(proved.len()));
    Err(Difference {
        what: format!("{what}, first in byte {first}"),
        reference: excerpt(reference, first),
        proved: excerpt(proved, first),
    })
}

/// Some bytes around an index, in hexadecimal.
fn excerpt(bytes: &[u8], index: usize) -> String {
    let start = index.saturating_sub(4).min(bytes.len());
    let end = bytes.len().min(index + 16);
    let mut text = format!("{} bytes, from {start}:", bytes.len());
    for byte in &bytes[start..end] {
        write!(text, " {byte:02x}").expect("a string takes all text");
    }
    text
}

/// Bytes in front of a buffer and behind it that no one may write.
const MARGIN: usize = 512;
const MARGIN_BYTE: u8 = 0xa5;

/// A buffer between two margins.
pub struct Guarded {
    bytes: Vec<u8>,
}

impl Guarded {
    pub fn of(bytes: &[u8]) -> Self {
        let margin = [MARGIN_BYTE; MARGIN];
        Guarded {
            bytes: [&margin, bytes, &margin].concat(),
        }
    }

    pub fn bytes(&self) -> &[u8] {
        &self.bytes[MARGIN..self.bytes.len() - MARGIN]
    }

    pub fn bytes_mut(&mut self) -> &mut [u8] {
        let end = self.bytes.len() - MARGIN;
        &mut self.bytes[MARGIN..end]
    }

    /// Nothing, if the buffer holds these bytes and its margins are whole.
    pub fn holds(&self, what: &str, reference: &[u8]) -> Result<(), Difference> {
        same_bytes(what, reference, self.bytes())?;
        let margin = [MARGIN_BYTE; MARGIN];
        let behind = self.bytes.len() - MARGIN;
        same_bytes("the bytes in front", &margin, &self.bytes[..MARGIN])
            .and_then(|()| same_bytes("the bytes behind", &margin, &self.bytes[behind..]))
            .map_err(|difference| Difference {
                what: format!("{what}: {}", difference.what),
                ..difference
            })
    }
}
