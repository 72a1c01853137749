//! The words of one line: "One space between words, none at the end."
//!
//! A space too many makes an empty word, which nothing reads.

use crate::rpc::Form;
use crate::text;

/// "Every out buffer is OUTLEN bytes (at most 131,084; more is answered `?`)".
const LARGEST_OUT: u32 = 131_084;

/// The words still to be read. Each function takes the next one, and answers
/// None if it is missing or not of that kind.
pub struct Words<'a> {
    /// What is behind the last word taken; None if that was the line's last.
    rest: Option<&'a [u8]>,
}

impl<'a> Words<'a> {
    pub fn of(line: &'a [u8]) -> Self {
        Words { rest: Some(line) }
    }

    pub fn next_word(&mut self) -> Option<&'a [u8]> {
        let rest = self.rest?;
        let end = rest.iter().position(|&byte| byte == b' ');
        self.rest = end.map(|end| &rest[end + 1..]);
        Some(&rest[..end.unwrap_or(rest.len())])
    }

    /// None if there is a surplus word.
    pub fn end(&self) -> Option<()> {
        self.rest.is_none().then_some(())
    }

    /// A number of 0 to 255.
    pub fn byte(&mut self) -> Option<u8> {
        let number = text::parse_number(self.next_word()?, u32::from(u8::MAX))?;
        u8::try_from(number).ok()
    }

    /// "flag 0 or 1"
    pub fn flag(&mut self) -> Option<bool> {
        let number = text::parse_number(self.next_word()?, 1)?;
        Some(number == 1)
    }

    /// A number of 16 bits.
    pub fn bits16(&mut self) -> Option<u16> {
        let number = text::parse_number(self.next_word()?, u32::from(u16::MAX))?;
        u16::try_from(number).ok()
    }

    /// A number of 32 bits.
    pub fn bits32(&mut self) -> Option<u32> {
        text::parse_number(self.next_word()?, u32::MAX)
    }

    /// OUTLEN.
    pub fn out_length(&mut self) -> Option<usize> {
        let number = text::parse_number(self.next_word()?, LARGEST_OUT)?;
        usize::try_from(number).ok()
    }

    /// "FORM is `rpc`, `bulk` or `query`"
    pub fn form(&mut self) -> Option<Form> {
        match self.next_word()? {
            b"rpc" => Some(Form::Rpc),
            b"bulk" => Some(Form::Bulk),
            b"query" => Some(Form::Query),
            _ => None,
        }
    }

    /// HEX; its bytes replace those of `bytes`.
    pub fn bytes(&mut self, bytes: &mut Vec<u8>) -> Option<()> {
        text::parse_bytes(self.next_word()?, bytes)
    }
}
