//! The reference: the rules of documents 01 and 02 in plain Rust, and the line
//! protocol of DRIVER.md over them.
//!
//! It was written from those documents alone, so that a comparison with
//! the other program means something. Keep it that way: extend it from the
//! documents, never from the other program's text.
//!
//! - [`frame`], [`sender`], [`payload`], [`refusal`]: the rules of the protocol.
//! - [`burst`]: what sender and link share of a message in parts.
//! - [`room`]: the blocks that open messages share.
//! - [`link`]: sessions, services and messages over that room.
//! - [`rpc`]: what is inside joined messages.
//! - [`text`]: hexadecimal and decimal words.
//! - [`driver`]: script lines in, answer lines out.
//! - [`bench`]: the bench program.
//! - [`census`]: which answers a script reaches.
//! - [`generate`]: scripts to compare two programs on.

pub mod bench;
pub mod burst;
pub mod census;
pub mod driver;
pub mod frame;
pub mod generate;
mod lines;
pub mod link;
pub mod payload;
pub mod refusal;
pub mod room;
pub mod rpc;
pub mod sender;
pub mod text;
