//! JSON (RFC 8259): a reader of tokens, values over a borrowed text, and a writer without spaces.
//!
//! `serde_json` doesn't serve here: what is told of a faulty document needs the place of any token, the text of a number of
//! any size, and members in their order with those that stand twice.
mod lexer;
mod reader;
mod unescape;
mod value;
mod writer;

pub use self::reader::{Reader, Scratch, Token};
pub use self::value::Value;
pub use self::writer::Writer;
use crate::shim::AllocError;

/// How deep lists and objects may nest.
pub const MAX_DEPTH: usize = 128;

/// The text is no JSON of the form that is asked.
#[derive(Clone, Copy, Debug, PartialEq, Eq)]
pub struct Invalid;

/// Why a value isn't read.
#[derive(Clone, Copy, Debug, PartialEq, Eq)]
pub enum Error {
    Invalid,
    OutOfMemory,
}

impl From<Invalid> for Error {
    fn from(_: Invalid) -> Error {
        Error::Invalid
    }
}

impl From<AllocError> for Error {
    fn from(_: AllocError) -> Error {
        Error::OutOfMemory
    }
}
