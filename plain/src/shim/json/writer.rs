//! Writes JSON without a space, with the shortest escapes.
use crate::shim::{AllocError, Vec};
use std::io::Write;

/// Places commas and colons; nesting is the caller's.
#[derive(Debug)]
pub struct Writer {
    out: Vec<u8>,
    after_value: bool,
}

impl Writer {
    /// It writes behind what `out` holds.
    pub fn new(out: Vec<u8>) -> Writer {
        Writer { out, after_value: false }
    }

    pub fn into_inner(self) -> Vec<u8> {
        self.out
    }

    pub fn begin_object(&mut self) -> Result<(), AllocError> {
        self.begin(b"{")
    }

    pub fn end_object(&mut self) -> Result<(), AllocError> {
        self.end(b"}")
    }

    pub fn begin_array(&mut self) -> Result<(), AllocError> {
        self.begin(b"[")
    }

    pub fn end_array(&mut self) -> Result<(), AllocError> {
        self.end(b"]")
    }

    /// The name of a member, whose value comes next.
    pub fn key(&mut self, name: &str) -> Result<(), AllocError> {
        self.separate()?;
        self.quoted(name)?;
        self.begin_behind(b":")
    }

    pub fn string(&mut self, text: &str) -> Result<(), AllocError> {
        self.separate()?;
        self.quoted(text)?;
        self.after_value = true;
        Ok(())
    }

    pub fn u64(&mut self, number: u64) -> Result<(), AllocError> {
        self.separate()?;
        self.after_value = true;
        write!(self.out, "{number}").map_err(|_| AllocError)
    }

    pub fn boolean(&mut self, value: bool) -> Result<(), AllocError> {
        self.word(if value { b"true" } else { b"false" })
    }

    pub fn null(&mut self) -> Result<(), AllocError> {
        self.word(b"null")
    }

    /// The comma between two values.
    fn separate(&mut self) -> Result<(), AllocError> {
        if self.after_value { self.out.extend_from_slice(b",") } else { Ok(()) }
    }

    fn begin(&mut self, bracket: &[u8]) -> Result<(), AllocError> {
        self.separate()?;
        self.begin_behind(bracket)
    }

    fn begin_behind(&mut self, mark: &[u8]) -> Result<(), AllocError> {
        self.after_value = false;
        self.out.extend_from_slice(mark)
    }

    fn end(&mut self, bracket: &[u8]) -> Result<(), AllocError> {
        self.after_value = true;
        self.out.extend_from_slice(bracket)
    }

    fn word(&mut self, word: &[u8]) -> Result<(), AllocError> {
        self.separate()?;
        self.end(word)
    }

    fn quoted(&mut self, text: &str) -> Result<(), AllocError> {
        self.out.extend_from_slice(b"\"")?;
        let mut rest = text.as_bytes();
        while let Some(plain) = rest.iter().position(|byte| is_escaped(*byte)) {
            self.out.extend_from_slice(&rest[..plain])?;
            self.escape(rest[plain])?;
            rest = &rest[plain + 1..];
        }
        self.out.extend_from_slice(rest)?;
        self.out.extend_from_slice(b"\"")
    }

    fn escape(&mut self, byte: u8) -> Result<(), AllocError> {
        match byte {
            b'"' => self.out.extend_from_slice(b"\\\""),
            b'\\' => self.out.extend_from_slice(b"\\\\"),
            b'\n' => self.out.extend_from_slice(b"\\n"),
            b'\r' => self.out.extend_from_slice(b"\\r"),
            b'\t' => self.out.extend_from_slice(b"\\t"),
            0x08 => self.out.extend_from_slice(b"\\b"),
            0x0c => self.out.extend_from_slice(b"\\f"),
            _ => write!(self.out, "\\u{byte:04x}").map_err(|_| AllocError),
        }
    }
}

fn is_escaped(byte: u8) -> bool {
    byte < b' ' || byte == b'"' || byte == b'\\'
}
