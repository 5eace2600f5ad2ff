//! A growing text whose growth can fail.
use crate::shim::alloc::AllocError;
use crate::shim::vec::Vec;
use std::borrow::Borrow;
use std::fmt;
use std::ops::Deref;

/// Rust's `String`, whose growth can fail. All of `str` is there by `Deref`.
#[derive(PartialEq, Eq, PartialOrd, Ord, Hash)]
pub struct String(std::string::String);

impl String {
    #[inline]
    pub fn new() -> String {
        String(std::string::String::new())
    }

    pub fn with_capacity(capacity: usize) -> Result<String, AllocError> {
        let mut inner = std::string::String::new();
        inner.try_reserve_exact(capacity)?;
        Ok(String(inner))
    }

    pub fn from_str(text: &str) -> Result<String, AllocError> {
        let mut copy = String::with_capacity(text.len())?;
        copy.0.push_str(text);
        Ok(copy)
    }

    pub fn from_utf8(bytes: Vec<u8>) -> Result<String, std::string::FromUtf8Error> {
        Ok(String(std::string::String::from_utf8(bytes.0)?))
    }

    /// Rust's own text, which takes no memory.
    pub fn into_std(self) -> std::string::String {
        self.0
    }

    pub fn into_bytes(self) -> Vec<u8> {
        Vec(self.0.into_bytes())
    }

    

    #[inline]
    pub fn as_str(&self) -> &str {
        &self.0
    }

    pub fn reserve(&mut self, additional: usize) -> Result<(), AllocError> {
        Ok(self.0.try_reserve(additional)?)
    }

    #[inline]
    pub fn push_str(&mut self, text: &str) -> Result<(), AllocError> {
        self.0.try_reserve(text.len())?;
        self.0.push_str(text);
        Ok(())
    }

    pub fn push(&mut self, c: char) -> Result<(), AllocError> {
        self.0.try_reserve(c.len_utf8())?;
        self.0.push(c);
        Ok(())
    }

    pub fn truncate(&mut self, len: usize) {
        self.0.truncate(len);
    }

    pub fn clear(&mut self) {
        self.0.clear();
    }

    pub fn shrink_to_fit(&mut self) {
        self.0.shrink_to_fit();
    }

    pub fn clone(&self) -> Result<String, AllocError> {
        String::from_str(&self.0)
    }

    /// What `write!` calls: its only error is want of memory.
    pub fn write_fmt(&mut self, arguments: fmt::Arguments<'_>) -> Result<(), AllocError> {
        match fmt::write(self, arguments) {
            Ok(()) => Ok(()),
            Err(fmt::Error) => Err(AllocError),
        }
    }
}

impl fmt::Write for String {
    #[inline]
    fn write_str(&mut self, text: &str) -> fmt::Result {
        Ok(self.push_str(text)?)
    }
}

impl From<std::string::String> for String {
    fn from(inner: std::string::String) -> String {
        String(inner)
    }
}

impl Deref for String {
    type Target = str;

    #[inline]
    fn deref(&self) -> &str {
        &self.0
    }
}

impl Borrow<str> for String {
    fn borrow(&self) -> &str {
        &self.0
    }
}

impl fmt::Display for String {
    fn fmt(&self, f: &mut fmt::Formatter<'_>) -> fmt::Result {
        self.0.fmt(f)
    }
}

impl fmt::Debug for String {
    fn fmt(&self, f: &mut fmt::Formatter<'_>) -> fmt::Result {
        self.0.fmt(f)
    }
}

/// The text of a value: `value.to_string(alloc)?` of Rattle.
pub trait TryToString {
    fn try_to_string(&self ) -> Result<String, AllocError>;
}

impl<T: fmt::Display + ?Sized> TryToString for T {
    fn try_to_string(&self ) -> Result<String, AllocError> {
        let mut text = String::new();
        text.write_fmt(format_args!("{self}"))?;
        Ok(text)
    }
}

/// A copy of a text: `text.to_ascii_lowercase(alloc)?` of Rattle.
pub trait TryToLowercase {
    fn try_to_ascii_lowercase(&self ) -> Result<String, AllocError>;
}

impl TryToLowercase for str {
    fn try_to_ascii_lowercase(&self ) -> Result<String, AllocError> {
        let mut text = String::from_str(self)?;
        text.0.make_ascii_lowercase();
        Ok(text)
    }
}

/// All of a reader's bytes, as a text.
pub fn read_to_string<R: std::io::Read>(mut reader: R) -> std::io::Result<String> {
    let mut text = std::string::String::new();
    reader.read_to_string(&mut text)?;
    Ok(String(text))
}
