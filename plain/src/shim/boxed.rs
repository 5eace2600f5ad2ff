//! A value on the heap.
use crate::shim::alloc::AllocFailed;
use std::fmt;
use std::ops::{Deref, DerefMut};

/// Rust's `Box`, whose making answers a `Result`. (Stable Rust has no `Box::try_new`, so it never refuses.)
#[derive(PartialEq, Eq, PartialOrd, Ord, Hash)]
pub struct Box<T>(std::boxed::Box<T>);

impl<T> Box<T> {
    pub fn new(value: T) -> Result<Box<T>, AllocFailed<T>> {
        Ok(Box(std::boxed::Box::new(value)))
    }

    pub fn into_inner(self) -> T {
        *self.0
    }
}

impl<T> Deref for Box<T> {
    type Target = T;

    #[inline]
    fn deref(&self) -> &T {
        &self.0
    }
}

impl<T> DerefMut for Box<T> {
    #[inline]
    fn deref_mut(&mut self) -> &mut T {
        &mut self.0
    }
}

impl<T> AsRef<T> for Box<T> {
    fn as_ref(&self) -> &T {
        &self.0
    }
}

impl<T> AsMut<T> for Box<T> {
    fn as_mut(&mut self) -> &mut T {
        &mut self.0
    }
}

impl<T: fmt::Debug> fmt::Debug for Box<T> {
    fn fmt(&self, f: &mut fmt::Formatter<'_>) -> fmt::Result {
        self.0.fmt(f)
    }
}
