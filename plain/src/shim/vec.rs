//! A growing list whose growth can fail.
use crate::shim::alloc::{AllocError, AllocFailed};
use std::fmt;
use std::ops::{Deref, DerefMut, Index, IndexMut};
use std::slice::{self, SliceIndex};

pub use std::vec::IntoIter;

/// Rust's `Vec`, whose growth can fail. All of `[T]` is there by `Deref`.
#[derive(PartialEq, Eq, PartialOrd, Ord, Hash)]
pub struct Vec<T>(pub(crate) std::vec::Vec<T>);

impl<T> Vec<T> {
    #[inline]
    pub fn new() -> Vec<T> {
        Vec(std::vec::Vec::new())
    }

    pub fn with_capacity(capacity: usize) -> Result<Vec<T>, AllocError> {
        let mut inner = std::vec::Vec::new();
        inner.try_reserve_exact(capacity)?;
        Ok(Vec(inner))
    }

    /// A list of `len` copies of a value.
    pub fn filled(value: T, len: usize) -> Result<Vec<T>, AllocError>
    where
        T: Copy,
    {
        let mut list = Vec::with_capacity(len)?;
        list.0.resize(len, value);
        Ok(list)
    }

    /// The items of an array.
    pub fn from_array<const N: usize>(items: [T; N]) -> Result<Vec<T>, AllocError> {
        let mut list = Vec::with_capacity(N)?;
        list.0.extend(items);
        Ok(list)
    }

    /// A copy of a slice.
    pub fn from_slice(items: &[T]) -> Result<Vec<T>, AllocError>
    where
        T: Copy,
    {
        let mut list = Vec::new();
        list.extend_from_slice(items)?;
        Ok(list)
    }

    /// Rust's own list, which takes no memory.
    pub fn into_std(self) -> std::vec::Vec<T> {
        self.0
    }

    

    #[inline]
    pub fn as_slice(&self) -> &[T] {
        &self.0
    }

    #[inline]
    pub fn as_mut_slice(&mut self) -> &mut [T] {
        &mut self.0
    }

    #[inline]
    pub fn capacity(&self) -> usize {
        self.0.capacity()
    }

    #[inline]
    pub fn reserve(&mut self, additional: usize) -> Result<(), AllocError> {
        Ok(self.0.try_reserve(additional)?)
    }

    #[inline]
    pub fn reserve_exact(&mut self, additional: usize) -> Result<(), AllocError> {
        Ok(self.0.try_reserve_exact(additional)?)
    }

    #[inline]
    pub fn push(&mut self, item: T) -> Result<(), AllocFailed<T>> {
        if self.0.len() == self.0.capacity() && self.0.try_reserve(1).is_err() {
            return Err(AllocFailed(item));
        }
        self.0.push(item);
        Ok(())
    }

    pub fn insert(&mut self, index: usize, item: T) -> Result<(), AllocFailed<T>> {
        if self.0.try_reserve(1).is_err() {
            return Err(AllocFailed(item));
        }
        self.0.insert(index, item);
        Ok(())
    }

    pub fn append(&mut self, other: &mut Vec<T>) -> Result<(), AllocError> {
        self.0.try_reserve(other.0.len())?;
        self.0.append(&mut other.0);
        Ok(())
    }

    pub fn extend_from_slice(&mut self, items: &[T]) -> Result<(), AllocError>
    where
        T: Copy,
    {
        self.0.try_reserve(items.len())?;
        self.0.extend_from_slice(items);
        Ok(())
    }

    #[inline]
    pub fn pop(&mut self) -> Option<T> {
        self.0.pop()
    }

    #[inline]
    pub fn remove(&mut self, index: usize) -> T {
        self.0.remove(index)
    }

    #[inline]
    pub fn swap_remove(&mut self, index: usize) -> T {
        self.0.swap_remove(index)
    }

    #[inline]
    pub fn truncate(&mut self, len: usize) {
        self.0.truncate(len);
    }

    #[inline]
    pub fn clear(&mut self) {
        self.0.clear();
    }

    pub fn retain<F: FnMut(&T) -> bool>(&mut self, keep: F) {
        self.0.retain(keep);
    }

    pub fn dedup(&mut self)
    where
        T: PartialEq,
    {
        self.0.dedup();
    }

    pub fn shrink_to_fit(&mut self) {
        self.0.shrink_to_fit();
    }

    /// A stable sort. (Rust's takes memory that it cannot refuse.)
    pub fn sort(&mut self) -> Result<(), AllocError>
    where
        T: Ord,
    {
        self.0.sort();
        Ok(())
    }
}

/// A copy of a slice: `slice.to_vec(alloc)?` of Rattle.
pub trait TryToVec<T> {
    fn try_to_vec(&self ) -> Result<Vec<T>, AllocError>;
}

impl<T: Copy> TryToVec<T> for [T] {
    fn try_to_vec(&self ) -> Result<Vec<T>, AllocError> {
        let mut list = Vec::new();
        list.extend_from_slice(self)?;
        Ok(list)
    }
}

/// What an iterator gives, as a list: `items.collect(alloc)?` of Rattle.
pub trait TryCollect: Iterator + Sized {
    fn try_collect(self ) -> Result<Vec<Self::Item>, AllocError>;
}

impl<I: Iterator> TryCollect for I {
    fn try_collect(self ) -> Result<Vec<I::Item>, AllocError> {
        let mut list = Vec::with_capacity(self.size_hint().0)?;
        for item in self {
            list.push(item)?;
        }
        Ok(list)
    }
}

impl<T> From<std::vec::Vec<T>> for Vec<T> {
    fn from(inner: std::vec::Vec<T>) -> Vec<T> {
        Vec(inner)
    }
}

impl<T> Deref for Vec<T> {
    type Target = [T];

    #[inline]
    fn deref(&self) -> &[T] {
        &self.0
    }
}

impl<T> DerefMut for Vec<T> {
    #[inline]
    fn deref_mut(&mut self) -> &mut [T] {
        &mut self.0
    }
}

impl<T, I: SliceIndex<[T]>> Index<I> for Vec<T> {
    type Output = I::Output;

    #[inline]
    fn index(&self, index: I) -> &I::Output {
        &self.0[index]
    }
}

impl<T, I: SliceIndex<[T]>> IndexMut<I> for Vec<T> {
    #[inline]
    fn index_mut(&mut self, index: I) -> &mut I::Output {
        &mut self.0[index]
    }
}

impl<T> IntoIterator for Vec<T> {
    type Item = T;
    type IntoIter = IntoIter<T>;

    #[inline]
    fn into_iter(self) -> IntoIter<T> {
        self.0.into_iter()
    }
}

impl<'a, T> IntoIterator for &'a Vec<T> {
    type Item = &'a T;
    type IntoIter = slice::Iter<'a, T>;

    #[inline]
    fn into_iter(self) -> slice::Iter<'a, T> {
        self.0.iter()
    }
}

impl<'a, T> IntoIterator for &'a mut Vec<T> {
    type Item = &'a mut T;
    type IntoIter = slice::IterMut<'a, T>;

    #[inline]
    fn into_iter(self) -> slice::IterMut<'a, T> {
        self.0.iter_mut()
    }
}

impl<T: fmt::Debug> fmt::Debug for Vec<T> {
    fn fmt(&self, f: &mut fmt::Formatter<'_>) -> fmt::Result {
        self.0.fmt(f)
    }
}

/// So that a `Vec<u8>` is a writer.
impl std::io::Write for Vec<u8> {
    fn write(&mut self, buf: &[u8]) -> std::io::Result<usize> {
        match self.extend_from_slice(buf) {
            Ok(()) => Ok(buf.len()),
            Err(AllocError) => Err(std::io::ErrorKind::OutOfMemory.into()),
        }
    }

    fn flush(&mut self) -> std::io::Result<()> {
        Ok(())
    }
}
