//! A set of texts in insertion order.

use super::try_clone::TryClone;
use crate::shim::alloc::AllocError;
use indexmap::IndexSet;
use std::fmt;

/// Texts that differ, in the order in which they came.
#[derive(Clone, Default, PartialEq, Eq)]
pub struct NameSet {
    inner: IndexSet<String>,
}

impl NameSet {
    /// The empty set.
    pub fn new() -> NameSet {
        NameSet::default()
    }

    /// How many texts it has.
    pub fn len(&self) -> usize {
        self.inner.len()
    }

    /// Whether it has no text.
    pub fn is_empty(&self) -> bool {
        self.inner.is_empty()
    }

    /// Whether a text is in the set.
    pub fn contains(&self, text: &str) -> bool {
        self.inner.contains(text)
    }

    /// The texts, in order.
    pub fn iter(&self) -> indexmap::set::Iter<'_, String> {
        self.inner.iter()
    }

    pub(crate) fn text_at(&self, index: usize) -> &str {
        &self.inner[index]
    }

    pub(crate) fn insert(&mut self, text: &str) -> Result<(), AllocError> {
        self.inner.insert(text.to_owned());
        Ok(())
    }
}

impl<'a> IntoIterator for &'a NameSet {
    type Item = &'a String;
    type IntoIter = indexmap::set::Iter<'a, String>;

    fn into_iter(self) -> indexmap::set::Iter<'a, String> {
        self.iter()
    }
}

impl fmt::Debug for NameSet {
    fn fmt(&self, f: &mut fmt::Formatter<'_>) -> fmt::Result {
        self.inner.fmt(f)
    }
}

impl TryClone for NameSet {
    fn try_clone(&self) -> Result<NameSet, AllocError> {
        Ok(self.clone())
    }
}

impl FromIterator<String> for NameSet {
    fn from_iter<I: IntoIterator<Item = String>>(texts: I) -> NameSet {
        NameSet {
            inner: texts.into_iter().collect(),
        }
    }
}
