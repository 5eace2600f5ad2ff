//! Texts, lists, tables and versions: what the crate `wit_values` of the source is there, in Rust's own types.
//!
//! In the source each is a wrapper that contracts see as plain data. Here [`Text`] is a `String`, [`Names`] and
//! [`Table`] are `IndexMap`s, [`Version`] is that of `semver`, and [`Items`] is a `Vec` that ids index too; `calls` has
//! what the source calls on them and they lack.

pub(crate) mod calls;
mod items;
mod name_set;
mod sources;
mod try_clone;

pub use items::{Arena, ArenaIter, Items, Listed, Place};
pub use name_set::NameSet;
pub use try_clone::TryClone;
pub(crate) use try_clone::{try_clone_four, try_clone_six, try_clone_three, try_clone_two};

/// A text.
pub type Text = String;

/// A table in insertion order.
pub type Table<K, V> = indexmap::IndexMap<K, V>;

/// A table under texts, in insertion order.
pub type Names<V> = indexmap::IndexMap<String, V>;

/// A version as SemVer 2.0.0 has it.
pub type Version = semver::Version;

/// The pairs of a table.
pub(crate) type TableIter<'a, K, V> = indexmap::map::Iter<'a, K, V>;

/// The pairs of a table under texts.
pub(crate) type NamesIter<'a, V> = indexmap::map::Iter<'a, String, V>;
