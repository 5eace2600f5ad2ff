//! What the source calls on texts, tables and versions, and std, `indexmap` and `semver` lack or have otherwise.

use super::try_clone::TryClone;
use super::{Names, Table, Text, Version};
use crate::made::wit_data::{Id, PackageName, WorldKey};
use crate::made::wit_labels::strong::StrongKey;
use crate::shim;
use crate::shim::alloc::AllocError;
use indexmap::IndexMap;
use semver::{BuildMetadata, Prerelease};
use std::hash::Hash;

/// Of texts.
pub(crate) trait TextCalls: Sized {
    fn from_string(text: shim::String) -> Self;
    fn into_string(self) -> shim::String;
    fn try_from_str(text: &str) -> Result<Self, AllocError>;
}

impl TextCalls for Text {
    fn from_string(text: shim::String) -> Text {
        text.into_std()
    }

    fn into_string(self) -> shim::String {
        shim::String::from(self)
    }

    fn try_from_str(text: &str) -> Result<Text, AllocError> {
        let mut copy = String::new();
        copy.try_reserve_exact(text.len())?;
        copy.push_str(text);
        Ok(copy)
    }
}

impl From<shim::String> for Text {
    fn from(text: shim::String) -> Text {
        text.into_std()
    }
}

impl TryClone for Text {
    fn try_clone(&self) -> Result<Text, AllocError> {
        Text::try_from_str(self)
    }
}

/// What a table keeps of a key that is pushed: of a text of the shim std's, any other key as it is.
pub(crate) trait Key {
    type Kept;
    fn kept(self) -> Self::Kept;
}

impl Key for shim::String {
    type Kept = Text;

    fn kept(self) -> Text {
        self.into_std()
    }
}

impl<S> Key for Id<S> {
    type Kept = Id<S>;

    fn kept(self) -> Id<S> {
        self
    }
}

macro_rules! kept_as_they_are {
    ($($key:ty),*) => {$(
        impl Key for $key {
            type Kept = $key;

            fn kept(self) -> $key {
                self
            }
        }
    )*};
}

kept_as_they_are!(Text, usize, PackageName, StrongKey, WorldKey);

/// Of tables. A key that is pushed isn't there yet.
pub(crate) trait TableCalls<K, V>: Sized {
    fn from_map(map: shim::indexmap::IndexMap<K, V>) -> Result<Self, AllocError>;
    fn into_map(self) -> Result<shim::indexmap::IndexMap<K, V>, AllocError>;
    fn into_pairs(self) -> indexmap::map::IntoIter<K, V>;
    fn keys_differ(&self) {}
    fn entry_at(&self, index: usize) -> (&K, &V);
    fn value_at_mut(&mut self, index: usize) -> &mut V;
    fn make_room(&mut self, additional: usize) -> Result<(), AllocError>;
    fn push<Q: Key<Kept = K>>(&mut self, key: Q, value: V) -> Result<(), AllocError>;
    fn keep_where<F: Fn(&V) -> bool>(&mut self, keep: F);
    fn shrink(&mut self);
}

impl<K: Eq + Hash, V> TableCalls<K, V> for Table<K, V> {
    fn from_map(map: shim::indexmap::IndexMap<K, V>) -> Result<Table<K, V>, AllocError> {
        Ok(map.into_iter().collect())
    }

    fn into_map(self) -> Result<shim::indexmap::IndexMap<K, V>, AllocError> {
        let mut map = shim::indexmap::IndexMap::with_capacity(self.len())?;
        for (key, value) in self {
            map.insert(key, value)?;
        }
        Ok(map)
    }

    fn into_pairs(self) -> indexmap::map::IntoIter<K, V> {
        self.into_iter()
    }

    fn entry_at(&self, index: usize) -> (&K, &V) {
        match self.get_index(index) {
            Some(entry) => entry,
            None => unreachable!("an index below the length"),
        }
    }

    fn value_at_mut(&mut self, index: usize) -> &mut V {
        &mut self[index]
    }

    fn make_room(&mut self, additional: usize) -> Result<(), AllocError> {
        self.reserve(additional);
        Ok(())
    }

    fn push<Q: Key<Kept = K>>(&mut self, key: Q, value: V) -> Result<(), AllocError> {
        self.insert(key.kept(), value);
        Ok(())
    }

    fn keep_where<F: Fn(&V) -> bool>(&mut self, keep: F) {
        self.retain(|_, value| keep(value));
    }

    fn shrink(&mut self) {
        self.shrink_to_fit();
    }
}

/// Of tables under texts; what only tests call is there for them.
pub(crate) trait NamesCalls<V>: Sized {
    #[cfg(test)]
    fn from_texts<Q: Into<String>>(map: shim::indexmap::IndexMap<Q, V>) -> Result<Self, AllocError>;
    fn move_last(&mut self, key: &str);
}

impl<V> NamesCalls<V> for Names<V> {
    #[cfg(test)]
    fn from_texts<Q: Into<String>>(map: shim::indexmap::IndexMap<Q, V>) -> Result<Names<V>, AllocError> {
        Ok(map.into_iter().map(|(key, value)| (key.into(), value)).collect())
    }

    fn move_last(&mut self, key: &str) {
        if let Some(index) = self.get_index_of(key) {
            self.move_index(index, self.len() - 1);
        }
    }
}

impl<K: Eq + Hash + TryClone, V: TryClone> TryClone for IndexMap<K, V> {
    fn try_clone(&self) -> Result<IndexMap<K, V>, AllocError> {
        let mut copy = IndexMap::with_capacity(self.len());
        for (key, value) in self {
            copy.insert(key.try_clone()?, value.try_clone()?);
        }
        Ok(copy)
    }
}

/// Of lists of the shim.
pub(crate) trait ListCalls<T> {
    fn keep_where<F: FnMut(&T) -> bool>(&mut self, keep: F);
}

impl<T> ListCalls<T> for shim::Vec<T> {
    fn keep_where<F: FnMut(&T) -> bool>(&mut self, keep: F) {
        self.retain(keep);
    }
}

/// Of versions; what only tests call is there for them.
pub(crate) trait VersionCalls: Sized {
    fn read(text: &str) -> Result<Self, shim::semver::Error>;
    #[cfg(test)]
    fn into_version(self) -> shim::semver::Version;
    #[cfg(test)]
    fn build(&self) -> &str;
    fn from_version(version: shim::semver::Version) -> Result<Self, AllocError>;
    fn as_version(&self) -> shim::semver::Version;
    fn major(&self) -> u64;
    fn minor(&self) -> u64;
    fn patch(&self) -> u64;
    fn pre(&self) -> &str;
}

impl VersionCalls for Version {
    fn read(text: &str) -> Result<Version, shim::semver::Error> {
        Ok(Version::from_version(shim::semver::Version::parse(text)?)?)
    }

    #[cfg(test)]
    fn into_version(self) -> shim::semver::Version {
        shim::semver::Version::from(self)
    }

    #[cfg(test)]
    fn build(&self) -> &str {
        self.build.as_str()
    }

    fn from_version(version: shim::semver::Version) -> Result<Version, AllocError> {
        let pre = Prerelease::new(version.pre.as_str());
        let build = BuildMetadata::new(version.build.as_str());
        Ok(Version {
            major: version.major,
            minor: version.minor,
            patch: version.patch,
            pre: pre.expect("that of a version"),
            build: build.expect("that of a version"),
        })
    }

    fn as_version(&self) -> shim::semver::Version {
        shim::semver::Version::from(self.clone())
    }

    fn major(&self) -> u64 {
        self.major
    }

    fn minor(&self) -> u64 {
        self.minor
    }

    fn patch(&self) -> u64 {
        self.patch
    }

    fn pre(&self) -> &str {
        self.pre.as_str()
    }
}

impl TryClone for Version {
    fn try_clone(&self) -> Result<Version, AllocError> {
        Ok(self.clone())
    }
}
