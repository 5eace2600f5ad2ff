//! Lists, which ids index where their things have ids.

use super::try_clone::TryClone;
use crate::shim;
use crate::shim::alloc::AllocError;
use std::marker::PhantomData;
use std::ops::{Deref, DerefMut, Index, IndexMut};
use std::slice::SliceIndex;
use std::{fmt, iter, mem, slice, vec};

/// A list: a `Vec`, to which it derefs. Of what has ids, as types have, it is an [`Arena`].
#[derive(Clone, PartialEq, Eq, PartialOrd, Ord, Hash)]
pub struct Items<T> {
    inner: Vec<T>,
}

/// A list of things that have ids: `resolve.types[id]` is the type of an id, and `resolve.types.iter()` gives each with
/// its id.
///
/// Source: `Arena` of the crate `id-arena`, which wit-parser 0.263.0 re-exports.
pub type Arena<T> = Items<T>;

/// What stands in lists under ids: types, interfaces, worlds and packages.
pub trait Listed: Sized {
    /// Its id.
    type Id: Copy;

    /// The id of the thing at an index.
    fn id(index: usize) -> Self::Id;

    /// The index of an id.
    fn index(id: Self::Id) -> usize;
}

/// What says where a thing stands in its list: its id, or an index.
pub trait Place<T> {
    /// The index, from 0.
    fn place(self) -> usize;
}

impl<T> Place<T> for usize {
    fn place(self) -> usize {
        self
    }
}

/// The things of a list, in order, each with its id.
pub struct ArenaIter<'a, T> {
    rest: iter::Enumerate<slice::Iter<'a, T>>,
    of: PhantomData<T>,
}

impl<'a, T: Listed> Iterator for ArenaIter<'a, T> {
    type Item = (T::Id, &'a T);

    fn next(&mut self) -> Option<(T::Id, &'a T)> {
        let (index, item) = self.rest.next()?;
        Some((T::id(index), item))
    }

    fn size_hint(&self) -> (usize, Option<usize>) {
        self.rest.size_hint()
    }
}

impl<'a, T: Listed> DoubleEndedIterator for ArenaIter<'a, T> {
    fn next_back(&mut self) -> Option<(T::Id, &'a T)> {
        let (index, item) = self.rest.next_back()?;
        Some((T::id(index), item))
    }
}

impl<T: Listed> ExactSizeIterator for ArenaIter<'_, T> {}

impl<T> Items<T> {
    /// The empty list, which takes no memory.
    pub fn new() -> Items<T> {
        Items { inner: Vec::new() }
    }

    /// The things, in order.
    pub fn as_slice(&self) -> &[T] {
        &self.inner
    }

    /// The `Vec` that it is.
    pub fn into_std(self) -> Vec<T> {
        self.inner
    }
}

impl<T: Listed> Items<T> {
    /// Adds a thing at the end, and gives its id.
    pub fn alloc(&mut self, item: T) -> T::Id {
        self.inner.push(item);
        T::id(self.inner.len() - 1)
    }

    /// The id that the next thing gets.
    pub fn next_id(&self) -> T::Id {
        T::id(self.inner.len())
    }
}

// What the source calls, where a `Vec` has it with another type. Outside of this crate the calls of `Vec` are met.
impl<T> Items<T> {
    pub(crate) fn from_vec(items: shim::Vec<T>) -> Items<T> {
        Items {
            inner: items.into_std(),
        }
    }

    pub(crate) fn into_vec(self) -> shim::Vec<T> {
        shim::Vec::from(self.inner)
    }

    pub(crate) fn push(&mut self, item: T) -> Result<(), AllocError> {
        if self.inner.len() == self.inner.capacity() {
            self.inner.try_reserve(1)?;
        }
        self.inner.push(item);
        Ok(())
    }

    pub(crate) fn make_room(&mut self, additional: usize) -> Result<(), AllocError> {
        Ok(self.inner.try_reserve(additional)?)
    }

    pub(crate) fn append(&mut self, other: Items<T>) -> Result<(), AllocError> {
        if self.inner.is_empty() {
            *self = other;
            return Ok(());
        }
        self.inner.try_reserve(other.inner.len())?;
        self.inner.extend(other.inner);
        Ok(())
    }

    pub(crate) fn at(&self, index: usize) -> &T {
        &self.inner[index]
    }

    pub(crate) fn at_mut(&mut self, index: usize) -> &mut T {
        &mut self.inner[index]
    }

    pub(crate) fn replace(&mut self, index: usize, item: T) -> T {
        mem::replace(&mut self.inner[index], item)
    }

    pub(crate) fn set(&mut self, index: usize, item: T) {
        self.inner[index] = item;
    }
}

impl<T> Default for Items<T> {
    fn default() -> Items<T> {
        Items::new()
    }
}

impl<T> Deref for Items<T> {
    type Target = Vec<T>;

    fn deref(&self) -> &Vec<T> {
        &self.inner
    }
}

impl<T> DerefMut for Items<T> {
    fn deref_mut(&mut self) -> &mut Vec<T> {
        &mut self.inner
    }
}

impl<T> From<Vec<T>> for Items<T> {
    fn from(items: Vec<T>) -> Items<T> {
        Items { inner: items }
    }
}

impl<T> From<Items<T>> for Vec<T> {
    fn from(items: Items<T>) -> Vec<T> {
        items.inner
    }
}

impl<T> FromIterator<T> for Items<T> {
    fn from_iter<I: IntoIterator<Item = T>>(items: I) -> Items<T> {
        Items {
            inner: items.into_iter().collect(),
        }
    }
}

impl<T> Extend<T> for Items<T> {
    fn extend<I: IntoIterator<Item = T>>(&mut self, items: I) {
        self.inner.extend(items);
    }
}

impl<T, I: SliceIndex<[T]>> Index<I> for Items<T> {
    type Output = I::Output;

    fn index(&self, index: I) -> &I::Output {
        &self.inner[index]
    }
}

impl<T, I: SliceIndex<[T]>> IndexMut<I> for Items<T> {
    fn index_mut(&mut self, index: I) -> &mut I::Output {
        &mut self.inner[index]
    }
}

impl<T: fmt::Debug> fmt::Debug for Items<T> {
    fn fmt(&self, f: &mut fmt::Formatter<'_>) -> fmt::Result {
        self.inner.fmt(f)
    }
}

impl<T: TryClone> TryClone for Items<T> {
    fn try_clone(&self) -> Result<Items<T>, AllocError> {
        let mut copy = Items::new();
        copy.inner.try_reserve_exact(self.inner.len())?;
        for item in &self.inner {
            copy.inner.push(item.try_clone()?);
        }
        Ok(copy)
    }
}

/// Lists of things without ids: they are walked as a `Vec` is.
macro_rules! lists {
    ($($of:ty),+ $(,)?) => { $(
        impl IntoIterator for Items<$of> {
            type Item = $of;
            type IntoIter = vec::IntoIter<$of>;

            fn into_iter(self) -> vec::IntoIter<$of> {
                self.inner.into_iter()
            }
        }

        impl<'a> IntoIterator for &'a Items<$of> {
            type Item = &'a $of;
            type IntoIter = slice::Iter<'a, $of>;

            fn into_iter(self) -> slice::Iter<'a, $of> {
                self.inner.iter()
            }
        }

        impl<'a> IntoIterator for &'a mut Items<$of> {
            type Item = &'a mut $of;
            type IntoIter = slice::IterMut<'a, $of>;

            fn into_iter(self) -> slice::IterMut<'a, $of> {
                self.inner.iter_mut()
            }
        }
    )+ };
}

/// Lists of things with ids: ids index them, and they are walked with them.
macro_rules! arenas {
    ($($of:ty, $id:ty;)+) => { $(
        impl Listed for $of {
            type Id = $id;

            fn id(index: usize) -> $id {
                <$id>::from_index(index)
            }

            fn index(id: $id) -> usize {
                id.index()
            }
        }

        impl Place<$of> for $id {
            fn place(self) -> usize {
                self.index()
            }
        }

        impl Items<$of> {
            /// The thing of an id, or at an index; None where there is none.
            pub fn get(&self, place: impl Place<$of>) -> Option<&$of> {
                self.inner.get(place.place())
            }

            /// The thing of an id, or at an index, to change; None where there is none.
            pub fn get_mut(&mut self, place: impl Place<$of>) -> Option<&mut $of> {
                self.inner.get_mut(place.place())
            }

            /// All things, in order, each with its id.
            pub fn iter(&self) -> ArenaIter<'_, $of> {
                let rest = self.inner.iter().enumerate();
                ArenaIter { rest, of: PhantomData }
            }

            /// All things, in order, each with its id, to change.
            pub fn iter_mut(&mut self) -> impl Iterator<Item = ($id, &mut $of)> {
                let all = self.inner.iter_mut().enumerate();
                all.map(|(index, item)| (<$of>::id(index), item))
            }
        }

        /// The thing of an id. It panics where there is none.
        impl Index<$id> for Items<$of> {
            type Output = $of;

            fn index(&self, id: $id) -> &$of {
                &self.inner[id.index()]
            }
        }

        impl IndexMut<$id> for Items<$of> {
            fn index_mut(&mut self, id: $id) -> &mut $of {
                &mut self.inner[id.index()]
            }
        }

        impl<'a> IntoIterator for &'a Items<$of> {
            type Item = ($id, &'a $of);
            type IntoIter = ArenaIter<'a, $of>;

            fn into_iter(self) -> ArenaIter<'a, $of> {
                self.iter()
            }
        }
    )+ };
}

use crate::made::wit_data as data;
use crate::made::wit_graph_data::Package;

arenas! {
    data::TypeDef, data::TypeId;
    data::Interface, data::InterfaceId;
    data::World, data::WorldId;
    Package, data::PackageId;
}

lists! {
    data::Field, data::Flag, data::Case, data::EnumCase, data::Type, data::Param, data::WorldInclude, data::IncludeName,
    data::Stability, data::Span, data::PackageName, data::UnresolvedPackage, data::UnresolvedPackageGroup,
    (data::TypeId, data::Span), String,
}
