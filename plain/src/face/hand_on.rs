//! Values handed on from what reads to what writes, one by one.

use serde::de::{DeserializeSeed, Error as _, MapAccess, SeqAccess, Visitor};
use serde::ser::{Error as _, SerializeMap, SerializeSeq};
use serde::{Deserializer, Serialize, Serializer};
use std::cell::Cell;
use std::fmt;

/// Writes what is read.
pub(super) fn hand_on<'de, D: Deserializer<'de>, S: Serializer>(from: D, to: S) -> Result<S::Ok, S::Error> {
    from.deserialize_any(Writing(to)).map_err(S::Error::custom)
}

/// What is still to be read, as something to be written, once.
struct Unread<D>(Cell<Option<D>>);

impl<D> Unread<D> {
    fn new(from: D) -> Unread<D> {
        Unread(Cell::new(Some(from)))
    }
}

impl<'de, D: Deserializer<'de>> Serialize for Unread<D> {
    fn serialize<S: Serializer>(&self, to: S) -> Result<S::Ok, S::Error> {
        let from = self.0.take().expect("it is written once");
        hand_on(from, to)
    }
}

/// Writes each value that is met.
struct Writing<S>(S);

macro_rules! written {
    ($($visit:ident, $serialize:ident, $of:ty;)+) => { $(
        fn $visit<E: serde::de::Error>(self, value: $of) -> Result<S::Ok, E> {
            self.0.$serialize(value).map_err(E::custom)
        }
    )+ };
}

impl<'de, S: Serializer> Visitor<'de> for Writing<S> {
    type Value = S::Ok;

    fn expecting(&self, f: &mut fmt::Formatter<'_>) -> fmt::Result {
        f.write_str("a value as in JSON")
    }

    written! {
        visit_bool, serialize_bool, bool;
        visit_i64, serialize_i64, i64;
        visit_u64, serialize_u64, u64;
        visit_f64, serialize_f64, f64;
        visit_str, serialize_str, &str;
    }

    fn visit_unit<E: serde::de::Error>(self) -> Result<S::Ok, E> {
        self.0.serialize_none().map_err(E::custom)
    }

    fn visit_none<E: serde::de::Error>(self) -> Result<S::Ok, E> {
        self.0.serialize_none().map_err(E::custom)
    }

    fn visit_some<D: Deserializer<'de>>(self, from: D) -> Result<S::Ok, D::Error> {
        hand_on(from, self.0).map_err(D::Error::custom)
    }

    fn visit_seq<A: SeqAccess<'de>>(self, mut items: A) -> Result<S::Ok, A::Error> {
        let mut list = self.0.serialize_seq(items.size_hint()).map_err(A::Error::custom)?;
        while items.next_element_seed(Item(&mut list))?.is_some() {}
        list.end().map_err(A::Error::custom)
    }

    fn visit_map<A: MapAccess<'de>>(self, mut members: A) -> Result<S::Ok, A::Error> {
        let mut map = self.0.serialize_map(members.size_hint()).map_err(A::Error::custom)?;
        while members.next_key_seed(Key(&mut map))?.is_some() {
            members.next_value_seed(MemberValue(&mut map))?;
        }
        map.end().map_err(A::Error::custom)
    }
}

/// Writes a part as it is read.
macro_rules! part {
    ($name:ident, $of:ident, $serialize:ident) => {
        struct $name<'a, S>(&'a mut S);

        impl<'de, S: $of> DeserializeSeed<'de> for $name<'_, S> {
            type Value = ();

            fn deserialize<D: Deserializer<'de>>(self, from: D) -> Result<(), D::Error> {
                self.0.$serialize(&Unread::new(from)).map_err(D::Error::custom)
            }
        }
    };
}

part!(Item, SerializeSeq, serialize_element);
part!(Key, SerializeMap, serialize_key);
part!(MemberValue, SerializeMap, serialize_value);
