//! The traits of `serde`: a value is written and read as the project's JSON, whose text is handed on, value by value, to
//! whatever writes, and is made of whatever is read.

use super::hand_on::hand_on;
use super::json::read;
use super::resolve::{Resolve, answered};
use crate::made::wit_data as data;
use crate::made::wit_graph_data::{Features, Graph, Package};
use crate::made::wit_json::text_of;
use ::serde::de::Error as _;
use ::serde::{Deserialize, Deserializer, Serialize, Serializer};

fn write<S: Serializer>(text: &str, to: S) -> Result<S::Ok, S::Error> {
    hand_on(&mut serde_json::Deserializer::from_str(text), to)
}

fn text_read<'de, D: Deserializer<'de>>(from: D) -> Result<String, D::Error> {
    let mut text = Vec::new();
    hand_on(from, &mut serde_json::Serializer::new(&mut text)).map_err(D::Error::custom)?;
    String::from_utf8(text).map_err(D::Error::custom)
}

/// Types that the project writes and reads.
macro_rules! by_text {
    ($($of:ty),+ $(,)?) => { $(
        impl Serialize for $of {
            fn serialize<S: Serializer>(&self, to: S) -> Result<S::Ok, S::Error> {
                write(&answered(text_of(self)), to)
            }
        }

        impl<'de> Deserialize<'de> for $of {
            fn deserialize<D: Deserializer<'de>>(from: D) -> Result<$of, D::Error> {
                read(&text_read(from)?).map_err(D::Error::custom)
            }
        }
    )+ };
}

by_text! {
    data::TypeId, data::InterfaceId, data::WorldId, data::PackageId, data::PackageName, data::Stability, data::Span,
    data::Type, data::Handle, data::TypeOwner, data::Field, data::Case, data::Flag, data::EnumCase, data::TypeDefKind,
    data::TypeDef, data::FunctionKind, data::Param, data::Function, data::Interface, data::WorldItem, data::IncludeName,
    data::WorldInclude, data::World, data::AstItem, data::UnresolvedPackage, data::UnresolvedPackageGroup, data::SourceMap,
    data::TrackRule, Features, Package, Graph,
}

impl Serialize for Resolve {
    fn serialize<S: Serializer>(&self, to: S) -> Result<S::Ok, S::Error> {
        write(&self.to_json(), to)
    }
}

impl<'de> Deserialize<'de> for Resolve {
    fn deserialize<D: Deserializer<'de>>(from: D) -> Result<Resolve, D::Error> {
        Resolve::from_json(&text_read(from)?).map_err(D::Error::custom)
    }
}
