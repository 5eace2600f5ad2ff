//! The resolve layer of WIT, the interface language of WebAssembly components: the `Resolve` of wit-parser 0.263.0.
//!
//! It keeps packages, interfaces, types and worlds as a graph in which each name is a typed id. It adds packages and finds
//! what each world must import. It merges graphs, turns exports into imports and back, and merges a world's imports by
//! semver. Names and forms are those of wit-parser:
//!
//! ```
//! use wit_resolve_graph::*;
//!
//! // a package with an interface and a world that imports it
//! let mut package = UnresolvedPackage::new(PackageName::new("my".to_owned(), "shop".to_owned(), None));
//! let cart = package.interfaces.alloc(Interface::new(Some("cart".to_owned())));
//! let mut world = World::new("client".to_owned());
//! world.imports.insert(WorldKey::Interface(cart), WorldItem::interface(cart));
//! package.worlds.alloc(world);
//!
//! let mut resolve = Resolve::new();
//! let id = resolve.push(package, 0)?;
//! let world = resolve.select_world(&[id], None)?;
//! for (key, _) in resolve.worlds[world].imports.iter() {
//!     assert_eq!(resolve.name_world_key(key), "my:shop/cart");
//! }
//! # Ok::<(), ResolveError>(())
//! ```
//!
//! [`Resolve::push_path`] and its kin read WIT text. Packages may also come from wit-parser, as the crate
//! `wit-resolve-graph-parser` hands them over, from [JSON](json), or be built.
//!
//! # What is promised
//!
//! 1. **No type, interface or package depends on itself** (`IsValid`).
//! 2. **Every world is canonical.** It keeps its labels and export keys as listed. It imports exactly the least set of
//!    interfaces that holds the listed ones and all that its imports, types and exports need from outside, dependencies
//!    first (`IsValid`, `Elaborated`).
//! 3. **A call is refused exactly for one of its listed reasons**, each with a [number](ResolveError::number); then nothing
//!    has changed but the source map (`PushesGroups`, `Merges`, `Importized`, `Exportized`, and the causes of each).
//!
//! A merge makes types of one name one type only where they have the same structure, and else says where they first differ
//! (`Matches`). Where two graphs can be merged in either order, both orders give the same names, labels and keys.
//!
//! The names in brackets are those of definitions in the repository: `docs/GUARANTEES.md` has the clause of each promise,
//! `docs/DEFINITIONS.md` the definitions, `docs/REFUSALS.md` the numbers.
//!
//! # What is trusted
//!
//! The promises are proved of the source, which is written in Rattle, Rust with contracts. **This crate is made from it** by
//! a tool, `tools/plain-rust`, which deletes contracts and respells what Rust writes otherwise. Nothing is proved of what
//! comes out, so for this crate all of these are trusted:
//!
//! - the tool, and that rustc reads what it writes as Rattle reads the source;
//! - what is written by hand: the face (this page's calls, JSON's and serde's), lists and tables, the shim in the place of
//!   Rattle's standard library, and its reader and writer of JSON;
//! - rustc, std, `indexmap` and `semver`.
//!
//! It is tested beside the proved programs: the project's tests, its worked cases, random scripts and documents give the
//! same bytes. It has no unsafe code.
//!
//! # What a call asks
//!
//! Where the source has a condition, a call here asks it. A package that lacks its shape ([`ShapeFault`]) is refused without
//! a number. An id that isn't there, and a core name of what has none, panic with a message, as in wit-parser. An id of
//! another graph isn't noticed where it is in range.
//!
//! Where memory runs out the process ends, as in most of Rust: no call answers that alone. A graph is read through
//! [`Resolve`] and changed by its calls alone.
//!
//! # Features
//!
//! `serde`: [`Resolve`], [`Graph`], packages and all that they hold are written and read by serde, in the layout of
//! [JSON](json).
#![forbid(unsafe_code)]

mod face;
mod made;
mod shim;
mod values;

#[doc(hidden)]
pub mod programs;

pub use crate::face::Resolve;
pub use crate::face::json;
pub use crate::face::{FileError, PackageSources};
pub use crate::face::{print_graph, print_package};
pub use crate::made::wit_core_names::{
    FutureIntrinsic, ResourceIntrinsic, StreamIntrinsic, WasmExport, WasmExportKind, WasmImport,
};
pub use crate::made::wit_data::kinds::{Enum, Flags, Record, Result_, Tuple, Variant};
pub use crate::made::wit_data::{
    AccessorKind, AstItem, Case, Docs, EnumCase, Field, Flag, Function, FunctionKind, Handle, Id, IncludeName,
    Interface, InterfaceId, LiftLowerAbi, ManglingAndAbi, MapFault, PackageId, PackageName, Param, SourceMap, Span,
    Stability, TrackRule, Type, TypeDef, TypeDefKind, TypeId, TypeOwner, UnresolvedPackage, UnresolvedPackageGroup,
    World, WorldId, WorldInclude, WorldItem, WorldKey,
};
pub use crate::made::wit_graph_data::{Cause, Features, Graph, Package, ResolveError, ResolveErrorKind, ResolveResult};
pub use crate::made::wit_graph_faults::{GraphClause, GraphFault, GraphPlace};
pub use crate::made::wit_items::{ShapeClause, ShapeFault, ShapePlace};
pub use crate::made::wit_link::Remap;
pub use crate::made::wit_resolve_graph::{ParseFault, SourceFault};
pub use crate::values::{Arena, ArenaIter, Items, Listed, NameSet, Place};
pub use indexmap::{IndexMap, IndexSet};
pub use semver::Version;
