//! Packages that wit-parser 0.263 reads, for [wit-resolve-graph](wit_resolve_graph), and its graphs for whatever takes a
//! `wit_parser::Resolve`.
//!
//! [`parse`] reads a file of WIT where a [`Resolve`](wit_resolve_graph::Resolve) pushes it:
//!
//! ```no_run
//! use wit_resolve_graph::Resolve;
//!
//! let text = std::fs::read_to_string("wit/world.wit")?;
//! let mut resolve = Resolve::new();
//! let package = resolve.push_source("wit/world.wit", &text, wit_resolve_graph_parser::parse)?;
//! let world = resolve.select_world(&[package], None)?;
//!
//! // what takes a graph of wit-parser takes this one
//! let given: wit_parser::Resolve = wit_resolve_graph_parser::into_parser::resolve(&resolve);
//! assert_eq!(given.worlds.len(), resolve.worlds.len());
//! # Ok::<(), Box<dyn std::error::Error>>(())
//! ```
//!
//! [`from_parser`] makes graphs and groups of wit-parser's, [`into_parser`] wit-parser's of these. Ids keep their indices.
//!
//! # What can't be had
//!
//! - wit-parser keeps the texts of a `SourceMap` to itself, so who hands over one of its groups or graphs hands over a
//!   [`SourceMap`](wit_resolve_graph::SourceMap) with the same files beside it. [`parse`] does so.
//! - Four fields of an `UnresolvedPackage` are taken as its own: the spans of the name, of the packages and of the types
//!   that are named, and the types that must be resources. So no package is made for wit-parser, and of one that it has made
//!   those fields are [made of the rest](from_parser::group). Over a wit-parser in which they are public the feature `open`
//!   hands on every field, both ways.
//! - `Interface::clone_of` is left out: it serves `generate_nominal_type_ids`, which wit-resolve-graph hasn't.
//! - A rule of tracks other than the published one is left out of a graph that is given to wit-parser.
//!
//! Nothing here is proved: it is Rust as any other, which takes data field by field. What wit-parser made is asked for its
//! shape where it is pushed, and a graph of it for its validity.
//!
//! It was compiled and tried over wit-parser's `resolve/mod.rs` and `resolve/error.rs` with data items written for these,
//! which read no WIT. The published crate wasn't at hand.

mod ids;

pub mod from_parser;
pub mod into_parser;

use wit_resolve_graph::{ParseFault, SourceMap, Span, UnresolvedPackageGroup};

/// Reads the files of a source map by wit-parser, as `push_source` of a `Resolve` asks.
pub fn parse(source_map: SourceMap) -> Result<UnresolvedPackageGroup, ParseFault> {
    match into_parser::source_map(&source_map).parse() {
        Ok(group) => Ok(from_parser::group(&group, source_map)),
        Err((_, error)) => Err(ParseFault::Text {
            source_map,
            span: Span::default(),
            message: error.to_string(),
        }),
    }
}
