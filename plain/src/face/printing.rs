//! Graphs as WIT text.

use super::resolve::answered;
use crate::made::wit_data::PackageId;
use crate::made::wit_graph_data::Graph;
use crate::made::wit_print;

/// A package as the WIT text of a file; empty where it isn't there.
///
/// The text reads back as the same package, unless that has something that WIT can't say: the head of
/// `crates/wit_print/src/lib.rt` lists it.
///
/// Clause of `print_package`: the text is `package_wit` of these.
pub fn print_package(graph: &Graph, id: PackageId) -> String {
    answered(wit_print::print_package(graph, id)).into_std()
}

/// All packages as the WIT text of one file: this one as [`print_package`] has it, then the others, each in braces.
///
/// Clause of `print_graph`: the text is `graph_wit` of these.
pub fn print_graph(graph: &Graph, id: PackageId) -> String {
    answered(wit_print::print_graph(graph, id)).into_std()
}
