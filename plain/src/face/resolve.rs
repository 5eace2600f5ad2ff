//! The graph, and what changes it.

use crate::made::wit_data::{
    PackageId, SourceMap, TrackRule, UnresolvedPackage, UnresolvedPackageGroup, WorldId, WorldItem, WorldKey,
};
use crate::made::wit_graph_data::{Features, Graph, ResolveError, ResolveResult};
use crate::made::wit_graph_faults::GraphFault;
use crate::made::wit_items::{ShapeFault, find_shape_fault};
use crate::made::wit_link::Remap;
use crate::made::wit_resolve_graph as made;
use crate::made::wit_resolve_graph::{ParseFault, SourceFault};
use crate::values::{Items, TryClone};
use std::fmt;
use std::ops::Deref;

/// Packages whose names are looked up: a graph that is valid after every call, with features, files and the rule by which
/// versions stand on one track.
///
/// It derefs to its [`Graph`], whose fields `packages`, `interfaces`, `types`, `worlds` and `package_names` are read as
/// wit-parser's: `resolve.types[id]` is the type of an id, `&resolve.worlds` walks the worlds with their ids. No caller can
/// write them, so that the graph stays valid.
///
/// An id is an index in the list of its graph. One of another graph names whatever stands at that index; one that is past
/// the list's end panics.
///
/// Source: `Resolve` of wit-parser 0.263.0.
pub struct Resolve {
    pub(super) inner: made::Resolve,
}

/// What a call answers whose only refusal is want of memory.
pub(super) fn answered<T, E: fmt::Debug>(answer: Result<T, E>) -> T {
    answer.expect("memory for an answer")
}

impl Resolve {
    /// Nothing: no package, no feature, no file, and the published rule of tracks.
    pub fn new() -> Resolve {
        Resolve {
            inner: made::Resolve::new(),
        }
    }

    /// The `Resolve` of a graph with what stands beside it; None where the graph isn't valid: where an id is out of range,
    /// a thing isn't where its owner has it, something depends on itself, or a world isn't canonical.
    ///
    /// Clause: `of_graph` answers a graph exactly where `IsValid` holds of it.
    pub fn of_graph(graph: Graph, features: Features, source_map: SourceMap, track_rule: TrackRule) -> Option<Resolve> {
        let made = made::Resolve::of_graph(graph, features, source_map, track_rule);
        answered(made).map(|inner| Resolve { inner })
    }

    /// The same, or why the graph isn't valid.
    ///
    /// Clauses of `of_graph_or_fault`: the fault is the first clause of `IsValid` that the graph breaks, and the first thing
    /// that breaks it (`IsGraphFault`).
    pub fn of_graph_or_fault(
        graph: Graph,
        features: Features,
        source_map: SourceMap,
        track_rule: TrackRule,
    ) -> Result<Resolve, GraphFault> {
        let made = made::Resolve::of_graph_or_fault(graph, features, source_map, track_rule);
        answered(made).map(|inner| Resolve { inner })
    }

    /// The graph itself.
    ///
    /// Clause `valid` of `graph`: it is valid (`IsValid`).
    pub fn graph(&self) -> &Graph {
        self.inner.graph()
    }

    /// The features that are on.
    pub fn features(&self) -> &Features {
        self.inner.features()
    }

    /// Whether all features are on, named or not.
    pub fn all_features(&self) -> bool {
        self.inner.all_features()
    }

    /// The files in which the spans stand.
    pub fn source_map(&self) -> &SourceMap {
        self.inner.source_map()
    }

    /// The rule by which versions stand on one track.
    pub fn track_rule(&self) -> TrackRule {
        self.inner.track_rule()
    }

    /// Turns a feature on. One that is on stays so.
    pub fn add_feature(&mut self, name: &str) {
        answered(self.inner.add_feature(name));
    }

    /// Turns all features on, named or not, or leaves those that are named.
    pub fn set_all_features(&mut self, all: bool) {
        self.inner.set_all_features(all);
    }

    /// Sets the rule by which versions stand on one track.
    pub fn set_track_rule(&mut self, rule: TrackRule) {
        self.inner.set_track_rule(rule);
    }

    /// Panics unless the graph is valid, which it is after every call.
    pub fn assert_valid(&self) {
        assert!(answered(self.inner.assert_valid()), "the graph of a `Resolve` is valid");
    }
}

/// What adds packages. A package that lacks its shape is refused without a number: see [`ShapeFault`].
impl Resolve {
    /// Puts the files of a source map at the end of this one's, and answers the position where they begin.
    ///
    /// Refused where the end would pass 4294967295 (27); nothing has changed then.
    pub fn push_source_map(&mut self, source_map: SourceMap) -> ResolveResult<u32> {
        self.inner.push_source_map(source_map)
    }

    /// Adds a package, its spans moved by so many positions, and answers its id. The sources stay as they are.
    ///
    /// Refused for the reasons 1 to 5, 7 to 18 and 27; nothing has changed then.
    ///
    /// Clauses `ok`, `err` and `refuses` of `push`: what is added is exactly what `Pushed` says, and it is refused exactly
    /// for what `PushCause` lists.
    pub fn push(&mut self, package: UnresolvedPackage, span_offset: u32) -> ResolveResult<PackageId> {
        has_shape(&package)?;
        self.inner.push(package, span_offset)
    }

    /// Adds the packages of a group, the nested ones and the main one, and its files; answers the main package's id.
    ///
    /// It is [`push_groups`](Resolve::push_groups) with this group alone.
    pub fn push_group(&mut self, group: UnresolvedPackageGroup) -> ResolveResult<PackageId> {
        self.push_groups(group, Vec::new())
    }

    /// Adds the packages of groups, each after those of them that it depends on and else in the order of their names, and
    /// puts their files at the end of the source map, the main group's first. Answers the id of the main group's main
    /// package.
    ///
    /// Refused where two packages have one name (5), where they depend on each other (6), where the files end past
    /// 4294967295 (27), and as [`push`](Resolve::push) where one of them is. The packages are as before then.
    ///
    /// Clauses `ok`, `err` and `refuses` of `push_groups`: `PushesGroups`, `RefusesGroups`, `IsGroupsCause`.
    pub fn push_groups(
        &mut self,
        main: UnresolvedPackageGroup,
        deps: Vec<UnresolvedPackageGroup>,
    ) -> ResolveResult<PackageId> {
        let groups = [&main].into_iter().chain(&deps);
        for package in groups.flat_map(packages_of) {
            has_shape(package)?;
        }
        self.inner.push_groups(main, Items::from(deps))
    }

    /// Adds what `parse` makes of a file, as `push_group` does, and answers the main package's id. The parse is given the
    /// source map of this file alone.
    ///
    /// Refused as [`push_group`](Resolve::push_group), and where the parse can't read the file: that is told at the place
    /// of its span.
    pub fn push_source(
        &mut self,
        path: &str,
        contents: &str,
        parse: impl FnOnce(SourceMap) -> Result<UnresolvedPackageGroup, ParseFault>,
    ) -> Result<PackageId, SourceFault> {
        let mut unshaped = None;
        let pushed = self.inner.push_source(path, contents, |map| {
            let group = parse(map)?;
            unshaped = packages_of(&group).find_map(|it| has_shape(it).err());
            // what is asked for here is answered below
            if unshaped.is_some() {
                Err(ParseFault::OutOfMemory)
            } else {
                Ok(group)
            }
        });
        unshaped.map_or(pushed, |fault| Err(SourceFault::Resolve(fault)))
    }
}

/// What changes packages that are there.
impl Resolve {
    /// Makes one of this and another: packages match by name, and what matches is made one, all else comes behind what is
    /// there. Answers where the things of the other stand now.
    ///
    /// Refused for the reasons 4, 6, 8, 15, 22, 24 and 27. The graph is as before then.
    ///
    /// Clauses `ok`, `err` and `refuses` of `merge`: `Merges`, `RefusesMerge`, `IsMergeCause`.
    pub fn merge(&mut self, other: Resolve) -> ResolveResult<Remap> {
        self.inner.merge(other.inner)
    }

    /// Makes the exports of a world its imports, and drops its imports first. It gets the name `out`, or its own with
    /// `-importized` behind it.
    ///
    /// Refused for the reasons 19 and 20; nothing has changed then.
    ///
    /// # Panics
    ///
    /// Where the world isn't there.
    pub fn importize(&mut self, world: WorldId, out: Option<String>) -> ResolveResult<()> {
        self.has_world(world);
        self.inner.importize(world, out.map(Into::into))
    }

    /// Makes the imports of a world its exports, those for which the filter answers true, or all without one. It gets the
    /// name `out`, or its own with `-exportized` behind it.
    ///
    /// Refused for the reasons 4, 20 and 21; nothing has changed then.
    ///
    /// # Panics
    ///
    /// Where the world isn't there.
    #[allow(clippy::type_complexity, reason = "the type that wit-parser has")]
    pub fn exportize(
        &mut self,
        world: WorldId,
        out: Option<String>,
        filter: Option<&dyn Fn(&WorldKey, &WorldItem) -> bool>,
    ) -> ResolveResult<()> {
        self.has_world(world);
        self.inner.exportize(world, out.map(Into::into), filter)
    }

    /// Leaves of the imports of a world the greatest version on each track, by the [rule](Resolve::track_rule).
    ///
    /// Refused for the reasons 4, 6, 22, 23 and 25; nothing has changed then.
    ///
    /// # Panics
    ///
    /// Where the world isn't there.
    pub fn merge_world_imports_based_on_semver(&mut self, world: WorldId) -> ResolveResult<()> {
        self.has_world(world);
        self.inner.merge_world_imports_based_on_semver(world)
    }

    fn has_world(&self, world: WorldId) {
        let (index, len) = (world.index(), self.worlds.len());
        assert!(index < len, "world {index} of a graph with {len} worlds");
    }
}

fn packages_of(group: &UnresolvedPackageGroup) -> impl Iterator<Item = &UnresolvedPackage> {
    group.nested.as_slice().iter().chain([&group.main])
}

/// Refuses a package that lacks its shape, which every call that adds one asks for.
fn has_shape(package: &UnresolvedPackage) -> ResolveResult<()> {
    match answered(find_shape_fault(package)) {
        None => Ok(()),
        Some(fault) => Err(unshaped(package, fault)),
    }
}

fn unshaped(package: &UnresolvedPackage, fault: ShapeFault) -> ResolveError {
    let message = format!("package `{}`: {fault}", package.name);
    ResolveError::new_semantic(package.package_name_span, message)
}

impl Default for Resolve {
    fn default() -> Resolve {
        Resolve::new()
    }
}

impl Clone for Resolve {
    fn clone(&self) -> Resolve {
        let inner = answered(self.inner.try_clone());
        Resolve { inner }
    }
}

impl fmt::Debug for Resolve {
    fn fmt(&self, f: &mut fmt::Formatter<'_>) -> fmt::Result {
        self.inner.fmt(f)
    }
}

impl Deref for Resolve {
    type Target = Graph;

    fn deref(&self) -> &Graph {
        self.graph()
    }
}
