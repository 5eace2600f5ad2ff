//! Calls of wit-parser on its data.

use super::resolve::{Resolve, answered};
use crate::made::wit_data::{
    Docs, Function, MapFault, PackageName, SourceMap, Span, Stability, TrackRule, Type, UnresolvedPackage, WorldItem,
    WorldKey,
};
use crate::made::wit_graph_data::{Features, Graph};
use crate::made::witgraph_calls::Session;
use crate::values::Items;
use indexmap::IndexMap;
use semver::Version;

impl Default for Docs {
    fn default() -> Docs {
        Docs::none()
    }
}

impl Default for Graph {
    fn default() -> Graph {
        Graph::new()
    }
}

impl Default for Features {
    fn default() -> Features {
        Features::new()
    }
}

impl Default for Session {
    fn default() -> Session {
        Session::new()
    }
}

impl Docs {
    /// Whether there is none.
    pub fn is_empty(&self) -> bool {
        self.contents.is_none()
    }
}

impl PackageName {
    /// The track of a version, as a version: of 1.2.3 it is 1.0.0, of 0.2.3 0.2.0, of 0.0.3 0.0.3; of a pre-release it is
    /// itself, without its build metadata. And what it leaves out of the version's text.
    pub fn version_compat_track(version: &Version) -> (Version, Option<String>) {
        let (track, rest) = answered(PackageName::try_version_compat_track(version));
        (track, rest.map(|it| it.into_std()))
    }

    /// The text of a version's track, and what it leaves out of the version's text.
    pub fn version_compat_track_string(version: &Version) -> (String, Option<String>) {
        let (track, rest) = answered(PackageName::try_version_compat_track_string(version));
        (track.into_std(), rest.map(|it| it.into_std()))
    }

    /// The track of a version by a rule.
    pub fn track_by(version: &Version, rule: TrackRule) -> Version {
        answered(PackageName::try_track_by(version, rule))
    }
}

impl SourceMap {
    /// Adds a file at the end.
    ///
    /// Refused where it would end past 4294967295; nothing has changed then.
    pub fn push_str(&mut self, path: &str, contents: impl Into<String>) -> Result<(), MapFault> {
        self.try_push_str(path, contents.into().into())
    }

    /// Where a span begins, as `path:line:column`; `<unknown>` of a span that is unknown or behind the files.
    pub fn render_location(&self, span: Span) -> String {
        answered(self.try_render_location(span)).into_std()
    }

    /// A text with the line in which a span begins; None where that is unknown.
    pub fn highlight_span(&self, span: Span, text: &str) -> Option<String> {
        answered(self.try_highlight_span(span, text)).map(|it| it.into_std())
    }
}

impl Function {
    /// The types of its parameters and of its result, in order.
    pub fn parameter_and_result_types(&self) -> impl Iterator<Item = Type> + '_ {
        let params = self.params.iter().map(|it| it.ty);
        params.chain(self.result)
    }
}

impl WorldKey {
    /// The label.
    ///
    /// # Panics
    ///
    /// Where it is an interface.
    #[track_caller]
    pub fn unwrap_name(self) -> String {
        match self {
            WorldKey::Name(name) => name,
            WorldKey::Interface(_) => panic!("expected a name, found interface"),
        }
    }
}

impl WorldItem {
    /// The gate of the entry; of a type that of the type.
    pub fn stability<'a>(&'a self, resolve: &'a Resolve) -> &'a Stability {
        match self {
            WorldItem::Interface { stability, .. } => stability,
            WorldItem::Function(function) => &function.stability,
            WorldItem::Type { id, .. } => &resolve.types[*id].stability,
        }
    }

    /// Where the entry stands.
    pub fn span(&self) -> Span {
        match self {
            WorldItem::Interface { span, .. } | WorldItem::Type { span, .. } => *span,
            WorldItem::Function(function) => function.span,
        }
    }
}

impl UnresolvedPackage {
    /// A package of this name, in which nothing is yet.
    pub fn new(name: PackageName) -> UnresolvedPackage {
        UnresolvedPackage {
            name,
            package_name_span: Span::default(),
            docs: Docs::default(),
            worlds: Items::new(),
            interfaces: Items::new(),
            types: Items::new(),
            foreign_deps: IndexMap::new(),
            foreign_dep_spans: Items::new(),
            unknown_type_spans: Items::new(),
            required_resource_types: Items::new(),
        }
    }
}
