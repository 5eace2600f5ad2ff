//! Graphs and packages of wit-parser as those of wit-resolve-graph.

use wit_parser as wp;
use wit_resolve_graph as wr;

/// A graph with its features and files, of which wit-parser tells the paths alone: `source_map` has their texts. None
/// where it isn't valid, as one that was changed by hand may be.
pub fn resolve(from: &wp::Resolve, source_map: wr::SourceMap) -> Option<wr::Resolve> {
    let made = parts(from, source_map);
    wr::Resolve::of_graph(made.graph, made.features, made.source_map, made.track_rule)
}

/// What [`resolve`] is made of, whether the graph is valid or not.
pub fn parts(from: &wp::Resolve, source_map: wr::SourceMap) -> wr::json::ResolveParts {
    wr::json::ResolveParts {
        graph: graph(from),
        features: wr::Features {
            names: from.features.iter().cloned().collect(),
            all: from.all_features,
        },
        source_map,
        track_rule: wr::TrackRule::Published,
    }
}

/// The lists of a graph.
pub fn graph(from: &wp::Resolve) -> wr::Graph {
    let names = from.package_names.iter();
    wr::Graph {
        worlds: from.worlds.iter().map(|(_, it)| world(it)).collect(),
        interfaces: from.interfaces.iter().map(|(_, it)| interface(it)).collect(),
        types: from.types.iter().map(|(_, it)| type_def(it)).collect(),
        packages: from.packages.iter().map(|(_, it)| package(it)).collect(),
        package_names: names.map(|(name, id)| (package_name(name), id_of(*id))).collect(),
    }
}

/// A group with its files, of which wit-parser tells the paths alone: `source_map` has their texts.
///
/// Without the feature `open` some of a package is made of the rest: the spans of its name and of the packages that it names
/// are unknown, that of a type that it names is the type's own, and the types that must be resources are those of other
/// packages that handles name.
pub fn group(from: &wp::UnresolvedPackageGroup, source_map: wr::SourceMap) -> wr::UnresolvedPackageGroup {
    wr::UnresolvedPackageGroup {
        main: unresolved(&from.main),
        nested: from.nested.iter().map(unresolved).collect(),
        source_map,
    }
}

/// A package, in which what is named of other packages isn't looked up.
pub fn unresolved(from: &wp::UnresolvedPackage) -> wr::UnresolvedPackage {
    let mut made = wr::UnresolvedPackage {
        docs: docs(&from.docs),
        worlds: from.worlds.iter().map(|(_, it)| world(it)).collect(),
        interfaces: from.interfaces.iter().map(|(_, it)| interface(it)).collect(),
        types: from.types.iter().map(|(_, it)| type_def(it)).collect(),
        ..wr::UnresolvedPackage::new(package_name(&from.name))
    };
    for (name, items) in &from.foreign_deps {
        let items = items.iter().map(|(name, it)| (name.clone(), foreign(it)));
        made.foreign_deps.insert(package_name(name), items.collect());
    }
    add_what_is_kept(from, &mut made);
    made
}

fn foreign(from: &(wp::AstItem, Vec<wp::Stability>)) -> (wr::AstItem, wr::Items<wr::Stability>) {
    let item = match from.0 {
        wp::AstItem::Interface(id) => wr::AstItem::Interface(id_of(id)),
        wp::AstItem::World(id) => wr::AstItem::World(id_of(id)),
    };
    (item, from.1.iter().map(stability).collect())
}

/// The spans and the required resources of a package.
#[cfg(feature = "open")]
fn add_what_is_kept(from: &wp::UnresolvedPackage, made: &mut wr::UnresolvedPackage) {
    let required = from.required_resource_types.iter();
    made.package_name_span = span(from.package_name_span);
    made.foreign_dep_spans = from.foreign_dep_spans.iter().copied().map(span).collect();
    made.unknown_type_spans = from.unknown_type_spans.iter().copied().map(span).collect();
    made.required_resource_types = required.map(|(id, at)| (id_of(*id), span(*at))).collect();
}

#[cfg(not(feature = "open"))]
fn add_what_is_kept(_: &wp::UnresolvedPackage, made: &mut wr::UnresolvedPackage) {
    add_what_rest_tells(made);
}

/// The spans and the required resources of a package, made of what else is in it.
#[cfg(any(test, not(feature = "open")))]
fn add_what_rest_tells(made: &mut wr::UnresolvedPackage) {
    let count = made.foreign_deps.len();
    made.foreign_dep_spans = std::iter::repeat_n(wr::Span::default(), count).collect();
    for it in made.types.as_slice() {
        match it.kind {
            wr::TypeDefKind::Unknown => made.unknown_type_spans.push(it.span),
            wr::TypeDefKind::Handle(wr::Handle::Own(id) | wr::Handle::Borrow(id)) => {
                if let Some(unknown) = unknown_target(&made.types, id) {
                    made.required_resource_types.push((unknown, it.span));
                }
            }
            _ => {}
        }
    }
}

/// The type of another package that a name leads to, through other names; None where it is one of this package.
#[cfg(any(test, not(feature = "open")))]
fn unknown_target(types: &wr::Arena<wr::TypeDef>, id: wr::TypeId) -> Option<wr::TypeId> {
    let mut target = id;
    // as many steps as there are types lead through all names, where none names itself
    for _ in 0..types.len() {
        match types.get(target)?.kind {
            wr::TypeDefKind::Type(wr::Type::Id(next)) => target = next,
            wr::TypeDefKind::Unknown => return Some(target),
            _ => return None,
        }
    }
    None
}

fn id_of<T, U>(from: wp::Id<T>) -> wr::Id<U> {
    wr::Id::from_index(from.index())
}

fn package(from: &wp::Package) -> wr::Package {
    wr::Package {
        name: package_name(&from.name),
        docs: docs(&from.docs),
        interfaces: from
            .interfaces
            .iter()
            .map(|(name, it)| (name.clone(), id_of(*it)))
            .collect(),
        worlds: from
            .worlds
            .iter()
            .map(|(name, it)| (name.clone(), id_of(*it)))
            .collect(),
    }
}

fn package_name(from: &wp::PackageName) -> wr::PackageName {
    wr::PackageName {
        namespace: from.namespace.clone(),
        name: from.name.clone(),
        version: from.version.clone(),
    }
}

// small values

fn span(from: wp::Span) -> wr::Span {
    if from.is_known() {
        wr::Span::new(from.start(), from.end())
    } else {
        wr::Span::default()
    }
}

fn docs(from: &wp::Docs) -> wr::Docs {
    wr::Docs {
        contents: from.contents.clone(),
    }
}

fn stability(from: &wp::Stability) -> wr::Stability {
    match from.clone() {
        wp::Stability::Unknown => wr::Stability::Unknown,
        wp::Stability::Stable { since, deprecated } => wr::Stability::Stable { since, deprecated },
        wp::Stability::Unstable { feature, deprecated } => wr::Stability::Unstable { feature, deprecated },
    }
}

// types

fn ty(from: wp::Type) -> wr::Type {
    match from {
        wp::Type::Bool => wr::Type::Bool,
        wp::Type::U8 => wr::Type::U8,
        wp::Type::U16 => wr::Type::U16,
        wp::Type::U32 => wr::Type::U32,
        wp::Type::U64 => wr::Type::U64,
        wp::Type::S8 => wr::Type::S8,
        wp::Type::S16 => wr::Type::S16,
        wp::Type::S32 => wr::Type::S32,
        wp::Type::S64 => wr::Type::S64,
        wp::Type::F32 => wr::Type::F32,
        wp::Type::F64 => wr::Type::F64,
        wp::Type::Char => wr::Type::Char,
        wp::Type::String => wr::Type::String,
        wp::Type::ErrorContext => wr::Type::ErrorContext,
        wp::Type::Id(id) => wr::Type::Id(id_of(id)),
    }
}

fn type_def(from: &wp::TypeDef) -> wr::TypeDef {
    wr::TypeDef {
        name: from.name.clone(),
        kind: kind(&from.kind),
        owner: match from.owner {
            wp::TypeOwner::World(id) => wr::TypeOwner::World(id_of(id)),
            wp::TypeOwner::Interface(id) => wr::TypeOwner::Interface(id_of(id)),
            wp::TypeOwner::None => wr::TypeOwner::None,
        },
        docs: docs(&from.docs),
        stability: stability(&from.stability),
        span: span(from.span),
        external_id: from.external_id.clone(),
    }
}

fn kind(from: &wp::TypeDefKind) -> wr::TypeDefKind {
    let of = ty;
    let maybe = |it: &Option<wp::Type>| it.map(of);
    match from {
        wp::TypeDefKind::Record(it) => wr::TypeDefKind::Record(record(it)),
        wp::TypeDefKind::Resource => wr::TypeDefKind::Resource,
        wp::TypeDefKind::Handle(wp::Handle::Own(id)) => wr::TypeDefKind::Handle(wr::Handle::Own(id_of(*id))),
        wp::TypeDefKind::Handle(wp::Handle::Borrow(id)) => wr::TypeDefKind::Handle(wr::Handle::Borrow(id_of(*id))),
        wp::TypeDefKind::Flags(it) => wr::TypeDefKind::Flags(flags(it)),
        wp::TypeDefKind::Tuple(it) => wr::TypeDefKind::Tuple(wr::Tuple {
            types: it.types.iter().map(|it| ty(*it)).collect(),
        }),
        wp::TypeDefKind::Variant(it) => wr::TypeDefKind::Variant(variant(it)),
        wp::TypeDefKind::Enum(it) => wr::TypeDefKind::Enum(enumeration(it)),
        wp::TypeDefKind::Option(it) => wr::TypeDefKind::Option(of(*it)),
        wp::TypeDefKind::Result(it) => wr::TypeDefKind::Result(wr::Result_ {
            ok: maybe(&it.ok),
            err: maybe(&it.err),
        }),
        wp::TypeDefKind::List(it) => wr::TypeDefKind::List(of(*it)),
        wp::TypeDefKind::Map(key, value) => wr::TypeDefKind::Map(of(*key), of(*value)),
        wp::TypeDefKind::FixedLengthList(it, length) => wr::TypeDefKind::FixedLengthList(of(*it), *length),
        wp::TypeDefKind::Future(it) => wr::TypeDefKind::Future(maybe(it)),
        wp::TypeDefKind::Stream(it) => wr::TypeDefKind::Stream(maybe(it)),
        wp::TypeDefKind::Type(it) => wr::TypeDefKind::Type(of(*it)),
        wp::TypeDefKind::Unknown => wr::TypeDefKind::Unknown,
    }
}

fn record(from: &wp::Record) -> wr::Record {
    let field = |it: &wp::Field| wr::Field {
        name: it.name.clone(),
        ty: ty(it.ty),
        docs: docs(&it.docs),
        span: span(it.span),
    };
    wr::Record {
        fields: from.fields.iter().map(field).collect(),
    }
}

fn flags(from: &wp::Flags) -> wr::Flags {
    let flag = |it: &wp::Flag| wr::Flag {
        name: it.name.clone(),
        docs: docs(&it.docs),
        span: span(it.span),
    };
    wr::Flags {
        flags: from.flags.iter().map(flag).collect(),
    }
}

fn variant(from: &wp::Variant) -> wr::Variant {
    let case = |it: &wp::Case| wr::Case {
        name: it.name.clone(),
        ty: it.ty.map(ty),
        docs: docs(&it.docs),
        span: span(it.span),
    };
    wr::Variant {
        cases: from.cases.iter().map(case).collect(),
    }
}

fn enumeration(from: &wp::Enum) -> wr::Enum {
    let case = |it: &wp::EnumCase| wr::EnumCase {
        name: it.name.clone(),
        docs: docs(&it.docs),
        span: span(it.span),
    };
    wr::Enum {
        cases: from.cases.iter().map(case).collect(),
    }
}

// functions, interfaces and worlds

fn function(from: &wp::Function) -> wr::Function {
    let param = |it: &wp::Param| wr::Param {
        name: it.name.clone(),
        ty: ty(it.ty),
        span: span(it.span),
    };
    wr::Function {
        name: from.name.clone(),
        kind: function_kind(from.kind),
        params: from.params.iter().map(param).collect(),
        result: from.result.map(ty),
        docs: docs(&from.docs),
        stability: stability(&from.stability),
        span: span(from.span),
        external_id: from.external_id.clone(),
    }
}

fn function_kind(from: wp::FunctionKind) -> wr::FunctionKind {
    match from {
        wp::FunctionKind::Freestanding => wr::FunctionKind::Freestanding,
        wp::FunctionKind::AsyncFreestanding => wr::FunctionKind::AsyncFreestanding,
        wp::FunctionKind::Method(id) => wr::FunctionKind::Method(id_of(id)),
        wp::FunctionKind::AsyncMethod(id) => wr::FunctionKind::AsyncMethod(id_of(id)),
        wp::FunctionKind::Static(id) => wr::FunctionKind::Static(id_of(id)),
        wp::FunctionKind::AsyncStatic(id) => wr::FunctionKind::AsyncStatic(id_of(id)),
        wp::FunctionKind::Constructor(id) => wr::FunctionKind::Constructor(id_of(id)),
        wp::FunctionKind::Getter => wr::FunctionKind::Getter,
        wp::FunctionKind::Setter => wr::FunctionKind::Setter,
        wp::FunctionKind::MethodGetter(id) => wr::FunctionKind::MethodGetter(id_of(id)),
        wp::FunctionKind::MethodSetter(id) => wr::FunctionKind::MethodSetter(id_of(id)),
        wp::FunctionKind::StaticGetter(id) => wr::FunctionKind::StaticGetter(id_of(id)),
        wp::FunctionKind::StaticSetter(id) => wr::FunctionKind::StaticSetter(id_of(id)),
    }
}

fn interface(from: &wp::Interface) -> wr::Interface {
    let functions = from.functions.iter();
    wr::Interface {
        name: from.name.clone(),
        types: from.types.iter().map(|(name, id)| (name.clone(), id_of(*id))).collect(),
        functions: functions.map(|(name, it)| (name.clone(), function(it))).collect(),
        docs: docs(&from.docs),
        stability: stability(&from.stability),
        package: from.package.map(id_of),
        span: span(from.span),
    }
}

fn world(from: &wp::World) -> wr::World {
    wr::World {
        name: from.name.clone(),
        imports: from.imports.iter().map(|(key, it)| entry(key, it)).collect(),
        exports: from.exports.iter().map(|(key, it)| entry(key, it)).collect(),
        docs: docs(&from.docs),
        stability: stability(&from.stability),
        includes: from.includes.iter().map(include).collect(),
        package: from.package.map(id_of),
        span: span(from.span),
    }
}

fn include(from: &wp::WorldInclude) -> wr::WorldInclude {
    let name = |it: &wp::IncludeName| wr::IncludeName {
        name: it.name.clone(),
        as_: it.as_.clone(),
    };
    wr::WorldInclude {
        stability: stability(&from.stability),
        id: id_of(from.id),
        names: from.names.iter().map(name).collect(),
        span: span(from.span),
    }
}

fn entry(key: &wp::WorldKey, item: &wp::WorldItem) -> (wr::WorldKey, wr::WorldItem) {
    let key = match key {
        wp::WorldKey::Name(label) => wr::WorldKey::Name(label.clone()),
        wp::WorldKey::Interface(id) => wr::WorldKey::Interface(id_of(*id)),
    };
    let item = match item {
        wp::WorldItem::Interface {
            id,
            stability: gate,
            docs: text,
            span: at,
            external_id,
        } => wr::WorldItem::Interface {
            id: id_of(*id),
            stability: stability(gate),
            docs: docs(text),
            span: span(*at),
            external_id: external_id.clone(),
        },
        wp::WorldItem::Function(it) => wr::WorldItem::Function(function(it)),
        wp::WorldItem::Type { id, span: at } => wr::WorldItem::Type {
            id: id_of(*id),
            span: span(*at),
        },
    };
    (key, item)
}

#[cfg(test)]
mod tests {
    use super::add_what_rest_tells;
    use wit_resolve_graph as wr;
    use wit_resolve_graph::json::{Change, Document, Order, Request};

    /// WASI's packages: the first group, and those that it depends on.
    fn wasi() -> (wr::UnresolvedPackageGroup, Vec<wr::UnresolvedPackageGroup>) {
        let document = Document::from_json(include_str!("../../stored/wasi/both.json")).expect("a document");
        match Vec::from(document.commands).pop() {
            Some(Order::Request(Request::Change(Change::PushGroups { main, deps }))) => (main, deps.into()),
            _ => panic!("a document that pushes"),
        }
    }

    /// A group in which what wit-parser may keep to itself is made of the rest.
    fn from_rest(mut group: wr::UnresolvedPackageGroup) -> wr::UnresolvedPackageGroup {
        group.main.unknown_type_spans.clear();
        group.main.required_resource_types.clear();
        add_what_rest_tells(&mut group.main);
        group
    }

    #[test]
    fn what_rest_tells_links_to_the_same_graph() {
        let (main, deps) = wasi();
        let (mut whole, mut made) = (wr::Resolve::new(), wr::Resolve::new());
        whole.push_groups(main.clone(), deps.clone()).expect("WASI links");
        let deps = deps.into_iter().map(from_rest).collect();
        made.push_groups(from_rest(main), deps).expect("WASI links");
        assert_eq!(made.to_json(), whole.to_json());
    }
}
