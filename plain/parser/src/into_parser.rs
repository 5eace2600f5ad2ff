//! Graphs, and unresolved packages, as wit-parser's own.

use crate::ids::Ids;
use wit_parser as wp;
use wit_resolve_graph as wr;

/// A group, with its files.
#[cfg(feature = "open")]
pub fn group(from: &wr::UnresolvedPackageGroup) -> wp::UnresolvedPackageGroup {
    wp::UnresolvedPackageGroup {
        main: package(&from.main),
        nested: from.nested.as_slice().iter().map(package).collect(),
        source_map: source_map(&from.source_map),
    }
}

/// A source map.
pub fn source_map(from: &wr::SourceMap) -> wp::SourceMap {
    let mut made = wp::SourceMap::default();
    for (path, text) in from.files() {
        made.push_str(path, text);
    }
    made
}

/// A graph with its features and files. The rule of tracks is left out, since wit-parser has one alone, and no interface
/// is told to be a copy of another.
pub fn resolve(from: &wr::Resolve) -> wp::Resolve {
    let mut made = graph(from);
    made.features.extend(from.features().names.iter().cloned());
    made.all_features = from.all_features();
    made.source_map = source_map(from.source_map());
    made
}

/// A graph without features and files. It need not be valid, but its ids are to be in range.
pub fn graph(from: &wr::Graph) -> wp::Resolve {
    let mut made = wp::Resolve::new();
    let ids = Ids {
        types: places(&mut made.types, from.types.len(), no_type),
        interfaces: places(&mut made.interfaces, from.interfaces.len(), no_interface),
        worlds: places(&mut made.worlds, from.worlds.len(), no_world),
    };
    let packages = from.packages.iter();
    let packages: Vec<_> = packages
        .map(|(_, it)| made.packages.alloc(package_of_graph(it, &ids)))
        .collect();
    let package_of = |id: Option<wr::PackageId>| id.map(|it| packages[it.index()]);
    for (id, it) in from.types.iter() {
        made.types[ids.ty(id)] = type_def(it, &ids);
    }
    for (id, it) in from.interfaces.iter() {
        made.interfaces[ids.interface(id)] = wp::Interface {
            package: package_of(it.package),
            ..interface(it, &ids)
        };
    }
    for (id, it) in from.worlds.iter() {
        made.worlds[ids.world(id)] = wp::World {
            package: package_of(it.package),
            ..world(it, &ids)
        };
    }
    let names = from.packages.iter().map(|(_, it)| package_name(&it.name));
    made.package_names = names.zip(packages).collect();
    made
}

/// So many places of an arena, to be filled.
fn places<T>(arena: &mut wp::Arena<T>, count: usize, empty: fn() -> T) -> Vec<wp::Id<T>> {
    (0..count).map(|_| arena.alloc(empty())).collect()
}

fn package_of_graph(from: &wr::Package, ids: &Ids) -> wp::Package {
    let interfaces = from.interfaces.iter();
    let worlds = from.worlds.iter();
    wp::Package {
        name: package_name(&from.name),
        docs: docs(&from.docs),
        interfaces: interfaces
            .map(|(name, it)| (name.clone(), ids.interface(*it)))
            .collect(),
        worlds: worlds.map(|(name, it)| (name.clone(), ids.world(*it))).collect(),
    }
}

/// A name.
pub fn package_name(from: &wr::PackageName) -> wp::PackageName {
    wp::PackageName {
        namespace: from.namespace.clone(),
        name: from.name.clone(),
        version: from.version.clone(),
    }
}

#[cfg(feature = "open")]
fn package(from: &wr::UnresolvedPackage) -> wp::UnresolvedPackage {
    let mut made = empty(from);
    let ids = Ids {
        types: places(&mut made.types, from.types.len(), no_type),
        interfaces: places(&mut made.interfaces, from.interfaces.len(), no_interface),
        worlds: places(&mut made.worlds, from.worlds.len(), no_world),
    };
    for (id, it) in from.types.iter() {
        made.types[ids.ty(id)] = type_def(it, &ids);
    }
    for (id, it) in from.interfaces.iter() {
        made.interfaces[ids.interface(id)] = interface(it, &ids);
    }
    for (id, it) in from.worlds.iter() {
        made.worlds[ids.world(id)] = world(it, &ids);
    }
    for (name, named) in &from.foreign_deps {
        let items = named.iter().map(|(name, it)| (name.clone(), foreign(it, &ids)));
        made.foreign_deps.insert(package_name(name), items.collect());
    }
    let required = from.required_resource_types.iter();
    made.required_resource_types = required.map(|(id, it)| (ids.ty(*id), span(*it))).collect();
    made
}

#[cfg(feature = "open")]
fn empty(from: &wr::UnresolvedPackage) -> wp::UnresolvedPackage {
    let spans = |all: &[wr::Span]| all.iter().map(|it| span(*it)).collect();
    wp::UnresolvedPackage {
        name: package_name(&from.name),
        docs: docs(&from.docs),
        worlds: wp::Arena::new(),
        interfaces: wp::Arena::new(),
        types: wp::Arena::new(),
        foreign_deps: Default::default(),
        package_name_span: span(from.package_name_span),
        unknown_type_spans: spans(&from.unknown_type_spans),
        foreign_dep_spans: spans(&from.foreign_dep_spans),
        required_resource_types: Vec::new(),
    }
}

fn no_type() -> wp::TypeDef {
    wp::TypeDef {
        name: None,
        kind: wp::TypeDefKind::Unknown,
        owner: wp::TypeOwner::None,
        docs: wp::Docs::default(),
        stability: wp::Stability::Unknown,
        span: wp::Span::default(),
        external_id: None,
    }
}

fn no_interface() -> wp::Interface {
    wp::Interface {
        name: None,
        types: Default::default(),
        functions: Default::default(),
        docs: wp::Docs::default(),
        stability: wp::Stability::Unknown,
        package: None,
        span: wp::Span::default(),
        clone_of: None,
    }
}

fn no_world() -> wp::World {
    wp::World {
        name: String::new(),
        imports: Default::default(),
        exports: Default::default(),
        package: None,
        docs: wp::Docs::default(),
        stability: wp::Stability::Unknown,
        includes: Vec::new(),
        span: wp::Span::default(),
    }
}

// small values

fn span(from: wr::Span) -> wp::Span {
    if from.is_known() {
        wp::Span::new(from.start(), from.end())
    } else {
        wp::Span::default()
    }
}

fn docs(from: &wr::Docs) -> wp::Docs {
    wp::Docs {
        contents: from.contents.clone(),
    }
}

fn stability(from: &wr::Stability) -> wp::Stability {
    match from.clone() {
        wr::Stability::Unknown => wp::Stability::Unknown,
        wr::Stability::Stable { since, deprecated } => wp::Stability::Stable { since, deprecated },
        wr::Stability::Unstable { feature, deprecated } => wp::Stability::Unstable { feature, deprecated },
    }
}

#[cfg(feature = "open")]
fn foreign(from: &(wr::AstItem, wr::Items<wr::Stability>), ids: &Ids) -> (wp::AstItem, Vec<wp::Stability>) {
    let item = match from.0 {
        wr::AstItem::Interface(id) => wp::AstItem::Interface(ids.interface(id)),
        wr::AstItem::World(id) => wp::AstItem::World(ids.world(id)),
    };
    (item, from.1.iter().map(stability).collect())
}

// types

fn ty(from: wr::Type, ids: &Ids) -> wp::Type {
    match from {
        wr::Type::Bool => wp::Type::Bool,
        wr::Type::U8 => wp::Type::U8,
        wr::Type::U16 => wp::Type::U16,
        wr::Type::U32 => wp::Type::U32,
        wr::Type::U64 => wp::Type::U64,
        wr::Type::S8 => wp::Type::S8,
        wr::Type::S16 => wp::Type::S16,
        wr::Type::S32 => wp::Type::S32,
        wr::Type::S64 => wp::Type::S64,
        wr::Type::F32 => wp::Type::F32,
        wr::Type::F64 => wp::Type::F64,
        wr::Type::Char => wp::Type::Char,
        wr::Type::String => wp::Type::String,
        wr::Type::ErrorContext => wp::Type::ErrorContext,
        wr::Type::Id(id) => wp::Type::Id(ids.ty(id)),
    }
}

fn type_def(from: &wr::TypeDef, ids: &Ids) -> wp::TypeDef {
    wp::TypeDef {
        name: from.name.clone(),
        kind: kind(&from.kind, ids),
        owner: match from.owner {
            wr::TypeOwner::World(id) => wp::TypeOwner::World(ids.world(id)),
            wr::TypeOwner::Interface(id) => wp::TypeOwner::Interface(ids.interface(id)),
            wr::TypeOwner::None => wp::TypeOwner::None,
        },
        docs: docs(&from.docs),
        stability: stability(&from.stability),
        span: span(from.span),
        external_id: from.external_id.clone(),
    }
}

fn kind(from: &wr::TypeDefKind, ids: &Ids) -> wp::TypeDefKind {
    let of = |it: wr::Type| ty(it, ids);
    let maybe = |it: &Option<wr::Type>| it.map(of);
    match from {
        wr::TypeDefKind::Record(it) => wp::TypeDefKind::Record(record(it, ids)),
        wr::TypeDefKind::Resource => wp::TypeDefKind::Resource,
        wr::TypeDefKind::Handle(wr::Handle::Own(id)) => wp::TypeDefKind::Handle(wp::Handle::Own(ids.ty(*id))),
        wr::TypeDefKind::Handle(wr::Handle::Borrow(id)) => wp::TypeDefKind::Handle(wp::Handle::Borrow(ids.ty(*id))),
        wr::TypeDefKind::Flags(it) => wp::TypeDefKind::Flags(flags(it)),
        wr::TypeDefKind::Tuple(it) => wp::TypeDefKind::Tuple(wp::Tuple {
            types: it.types.iter().map(|it| of(*it)).collect(),
        }),
        wr::TypeDefKind::Variant(it) => wp::TypeDefKind::Variant(variant(it, ids)),
        wr::TypeDefKind::Enum(it) => wp::TypeDefKind::Enum(enumeration(it)),
        wr::TypeDefKind::Option(it) => wp::TypeDefKind::Option(of(*it)),
        wr::TypeDefKind::Result(it) => wp::TypeDefKind::Result(wp::Result_ {
            ok: maybe(&it.ok),
            err: maybe(&it.err),
        }),
        wr::TypeDefKind::List(it) => wp::TypeDefKind::List(of(*it)),
        wr::TypeDefKind::Map(key, value) => wp::TypeDefKind::Map(of(*key), of(*value)),
        wr::TypeDefKind::FixedLengthList(it, length) => wp::TypeDefKind::FixedLengthList(of(*it), *length),
        wr::TypeDefKind::Future(it) => wp::TypeDefKind::Future(maybe(it)),
        wr::TypeDefKind::Stream(it) => wp::TypeDefKind::Stream(maybe(it)),
        wr::TypeDefKind::Type(it) => wp::TypeDefKind::Type(of(*it)),
        wr::TypeDefKind::Unknown => wp::TypeDefKind::Unknown,
    }
}

fn record(from: &wr::Record, ids: &Ids) -> wp::Record {
    let field = |it: &wr::Field| wp::Field {
        name: it.name.clone(),
        ty: ty(it.ty, ids),
        docs: docs(&it.docs),
        span: span(it.span),
    };
    wp::Record {
        fields: from.fields.iter().map(field).collect(),
    }
}

fn flags(from: &wr::Flags) -> wp::Flags {
    let flag = |it: &wr::Flag| wp::Flag {
        name: it.name.clone(),
        docs: docs(&it.docs),
        span: span(it.span),
    };
    wp::Flags {
        flags: from.flags.iter().map(flag).collect(),
    }
}

fn variant(from: &wr::Variant, ids: &Ids) -> wp::Variant {
    let case = |it: &wr::Case| wp::Case {
        name: it.name.clone(),
        ty: it.ty.map(|it| ty(it, ids)),
        docs: docs(&it.docs),
        span: span(it.span),
    };
    wp::Variant {
        cases: from.cases.iter().map(case).collect(),
    }
}

fn enumeration(from: &wr::Enum) -> wp::Enum {
    let case = |it: &wr::EnumCase| wp::EnumCase {
        name: it.name.clone(),
        docs: docs(&it.docs),
        span: span(it.span),
    };
    wp::Enum {
        cases: from.cases.iter().map(case).collect(),
    }
}

// functions, interfaces and worlds

fn function(from: &wr::Function, ids: &Ids) -> wp::Function {
    let param = |it: &wr::Param| wp::Param {
        name: it.name.clone(),
        ty: ty(it.ty, ids),
        span: span(it.span),
    };
    wp::Function {
        name: from.name.clone(),
        kind: function_kind(from.kind, ids),
        params: from.params.iter().map(param).collect(),
        result: from.result.map(|it| ty(it, ids)),
        docs: docs(&from.docs),
        stability: stability(&from.stability),
        span: span(from.span),
        external_id: from.external_id.clone(),
    }
}

fn function_kind(from: wr::FunctionKind, ids: &Ids) -> wp::FunctionKind {
    match from {
        wr::FunctionKind::Freestanding => wp::FunctionKind::Freestanding,
        wr::FunctionKind::AsyncFreestanding => wp::FunctionKind::AsyncFreestanding,
        wr::FunctionKind::Method(id) => wp::FunctionKind::Method(ids.ty(id)),
        wr::FunctionKind::AsyncMethod(id) => wp::FunctionKind::AsyncMethod(ids.ty(id)),
        wr::FunctionKind::Static(id) => wp::FunctionKind::Static(ids.ty(id)),
        wr::FunctionKind::AsyncStatic(id) => wp::FunctionKind::AsyncStatic(ids.ty(id)),
        wr::FunctionKind::Constructor(id) => wp::FunctionKind::Constructor(ids.ty(id)),
        wr::FunctionKind::Getter => wp::FunctionKind::Getter,
        wr::FunctionKind::Setter => wp::FunctionKind::Setter,
        wr::FunctionKind::MethodGetter(id) => wp::FunctionKind::MethodGetter(ids.ty(id)),
        wr::FunctionKind::MethodSetter(id) => wp::FunctionKind::MethodSetter(ids.ty(id)),
        wr::FunctionKind::StaticGetter(id) => wp::FunctionKind::StaticGetter(ids.ty(id)),
        wr::FunctionKind::StaticSetter(id) => wp::FunctionKind::StaticSetter(ids.ty(id)),
    }
}

fn interface(from: &wr::Interface, ids: &Ids) -> wp::Interface {
    let functions = from.functions.iter();
    wp::Interface {
        name: from.name.clone(),
        types: from
            .types
            .iter()
            .map(|(name, id)| (name.clone(), ids.ty(*id)))
            .collect(),
        functions: functions.map(|(name, it)| (name.clone(), function(it, ids))).collect(),
        docs: docs(&from.docs),
        stability: stability(&from.stability),
        span: span(from.span),
        ..no_interface()
    }
}

fn world(from: &wr::World, ids: &Ids) -> wp::World {
    wp::World {
        name: from.name.clone(),
        imports: from.imports.iter().map(|(key, it)| entry(key, it, ids)).collect(),
        exports: from.exports.iter().map(|(key, it)| entry(key, it, ids)).collect(),
        docs: docs(&from.docs),
        stability: stability(&from.stability),
        includes: from.includes.iter().map(|it| include(it, ids)).collect(),
        span: span(from.span),
        ..no_world()
    }
}

fn include(from: &wr::WorldInclude, ids: &Ids) -> wp::WorldInclude {
    let name = |it: &wr::IncludeName| wp::IncludeName {
        name: it.name.clone(),
        as_: it.as_.clone(),
    };
    wp::WorldInclude {
        stability: stability(&from.stability),
        id: ids.world(from.id),
        names: from.names.iter().map(name).collect(),
        span: span(from.span),
    }
}

fn entry(key: &wr::WorldKey, item: &wr::WorldItem, ids: &Ids) -> (wp::WorldKey, wp::WorldItem) {
    let key = match key {
        wr::WorldKey::Name(label) => wp::WorldKey::Name(label.clone()),
        wr::WorldKey::Interface(id) => wp::WorldKey::Interface(ids.interface(*id)),
    };
    let item = match item {
        wr::WorldItem::Interface {
            id,
            stability: gate,
            docs: text,
            span: at,
            external_id,
        } => wp::WorldItem::Interface {
            id: ids.interface(*id),
            stability: stability(gate),
            docs: docs(text),
            span: span(*at),
            external_id: external_id.clone(),
        },
        wr::WorldItem::Function(it) => wp::WorldItem::Function(function(it, ids)),
        wr::WorldItem::Type { id, span: at } => wp::WorldItem::Type {
            id: ids.ty(*id),
            span: span(*at),
        },
    };
    (key, item)
}
