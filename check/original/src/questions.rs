//! Questions of a graph.

use serde_json::{Value, json};
use wit_parser::*;
use wit_resolve_graph as wr;
use wit_resolve_graph::json::{FunctionPlace, FunctionSite, Mangling, Question};
use wit_resolve_graph_parser::into_parser::package_name;

/// The answer to a question, None where what it names isn't there.
pub fn answer(resolve: &Resolve, question: &Question) -> Option<anyhow::Result<Value>> {
    use Question::*;
    Some(Ok(match question {
        Select { packages, world } => return select(resolve, packages, world.as_deref()),
        PackageOrder => json!({ "packages": indices(resolve.topological_packages()) }),
        PackageDependencies(name) => {
            json!({ "packages": indices(resolve.package_direct_deps(package(resolve, name)?)) })
        }
        InterfaceDependencies {
            package: name,
            interface,
        } => {
            let package = &resolve.packages[package(resolve, name)?];
            let id = *package.interfaces.get(interface)?;
            json!({ "interfaces": indices(resolve.interface_direct_deps(id)) })
        }
        CanonicalId { package: of, name } => {
            json!({ "text": resolve.canonicalized_id_of_name(package(resolve, of)?, name) })
        }
        CoreNames {
            package,
            world: name,
            mangling,
        } => core_names(resolve, world(resolve, package, name)?, *mangling),
        FuturesAndStreams(place) => {
            let function = function(resolve, place)?;
            json!({ "types": indices(function.find_futures_and_streams(resolve)) })
        }
    }))
}

/// The world that a command names.
pub fn world(resolve: &Resolve, package_name: &wr::PackageName, world: &str) -> Option<WorldId> {
    let package = &resolve.packages[package(resolve, package_name)?];
    package.worlds.get(world).copied()
}

fn package(resolve: &Resolve, name: &wr::PackageName) -> Option<PackageId> {
    resolve.package_names.get(&package_name(name)).copied()
}

fn indices<T>(ids: impl IntoIterator<Item = Id<T>>) -> Vec<usize> {
    ids.into_iter().map(Id::index).collect()
}

fn select(resolve: &Resolve, packages: &[wr::PackageName], world: Option<&str>) -> Option<anyhow::Result<Value>> {
    let mains: Option<Vec<_>> = packages.iter().map(|it| package(resolve, it)).collect();
    let chosen = resolve.select_world(&mains?, world);
    Some(chosen.map(|id| json!({ "world": id.index() })))
}

fn function<'a>(resolve: &'a Resolve, place: &FunctionPlace) -> Option<&'a Function> {
    let package = &resolve.packages[package(resolve, &place.package)?];
    let entries = match place.site {
        FunctionSite::Interface => {
            let interface = &resolve.interfaces[*package.interfaces.get(&place.name)?];
            return interface.functions.get(&place.function);
        }
        FunctionSite::Import => &resolve.worlds[*package.worlds.get(&place.name)?].imports,
        FunctionSite::Export => &resolve.worlds[*package.worlds.get(&place.name)?].exports,
    };
    match entries.get(&WorldKey::Name(place.function.clone()))? {
        WorldItem::Function(found) => Some(found),
        _ => None,
    }
}

fn core_names(resolve: &Resolve, world: WorldId, mangling: Mangling) -> Value {
    let mangling = match mangling {
        Mangling::Standard32 => ManglingAndAbi::Standard32,
        Mangling::LegacySync => ManglingAndAbi::Legacy(LiftLowerAbi::Sync),
        Mangling::LegacyAsyncCallback => ManglingAndAbi::Legacy(LiftLowerAbi::AsyncCallback),
        Mangling::LegacyAsyncStackful => ManglingAndAbi::Legacy(LiftLowerAbi::AsyncStackful),
    };
    let world = &resolve.worlds[world];
    let import = |(interface, func): (Option<&WorldKey>, &Function)| {
        let asked = WasmImport::Func { interface, func };
        let (module, field) = resolve.wasm_import_name(mangling, asked);
        json!({ "interface": interface.map(key), "function": func.name, "module": module, "field": field })
    };
    let export = |(interface, func): (Option<&WorldKey>, &Function)| {
        let asked = WasmExport::Func {
            interface,
            func,
            kind: WasmExportKind::Normal,
        };
        let name = resolve.wasm_export_name(mangling, asked);
        json!({ "interface": interface.map(key), "function": func.name, "name": name })
    };
    let imports: Vec<_> = functions(resolve, &world.imports).map(import).collect();
    let exports: Vec<_> = functions(resolve, &world.exports).map(export).collect();
    json!({ "core-names": { "imports": imports, "exports": exports } })
}

/// The name of an entry in JSON.
fn key(it: &WorldKey) -> String {
    match it {
        WorldKey::Name(name) => name.clone(),
        WorldKey::Interface(id) => format!("interface-{}", id.index()),
    }
}

/// The functions of entries, each with the key of the interface that it stands in.
fn functions<'a>(
    resolve: &'a Resolve,
    entries: &'a IndexMap<WorldKey, WorldItem>,
) -> impl Iterator<Item = (Option<&'a WorldKey>, &'a Function)> {
    entries.iter().flat_map(move |(key, item)| match item {
        WorldItem::Function(it) => vec![(None, it)],
        WorldItem::Interface { id, .. } => {
            let functions = resolve.interfaces[*id].functions.values();
            functions.map(|it| (Some(key), it)).collect()
        }
        WorldItem::Type { .. } => vec![],
    })
}
