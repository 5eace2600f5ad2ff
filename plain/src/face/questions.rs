//! What is asked of a graph.

use super::resolve::{Resolve, answered};
use crate::made::wit_core_names::{WasmExport, WasmImport};
use crate::made::wit_data::{
    Function, InterfaceId, ManglingAndAbi, PackageId, PackageName, Span, Type, TypeId, WorldId, WorldItem, WorldKey,
};
use crate::made::wit_graph_data::ResolveResult;
use crate::made::wit_resolve_graph::SourceFault;
use crate::shim;

fn text(from: shim::String) -> String {
    from.into_std()
}

/// Names.
impl Resolve {
    /// The world that a text names: a name in the one main package, or `namespace:package/name` with an optional
    /// `@version`. Without a text it is the only world of the one main package.
    ///
    /// Refused where no world is chosen, or more than one is (26).
    ///
    /// Clause `ok` of `select_world`: it is `selected_world` of these.
    pub fn select_world(&self, main_packages: &[PackageId], world: Option<&str>) -> ResolveResult<WorldId> {
        self.inner.select_world(main_packages, world)
    }

    /// The world of a name in the package of a name; None where either isn't there.
    pub fn world_named(&self, package: &PackageName, name: &str) -> Option<WorldId> {
        self.inner.world_named(package, name)
    }

    /// The full name of an interface, `namespace:package/name@1.0.0`; None where it has no name or isn't there.
    pub fn id_of(&self, interface: InterfaceId) -> Option<String> {
        answered(self.inner.try_id_of(interface)).map(text)
    }

    /// The full name of an interface or a world of a package; empty where the package isn't there.
    pub fn id_of_name(&self, package: PackageId, name: &str) -> String {
        text(answered(self.inner.try_id_of_name(package, name)))
    }

    /// What names a key of a world: a label as it stands, an interface by its full name, empty where it has none.
    pub fn name_world_key(&self, key: &WorldKey) -> String {
        text(answered(self.inner.try_name_world_key(key)))
    }

    /// As [`id_of`](Resolve::id_of), with the track in the place of the version.
    pub fn canonicalized_id_of(&self, interface: InterfaceId) -> Option<String> {
        answered(self.inner.canonicalized_id_of(interface)).map(text)
    }

    /// As [`id_of_name`](Resolve::id_of_name), with the track in the place of the version.
    pub fn canonicalized_id_of_name(&self, package: PackageId, name: &str) -> String {
        text(answered(self.inner.canonicalized_id_of_name(package, name)))
    }

    /// As [`name_world_key`](Resolve::name_world_key), with the track in the place of the version.
    pub fn name_canonicalized_world_key(&self, key: &WorldKey) -> String {
        text(answered(self.inner.name_canonicalized_world_key(key)))
    }

    /// What the canonical name of an interface leaves out of the version of its package; None where that is nothing.
    pub fn version_suffix_of(&self, interface: InterfaceId) -> Option<String> {
        answered(self.inner.version_suffix_of(interface)).map(text)
    }
}

/// Dependencies.
impl Resolve {
    /// Of an alias of a type that another interface owns, that interface; else None.
    pub fn type_interface_dep(&self, id: TypeId) -> Option<InterfaceId> {
        self.inner.type_interface_dep(id)
    }

    /// The interfaces that an interface uses directly, in the order of its types, with repeats.
    ///
    /// # Panics
    ///
    /// Where the interface isn't there.
    pub fn interface_direct_deps(&self, id: InterfaceId) -> impl Iterator<Item = InterfaceId> + '_ {
        let (index, len) = (id.index(), self.interfaces.len());
        assert!(index < len, "interface {index} of a graph with {len} interfaces");
        self.inner.interface_direct_deps(id)
    }

    /// The packages that a package depends on directly, other than itself, with repeats.
    ///
    /// # Panics
    ///
    /// Where the package isn't there.
    pub fn package_direct_deps(&self, id: PackageId) -> impl Iterator<Item = PackageId> + '_ {
        let (index, len) = (id.index(), self.packages.len());
        assert!(index < len, "package {index} of a graph with {len} packages");
        self.inner.package_direct_deps(id)
    }

    /// All packages, each after those that it depends on, and each once.
    ///
    /// Clause of `topological_packages`: it is `package_order` of the graph.
    pub fn topological_packages(&self) -> Vec<PackageId> {
        answered(self.inner.topological_packages()).into_std()
    }
}

/// Entries of worlds, and values.
impl Resolve {
    /// The interface with a name that stands under a label; None of any other entry.
    pub fn implements_interface(&self, key: &WorldKey, item: &WorldItem) -> Option<InterfaceId> {
        self.inner.implements_interface(key, item)
    }

    /// The external id of an entry: its own, or that of its function or type.
    pub fn external_id_value(&self, _key: &WorldKey, item: &WorldItem) -> Option<String> {
        answered(self.inner.external_id_value(item)).map(text)
    }

    /// Whether any bits are a value of the type.
    pub fn all_bits_valid(&self, ty: &Type) -> bool {
        self.inner.all_bits_valid(*ty)
    }
}

impl Function {
    /// The futures and streams that the values of its parameters and of its result hold, inner ones before outer ones.
    pub fn find_futures_and_streams(&self, resolve: &Resolve) -> Vec<TypeId> {
        answered(resolve.inner.find_futures_and_streams(self)).into_std()
    }
}

/// Names in core wasm.
impl Resolve {
    /// Whether an import has names. An interface's key and a resource must have one; futures and streams have names under
    /// the older ones alone.
    pub fn can_name_import(&self, mangling: ManglingAndAbi, import: &WasmImport<'_>) -> bool {
        answered(self.inner.can_name_import(mangling, import))
    }

    /// Whether an export has a name. A callback has one under the older names with callbacks alone.
    pub fn can_name_export(&self, mangling: ManglingAndAbi, export: &WasmExport<'_>) -> bool {
        self.inner.can_name_export(mangling, export)
    }

    /// The module and the field under which core wasm imports it.
    ///
    /// # Panics
    ///
    /// Where [`can_name_import`](Resolve::can_name_import) says no.
    pub fn wasm_import_name(&self, mangling: ManglingAndAbi, import: WasmImport<'_>) -> (String, String) {
        assert!(
            self.can_name_import(mangling, &import),
            "an import that has no names: {import:?}"
        );
        let (module, field) = answered(self.inner.wasm_import_name(mangling, &import));
        (text(module), text(field))
    }

    /// The name under which core wasm exports it.
    ///
    /// # Panics
    ///
    /// Where [`can_name_export`](Resolve::can_name_export) says no.
    pub fn wasm_export_name(&self, mangling: ManglingAndAbi, export: WasmExport<'_>) -> String {
        assert!(
            self.can_name_export(mangling, &export),
            "an export that has no name: {export:?}"
        );
        text(answered(self.inner.wasm_export_name(mangling, &export)))
    }
}

/// Where things stand.
impl Resolve {
    /// Where a span begins, as `path:line:column`; `<unknown>` of a span that is unknown or behind the files.
    pub fn render_location(&self, span: Span) -> String {
        self.source_map().render_location(span)
    }

    /// A fault with the line in which it is.
    pub fn render_error(&self, fault: &SourceFault) -> String {
        text(answered(self.inner.render_error(fault)))
    }
}
