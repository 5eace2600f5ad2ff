//! What users name: lines as they are written for wit-parser, what is asked of a call, errors, and JSON.
use std::collections::HashSet;
use std::error::Error;
use wit_resolve_graph::json::Document;
use wit_resolve_graph::*;

fn name(text: &str) -> PackageName {
    PackageName::new("foo".to_owned(), text.to_owned(), None)
}

/// A package with interface `types`, which has record `point` and resource `file`, and world `w`, which imports it.
fn package(text: &str) -> UnresolvedPackage {
    let mut made = UnresolvedPackage::new(name(text));
    let types = made.interfaces.alloc(Interface::new(Some("types".to_owned())));
    let fields = ["x", "y"].map(|it| Field {
        name: it.to_owned(),
        ty: Type::U32,
        docs: Docs::default(),
        span: Span::default(),
    });
    let record = TypeDefKind::Record(Record {
        fields: Vec::from(fields).into(),
    });
    for (text, kind) in [("point", record), ("file", TypeDefKind::Resource)] {
        let owner = TypeOwner::Interface(types);
        let id = made.types.alloc(TypeDef::new(Some(text.to_owned()), kind, owner));
        made.interfaces[types].types.insert(text.to_owned(), id);
    }
    let mut world = World::new("w".to_owned());
    world
        .imports
        .insert(WorldKey::Interface(types), WorldItem::interface(types));
    made.worlds.alloc(world);
    made
}

/// A package whose alias names a type that isn't there.
fn unshaped(text: &str) -> UnresolvedPackage {
    let mut made = package(text);
    made.types[0].kind = TypeDefKind::Type(Type::Id(TypeId::from_index(7)));
    made
}

fn group(main: UnresolvedPackage) -> UnresolvedPackageGroup {
    UnresolvedPackageGroup {
        main,
        nested: Items::new(),
        source_map: SourceMap::default(),
    }
}

/// A graph of package `foo:a`, with its id.
fn graph() -> (Resolve, PackageId) {
    let mut resolve = Resolve::default();
    let id = resolve.push(package("a"), 0).expect("a package");
    (resolve, id)
}

#[test]
fn a_graph_is_read_as_wit_parsers() {
    let (resolve, id) = graph();
    let package = &resolve.packages[id];
    let interface = package.interfaces["types"];
    let types = &resolve.interfaces[interface].types;
    match &resolve.types[types["point"]].kind {
        TypeDefKind::Record(record) => {
            let names: Vec<&str> = record.fields.iter().map(|it| it.name.as_str()).collect();
            assert_eq!(names, ["x", "y"]);
            for field in &record.fields {
                assert_eq!(field.ty, Type::U32);
            }
        }
        kind => panic!("a record, not {kind:?}"),
    }
    for (id, world) in &resolve.worlds {
        assert_eq!((id.index(), world.name.as_str()), (0, "w"));
        let keys: Vec<_> = world.imports.keys().map(|it| resolve.name_world_key(it)).collect();
        assert_eq!(keys, ["foo:a/types"]);
        for (key, item) in world.imports.iter() {
            let WorldItem::Interface { id, .. } = item else {
                panic!("an interface")
            };
            assert_eq!(*key, WorldKey::Interface(*id));
        }
    }
    let names: Vec<_> = resolve
        .types
        .iter()
        .map(|(_, it)| it.name.as_deref().unwrap())
        .collect();
    assert_eq!(names, ["point", "file"]);
    assert_eq!(resolve.package_names.get(&name("a")), Some(&id));
    assert!(resolve.types.get(TypeId::from_index(2)).is_none());
    assert_eq!(resolve.id_of(interface).as_deref(), Some("foo:a/types"));
}

/// A package with one function in an interface, exported by a world with a function of its own.
fn exporting() -> UnresolvedPackage {
    let mut made = package("e");
    let params = vec![Param {
        name: "p".to_owned(),
        ty: Type::String,
        span: Span::default(),
    }];
    let run = Function::new(
        "run".to_owned(),
        FunctionKind::Freestanding,
        params.into(),
        Some(Type::U8),
    );
    made.interfaces[0].functions.insert("run".to_owned(), run.clone());
    let (_, world) = made.worlds.iter_mut().next().expect("a world");
    let types = InterfaceId::from_index(0);
    world
        .exports
        .insert(WorldKey::Interface(types), WorldItem::interface(types));
    world
        .exports
        .insert(WorldKey::Name("run".to_owned()), WorldItem::Function(run));
    made
}

/// Lines as tests of wit-parser and generators of bindings have them.
#[test]
fn lines_of_generators_compile() -> Result<(), Box<dyn Error>> {
    let mut resolve = Resolve::default();
    let pkg = resolve.push_groups(group(exporting()), Vec::from([group(package("d"))]))?;
    assert_eq!(resolve.packages.len(), 2);
    let world_id = resolve.packages[pkg].worlds["w"];
    let iface_id = resolve.packages[pkg].interfaces["types"];
    let func = &resolve.interfaces[iface_id].functions["run"];
    for Param { name, ty, .. } in func.params.iter() {
        assert_eq!((name.as_str(), ty), ("p", &Type::String));
    }
    assert_eq!(func.result, Some(Type::U8));
    let WorldItem::Function(run) = &resolve.worlds[world_id].exports[&WorldKey::Name("run".to_string())] else {
        panic!("a function");
    };
    assert_eq!(run.parameter_and_result_types().count(), 2);
    assert!(
        resolve.worlds[world_id]
            .imports
            .iter()
            .all(|(_, item)| matches!(item, WorldItem::Interface { .. }))
    );
    let keys: Vec<String> = resolve.worlds[world_id]
        .exports
        .keys()
        .map(|k| resolve.name_world_key(k))
        .collect();
    // functions stand before interfaces, as in wit-parser
    assert_eq!(keys, ["run", "foo:e/types"]);
    let type_id = resolve.interfaces[iface_id].types["point"];
    let TypeDefKind::Record(record) = &resolve.types[type_id].kind else {
        panic!("a record");
    };
    assert_eq!(record.fields[0].name, "x");
    match resolve.types[type_id].owner {
        TypeOwner::Interface(id) => assert_eq!(resolve.id_of(id).unwrap(), "foo:e/types"),
        TypeOwner::World(_) | TypeOwner::None => panic!("an interface"),
    }
    let (module, name) = resolve.wasm_import_name(
        ManglingAndAbi::Legacy(LiftLowerAbi::Sync),
        WasmImport::Func {
            interface: Some(&WorldKey::Interface(iface_id)),
            func,
        },
    );
    assert_eq!((module.as_str(), name.as_str()), ("foo:e/types", "run"));
    resolve.importize(world_id, Some("w-temp".to_string()))?;
    resolve.exportize(world_id, Some("w-final".to_string()), None)?;
    assert!(!resolve.worlds[world_id].exports.is_empty());
    Ok(())
}

#[test]
fn data_is_cloned_compared_hashed_and_shown() {
    let (resolve, id) = graph();
    let copy = resolve.clone();
    assert_eq!(copy.graph(), resolve.graph());
    assert_eq!(copy.types[0].clone(), resolve.types[0]);
    let ids: HashSet<PackageId> = [id, id].into();
    assert_eq!(ids.len(), 1);
    let kinds: HashSet<TypeDefKind> = resolve.types.iter().map(|(_, it)| it.kind.clone()).collect();
    assert_eq!(kinds.len(), 2);
    assert_eq!(resolve.packages[id].name.to_string(), "foo:a");
    assert!(format!("{:?}", resolve.types[0]).contains("point"));
}

#[test]
fn a_graph_is_merged_turned_and_asked() {
    let (mut resolve, _) = graph();
    let mut other = Resolve::new();
    let id = other.push(package("b"), 0).expect("a package");
    let remap = resolve.merge(other).expect("two names");
    assert_eq!(remap.packages[id.index()].index(), 1);
    assert_eq!(remap.types[0], Some(TypeId::from_index(2)));

    let world = resolve.world_named(&name("b"), "w").expect("the world");
    let keep: &dyn Fn(&WorldKey, &WorldItem) -> bool = &|_, item| matches!(item, WorldItem::Interface { .. });
    resolve
        .exportize(world, Some("out".to_owned()), Some(keep))
        .expect("no type");
    assert_eq!(
        (resolve.worlds[world].imports.len(), resolve.worlds[world].exports.len()),
        (0, 1)
    );
    resolve.importize(world, None).expect("one export");
    assert_eq!(
        (resolve.worlds[world].imports.len(), resolve.worlds[world].exports.len()),
        (1, 0)
    );
    assert_eq!(resolve.worlds[world].name, "out-importized");
    resolve.merge_world_imports_based_on_semver(world).expect("no version");
    let order: Vec<_> = resolve.topological_packages().iter().map(|it| it.index()).collect();
    assert_eq!(order, [0, 1]);
    resolve.assert_valid();
}

#[test]
fn a_package_without_its_shape_is_refused() {
    let (mut resolve, _) = graph();
    let before = resolve.clone();
    let mut nested = group(package("b"));
    nested.nested.push(unshaped("c"));
    let refusals = [
        resolve.push(unshaped("c"), 0),
        resolve.push_group(nested.clone()),
        resolve.push_groups(group(package("d")), vec![nested.clone()]),
    ];
    for refusal in refusals {
        let refusal = refusal.expect_err("a package without its shape");
        assert_eq!(refusal.number(), 0);
        assert!(
            refusal.to_string().starts_with("package `foo:c`: types[0] breaks "),
            "{refusal}"
        );
    }
    let fault = resolve
        .push_source("c.wit", "", |_| Ok(nested))
        .expect_err("a package without its shape");
    assert!(fault.to_string().starts_with("package `foo:c`: "), "{fault}");
    assert_eq!(resolve.to_json(), before.to_json());
}

#[test]
fn a_source_is_pushed_by_a_parse() {
    let mut resolve = Resolve::new();
    let read = |source_map: SourceMap| {
        assert!(source_map.source_names().eq(["a.wit"]));
        Ok(UnresolvedPackageGroup {
            source_map,
            ..group(package("a"))
        })
    };
    resolve.push_source("a.wit", "package foo:a;", read).expect("a package");
    let unread = |source_map| {
        let (span, message) = (Span::new(8, 9), "no colon".to_owned());
        Err(ParseFault::Text {
            source_map,
            span,
            message,
        })
    };
    let fault = resolve
        .push_source("b.wit", "package foo", unread)
        .expect_err("a fault");
    let shown = resolve.render_error(&fault);
    assert!(shown.contains("no colon") && shown.contains("b.wit:1:9"), "{shown}");
}

#[test]
fn refusals_are_errors() {
    let (mut resolve, _) = graph();
    let mut files = SourceMap::default();
    files.push_str("a.wit", "package foo:a;").expect("room");
    let mut again = package("a");
    again.package_name_span = Span::new(8, 13);
    let made = UnresolvedPackageGroup {
        source_map: files,
        ..group(again)
    };
    let refusal = resolve.push_group(made).expect_err("a name that is there");
    assert_eq!(refusal.number(), 5);
    assert!(matches!(refusal.kind(), ResolveErrorKind::DuplicatePackage { .. }));
    assert_eq!(refusal.nearest_known(), None);
    let shown = refusal.render(resolve.source_map());
    let error: Box<dyn Error> = refusal.into();
    assert_eq!(
        error.to_string(),
        "package `foo:a` is defined in two different locations"
    );
    assert!(shown.starts_with(&error.to_string()), "{shown}");
}

#[test]
fn the_nearest_known_name_is_told() {
    let nearest = |requested: &str| {
        let (span, requested) = (Span::default(), name(requested));
        let known = vec![name("card"), name("cart"), name("shop")].into();
        let kind = ResolveErrorKind::PackageNotFound { span, requested, known };
        ResolveError::from(kind).nearest_known().map(|it| it.to_string())
    };
    assert_eq!(nearest("carts"), Some("foo:cart".to_owned()));
    assert_eq!(nearest("care"), Some("foo:card".to_owned()));
    assert_eq!(nearest("basket"), None);
}

#[test]
fn a_graph_that_is_not_valid_is_none() {
    let (resolve, _) = graph();
    let of = |graph| Resolve::of_graph(graph, Features::default(), SourceMap::default(), TrackRule::Published);
    assert!(of(resolve.graph().clone()).is_some());
    let mut broken = resolve.graph().clone();
    broken.types[0].kind = TypeDefKind::Type(Type::Id(TypeId::from_index(0)));
    assert!(of(broken.clone()).is_none());
    let made = Resolve::of_graph_or_fault(broken, Features::default(), SourceMap::default(), TrackRule::Published);
    let fault = made.map(drop).unwrap_err();
    assert_eq!(fault.place, GraphPlace::Type(TypeId::from_index(0)));
    assert_eq!(fault.to_string(), "type 0 refers to itself, through whatever others");
}

#[test]
#[should_panic(expected = "world 3 of a graph with 1 worlds")]
fn a_world_that_is_not_there_panics() {
    let (mut resolve, _) = graph();
    let _ = resolve.importize(WorldId::from_index(3), None);
}

#[test]
#[should_panic(expected = "interface 3 of a graph with 1 interfaces")]
fn an_interface_that_is_not_there_panics() {
    let (resolve, _) = graph();
    let _ = resolve.interface_direct_deps(InterfaceId::from_index(3)).count();
}

#[test]
#[should_panic(expected = "an import that has no names")]
fn an_import_without_names_panics() {
    let (resolve, _) = graph();
    let resource = TypeId::from_index(1);
    let import = WasmImport::ResourceIntrinsic {
        interface: None,
        resource,
        intrinsic: ResourceIntrinsic::ExportedDrop,
    };
    let _ = resolve.wasm_import_name(ManglingAndAbi::Standard32, import);
}

/// The documents that are stored: the worked scripts, each as its commands, and WASI's packages.
fn documents() -> Vec<String> {
    let cases = include_str!("../stored/test_json_cases/stdin").split("\n=== ").skip(1);
    let commands = |case: &str| {
        case.lines()
            .filter(|it| it.starts_with('{'))
            .collect::<Vec<_>>()
            .join(",")
    };
    let mut all: Vec<_> = cases.map(|it| format!("{{\"commands\":[{}]}}", commands(it))).collect();
    assert!(all.len() > 100, "{} documents", all.len());
    all.push(include_str!("../stored/witgraph_json/stdin").to_owned());
    all.push(include_str!("../stored/wasi/both.json").to_owned());
    all
}

/// The graph of a document.
fn carried_out(document: &str) -> (Resolve, Vec<String>) {
    let document = Document::from_json(document).expect("a document");
    document.carry_out().expect("a graph to begin with")
}

#[test]
fn a_document_is_carried_out() {
    let (resolve, replies) = carried_out(include_str!("../stored/witgraph_json/stdin"));
    let (replies, resolve) = (replies.join(","), resolve.to_json());
    let wanted = include_str!("../stored/witgraph_json/stdout");
    assert_eq!(
        format!("{{\"replies\":[{replies}],\"resolve\":{resolve}}}"),
        wanted.trim_end()
    );
}

#[test]
fn graphs_are_read_as_they_are_written() {
    for document in documents() {
        let written = carried_out(&document).0.to_json();
        let read = Resolve::from_json(&written).expect("a graph");
        assert_eq!(read.to_json(), written);
    }
}

#[test]
fn a_fault_of_a_text_has_its_place() {
    let text = "{\"graph\": {\"worlds\": [], \"interfaces\": [], \"types\": [],\n \"packages\": [7]}}";
    let fault = Resolve::from_json(text).expect_err("a number is no package");
    assert_eq!(fault.offset(), text.find('7').expect("a number"));
    assert_eq!((fault.line(), fault.column()), (2, 15));
    assert_eq!(fault.expected(), "an object");
    assert_eq!(fault.to_string(), "$.graph.packages[0]: expected an object (line 2, column 15)");
}

#[cfg(feature = "serde")]
mod by_serde {
    use super::*;

    #[test]
    fn graphs_are_written_and_read() {
        for document in documents() {
            let (resolve, _) = carried_out(&document);
            let written = serde_json::to_string(&resolve).expect("a text");
            assert_eq!(written, resolve.to_json());
            let layout = serde_json::to_string(resolve.graph()).expect("a text");
            assert_eq!(layout, resolve.graph().to_json());
            let read: Resolve = serde_json::from_str(&written).expect("a graph");
            assert_eq!(read.to_json(), written);
        }
    }

    #[test]
    fn parts_are_written_and_read() {
        let (resolve, _) = graph();
        let kind = &resolve.types[0].kind;
        let written = serde_json::to_string(kind).expect("a text");
        let wanted = r#"{"record":{"fields":[{"name":"x","type":"u32"},{"name":"y","type":"u32"}]}}"#;
        assert_eq!(written, wanted);
        assert_eq!(&serde_json::from_str::<TypeDefKind>(&written).expect("a kind"), kind);
        let made = group(package("a"));
        let written = serde_json::to_string(&made).expect("a text");
        let read: UnresolvedPackageGroup = serde_json::from_str(&written).expect("a group");
        assert_eq!(read.to_json(), made.to_json());
    }

    #[test]
    fn what_is_no_graph_is_an_error() {
        let error = serde_json::from_str::<Resolve>(r#"{"graph": 7}"#).expect_err("a number is no graph");
        assert!(error.to_string().contains("$.graph"), "{error}");
    }
}
