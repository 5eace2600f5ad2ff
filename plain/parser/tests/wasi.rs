//! WASI, linked by wit-parser and by wit-resolve-graph: the same graph, and the same again when it is given back. It needs
//! the feature `open`, since the packages come from documents and wit-parser's are made of them.
#![cfg(feature = "open")]

use wit_parser as wp;
use wit_resolve_graph as wr;
use wit_resolve_graph::json::{Change, Document, Order, Request};
use wit_resolve_graph_parser::{from_parser, into_parser};

/// The groups of one push, the main one first.
type Groups = Vec<wr::UnresolvedPackageGroup>;

/// What a document pushes.
fn groups(text: &str) -> Vec<Groups> {
    let document = Document::from_json(text).expect("a document");
    let commands = Vec::from(document.commands).into_iter();
    commands
        .map(|order| match order {
            Order::Request(Request::Change(Change::PushGroups { main, deps })) => {
                [main].into_iter().chain(Vec::from(deps)).collect()
            }
            _ => panic!("a document that pushes alone"),
        })
        .collect()
}

/// The graph that wit-resolve-graph makes of groups.
fn linked(pushes: &[Groups]) -> wr::Resolve {
    let mut resolve = wr::Resolve::new();
    for groups in pushes {
        let (main, deps) = groups.split_first().expect("a main group");
        resolve.push_groups(main.clone(), deps.to_vec()).expect("WASI links");
    }
    resolve
}

/// The graph that wit-parser makes of them.
fn linked_by_parser(pushes: &[Groups]) -> wp::Resolve {
    let mut resolve = wp::Resolve::new();
    for groups in pushes {
        let mut groups = groups.iter().map(into_parser::group);
        let main = groups.next().expect("a main group");
        resolve.push_groups(main, groups.collect()).expect("WASI links");
    }
    resolve
}

const DOCUMENTS: [&str; 3] = [
    include_str!("../../stored/wasi/0.2.0.json"),
    include_str!("../../stored/wasi/0.2.3.json"),
    include_str!("../../stored/wasi/both.json"),
];

#[test]
fn groups_are_the_same_again() {
    for document in DOCUMENTS {
        for group in groups(document).concat() {
            let given = into_parser::group(&group);
            let back = from_parser::group(&given, group.source_map.clone());
            assert_eq!(back.to_json(), group.to_json());
        }
    }
}

/// Which `own` of a resource a value names is free, and where it stands among the types: here each resource has one, behind
/// all other types.
fn with_owns_behind(graph: &wr::Graph) -> wr::Graph {
    let resource = |it: &wr::TypeDef| match (&it.name, &it.kind) {
        (None, wr::TypeDefKind::Handle(wr::Handle::Own(id))) => Some(id.index()),
        _ => None,
    };
    let resources: Vec<_> = graph.types.as_slice().iter().map(resource).collect();
    let mut order: Vec<_> = (0..resources.len()).filter(|it| resources[*it].is_none()).collect();
    let mut owned: Vec<_> = resources.iter().copied().flatten().collect();
    owned.sort();
    owned.dedup();
    let own_of = |it: &usize| resources.iter().position(|of| *of == Some(*it));
    order.extend(owned.iter().filter_map(own_of));
    let place = |index: usize| order.iter().position(|it| *it == index).expect("a place");
    let new = |id: wr::TypeId| match resources[id.index()] {
        Some(of) => place(own_of(&of).expect("an own")),
        None => place(id.index()),
    };
    let mut made = graph.clone();
    made.types = order.iter().map(|it| graph.types[*it].clone()).collect();
    each_type_id(&mut made, |id| *id = wr::TypeId::from_index(new(*id)));
    made
}

fn each_type_id(graph: &mut wr::Graph, mut change: impl FnMut(&mut wr::TypeId)) {
    for (_, it) in graph.types.iter_mut() {
        ids_of_kind(&mut it.kind, &mut change);
    }
    for (_, it) in graph.interfaces.iter_mut() {
        it.types.values_mut().for_each(&mut change);
        it.functions
            .values_mut()
            .for_each(|it| ids_of_function(it, &mut change));
    }
    for (_, it) in graph.worlds.iter_mut() {
        for item in it.imports.values_mut().chain(it.exports.values_mut()) {
            match item {
                wr::WorldItem::Function(it) => ids_of_function(it, &mut change),
                wr::WorldItem::Type { id, .. } => change(id),
                wr::WorldItem::Interface { .. } => {}
            }
        }
    }
}

fn ids_of_function(function: &mut wr::Function, change: &mut impl FnMut(&mut wr::TypeId)) {
    use wr::FunctionKind::*;
    match &mut function.kind {
        Method(id) | AsyncMethod(id) | Static(id) | AsyncStatic(id) | Constructor(id) | MethodGetter(id)
        | MethodSetter(id) | StaticGetter(id) | StaticSetter(id) => change(id),
        Freestanding | AsyncFreestanding | Getter | Setter => {}
    }
    let params = function.params.iter_mut().map(|it| &mut it.ty);
    params.chain(&mut function.result).for_each(|it| id_of_type(it, change));
}

fn ids_of_kind(kind: &mut wr::TypeDefKind, change: &mut impl FnMut(&mut wr::TypeId)) {
    use wr::TypeDefKind::*;
    match kind {
        Handle(wr::Handle::Own(id) | wr::Handle::Borrow(id)) => change(id),
        Record(it) => it.fields.iter_mut().for_each(|it| id_of_type(&mut it.ty, change)),
        Tuple(it) => it.types.iter_mut().for_each(|it| id_of_type(it, change)),
        Variant(it) => it
            .cases
            .iter_mut()
            .flat_map(|it| &mut it.ty)
            .for_each(|it| id_of_type(it, change)),
        Result(it) => it
            .ok
            .iter_mut()
            .chain(&mut it.err)
            .for_each(|it| id_of_type(it, change)),
        Option(it) | List(it) | FixedLengthList(it, _) | Type(it) | Future(Some(it)) | Stream(Some(it)) => {
            id_of_type(it, change)
        }
        Map(key, value) => [key, value].into_iter().for_each(|it| id_of_type(it, change)),
        Resource | Flags(_) | Enum(_) | Future(None) | Stream(None) | Unknown => {}
    }
}

fn id_of_type(ty: &mut wr::Type, change: &mut impl FnMut(&mut wr::TypeId)) {
    if let wr::Type::Id(id) = ty {
        change(id);
    }
}

/// A graph in which the `own`s stand behind, with the files of another.
fn resolve_of(graph: &wr::Graph, files: &wr::SourceMap) -> wr::Resolve {
    let (graph, features) = (with_owns_behind(graph), wr::Features::default());
    let made = wr::Resolve::of_graph(graph, features, files.clone(), wr::TrackRule::Published);
    made.expect("a valid graph")
}

#[test]
fn the_graphs_are_the_same() {
    for document in DOCUMENTS {
        let pushes = groups(document);
        let (ours, theirs) = (linked(&pushes), linked_by_parser(&pushes));
        let files = ours.source_map();
        assert!(theirs.source_map.source_names().eq(files.source_names()));
        let theirs = resolve_of(&from_parser::graph(&theirs), files);
        let ours = resolve_of(&ours, files);
        assert_eq!(theirs.to_json(), ours.to_json());
        let (theirs, ours) = (into_parser::resolve(&theirs), into_parser::resolve(&ours));
        assert_eq!(format!("{theirs:#?}"), format!("{ours:#?}"));
    }
}

#[test]
fn graphs_come_back_the_same() {
    for document in DOCUMENTS {
        let pushes = groups(document);
        let (ours, theirs) = (linked(&pushes), linked_by_parser(&pushes));
        let given = into_parser::resolve(&ours);
        let back = from_parser::resolve(&given, ours.source_map().clone()).expect("a valid graph");
        assert_eq!(back.to_json(), ours.to_json());
        let taken = from_parser::resolve(&theirs, ours.source_map().clone()).expect("a valid graph");
        assert_eq!(format!("{:#?}", into_parser::resolve(&taken)), format!("{theirs:#?}"));
    }
}
