//! Builds a package, pushes it, merges another graph, walks a world, meets a refusal.
use wit_resolve_graph::*;

/// A package with interface `types`, which has a record, and world `app`, which imports that interface.
fn package(namespace: &str) -> UnresolvedPackage {
    let mut made = UnresolvedPackage::new(PackageName::new(namespace.to_owned(), "shop".to_owned(), None));
    let types = made.interfaces.alloc(Interface::new(Some("types".to_owned())));
    let price = Field {
        name: "price".to_owned(),
        ty: Type::U32,
        docs: Docs::default(),
        span: Span::default(),
    };
    let kind = TypeDefKind::Record(Record {
        fields: vec![price].into(),
    });
    let item = made
        .types
        .alloc(TypeDef::new(Some("item".to_owned()), kind, TypeOwner::Interface(types)));
    made.interfaces[types].types.insert("item".to_owned(), item);
    let mut world = World::new("app".to_owned());
    world
        .imports
        .insert(WorldKey::Interface(types), WorldItem::interface(types));
    made.worlds.alloc(world);
    made
}

fn main() -> Result<(), ResolveError> {
    let mut resolve = Resolve::new();
    let id = resolve.push(package("one"), 0)?;

    let mut other = Resolve::new();
    other.push(package("two"), 0)?;
    let remap = resolve.merge(other)?;
    println!(
        "merged {:?} beside {:?}",
        remap.packages,
        resolve.packages[id].name.to_string()
    );

    let world = resolve.select_world(&[id], Some("app"))?;
    for (key, item) in resolve.worlds[world].imports.iter() {
        println!("{} imports {}", resolve.worlds[world].name, resolve.name_world_key(key));
        if let WorldItem::Interface { id, .. } = item {
            for (name, id) in &resolve.interfaces[*id].types {
                match &resolve.types[*id].kind {
                    TypeDefKind::Record(record) => println!("  record {name} of {} fields", record.fields.len()),
                    kind => println!("  {name}: {kind:?}"),
                }
            }
        }
    }
    if let Err(refusal) = resolve.push(package("one"), 0) {
        println!("refused {}: {refusal}", refusal.number());
    }
    Ok(())
}
