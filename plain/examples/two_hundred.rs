//! Links 200 packages one by one, each of which uses a type of the one before it, and tells how long that took.
use std::time::Instant;
use wit_resolve_graph::*;

const PACKAGES: usize = 200;

fn name(number: usize) -> PackageName {
    PackageName::new("chain".to_owned(), format!("p{number}"), None)
}

/// An interface `types` of another package, of which type `t` is used.
fn add_foreign(made: &mut UnresolvedPackage, package: PackageName) -> TypeId {
    let types = made.interfaces.alloc(Interface::new(Some("types".to_owned())));
    let owner = TypeOwner::Interface(types);
    let id = made
        .types
        .alloc(TypeDef::new(Some("t".to_owned()), TypeDefKind::Unknown, owner));
    made.interfaces[types].types.insert("t".to_owned(), id);
    made.unknown_type_spans.push(Span::default());
    let gates = Items::from(vec![Stability::Unknown]);
    let items = [("types".to_owned(), (AstItem::Interface(types), gates))];
    made.foreign_deps.insert(package, items.into_iter().collect());
    made.foreign_dep_spans.push(Span::default());
    id
}

/// A package with interface `types` and world `w`, which imports it; type `t` is that of the package before.
fn package(number: usize) -> UnresolvedPackage {
    let mut made = UnresolvedPackage::new(name(number));
    let kind = match number {
        0 => TypeDefKind::Type(Type::U32),
        _ => TypeDefKind::Type(Type::Id(add_foreign(&mut made, name(number - 1)))),
    };
    let types = made.interfaces.alloc(Interface::new(Some("types".to_owned())));
    let id = made
        .types
        .alloc(TypeDef::new(Some("t".to_owned()), kind, TypeOwner::Interface(types)));
    made.interfaces[types].types.insert("t".to_owned(), id);
    let mut world = World::new("w".to_owned());
    world
        .imports
        .insert(WorldKey::Interface(types), WorldItem::interface(types));
    made.worlds.alloc(world);
    made
}

fn main() -> Result<(), ResolveError> {
    let packages: Vec<_> = (0..PACKAGES).map(package).collect();
    let start = Instant::now();
    let mut resolve = Resolve::new();
    for package in packages {
        resolve.push(package, 0)?;
    }
    let seconds = start.elapsed().as_secs_f64();
    let (id, _) = resolve.packages.iter().next_back().expect("a package");
    let world = resolve.select_world(&[id], None)?;
    let imports = resolve.worlds[world].imports.len();
    println!(
        "{} packages in {seconds:.3} s; the last world imports {imports} interfaces",
        resolve.packages.len()
    );
    Ok(())
}
