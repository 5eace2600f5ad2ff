//! Reads a document of docs/JSON.md from standard input, carries out its commands by wit-parser's `Resolve`, on the graph
//! with which it begins or an empty one, and writes what it answers and the graph that it has then, as `witgraph_json`
//! does.
//!
//! - A document is one that `witgraph_json` reads, with a graph that is valid and packages that have their shape; none of
//!   this is asked again.
//! - Of a refusal it has the text, the span, how it is shown, and the number where wit-parser has a kind of its own for
//!   it (1 to 8), else `null`.
//! - Where a call panics the reply is `{"panic": TEXT}`. Before each command its place is written to standard error, as
//!   `2` or `2.0` of a command within a `merge`, so that what overflows the stack or doesn't end is known.
//! - After a refusal or a panic all but the source map is as before the command; wit-parser leaves what it had begun.
//! - `set-track-rule` does nothing: wit-parser has the rule `published` alone.

mod questions;
mod texts;

use serde_json::{Value, json};
use std::collections::HashSet;
use std::error::Error;
use std::io;
use std::panic::{AssertUnwindSafe, catch_unwind, set_hook};
use std::sync::Mutex;
use texts::Texts;
use wit_parser::*;
use wit_resolve_graph::Items;
use wit_resolve_graph::json::{Change, Document, Order, Request, ResolveParts};
use wit_resolve_graph_parser::{from_parser, into_parser};

/// What the last panic told.
static TOLD: Mutex<String> = Mutex::new(String::new());

fn main() -> Result<(), Box<dyn Error>> {
    let document = Document::from_json(&io::read_to_string(io::stdin())?)?;
    set_hook(Box::new(|it| tell(it.to_string())));
    let (mut resolve, mut texts) = (Resolve::new(), Texts::default());
    if let Some(begin) = document.resolve {
        resolve = begun(&begin);
        texts = Texts::of(begin.source_map);
    }
    let replies = run(&mut resolve, &mut texts, document.commands);
    let replies = serde_json::to_string(&replies)?;
    let resolve = from_parser::parts(&resolve, texts.into_sources()).to_json();
    println!("{{\"replies\":{replies},\"resolve\":{resolve}}}");
    Ok(())
}

/// The graph with which a document begins.
fn begun(parts: &ResolveParts) -> Resolve {
    let mut made = into_parser::graph(&parts.graph);
    made.features.extend(parts.features.names.iter().cloned());
    made.all_features = parts.features.all;
    made.source_map = into_parser::source_map(&parts.source_map);
    made
}

/// Keeps what a panic told, which is also written to standard error.
fn tell(text: String) {
    let text = text.replace('\n', " ");
    eprintln!("{text}");
    *TOLD.lock().expect("no panic holds it") = text;
}

/// The replies to commands. Each is told on standard error before it is begun, so that a reader knows which one ends
/// the process, or doesn't end.
fn run(resolve: &mut Resolve, texts: &mut Texts, orders: Items<Order>) -> Vec<Value> {
    let mut replies = Vec::new();
    for (number, order) in Vec::from(orders).into_iter().enumerate() {
        eprintln!("{number}");
        replies.push(match order {
            Order::Request(request) => reply(resolve, texts, &request),
            Order::Merge(requests) => merge(resolve, texts, requests, number),
        });
    }
    replies
}

fn reply(resolve: &mut Resolve, texts: &mut Texts, request: &Request) -> Value {
    let answer = guarded(resolve, |it| step(it, request));
    texts.follow(&resolve.source_map, texts::of_request(request));
    answer
}

/// Carries out requests on an empty graph, and merges that into this one.
fn merge(resolve: &mut Resolve, texts: &mut Texts, requests: Items<Request>, number: usize) -> Value {
    let (mut other, mut other_texts) = (Resolve::new(), Texts::default());
    let mut replies = Vec::new();
    for (inner, request) in Vec::from(requests).iter().enumerate() {
        eprintln!("{number}.{inner}");
        replies.push(reply(&mut other, &mut other_texts, request));
    }
    eprintln!("{number}");
    let last = guarded(resolve, |it| Ok(json!({ "merged": remap(&it.merge(other)?) })));
    texts.follow(&resolve.source_map, texts::of_map(&other_texts.into_sources()));
    json!({ "merge": { "replies": replies, "reply": last } })
}

/// What a call answers. After a refusal and a panic all but the source map is as before it.
fn guarded(resolve: &mut Resolve, call: impl FnOnce(&mut Resolve) -> anyhow::Result<Value>) -> Value {
    let before = resolve.clone();
    let answered = catch_unwind(AssertUnwindSafe(|| call(resolve)));
    if let Ok(Ok(value)) = answered {
        return value;
    }
    let source_map = std::mem::take(&mut resolve.source_map);
    *resolve = Resolve { source_map, ..before };
    match answered {
        Ok(Err(error)) => json!({ "refused": refusal(resolve, &error) }),
        _ => json!({ "panic": *TOLD.lock().expect("no panic holds it") }),
    }
}

/// A change or a question.
fn step(resolve: &mut Resolve, request: &Request) -> anyhow::Result<Value> {
    match request {
        Request::Change(change) => step_of_change(resolve, change),
        Request::Ask(question) => questions::answer(resolve, question).unwrap_or(Ok("not-found".into())),
    }
}

fn step_of_change(resolve: &mut Resolve, change: &Change) -> anyhow::Result<Value> {
    match change {
        Change::AddFeature(name) => {
            resolve.features.insert(name.clone());
        }
        Change::SetAllFeatures(all) => resolve.all_features = *all,
        // there is one rule of tracks
        Change::SetTrackRule(_) => {}
        Change::PushGroups { main, deps } => {
            let deps = deps.iter().map(into_parser::group).collect();
            let main = resolve.push_groups(into_parser::group(main), deps)?;
            return Ok(json!({ "pushed": main.index() }));
        }
        Change::Importize { .. } | Change::Exportize { .. } | Change::Semver { .. } => {
            return turn(resolve, change);
        }
    }
    Ok("done".into())
}

/// A command that changes a world.
fn turn(resolve: &mut Resolve, change: &Change) -> anyhow::Result<Value> {
    let (Change::Importize { package, world, .. }
    | Change::Exportize { package, world, .. }
    | Change::Semver { package, world }) = change
    else {
        unreachable!("it names a world")
    };
    let Some(id) = questions::world(resolve, package, world) else {
        return Ok("no-world".into());
    };
    match change {
        Change::Importize { out, .. } => resolve.importize(id, out.clone())?,
        Change::Exportize { out, keys, .. } => exportize(resolve, id, out.clone(), keys)?,
        _ => resolve.merge_world_imports_based_on_semver(id)?,
    }
    Ok("done".into())
}

fn exportize(
    resolve: &mut Resolve,
    world: WorldId,
    out: Option<String>,
    keys: &Option<Items<String>>,
) -> anyhow::Result<()> {
    let Some(keys) = keys else {
        return resolve.exportize(world, out, None);
    };
    let imports = resolve.worlds[world].imports.keys();
    let is_named = |it: &&WorldKey| keys.contains(&resolve.name_world_key(it));
    let moved: HashSet<_> = imports.filter(is_named).cloned().collect();
    let filter = |key: &WorldKey, _: &WorldItem| moved.contains(key);
    resolve.exportize(world, out, Some(&filter))
}

fn remap(map: &Remap) -> Value {
    json!({
        "types": map.types.iter().map(|it| it.map(Id::index)).collect::<Vec<_>>(),
        "interfaces": map.interfaces.iter().map(|it| it.map(Id::index)).collect::<Vec<_>>(),
        "worlds": map.worlds.iter().map(|it| it.map(Id::index)).collect::<Vec<_>>(),
        "packages": map.packages.iter().map(|it| it.index()).collect::<Vec<_>>(),
    })
}

/// A refusal: its number where wit-parser has a kind of its own for it, its text, and how it is shown.
fn refusal(resolve: &Resolve, error: &anyhow::Error) -> Value {
    let parts: Vec<_> = error.chain().map(ToString::to_string).collect();
    let text = parts.join(": ");
    let mut chain = error.chain();
    let found = chain.find_map(|it| it.downcast_ref::<ResolveError>());
    let span = found.and_then(|it| span(it.kind().span()));
    let rendered = found.map_or(Some(text.clone()), |it| shown(resolve, it));
    json!({ "error": { "number": found.and_then(number), "text": text, "span": span }, "rendered": rendered })
}

/// A span, where it is known.
fn span(it: Span) -> Option<[u32; 2]> {
    it.is_known().then(|| [it.start(), it.end()])
}

/// How a refusal is shown, None where that panics: a merge tells spans of the other source map, which may cut a
/// character of this one.
fn shown(resolve: &Resolve, error: &ResolveError) -> Option<String> {
    catch_unwind(AssertUnwindSafe(|| error.render(&resolve.source_map))).ok()
}

fn number(error: &ResolveError) -> Option<u32> {
    match error.kind() {
        ResolveErrorKind::PackageNotFound { .. } => Some(1),
        ResolveErrorKind::WorldNotFound { .. } => Some(2),
        ResolveErrorKind::InterfaceNotFound { .. } => Some(3),
        ResolveErrorKind::InvalidTransitiveDependency { .. } => Some(4),
        ResolveErrorKind::DuplicatePackage { .. } => Some(5),
        ResolveErrorKind::PackageCycle { .. } => Some(6),
        ResolveErrorKind::ItemShadowing { .. } => Some(7),
        ResolveErrorKind::StabilityMismatch { .. } => Some(8),
        _ => None,
    }
}
