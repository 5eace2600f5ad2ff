//! Holds the graph that a document of JSON makes, that of WASI where none is named, and tells of each world what it has.
use std::error::Error;
use std::{env, fs};
use wit_resolve_graph::json::Document;

const WASI: &str = concat!(env!("CARGO_MANIFEST_DIR"), "/stored/wasi/both.json");

fn main() -> Result<(), Box<dyn Error>> {
    let path = env::args().nth(1).unwrap_or(WASI.to_owned());
    let document = Document::from_json(&fs::read_to_string(path)?)?;
    let (resolve, _replies) = document.carry_out().ok_or("its graph isn't valid")?;
    for world in resolve.worlds.as_slice() {
        let package = world
            .package
            .map(|id| resolve.packages[id].name.to_string())
            .unwrap_or_default();
        println!(
            "{package} {}: imports {}, exports {}",
            world.name,
            world.imports.len(),
            world.exports.len()
        );
    }
    Ok(())
}
