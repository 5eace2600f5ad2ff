//! Prints what each world of WASI imports.
use std::{error::Error, fs};
use wit_resolve_graph::json::Document;

fn main() -> Result<(), Box<dyn Error>> {
    let document = Document::from_json(&fs::read_to_string("stored/wasi/both.json")?)?;
    let (resolve, _replies) = document.carry_out().ok_or("the graph isn't valid")?;
    for (_, world) in &resolve.worlds {
        println!("world {}", world.name);
        for key in world.imports.keys() {
            println!("  import {}", resolve.name_world_key(key));
        }
    }
    Ok(())
}
