//! `parse`, where a `Resolve` pushes a file. What it makes of WIT needs wit-parser's reader, which reads this text, too.
use wit_resolve_graph::{Resolve, SourceFault};

#[test]
fn what_is_no_wit_is_refused_by_its_reader() {
    let mut resolve = Resolve::new();
    let pushed = resolve.push_source("a.wit", "no WIT at all", wit_resolve_graph_parser::parse);
    let Err(SourceFault::Parse { message, .. }) = pushed else {
        panic!("{pushed:?}")
    };
    assert!(!message.is_empty());
    assert!(resolve.packages.is_empty());
}
