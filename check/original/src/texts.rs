//! The texts of files, which wit-parser keeps to itself.

use wit_parser as wp;
use wit_resolve_graph::json::{Change, Request};
use wit_resolve_graph::{SourceMap, UnresolvedPackageGroup};

/// The files of a graph of wit-parser, in the same order, with their texts.
#[derive(Default)]
pub struct Texts {
    sources: SourceMap,
}

/// The path and the text of a file.
type File = (String, String);

impl Texts {
    pub fn of(sources: SourceMap) -> Self {
        Texts { sources }
    }

    pub fn into_sources(self) -> SourceMap {
        self.sources
    }

    /// Adds what a graph has more, each file being one of those that came.
    pub fn follow(&mut self, of_graph: &wp::SourceMap, mut came: Vec<File>) {
        for path in of_graph.source_names().skip(self.sources.len()) {
            let at = came.iter().position(|it| it.0 == path);
            let (path, text) = came.remove(at.expect("a file that came"));
            self.sources.push_str(&path, text).expect("positions below 2^32");
        }
    }
}

/// The files of a source map.
pub fn of_map(map: &SourceMap) -> Vec<File> {
    map.files()
        .map(|(path, text)| (path.to_owned(), text.to_owned()))
        .collect()
}

/// The files that come with a request.
pub fn of_request(request: &Request) -> Vec<File> {
    match request {
        Request::Change(Change::PushGroups { main, deps }) => {
            let of_group = |it: &UnresolvedPackageGroup| of_map(&it.source_map);
            [main].into_iter().chain(deps).flat_map(of_group).collect()
        }
        _ => Vec::new(),
    }
}
