//! The ids of a package's lists in the arenas of wit-parser.

use wit_parser as wp;
use wit_resolve_graph as wr;

pub struct Ids {
    pub types: Vec<wp::TypeId>,
    pub interfaces: Vec<wp::InterfaceId>,
    pub worlds: Vec<wp::WorldId>,
}

impl Ids {
    pub fn ty(&self, id: wr::TypeId) -> wp::TypeId {
        self.types[id.index()]
    }

    pub fn interface(&self, id: wr::InterfaceId) -> wp::InterfaceId {
        self.interfaces[id.index()]
    }

    pub fn world(&self, id: wr::WorldId) -> wp::WorldId {
        self.worlds[id.index()]
    }
}
