//! What std's traits ask of a source map.

use super::TryClone;
use crate::made::wit_data::SourceMap;
use std::fmt;

impl Clone for SourceMap {
    fn clone(&self) -> SourceMap {
        self.try_clone().expect("memory")
    }
}

impl Default for SourceMap {
    fn default() -> SourceMap {
        SourceMap::new()
    }
}

/// Equal where the files have the same paths and texts, and begin at the same positions.
impl PartialEq for SourceMap {
    fn eq(&self, other: &SourceMap) -> bool {
        self.end() == other.end() && self.files().eq(other.files())
    }
}

impl Eq for SourceMap {}

impl fmt::Debug for SourceMap {
    fn fmt(&self, f: &mut fmt::Formatter<'_>) -> fmt::Result {
        f.debug_map().entries(self.files()).finish()
    }
}
