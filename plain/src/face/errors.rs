//! Calls on errors.

use super::resolve::answered;
use crate::made::wit_data::{PackageName, SourceMap, Span};
use crate::made::wit_graph_data::Cause;
use crate::made::wit_graph_data::{ResolveError, ResolveErrorKind};
use crate::made::wit_json_commands::nearest_known;
use crate::made::wit_resolve_graph::{ParseFault, SourceFault};
use std::error::Error;
use std::fmt;

impl ResolveError {
    /// An error that is told by a message, without a number: its cause is [`Cause::Other`].
    pub fn new_semantic(span: Span, message: impl Into<String>) -> ResolveError {
        let (message, cause) = (message.into(), Cause::Other);
        ResolveErrorKind::Semantic { span, message, cause }.into()
    }

    /// The known package whose name is nearest to the one that isn't there; None of other errors, and where none is near.
    pub fn nearest_known(&self) -> Option<&PackageName> {
        answered(nearest_known(self.kind()))
    }

    /// The text, with the line of the source in which the fault is, where its span is known.
    pub fn render(&self, source_map: &SourceMap) -> String {
        answered(self.try_render(source_map)).into_std()
    }
}

impl fmt::Display for SourceFault {
    fn fmt(&self, f: &mut fmt::Formatter<'_>) -> fmt::Result {
        match self {
            SourceFault::Parse { message, .. } => message.fmt(f),
            SourceFault::Resolve(error) => error.fmt(f),
        }
    }
}

impl Error for SourceFault {}

impl fmt::Display for ParseFault {
    fn fmt(&self, f: &mut fmt::Formatter<'_>) -> fmt::Result {
        match self {
            ParseFault::Text { message, .. } => message.fmt(f),
            ParseFault::OutOfMemory => f.write_str("out of memory"),
        }
    }
}

impl Error for ParseFault {}
