//! Graphs, packages and documents as JSON, in the layout of `wasm-tools component wit --json` with what stands beside it.
//!
//! [`Resolve::to_json`] and [`Resolve::from_json`] write and read a whole graph, [`Graph::to_json`] writes the layout alone.
//! [`UnresolvedPackageGroup`]s are written and read so, too. A [`Document`] has commands, which
//! [`carry_out`](Document::carry_out) does. With the feature `serde` each of these types, and what they hold, is written and
//! read by `serde` in the same layout.
//!
//! `docs/JSON.md` of the repository has all forms.

use super::resolve::{Resolve, answered};
use crate::made::wit_data::UnresolvedPackageGroup;
use crate::made::wit_graph_data::Graph;
use crate::made::wit_json::{graph_to_json, group_to_json, text_of, whole_to_json};
use crate::made::wit_json_commands::responses_to;
use crate::made::wit_json_reading::{
    Expected, Fault, FaultPlace, ReadError, ReadJson, in_member, instead_of, place_of, read_text,
};
use std::error::Error;
use std::fmt;

pub use crate::made::wit_json_commands::{
    Change, Document, FunctionPlace, FunctionSite, Mangling, Order, Question, Request,
};
pub use crate::made::wit_json_graphs::ResolveParts;

/// Why a text isn't read: the path to the value that has the fault, what was to stand there, and where it begins.
#[derive(Clone, Debug, PartialEq, Eq)]
pub struct JsonFault {
    text: String,
    expected: String,
    place: FaultPlace,
}

impl JsonFault {
    /// How many bytes stand before the value, or before the place where the text stops being JSON.
    pub fn offset(&self) -> usize {
        self.place.offset
    }

    /// The line of that place, from 1.
    pub fn line(&self) -> usize {
        self.place.line
    }

    /// Its column in characters, from 1.
    pub fn column(&self) -> usize {
        self.place.column
    }

    /// What was to stand there.
    pub fn expected(&self) -> &str {
        &self.expected
    }
}

/// As `$.commands[0]: expected a command (line 1, column 14)`.
impl fmt::Display for JsonFault {
    fn fmt(&self, f: &mut fmt::Formatter<'_>) -> fmt::Result {
        write!(f, "{} (line {}, column {})", self.text, self.line(), self.column())
    }
}

impl Error for JsonFault {}

/// What a text reads as.
pub(super) fn read<T: ReadJson>(text: &str) -> Result<T, JsonFault> {
    told(text, read_text(text))
}

/// What was read of a text, with its fault as that of the text.
fn told<T>(text: &str, read: Result<T, ReadError>) -> Result<T, JsonFault> {
    match read {
        Ok(value) => Ok(value),
        Err(ReadError::Fault(fault)) => Err(fault_of(text, &fault)),
        Err(ReadError::OutOfMemory) => panic!("memory for an answer"),
    }
}

fn fault_of(text: &str, fault: &Fault) -> JsonFault {
    JsonFault {
        text: fault.to_string(),
        expected: fault.expected.to_string(),
        place: answered(place_of(text, fault)),
    }
}

/// The graph of parts, which is to be valid.
fn resolve_of(parts: ResolveParts) -> Result<Resolve, ReadError> {
    let made = Resolve::of_graph_or_fault(parts.graph, parts.features, parts.source_map, parts.track_rule);
    match made {
        Ok(resolve) => Ok(resolve),
        Err(fault) => in_member(instead_of(Expected::ValidGraph(fault)), "graph"),
    }
}

impl Resolve {
    /// The graph in JSON with what stands beside it: the member `resolve` of a document.
    pub fn to_json(&self) -> String {
        let made = whole_to_json(self.graph(), self.features(), self.track_rule(), self.source_map());
        answered(made).into_std()
    }

    /// The graph that a text tells as [`to_json`](Resolve::to_json) writes it; what stands beside `graph` may be left out.
    ///
    /// Refused where the text has another form, or the graph isn't valid.
    pub fn from_json(text: &str) -> Result<Resolve, JsonFault> {
        told(text, resolve_of(read(text)?))
    }
}

impl ResolveParts {
    /// What a `Resolve` is made of in JSON, as [`Resolve::to_json`] writes it; the graph need not be valid.
    pub fn to_json(&self) -> String {
        let made = whole_to_json(&self.graph, &self.features, self.track_rule, &self.source_map);
        answered(made).into_std()
    }
}

impl Graph {
    /// The graph in JSON, in the layout of `wasm-tools component wit --json`.
    pub fn to_json(&self) -> String {
        answered(graph_to_json(self)).into_std()
    }
}

impl UnresolvedPackageGroup {
    /// The group in JSON.
    pub fn to_json(&self) -> String {
        answered(group_to_json(self)).into_std()
    }

    /// The group that a text tells. Whether its packages have their shape is asked where they are pushed.
    pub fn from_json(text: &str) -> Result<UnresolvedPackageGroup, JsonFault> {
        read(text)
    }
}

impl Document {
    /// The document of a text.
    pub fn from_json(text: &str) -> Result<Document, JsonFault> {
        let document: Document = read(text)?;
        Ok(document)
    }

    /// Carries out the commands in order, on the graph with which the document begins or on an empty one: the graph that
    /// there is then, and the reply to each, in JSON. A refusal is a reply, and nothing has changed then but the files.
    ///
    /// None where the graph with which it begins isn't valid.
    pub fn carry_out(self) -> Option<(Resolve, Vec<String>)> {
        let mut resolve = match self.resolve {
            Some(parts) => resolve_of(parts).ok()?,
            None => Resolve::new(),
        };
        let replies = answered(responses_to(&mut resolve.inner, self.commands));
        let texts = replies.as_slice().iter().map(|it| answered(text_of(it)).into_std());
        let texts = texts.collect();
        Some((resolve, texts))
    }
}
