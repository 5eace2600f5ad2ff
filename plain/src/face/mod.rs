//! What users name, over what is made: `Resolve`, and calls of wit-parser on its data.

mod data;
mod errors;
mod files;
#[cfg(feature = "serde")]
mod hand_on;
pub mod json;
mod paths;
mod printing;
mod questions;
mod resolve;
#[cfg(feature = "serde")]
mod serde;

pub use files::{FileError, PackageSources};
pub use printing::{print_graph, print_package};
pub use resolve::Resolve;
