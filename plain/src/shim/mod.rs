//! What Rattle's standard library has and Rust's lacks, over Rust's own: collections and texts whose growth answers a
//! `Result`, JSON, the streams of a program. Every other name of `std` in the made modules is Rust's.
//!
//! A call reserves by `try_reserve` before it grows, so it answers want of memory. Where Rust's stable library or a crate has
//! no such call the process ends instead: `Box`, `BTreeMap`, `indexmap`, `semver` and stable sorts.
#![allow(
    dead_code,
    unused_imports,
    unused_macros,
    reason = "each type has the calls that its namesake has, and the made modules call some"
)]

pub mod alloc;
mod boxed;
pub mod collections;
pub mod env;
pub mod indexmap;
pub mod json;
mod macros;
pub mod semver;
pub mod simd;
pub mod streams;
mod string;
pub mod strsim;
#[cfg(test)]
mod tests;
pub mod vec;

pub use self::alloc::AllocError;
pub use self::boxed::Box;
pub(crate) use self::macros::{derive_index, try_eprintln, try_format, try_print, try_println, try_vec};
pub use self::string::{String, TryToLowercase, TryToString};
pub use self::vec::{TryCollect, TryToVec, Vec};
