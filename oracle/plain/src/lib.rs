//! Document 01 in plain Rust: the second witness. It follows the document's words, with maps and vectors in place of
//! everything that the original or the port does for speed or proof. Nothing of the original is used here.

mod apply;
mod compute;
mod delta;
mod digest;
pub mod grid;
pub mod local;
mod meter;
pub mod over;
mod plan;
pub mod side;
pub mod table;
