//! The same algorithms as the proved cores, in plain Rust: the same steps on the same arrays, written as one writes Rust.
//! How letters are looked up is open, since that is where the cores and Rust's own library part.

mod form;
mod pairing;
mod ranks;
mod row;
mod separate;
mod stairs;
mod stretches;
mod vector;

pub use form::form;
pub use ranks::{BranchFree, Branching};
pub use separate::separate;
