//! The rules of the event index, written a second time, in plain Rust, from docs/ alone.

pub mod change;
pub mod checked;
pub mod generate;
pub mod index;
pub mod layer;
pub mod order;
pub mod page;
pub mod rules;
pub mod script;
pub mod session;
pub mod store;
pub mod text;
