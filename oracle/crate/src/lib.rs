//! The crate `yemkruos` on the oracle's data: its lamps, calls and answers as the oracle has them, and a player of the
//! protocol's calls over it.

mod data;
mod player;
#[path = "../../../rust/tests/protocol/setters.rs"]
mod setters;

pub use data::{Ours, Theirs, fields, kept, lamp, record, running};
pub use player::{Player, Reply};
