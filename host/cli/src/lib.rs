//! The parts of the program `limudvek` that are tested apart from it.

pub mod messages;
pub mod page;
pub mod play;
