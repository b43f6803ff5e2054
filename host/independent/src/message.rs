//! Commands as OSC messages, from the change request and source document 004: one message is read
//! into a command, and a command is written as one.

mod form;
mod read;
mod write;

pub use form::{Argument, Message};
pub use read::read_message;
pub use write::write_message;

use crate::Fault;

/// A refusal of a message: it has no place.
fn refused(number: u32) -> Fault {
    Fault { number, place: 0 }
}
