//! SynthDef files of both versions, messages, lists, saved settings and the engine as the papers describe them, written without a look at the proved
//! code: the two are compared on many files and commands, so neither is to copy the other's mistakes.

mod after;
mod command;
mod definition;
pub mod engine;
pub mod files;
mod formed;
pub mod layout;
mod list;
mod message;
mod random;
mod read;
pub mod settings;
mod version;
mod widen;
mod write;

pub use after::leave;
pub use command::{Call, Command, Key, Value, RECALL};
pub use definition::{Definition, Input, Unit, Variant};
pub use engine::{Answer, Engine, Reason, View};
pub use formed::{running, well_formed};
pub use list::{lend_list, read_list, Listed, ITEM, MOST_COMMANDS};
pub use message::{read_message, write_message, Argument, Message};
pub use random::{Random, Shape};
pub use read::{check, read, read_definition, read_versioned, version};
pub use settings::{drop_version, read_store, Named, Saved, Setting};
pub use version::Version;
pub use widen::{twin, Twin};
pub use write::{write, write_as, Field, Rule, Written};

/// Bounds of the paper.
pub const MOST_DEFINITIONS: usize = 32;
pub const MOST_PARAMETERS: usize = 32;
pub const MOST_BYTES: usize = 2048;
/// Rates are 0 scalar, 1 control, 2 audio and 3 demand.
pub const HIGHEST_RATE: i8 = 3;

/// A refusal: its number, and the first byte of the field at fault.
#[derive(Clone, Copy, Debug, PartialEq, Eq)]
pub struct Fault {
    pub number: u32,
    pub place: u64,
}

impl Fault {
    pub fn new(number: u32, place: usize) -> Fault {
        Fault {
            number,
            place: place as u64,
        }
    }
}
