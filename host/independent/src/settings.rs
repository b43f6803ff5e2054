//! Saved settings by version, from paper 02, 8/14: the lent store as entries, and dropping a version. Saving and recalling, which take an
//! engine too, stand beside the engine.

mod read;
mod write;

pub use read::read_store;
pub use write::{contents, write_store};

use crate::Fault;

/// The most versions that one name keeps.
pub const MOST_VERSIONS: usize = 16;

/// The tags of the store's fields, and the byte that closes it.
pub const CLOSING: u8 = 0;
pub const NAME: u8 = 1;
pub const VERSION: u8 = 2;
pub const SETTING: u8 = 3;
pub const HIGHEST: u8 = 4;

/// Refusals of the store and of a version.
pub const NO_STORE: u32 = 31;
pub const NO_VERSION: u32 = 32;

/// What is kept under one definition's name.
#[derive(Clone, Debug, Default, PartialEq, Eq)]
pub struct Named {
    pub name: Vec<u8>,
    /// The highest version ever given.
    pub highest: u32,
    /// Those that are kept, rising.
    pub versions: Vec<Saved>,
}

/// A version: its settings in stored order.
#[derive(Clone, Debug, Default, PartialEq, Eq)]
pub struct Saved {
    pub version: u32,
    pub settings: Vec<Setting>,
}

/// A control's name, and the 32 bits of its float.
#[derive(Clone, Debug, Default, PartialEq, Eq)]
pub struct Setting {
    pub name: Vec<u8>,
    pub value: u32,
}

/// The entries of a store, or refusal 31.
pub fn entries(store: &[u8]) -> Result<Vec<Named>, Fault> {
    read_store(store).ok_or(refused(NO_STORE))
}

/// The settings of a version, or refusal 32.
pub fn saved<'a>(entries: &'a [Named], name: &[u8], version: u32) -> Result<&'a Saved, Fault> {
    let named = entries.iter().find(|entry| entry.name == name);
    let versions = named.map_or(&[][..], |entry| &entry.versions);
    let found = versions.iter().find(|saved| saved.version == version);
    found.ok_or(refused(NO_VERSION))
}

/// Takes a version out of a store, or refuses and changes nothing. The highest version ever given stays.
pub fn drop_version(name: &[u8], version: u32, store: &mut [u8]) -> Result<(), Fault> {
    let mut entries = entries(store)?;
    saved(&entries, name, version)?;
    for entry in entries.iter_mut().filter(|entry| entry.name == name) {
        entry.versions.retain(|saved| saved.version != version);
    }
    let written = write_store(&entries, store);
    assert!(written, "it is shorter than it was");
    Ok(())
}

/// A refusal of a store: it has no place.
fn refused(number: u32) -> Fault {
    Fault { number, place: 0 }
}
