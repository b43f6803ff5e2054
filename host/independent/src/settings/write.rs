//! Writing a store.

use super::{Named, HIGHEST, NAME, SETTING, VERSION};

/// The contents of a store with these entries: its bytes up to the closing one.
pub fn contents(entries: &[Named]) -> Vec<u8> {
    let mut bytes = Vec::new();
    for entry in entries {
        field(NAME, &[&entry.name], &mut bytes);
        field(HIGHEST, &[&entry.highest.to_be_bytes()], &mut bytes);
        for saved in &entry.versions {
            field(VERSION, &[&saved.version.to_be_bytes()], &mut bytes);
            for setting in &saved.settings {
                let value = setting.value.to_be_bytes();
                field(SETTING, &[&setting.name, &value], &mut bytes);
            }
        }
    }
    bytes
}

/// Adds a field: its tag, its length in two bytes with the higher first, and the parts of its bytes.
fn field(tag: u8, parts: &[&[u8]], bytes: &mut Vec<u8>) {
    let value = parts.concat();
    bytes.push(tag);
    bytes.extend((value.len() as u16).to_be_bytes());
    bytes.extend(value);
}

/// Writes entries to the front of a store and zeros behind them, or nothing where there is no room. Answers which.
pub fn write_store(entries: &[Named], store: &mut [u8]) -> bool {
    let contents = contents(entries);
    let Some((front, rest)) = store.split_at_mut_checked(contents.len()) else {
        return false;
    };
    front.copy_from_slice(&contents);
    rest.fill(0);
    true
}
