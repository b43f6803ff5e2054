//! Reading a store: tagged fields, then entries, then the rules on them.

use super::{Named, Saved, Setting, CLOSING, HIGHEST, MOST_VERSIONS, NAME, SETTING, VERSION};
use std::collections::HashSet;
use std::iter::Peekable;
use std::vec::IntoIter;

/// The longest name, and the highest byte of one; the lowest is 1.
const LONGEST_NAME: usize = 255;
const HIGHEST_BYTE: u8 = 127;

/// A field's tag and its bytes.
type Field<'a> = (u8, &'a [u8]);

/// The entries of a store, or none where refusal 31 is given.
pub fn read_store(store: &[u8]) -> Option<Vec<Named>> {
    let mut fields = fields(store)?.into_iter().peekable();
    let mut entries = Vec::new();
    while let Some(name) = take(NAME, &mut fields) {
        entries.push(named(name, &mut fields)?);
    }
    // What is left stands out of its place, or has a tag that is none.
    (fields.next().is_none() && formed(&entries)).then_some(entries)
}

/// The fields up to the closing byte or the store's end, or none where one runs past that.
fn fields(store: &[u8]) -> Option<Vec<Field<'_>>> {
    let mut fields = Vec::new();
    let mut rest = store;
    while let Some((&tag, after)) = rest.split_first().filter(|(&tag, _)| tag != CLOSING) {
        let (length, after) = after.split_first_chunk::<2>()?;
        let length = usize::from(u16::from_be_bytes(*length));
        fields.push((tag, after.get(..length)?));
        rest = &after[length..];
    }
    Some(fields)
}

/// The next field's bytes, where it has this tag.
fn take<'a>(tag: u8, fields: &mut Peekable<IntoIter<Field<'a>>>) -> Option<&'a [u8]> {
    fields.next_if(|field| field.0 == tag).map(|field| field.1)
}

/// What follows a name: tag 4, then versions, each with its settings.
fn named(name: &[u8], fields: &mut Peekable<IntoIter<Field<'_>>>) -> Option<Named> {
    let highest = number(take(HIGHEST, fields)?)?;
    let mut versions = Vec::new();
    while let Some(version) = take(VERSION, fields) {
        let version = number(version)?;
        let mut settings = Vec::new();
        while let Some(bytes) = take(SETTING, fields) {
            settings.push(setting(bytes)?);
        }
        versions.push(Saved { version, settings });
    }
    Some(Named {
        name: name.to_vec(),
        highest,
        versions,
    })
}

/// Four bytes as a number, the highest first.
fn number(bytes: &[u8]) -> Option<u32> {
    bytes.try_into().ok().map(u32::from_be_bytes)
}

/// A control's name and then its float.
fn setting(bytes: &[u8]) -> Option<Setting> {
    let (name, value) = bytes.split_last_chunk::<4>()?;
    Some(Setting {
        name: name.to_vec(),
        value: u32::from_be_bytes(*value),
    })
}

/// The rules on names and versions.
fn formed(entries: &[Named]) -> bool {
    let names = entries.iter().map(|entry| entry.name.as_slice());
    differ(names) && entries.iter().all(entry_formed)
}

fn entry_formed(entry: &Named) -> bool {
    let versions = &entry.versions;
    let rising = versions.is_sorted_by(|one, next| one.version < next.version);
    let within = |saved: &Saved| (1..=entry.highest).contains(&saved.version);
    is_name(&entry.name)
        && !entry.name.is_empty()
        && entry.highest > 0
        && versions.len() <= MOST_VERSIONS
        && rising
        && versions.iter().all(within)
        && versions.iter().all(version_formed)
}

fn version_formed(saved: &Saved) -> bool {
    let names = saved.settings.iter().map(|setting| setting.name.as_slice());
    names.clone().all(is_name) && differ(names)
}

fn is_name(name: &[u8]) -> bool {
    name.len() <= LONGEST_NAME && name.iter().all(|byte| (1..=HIGHEST_BYTE).contains(byte))
}

fn differ<'a>(mut names: impl Iterator<Item = &'a [u8]>) -> bool {
    let mut seen = HashSet::new();
    names.all(|name| seen.insert(name))
}
