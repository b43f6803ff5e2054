//! A store of saved settings, by docs/LAYOUT.md, as entries to be shown. The engine has found it well formed.

use std::io::{self, Write};
use synthdef::show::quoted;

/// The tags of fields.
const NAME: u8 = 1;
const VERSION: u8 = 2;
const SETTING: u8 = 3;
const HIGHEST: u8 = 4;

/// What is kept under a definition's name.
#[derive(Clone, Debug, Default, PartialEq, Eq)]
pub(crate) struct Named {
    pub(crate) name: Vec<u8>,
    pub(crate) highest: u32,
    pub(crate) versions: Vec<Version>,
}

#[derive(Clone, Debug, PartialEq, Eq)]
pub(crate) struct Version {
    pub(crate) number: u32,
    /// Names of controls with the patterns of their floats, in stored order.
    pub(crate) settings: Vec<(Vec<u8>, u32)>,
}

/// The entries of a store.
pub(crate) fn entries(store: &[u8]) -> Vec<Named> {
    let mut entries: Vec<Named> = Vec::new();
    let mut rest = store;
    while let Some((tag, bytes, after)) = field(rest) {
        rest = after;
        match (tag, entries.last_mut()) {
            (NAME, _) => entries.push(Named {
                name: bytes.to_vec(),
                ..Named::default()
            }),
            (HIGHEST, Some(entry)) => entry.highest = number(bytes),
            (VERSION, Some(entry)) => entry.versions.push(Version {
                number: number(bytes),
                settings: Vec::new(),
            }),
            (SETTING, Some(entry)) => {
                if let (Some(version), Some((name, value))) =
                    (entry.versions.last_mut(), bytes.split_last_chunk::<4>())
                {
                    let value = u32::from_be_bytes(*value);
                    version.settings.push((name.to_vec(), value));
                }
            }
            _ => {}
        }
    }
    entries
}

/// The first field, its tag and its bytes, and what follows it; none at the store's close.
fn field(store: &[u8]) -> Option<(u8, &[u8], &[u8])> {
    let (&tag, rest) = store.split_first().filter(|(&tag, _)| tag != 0)?;
    let (length, rest) = rest.split_first_chunk::<2>()?;
    let (bytes, after) = rest.split_at_checked(usize::from(u16::from_be_bytes(*length)))?;
    Some((tag, bytes, after))
}

/// A number of four bytes, the highest first.
fn number(bytes: &[u8]) -> u32 {
    bytes.try_into().map_or(0, u32::from_be_bytes)
}

/// How many bytes the contents take.
fn taken(store: &[u8]) -> usize {
    let mut rest = store;
    while let Some((.., after)) = field(rest) {
        rest = after;
    }
    store.len() - rest.len()
}

/// Prints names, versions and values, and how much of the store they take.
pub(crate) fn print(store: &[u8], out: &mut impl Write) -> io::Result<()> {
    for entry in entries(store) {
        let highest = entry.highest;
        writeln!(out, "  {}, highest version {highest}", quoted(&entry.name))?;
        for version in entry.versions {
            write!(out, "    version {}", version.number)?;
            for (place, (name, value)) in version.settings.iter().enumerate() {
                let between = if place == 0 { ": " } else { ", " };
                let float = f32::from_bits(*value);
                write!(out, "{between}{} {float:?}", quoted(name))?;
            }
            writeln!(out)?;
        }
    }
    writeln!(out, "  {} of {} bytes", taken(store), store.len())
}
