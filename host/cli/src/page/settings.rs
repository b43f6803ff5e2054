//! What became of saved settings in a step, as JSON.

use super::json::{float, list, string};
use crate::play::settings::{Named, Version};
use synthdef::show::quoted;

/// The names under which something is another: each with its highest version, the versions that are gone, and those that came, with their
/// settings. None where nothing differs. A name that is new stands behind all others.
pub fn changes(before: &[Named], after: &[Named]) -> Option<String> {
    let none = Named::default();
    let mut changed = Vec::new();
    for entry in after {
        let old = before.iter().find(|old| old.name == entry.name);
        if old != Some(entry) {
            changed.push(change(old.unwrap_or(&none), entry));
        }
    }
    (!changed.is_empty()).then(|| list(changed))
}

fn change(old: &Named, new: &Named) -> String {
    let gone = old
        .versions
        .iter()
        .filter(|&own| !new.versions.contains(own));
    let came = new
        .versions
        .iter()
        .filter(|&own| !old.versions.contains(own));
    list([
        string(&quoted(&new.name)),
        new.highest.to_string(),
        list(gone.map(|version| version.number)),
        list(came.map(version)),
    ])
}

fn version(version: &Version) -> String {
    let settings = version.settings.iter();
    let settings = settings.map(|(name, value)| list([string(&quoted(name)), float(*value)]));
    list([version.number.to_string(), list(settings)])
}
