//! Saving a synth's settings and recalling them, from paper 02, 8/14.

use super::slots::Kept;
use super::tree::Synth;
use super::{need, refuse, Engine};
use crate::settings::{entries, saved, write_store, Named, Saved, Setting, MOST_VERSIONS};
use crate::{Fault, Key, Value};

impl Engine {
    /// Saves a synth's own floats as a new version under its definition's name, or refuses and changes nothing. Answers the version.
    pub fn save(&self, node: i32, store: &mut [u8]) -> Result<u32, Fault> {
        let mut entries = entries(store)?;
        let synth = self.synth(node)?;
        let kept = self.slots.kept(synth.slot);
        let name = &kept.definition.name;
        let place = entries.iter().position(|entry| entry.name == *name);
        let place = place.unwrap_or_else(|| {
            entries.push(Named {
                name: name.clone(),
                ..Named::default()
            });
            entries.len() - 1
        });
        let entry = &mut entries[place];
        need(entry.versions.len() < MOST_VERSIONS, 30)?;
        let Some(version) = entry.highest.checked_add(1) else {
            return refuse(33);
        };
        entry.highest = version;
        let settings = settings(synth, kept);
        entry.versions.push(Saved { version, settings });
        need(write_store(&entries, store), 33)?;
        Ok(version)
    }

    /// Sets a synth's controls as a version has them, in its order, and skips names that the synth's own definition lacks; or refuses and
    /// changes nothing.
    pub fn recall(
        &mut self,
        name: &[u8],
        version: u32,
        node: i32,
        store: &[u8],
    ) -> Result<(), Fault> {
        let entries = entries(store)?;
        self.synth(node)?;
        for setting in &saved(&entries, name, version)?.settings {
            let key = Key::Name(&setting.name);
            match self.set(node, key, Value::Float(setting.value)) {
                Err(fault) if fault.number != 21 => return Err(fault),
                _ => {}
            }
        }
        Ok(())
    }

    /// The synth that a command names.
    fn synth(&self, node: i32) -> Result<&Synth, Fault> {
        let place = self.find(node)?;
        self.tree.synth(place).map_or_else(|| refuse(18), Ok)
    }
}

/// A synth's own floats by rising index, each under the first name entered for it that looks up to it; those without one are left out.
fn settings(synth: &Synth, kept: &Kept) -> Vec<Setting> {
    let named = &kept.definition.parameters;
    let mut settings = Vec::new();
    for (index, control) in synth.controls.iter().enumerate() {
        let mut entered = named.iter().filter(|(_, at)| *at as usize == index);
        let means = |name: &[u8]| {
            kept.lookup(name)
                .is_some_and(|covered| covered.index == index)
        };
        if let Some((name, _)) = entered.find(|(name, _)| means(name)) {
            settings.push(Setting {
                name: name.clone(),
                value: control.own,
            });
        }
    }
    settings
}
