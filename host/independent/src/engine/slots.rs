//! The 32 slots of definitions.

use super::refuse;
use crate::{Definition, Fault};
use std::collections::HashMap;

pub const SLOTS: usize = 32;

/// A definition as it is kept.
#[derive(Clone, Debug)]
pub struct Kept {
    pub definition: Definition,
    /// Its version 2 encoding.
    pub bytes: Vec<u8>,
    /// For each control, its first entry in the parameter names.
    entries: Vec<Option<usize>>,
}

/// The controls that a name covers: from an index on, so many.
#[derive(Clone, Copy, Debug, PartialEq, Eq)]
pub struct Covered {
    pub index: usize,
    pub width: usize,
}

impl Kept {
    pub fn new(definition: Definition, bytes: Vec<u8>) -> Kept {
        let mut entries = vec![None; definition.initial.len()];
        for (entry, (_, index)) in definition.parameters.iter().enumerate() {
            entries[*index as usize].get_or_insert(entry);
        }
        Kept {
            definition,
            bytes,
            entries,
        }
    }

    /// What a control's name means: its first entry, and the controls from there up to the next larger
    /// index that has a name, whichever, else up to the last.
    pub fn lookup(&self, name: &[u8]) -> Option<Covered> {
        let named = &self.definition.parameters;
        let (_, index) = named.iter().find(|(entry, _)| entry == name)?;
        let index = *index as usize;
        let next = (index + 1..self.entries.len()).find(|&next| self.entries[next].is_some());
        Some(Covered {
            index,
            width: next.unwrap_or(self.entries.len()) - index,
        })
    }

    /// A control's first name.
    pub fn name(&self, index: usize) -> Option<&[u8]> {
        self.entries[index].map(|entry| self.definition.parameters[entry].0.as_slice())
    }
}

/// Free where there is no definition.
#[derive(Clone, Debug, Default)]
pub struct Slot {
    pub kept: Option<Kept>,
    pub resident: bool,
    /// How many live synths hold it.
    pub synths: usize,
}

#[derive(Clone, Debug)]
pub struct Slots {
    pub slots: [Slot; SLOTS],
    residents: HashMap<Vec<u8>, usize>,
}

impl Slots {
    pub fn new() -> Slots {
        Slots {
            slots: Default::default(),
            residents: HashMap::new(),
        }
    }

    pub fn resident(&self, name: &[u8]) -> Option<usize> {
        self.residents.get(name).copied()
    }

    pub fn residents(&self) -> usize {
        self.residents.len()
    }

    /// The definition of a slot that is held or resident.
    pub fn kept(&self, slot: usize) -> &Kept {
        let kept = self.slots[slot].kept.as_ref();
        kept.expect("a taken slot has a definition")
    }

    /// Loads the definitions of a version 2 file, or nothing.
    pub fn load(&mut self, definitions: Vec<Definition>, file: &[u8]) -> Result<(), Fault> {
        let taken = self.slots.iter().filter(|slot| slot.kept.is_some()).count();
        let given_up = definitions
            .iter()
            .filter_map(|definition| self.resident(&definition.name))
            .filter(|&slot| self.slots[slot].synths == 0)
            .count();
        if definitions.len() > SLOTS - (taken - given_up) {
            return refuse(12);
        }
        for definition in &definitions {
            self.retire(&definition.name);
        }
        let mut start = 10;
        let mut free = 0;
        for definition in definitions {
            while self.slots[free].kept.is_some() {
                free += 1;
            }
            let end = start + definition.size();
            self.put(free, Kept::new(definition, file[start..end].to_vec()), true);
            start = end;
        }
        Ok(())
    }

    /// Puts a definition in a free slot.
    pub fn put(&mut self, slot: usize, kept: Kept, resident: bool) {
        if resident {
            self.residents.insert(kept.definition.name.clone(), slot);
        }
        self.slots[slot] = Slot {
            kept: Some(kept),
            resident,
            synths: 0,
        };
    }

    /// Whether there was a resident of the name.
    pub fn retire(&mut self, name: &[u8]) -> bool {
        match self.residents.remove(name) {
            Some(slot) => {
                self.slots[slot].resident = false;
                self.free_unless_taken(slot);
                true
            }
            None => false,
        }
    }

    pub fn hold(&mut self, slot: usize) {
        self.slots[slot].synths += 1;
    }

    /// A synth that held the slot is gone.
    pub fn release(&mut self, slot: usize) {
        self.slots[slot].synths -= 1;
        self.free_unless_taken(slot);
    }

    fn free_unless_taken(&mut self, slot: usize) {
        let slot = &mut self.slots[slot];
        if !slot.resident && slot.synths == 0 {
            slot.kept = None;
        }
    }
}
