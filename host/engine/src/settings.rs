//! Saved settings by version, in a lent store of tagged fields, which docs/LAYOUT.md describes.

use super::{proved, Engine, Refused};

/// The kind of a recall: unknown to `apply`, refused with 34 in a list, and without a message.
pub const RECALL: u32 = 28;

/// Saves a synth's own floats, each under the first name entered for its control that looks up to it, as a
/// new version under its definition's name. Answers 256 times the version; or a refusal, and then nothing is
/// written: 1, 31 where the store is not well formed, 17, 18, 30 where 16 versions stand there, 33 where
/// there is no room or no higher version.
pub fn save(node: u32, words: &[u32], arena: &[u8], store: &mut [u8]) -> u64 {
    // SAFETY: each pointer and length are those of one slice, lent until the call returns.
    unsafe {
        proved::settings_save(
            node,
            words.as_ptr(),
            words.len(),
            arena.as_ptr(),
            arena.len(),
            store.as_mut_ptr(),
            store.len(),
        )
    }
}

/// Sets a synth's controls as a version has them, each as `/n_set` by name does in the synth's own
/// definition; names that it lacks are skipped. Answers 0, or a refusal, and then nothing changes: 1, 31,
/// 17, 18, 32 where there is no such version under that definition's name.
pub fn recall(
    name: &[u8],
    version: u32,
    node: u32,
    store: &[u8],
    words: &mut [u32],
    arena: &[u8],
) -> u32 {
    // SAFETY: as above.
    unsafe {
        proved::settings_recall(
            name.as_ptr(),
            name.len(),
            version,
            node,
            store.as_ptr(),
            store.len(),
            words.as_mut_ptr(),
            words.len(),
            arena.as_ptr(),
            arena.len(),
        )
    }
}

/// Takes a version out of a store; its number is never given again. Answers 0, or a refusal, and then
/// nothing changes: 31, 32.
pub fn drop_version(name: &[u8], version: u32, store: &mut [u8]) -> u32 {
    // SAFETY: as above.
    unsafe {
        proved::settings_drop(
            name.as_ptr(),
            name.len(),
            version,
            store.as_mut_ptr(),
            store.len(),
        )
    }
}

/// A refusal: it has no place.
fn refused(number: u32) -> Refused {
    Refused { number, place: 0 }
}

impl Engine {
    /// Saves a synth's own floats as a new version, as the function `save`. Answers the version.
    pub fn save(&self, node: i32, store: &mut [u8]) -> Result<u32, Refused> {
        let answer = save(node as u32, &self.words, &self.arena, store);
        match answer % 256 {
            0 => Ok((answer / 256) as u32),
            number => Err(refused(number as u32)),
        }
    }

    /// Sets a synth's controls as a version has them, as the function `recall`.
    pub fn recall(
        &mut self,
        name: &[u8],
        version: u32,
        node: i32,
        store: &[u8],
    ) -> Result<(), Refused> {
        let (words, arena) = (&mut self.words, &self.arena);
        match recall(name, version, node as u32, store, words, arena) {
            0 => Ok(()),
            number => Err(refused(number)),
        }
    }
}
