//! Saved settings on the proved engine and on the independent one, side by side.

use super::pair::Pair;
use engine::settings;
use independent::engine::packed;
use independent::{drop_version, leave, Fault, Saved, RECALL};

/// A refusal's number, or 0.
fn number(answer: Result<(), Fault>) -> u32 {
    answer.err().map_or(0, |fault| fault.number)
}

fn same<T: PartialEq + std::fmt::Debug>(what: &str, found: T, expected: T) -> Result<(), String> {
    if found == expected {
        Ok(())
    } else {
        Err(format!("{what} {found:?}, expected {expected:?}"))
    }
}

/// The whole stores are the same.
fn same_store(store: &[u8], expected: &[u8]) -> Result<(), String> {
    let differ = store.iter().zip(expected).position(|(a, b)| a != b);
    differ.map_or(Ok(()), |place| {
        Err(format!("byte {place} of the store differs"))
    })
}

impl Pair {
    /// Saves a synth's settings in both. Answers what both answer.
    pub fn save(&mut self, node: i32, store: &mut [u8]) -> Result<u64, String> {
        self.sent += 1;
        let mut expected_store = store.to_vec();
        let version = self.model.save(node, &mut expected_store);
        let expected = packed(version.map(|version| version as usize));
        let answer = settings::save(node as u32, &self.words, &self.arena, store);
        same("save answers", answer, expected)?;
        same_store(store, &expected_store)?;
        self.compare_expected()?;
        Ok(answer)
    }

    /// Recalls a version into a synth of both. Answers what both answer.
    pub fn recall(
        &mut self,
        name: &[u8],
        version: u32,
        node: i32,
        store: &[u8],
    ) -> Result<u32, String> {
        self.sent += 1;
        let before = store.to_vec();
        let expected = number(self.model.recall(name, version, node, store));
        if expected == 0 {
            let (words, arena) = (&mut self.expected_words, &mut self.expected_arena);
            leave(RECALL, &self.model.view(), words, arena);
        }
        let (words, arena) = (&mut self.words, &self.arena);
        let answer = settings::recall(name, version, node as u32, store, words, arena);
        same("recall answers", answer, expected)?;
        same_store(store, &before)?;
        self.compare_expected()?;
        Ok(answer)
    }

    /// Recalls a version as `recall`, and sends its settings as `/n_set` by name to a copy of the proved engine, going on past 21: both leave
    /// the same.
    pub fn recall_by_sets(
        &mut self,
        name: &[u8],
        saved: &Saved,
        node: i32,
        store: &[u8],
    ) -> Result<u32, String> {
        let (mut words, mut arena) = (self.words.clone(), self.arena.clone());
        for setting in &saved.settings {
            let numbers = [node as u32, 0, 0, 0, setting.value];
            engine::apply(14, numbers, &setting.name, &mut words, &mut arena, &mut []);
        }
        let answer = self.recall(name, saved.version, node, store)?;
        if answer == 0 && (words != self.words || arena != self.arena) {
            return Err("a recall is not its sets by name".to_string());
        }
        Ok(answer)
    }

    /// Saves and recalls where that must be refused by 1, whatever the store is.
    pub fn refuse_settings(
        &mut self,
        name: &[u8],
        version: u32,
        node: i32,
        store: &[u8],
    ) -> Result<(), String> {
        let mut after = store.to_vec();
        let saved = settings::save(node as u32, &self.words, &self.arena, &mut after);
        same("save answers", saved, 1)?;
        let (words, arena) = (&mut self.words, &self.arena);
        let recalled = settings::recall(name, version, node as u32, &after, words, arena);
        same("recall answers", recalled, 1)?;
        same_store(&after, store)?;
        self.compare_expected()
    }
}

/// Drops a version from a store, by the proved library and by the model. Answers what both answer.
pub fn drop_both(name: &[u8], version: u32, store: &mut [u8]) -> Result<u32, String> {
    let mut expected_store = store.to_vec();
    let expected = number(drop_version(name, version, &mut expected_store));
    let answer = settings::drop_version(name, version, store);
    same("drop answers", answer, expected)?;
    same_store(store, &expected_store)?;
    Ok(answer)
}
