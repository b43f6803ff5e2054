//! Definitions whose controls have names in every arrangement, and what a name covers in one.

use super::desk::definition;
use independent::{Definition, Random};

/// Names of controls. The definitions share them, at other indices.
pub const NAMES: [&[u8]; 6] = [b"amp", b"fade", b"freq", b"", b"pan", b"gate"];

/// The names `c0`, `c1` and so on.
pub fn numbered(count: usize) -> Vec<String> {
    (0..count).map(|index| format!("c{index}")).collect()
}

/// A definition of so many controls, whose values are 100, 101 and so on.
pub fn sized(name: &str, controls: usize) -> Definition {
    let names = numbered(controls);
    let names: Vec<&str> = names.iter().map(String::as_str).collect();
    let values: Vec<u32> = (0..controls as u32).map(|index| 100 + index).collect();
    definition(name, &names, &values)
}

/// A definition of some number of controls, with names that others have too.
pub fn shaped(random: &mut Random, at: usize) -> Definition {
    let controls = random.one_of(&[0, 1, 2, 5, 8, 31, 32]);
    let mut definition = sized(&format!("shape {at}"), controls);
    definition.parameters.clear();
    if controls > 0 {
        for _ in 0..random.below(10) {
            let name = random.one_of(&NAMES).to_vec();
            let index = random.up_to(controls - 1) as i32;
            definition.parameters.push((name, index));
        }
    }
    definition
}

/// The index that a name means, its first entry's, and how many controls it covers: up to the least larger
/// index of any entry, else up to the last.
pub fn covered(definition: &Definition, name: &[u8]) -> Option<(i32, i32)> {
    let entries = &definition.parameters;
    let (_, index) = entries.iter().find(|(entry, _)| entry == name)?;
    let indices = entries.iter().map(|(_, other)| *other);
    let next = indices.filter(|other| other > index).min();
    let end = next.unwrap_or(definition.initial.len() as i32);
    Some((*index, end - index))
}
