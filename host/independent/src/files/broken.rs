//! Definitions with faults of their own, written as they are.

use super::Files;
use crate::{Definition, Input, Random, Shape, Unit, Version, MOST_PARAMETERS};

/// Definitions with one or more faults.
pub fn definition(files: &mut Files) {
    for round in files.rounds(30_000) {
        let shape = Shape::ALL[round % Shape::ALL.len()];
        let count = 1 + files.random.below(3);
        let random = &mut files.random;
        let mut definitions = random.definitions(count, &[Shape::SMALL, Shape::EMPTY, shape]);
        for _ in 0..1 + random.below(2) {
            break_one(random, files.version, &mut definitions);
        }
        files.written(&definitions);
    }
}

/// Breaks a definition by a fault that the version can write, mostly.
pub fn break_one(random: &mut Random, version: Version, definitions: &mut [Definition]) {
    let (lowest, highest) = version.bounds();
    let names: Vec<Vec<u8>> = definitions.iter().map(|d| d.name.clone()).collect();
    let definition = &mut definitions[random.below(names.len())];
    let constants = definition.constants.len() as i32;
    match random.below(10) {
        0 => definition.name = names[random.below(names.len())].clone(),
        1 => definition.name.clear(),
        2 => spoil(random, &mut definition.name),
        3 => {
            let more = MOST_PARAMETERS + random.below(3);
            definition.initial.resize(more, 7);
            for variant in &mut definition.variants {
                variant.values.resize(more, 9);
            }
        }
        4 => {
            let first = definition.initial.len() as i32;
            let index = random.one_of(&[first - 1, first, -1, lowest, highest]);
            definition.parameters.push((b"index".to_vec(), index));
        }
        5 => match random.below(3) {
            0 => {
                if let Some((name, _)) = definition.parameters.last_mut() {
                    spoil(random, name);
                }
            }
            1 => {
                if let Some(variant) = definition.variants.last_mut() {
                    spoil(random, &mut variant.name);
                }
            }
            _ => {
                if let Some(unit) = definition.units.last_mut() {
                    spoil(random, &mut unit.class);
                }
            }
        },
        _ => {
            let Some(place) = definition.units.len().checked_sub(1) else {
                definition.units.push(Unit::default());
                return;
            };
            let place = random.up_to(place);
            let units: Vec<i32> = definition
                .units
                .iter()
                .map(|u| u.outputs.len() as i32)
                .collect();
            let unit = &mut definition.units[place];
            match random.below(4) {
                0 => unit.rate = random.one_of(&[-128, -1, 0, 1, 2, 3, 4, 127]),
                1 => unit
                    .outputs
                    .push(random.one_of(&[-128, -1, 0, 1, 2, 3, 4, 127])),
                2 => unit.inputs.push(Input {
                    unit: -1,
                    index: random.one_of(&[-1, 0, constants - 1, constants, highest]),
                }),
                _ => {
                    // Itself, its neighbours, the ends, and places that are no unit's.
                    let place = place as i32;
                    let last = units.len() as i32 - 1;
                    let from = random.one_of(&[place - 1, place, place + 1, 0, last, last + 1, -2]);
                    let outputs = usize::try_from(from).ok().and_then(|from| units.get(from));
                    let outputs = *outputs.unwrap_or(&0);
                    unit.inputs.push(Input {
                        unit: from,
                        index: random.one_of(&[-1, 0, outputs - 1, outputs]),
                    });
                }
            }
        }
    }
}

/// Puts a byte into a name that no name has.
fn spoil(random: &mut Random, name: &mut Vec<u8>) {
    let byte = random.one_of(&[0, 128, 200, 255]);
    if name.len() < 255 {
        name.insert(random.below(name.len() + 1), byte);
    } else {
        name[random.below(255)] = byte;
    }
}
