//! Random numbers, and random valid definitions of many shapes.

use crate::{Definition, Input, Unit, Variant};
use crate::{HIGHEST_RATE, MOST_BYTES, MOST_DEFINITIONS, MOST_PARAMETERS};

/// The generator splitmix64.
#[derive(Clone, Debug)]
pub struct Random(u64);

/// The most of each part that a definition has.
#[derive(Clone, Copy, Debug)]
pub struct Shape {
    pub name: usize,
    pub constants: usize,
    pub initial: usize,
    pub parameters: usize,
    pub units: usize,
    pub inputs: usize,
    pub outputs: usize,
    pub variants: usize,
}

impl Shape {
    /// Every count 0.
    pub const EMPTY: Shape = Shape {
        name: 1,
        constants: 0,
        initial: 0,
        parameters: 0,
        units: 0,
        inputs: 0,
        outputs: 0,
        variants: 0,
    };

    /// A little of everything.
    pub const SMALL: Shape = Shape {
        name: 6,
        constants: 2,
        initial: 2,
        parameters: 2,
        units: 3,
        inputs: 2,
        outputs: 2,
        variants: 1,
    };

    /// Units and what they need, as many as the limit of 2,048 bytes allows or more.
    pub const UNITS: Shape = Shape {
        units: 200,
        inputs: 1,
        variants: 0,
        ..Shape::SMALL
    };

    pub const ALL: [Shape; 10] = [
        Shape::EMPTY,
        Shape::SMALL,
        Shape::UNITS,
        // Units with neither inputs nor outputs.
        Shape {
            units: 170,
            ..Shape::EMPTY
        },
        // Few units with many inputs and outputs.
        Shape {
            units: 6,
            inputs: 60,
            outputs: 120,
            ..Shape::SMALL
        },
        Shape {
            constants: 500,
            ..Shape::SMALL
        },
        Shape {
            initial: 32,
            parameters: 40,
            ..Shape::SMALL
        },
        Shape {
            initial: 32,
            variants: 12,
            ..Shape::SMALL
        },
        // Long names.
        Shape {
            name: 255,
            ..Shape::SMALL
        },
        // Much of everything.
        Shape {
            name: 20,
            constants: 40,
            initial: 32,
            parameters: 32,
            units: 40,
            inputs: 8,
            outputs: 8,
            variants: 6,
        },
    ];
}

impl Random {
    pub fn new(seed: u64) -> Random {
        Random(seed)
    }

    pub fn bits(&mut self) -> u64 {
        self.0 = self.0.wrapping_add(0x9e37_79b9_7f4a_7c15);
        let mut z = self.0;
        z = (z ^ (z >> 30)).wrapping_mul(0xbf58_476d_1ce4_e5b9);
        z = (z ^ (z >> 27)).wrapping_mul(0x94d0_49bb_1331_11eb);
        z ^ (z >> 31)
    }

    /// A number from 0 and below a bound that isn't 0.
    pub fn below(&mut self, bound: usize) -> usize {
        (self.bits() % bound as u64) as usize
    }

    /// A number from 0 to this, at the two ends more often.
    pub fn up_to(&mut self, most: usize) -> usize {
        match self.below(8) {
            0 => 0,
            1 => most,
            _ => self.below(most + 1),
        }
    }

    pub fn byte(&mut self) -> u8 {
        self.bits() as u8
    }

    /// One of the given things.
    pub fn one_of<T: Copy>(&mut self, things: &[T]) -> T {
        things[self.below(things.len())]
    }

    /// A name of so many bytes.
    pub fn name(&mut self, length: usize) -> Vec<u8> {
        (0..length).map(|_| self.below(127) as u8 + 1).collect()
    }

    fn floats(&mut self, count: usize) -> Vec<u32> {
        (0..count).map(|_| self.bits() as u32).collect()
    }

    /// A definition within all bounds but that on its bytes.
    pub fn definition(&mut self, shape: &Shape) -> Definition {
        let name = self.up_to(shape.name).max(1);
        let constants = self.up_to(shape.constants);
        let initial = self.up_to(shape.initial.min(MOST_PARAMETERS));
        let mut definition = Definition {
            name: self.name(name),
            constants: self.floats(constants),
            initial: self.floats(initial),
            ..Definition::default()
        };
        if initial > 0 {
            for _ in 0..self.up_to(shape.parameters) {
                let length = self.up_to(shape.name);
                let name = self.name(length);
                let index = self.below(initial) as i32;
                definition.parameters.push((name, index));
            }
        }
        for _ in 0..self.up_to(shape.units) {
            let unit = self.unit(&definition, shape);
            definition.units.push(unit);
        }
        for _ in 0..self.up_to(shape.variants) {
            let length = self.up_to(shape.name);
            definition.variants.push(Variant {
                name: self.name(length),
                values: self.floats(initial),
            });
        }
        definition
    }

    /// The next unit of a definition.
    fn unit(&mut self, definition: &Definition, shape: &Shape) -> Unit {
        let class = self.up_to(shape.name);
        let inputs = self.up_to(shape.inputs);
        let outputs = self.up_to(shape.outputs);
        Unit {
            class: self.name(class),
            rate: self.below(HIGHEST_RATE as usize + 1) as i8,
            special: self.bits() as i16,
            inputs: (0..inputs).filter_map(|_| self.input(definition)).collect(),
            outputs: (0..outputs).map(|_| self.below(HIGHEST_RATE as usize + 1) as i8).collect(),
        }
    }

    /// An input from a constant or from a unit of the definition, if the one hit upon has any.
    fn input(&mut self, definition: &Definition) -> Option<Input> {
        let from_unit = !definition.units.is_empty() && self.below(4) > 0;
        let (unit, bound) = if from_unit {
            let unit = self.below(definition.units.len());
            (unit as i32, definition.units[unit].outputs.len())
        } else {
            (-1, definition.constants.len())
        };
        (bound > 0).then(|| Input {
            unit,
            index: self.up_to(bound - 1) as i32,
        })
    }

    /// A definition within all bounds: parts are left out, the last first, until it is short enough.
    pub fn short_definition(&mut self, shape: &Shape) -> Definition {
        let mut definition = self.definition(shape);
        while definition.size() > MOST_BYTES {
            let fell = definition.variants.pop().is_some()
                || definition.units.pop().is_some()
                || definition.parameters.pop().is_some()
                || definition.constants.pop().is_some();
            assert!(fell, "a name and the initial values are within the limit");
        }
        definition
    }

    /// Makes a definition longer, to just so many bytes, by constants and by its name.
    pub fn lengthen(&mut self, definition: &mut Definition, bytes: usize) {
        let missing = bytes
            .checked_sub(definition.size())
            .expect("it is not yet so long");
        let mut name = definition.name.len() + missing % 4;
        let mut constants = missing / 4;
        if name > 255 {
            name -= 4;
            constants += 1;
        }
        definition.name.resize(name, b'x');
        let more = self.floats(constants);
        definition.constants.extend(more);
    }

    /// Definitions with names that differ, each of one of the shapes.
    pub fn definitions(&mut self, count: usize, shapes: &[Shape]) -> Vec<Definition> {
        assert!(count <= MOST_DEFINITIONS);
        let mut list: Vec<Definition> = Vec::with_capacity(count);
        while list.len() < count {
            let shape = self.one_of(shapes);
            let definition = self.short_definition(&shape);
            if list.iter().all(|other| other.name != definition.name) {
                list.push(definition);
            }
        }
        list
    }
}
