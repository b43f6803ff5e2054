//! A synth definition as plain data. Floats are their 32 bits. Numbers are signed as in the file,
//! so that faulty definitions can be written too.

use crate::Version;

#[derive(Clone, Debug, Default, PartialEq, Eq)]
pub struct Definition {
    pub name: Vec<u8>,
    pub constants: Vec<u32>,
    pub initial: Vec<u32>,
    /// Parameter names, each with its index in the initial values.
    pub parameters: Vec<(Vec<u8>, i32)>,
    pub units: Vec<Unit>,
    pub variants: Vec<Variant>,
}

#[derive(Clone, Debug, Default, PartialEq, Eq)]
pub struct Unit {
    pub class: Vec<u8>,
    pub rate: i8,
    pub special: i16,
    pub inputs: Vec<Input>,
    /// The rate of each output.
    pub outputs: Vec<i8>,
}

/// A constant where the unit is -1, else an output of an earlier unit.
#[derive(Clone, Copy, Debug, PartialEq, Eq)]
pub struct Input {
    pub unit: i32,
    pub index: i32,
}

#[derive(Clone, Debug, Default, PartialEq, Eq)]
pub struct Variant {
    pub name: Vec<u8>,
    pub values: Vec<u32>,
}

impl Definition {
    /// The number of bytes that it takes in version 2, which the limit is on.
    pub fn size(&self) -> usize {
        self.size_in(Version::Two)
    }

    /// The number of bytes that it takes in a file of some version.
    pub fn size_in(&self, version: Version) -> usize {
        let number = version.width();
        let name = |name: &[u8]| 1 + name.len();
        let parameters = self.parameters.iter();
        let parameters: usize = parameters.map(|(own, _)| name(own) + number).sum();
        let units = self.units.iter();
        let units: usize = units
            .map(|unit| {
                let inputs = 2 * number * unit.inputs.len();
                name(&unit.class) + 1 + 2 * number + 2 + inputs + unit.outputs.len()
            })
            .sum();
        let variants = self.variants.iter();
        let variants: usize = variants
            .map(|variant| name(&variant.name) + 4 * variant.values.len())
            .sum();
        let floats = self.constants.len() + self.initial.len();
        name(&self.name) + 4 * number + 4 * floats + parameters + units + 2 + variants
    }
}
