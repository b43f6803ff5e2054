//! The writer of both versions. It writes what it is given, right or wrong, and keeps a map of the
//! fields with the rule that each is under, so that a test knows what a damaged field should answer.

use crate::{Definition, Fault, Unit, Version};
use crate::{HIGHEST_RATE, MOST_BYTES, MOST_DEFINITIONS, MOST_PARAMETERS};

/// What the paper asks of one field.
#[derive(Clone, Copy, Debug, PartialEq, Eq)]
pub enum Rule {
    Magic,
    Version,
    /// A count from 0 to this.
    Count(i32),
    /// A name; whether it may be empty.
    Name {
        empty: bool,
    },
    Rate,
    /// An index from the first number and below the second.
    Index(i32, i32),
    /// A float or a special index: any bits.
    Any,
    /// The end of a definition, with the faults that are looked for there. The field's place is
    /// that of the definition.
    End {
        long: bool,
        repeated: bool,
    },
}

/// One field of a written file: its bytes are those from `start` to before `end`.
#[derive(Clone, Copy, Debug)]
pub struct Field {
    pub start: usize,
    pub end: usize,
    pub rule: Rule,
}

impl Field {
    /// The refusal's number for this field with these bytes, if any.
    pub fn fault(&self, bytes: &[u8]) -> Option<u32> {
        let number = bytes
            .iter()
            .skip(1)
            .fold(bytes.first().map_or(0, |&b| i64::from(b as i8)), |n, &b| {
                n.wrapping_mul(256).wrapping_add(i64::from(b))
            });
        let (refusal, holds) = match self.rule {
            Rule::Magic => (3, bytes == b"SCgf"),
            Rule::Version => (4, [1, 2].contains(&number)),
            Rule::Count(most) => (5, (0..=i64::from(most)).contains(&number)),
            Rule::Name { empty } => (
                6,
                (empty || bytes.len() > 1) && bytes[1..].iter().all(|b| (1..128).contains(b)),
            ),
            Rule::Rate => (7, (0..=i64::from(HIGHEST_RATE)).contains(&number)),
            Rule::Index(first, below) => {
                (8, (i64::from(first)..i64::from(below)).contains(&number))
            }
            Rule::Any => return None,
            Rule::End { long: true, .. } => return Some(9),
            Rule::End { repeated: true, .. } => return Some(10),
            Rule::End { .. } => return None,
        };
        (!holds).then_some(refusal)
    }
}

/// A written file with the map of its fields.
#[derive(Clone, Debug)]
pub struct Written {
    pub version: Version,
    pub bytes: Vec<u8>,
    pub fields: Vec<Field>,
}

/// Writes a version 2 file.
pub fn write(definitions: &[Definition]) -> Written {
    write_as(Version::Two, definitions)
}

/// Writes a file. The version has all its numbers.
pub fn write_as(version: Version, definitions: &[Definition]) -> Written {
    let mut file = Written {
        version,
        bytes: Vec::new(),
        fields: Vec::new(),
    };
    file.field(b"SCgf", Rule::Magic);
    file.field(&version.field().to_be_bytes(), Rule::Version);
    let count = i16::try_from(definitions.len()).expect("the count of definitions is an int16");
    file.field(&count.to_be_bytes(), Rule::Count(MOST_DEFINITIONS as i32));
    for (place, definition) in definitions.iter().enumerate() {
        let repeated = definitions[..place]
            .iter()
            .any(|d| d.name == definition.name);
        file.definition(definition, repeated);
    }
    file
}

impl Written {
    /// The refusal of the file as it was written: the first field that breaks its rule.
    pub fn fault(&self) -> Option<Fault> {
        self.fields.iter().find_map(|field| {
            let number = field.fault(&self.bytes[field.start..field.end])?;
            Some(Fault::new(number, field.start))
        })
    }

    /// The field that the byte at a place belongs to.
    pub fn field_at(&self, place: usize) -> Option<&Field> {
        self.fields
            .iter()
            .find(|field| (field.start..field.end).contains(&place))
    }

    fn field(&mut self, bytes: &[u8], rule: Rule) {
        let start = self.bytes.len();
        self.bytes.extend_from_slice(bytes);
        self.fields.push(Field {
            start,
            end: self.bytes.len(),
            rule,
        });
    }

    fn number(&mut self, number: i32, rule: Rule) {
        let (least, most) = self.version.bounds();
        assert!((least..=most).contains(&number), "the version has it");
        self.field(&number.to_be_bytes()[4 - self.version.width()..], rule);
    }

    fn count(&mut self, count: usize, most: i32) {
        let count = i32::try_from(count).expect("a count is an int32");
        self.number(count, Rule::Count(most));
    }

    fn name(&mut self, name: &[u8], empty: bool) {
        let length = u8::try_from(name.len()).expect("a name has at most 255 bytes");
        let mut bytes = vec![length];
        bytes.extend_from_slice(name);
        self.field(&bytes, Rule::Name { empty });
    }

    fn floats(&mut self, patterns: &[u32]) {
        for pattern in patterns {
            self.field(&pattern.to_be_bytes(), Rule::Any);
        }
    }

    fn definition(&mut self, definition: &Definition, repeated: bool) {
        let (_, most) = self.version.bounds();
        let start = self.bytes.len();
        self.name(&definition.name, false);
        self.count(definition.constants.len(), most);
        self.floats(&definition.constants);
        self.count(definition.initial.len(), MOST_PARAMETERS as i32);
        self.floats(&definition.initial);
        self.count(definition.parameters.len(), most);
        for (name, index) in &definition.parameters {
            self.name(name, true);
            let below = definition.initial.len() as i32;
            self.number(*index, Rule::Index(0, below));
        }
        self.count(definition.units.len(), most);
        for (place, unit) in definition.units.iter().enumerate() {
            self.unit(unit, definition, place);
        }
        let variants =
            i16::try_from(definition.variants.len()).expect("the count of variants is an int16");
        self.field(&variants.to_be_bytes(), Rule::Count(i32::from(i16::MAX)));
        for variant in &definition.variants {
            self.name(&variant.name, true);
            self.floats(&variant.values);
        }
        self.fields.push(Field {
            start,
            end: start,
            rule: Rule::End {
                long: definition.size() > MOST_BYTES,
                repeated,
            },
        });
    }

    fn unit(&mut self, unit: &Unit, definition: &Definition, place: usize) {
        let (_, most) = self.version.bounds();
        self.name(&unit.class, true);
        self.field(&unit.rate.to_be_bytes(), Rule::Rate);
        self.count(unit.inputs.len(), most);
        self.count(unit.outputs.len(), most);
        self.field(&unit.special.to_be_bytes(), Rule::Any);
        for input in &unit.inputs {
            // -1 and the units before this one: the range has no gap.
            self.number(input.unit, Rule::Index(-1, place as i32));
            let below = match usize::try_from(input.unit) {
                Ok(unit) => definition.units.get(unit).map_or(0, |u| u.outputs.len()),
                Err(_) => definition.constants.len(),
            };
            self.number(input.index, Rule::Index(0, below as i32));
        }
        for rate in &unit.outputs {
            self.field(&rate.to_be_bytes(), Rule::Rate);
        }
    }
}
