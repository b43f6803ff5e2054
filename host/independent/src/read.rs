//! The reader of both versions. Fields are checked from the front and the first fault decides.

use crate::{Definition, Fault, Input, Unit, Variant, Version};
use crate::{HIGHEST_RATE, MOST_BYTES, MOST_DEFINITIONS, MOST_PARAMETERS};

/// Whether the file is accepted, and if not, why. Builds nothing.
pub fn check(file: &[u8]) -> Result<(), Fault> {
    version(file).map(|_| ())
}

/// The version of an accepted file.
pub fn version(file: &[u8]) -> Result<Version, Fault> {
    walk(file, &mut Nobody)
}

/// The definitions of the file.
pub fn read(file: &[u8]) -> Result<Vec<Definition>, Fault> {
    read_versioned(file).map(|(_, definitions)| definitions)
}

/// The version of the file, and its definitions.
pub fn read_versioned(file: &[u8]) -> Result<(Version, Vec<Definition>), Fault> {
    let mut definitions = Vec::new();
    let version = walk(file, &mut definitions)?;
    Ok((version, definitions))
}

/// The one definition that these bytes are in version 2, if they are one and no more. Any length will do.
pub fn read_definition(bytes: &[u8]) -> Option<Definition> {
    let mut reader = Reader::<WIDE>::new(bytes);
    let mut definitions = Vec::with_capacity(1);
    definition(&mut reader, &mut Vec::new(), &mut definitions).ok()?;
    definitions.pop().filter(|_| reader.rest.is_empty())
}

/// Is told each part of a file as it is read. Runs of floats come as their bytes.
trait Listener {
    fn definition(&mut self, _name: &[u8], _constants: &[u8], _initial: &[u8]) {}
    fn parameter(&mut self, _name: &[u8], _index: i32) {}
    fn unit(&mut self, _class: &[u8], _rate: i8, _special: i16) {}
    fn input(&mut self, _input: Input) {}
    fn outputs(&mut self, _rates: &[u8]) {}
    fn variant(&mut self, _name: &[u8], _values: &[u8]) {}
}

struct Nobody;

impl Listener for Nobody {}

impl Listener for Vec<Definition> {
    fn definition(&mut self, name: &[u8], constants: &[u8], initial: &[u8]) {
        self.push(Definition {
            name: name.to_vec(),
            constants: patterns(constants),
            initial: patterns(initial),
            ..Definition::default()
        });
    }

    fn parameter(&mut self, name: &[u8], index: i32) {
        if let Some(definition) = self.last_mut() {
            definition.parameters.push((name.to_vec(), index));
        }
    }

    fn unit(&mut self, class: &[u8], rate: i8, special: i16) {
        if let Some(definition) = self.last_mut() {
            definition.units.push(Unit {
                class: class.to_vec(),
                rate,
                special,
                ..Unit::default()
            });
        }
    }

    fn input(&mut self, input: Input) {
        if let Some(unit) = self.last_mut().and_then(|d| d.units.last_mut()) {
            unit.inputs.push(input);
        }
    }

    fn outputs(&mut self, rates: &[u8]) {
        if let Some(unit) = self.last_mut().and_then(|d| d.units.last_mut()) {
            unit.outputs = rates.iter().map(|&rate| rate as i8).collect();
        }
    }

    fn variant(&mut self, name: &[u8], values: &[u8]) {
        if let Some(definition) = self.last_mut() {
            definition.variants.push(Variant {
                name: name.to_vec(),
                values: patterns(values),
            });
        }
    }
}

fn patterns(floats: &[u8]) -> Vec<u32> {
    floats
        .chunks_exact(4)
        .map(|bytes| u32::from_be_bytes([bytes[0], bytes[1], bytes[2], bytes[3]]))
        .collect()
}

const NARROW: usize = Version::One.width();
const WIDE: usize = Version::Two.width();

/// The part of a file that is not yet read. Numbers have so many bytes.
struct Reader<'a, const WIDTH: usize> {
    length: usize,
    rest: &'a [u8],
    /// How many bytes more version 2 takes for what was read.
    added: usize,
}

impl<'a, const WIDTH: usize> Reader<'a, WIDTH> {
    fn new(bytes: &'a [u8]) -> Self {
        Reader {
            length: bytes.len(),
            rest: bytes,
            added: 0,
        }
    }

    /// The same place, and numbers of another width from here on.
    fn with<const OTHER: usize>(self) -> Reader<'a, OTHER> {
        Reader {
            length: self.length,
            rest: self.rest,
            added: self.added,
        }
    }

    fn place(&self) -> usize {
        self.length - self.rest.len()
    }

    /// A field of so many bytes; where it is cut short, the file is truncated.
    fn field<const N: usize>(&mut self) -> Result<[u8; N], Fault> {
        match self.rest.split_first_chunk() {
            Some((field, rest)) => {
                self.rest = rest;
                Ok(*field)
            }
            None => Err(Fault::new(2, self.place())),
        }
    }

    fn int16(&mut self) -> Result<i16, Fault> {
        self.field().map(i16::from_be_bytes)
    }

    fn int32(&mut self) -> Result<i32, Fault> {
        self.field().map(i32::from_be_bytes)
    }

    /// A number, signed in both versions.
    fn number(&mut self) -> Result<i32, Fault> {
        self.added += WIDE - WIDTH;
        match WIDTH {
            NARROW => self.int16().map(i32::from),
            _ => self.int32(),
        }
    }

    fn count(&mut self, most: usize) -> Result<usize, Fault> {
        let place = self.place();
        match usize::try_from(self.number()?) {
            Ok(count) if count <= most => Ok(count),
            _ => Err(Fault::new(5, place)),
        }
    }

    fn short_count(&mut self, most: usize) -> Result<usize, Fault> {
        let place = self.place();
        match usize::try_from(self.int16()?) {
            Ok(count) if count <= most => Ok(count),
            _ => Err(Fault::new(5, place)),
        }
    }

    /// An index from 0 and below a bound.
    fn index(&mut self, bound: usize) -> Result<i32, Fault> {
        let place = self.place();
        let index = self.number()?;
        match usize::try_from(index) {
            Ok(at) if at < bound => Ok(index),
            _ => Err(Fault::new(8, place)),
        }
    }

    fn rate(&mut self) -> Result<i8, Fault> {
        let place = self.place();
        match self.field().map(i8::from_be_bytes)? {
            rate @ 0..=HIGHEST_RATE => Ok(rate),
            _ => Err(Fault::new(7, place)),
        }
    }

    fn name(&mut self) -> Result<&'a [u8], Fault> {
        let place = self.place();
        let cut = Fault::new(2, place);
        let (&length, rest) = self.rest.split_first().ok_or(cut)?;
        let (name, rest) = rest.split_at_checked(usize::from(length)).ok_or(cut)?;
        if name.iter().all(|byte| (1..=127).contains(byte)) {
            self.rest = rest;
            Ok(name)
        } else {
            Err(Fault::new(6, place))
        }
    }

    /// So many floats. Where the file ends among them, the first that is cut or missing is at fault.
    fn floats(&mut self, count: usize) -> Result<&'a [u8], Fault> {
        let whole = self.rest.len() / 4;
        if count > whole {
            return Err(Fault::new(2, self.place() + 4 * whole));
        }
        let (floats, rest) = self.rest.split_at(4 * count);
        self.rest = rest;
        Ok(floats)
    }

    /// So many output rates, one byte each.
    fn outputs(&mut self, count: usize) -> Result<&'a [u8], Fault> {
        let place = self.place();
        let (rates, rest) = self.rest.split_at(count.min(self.rest.len()));
        if let Some(bad) = rates
            .iter()
            .position(|&rate| !(0..=HIGHEST_RATE).contains(&(rate as i8)))
        {
            return Err(Fault::new(7, place + bad));
        }
        if rates.len() < count {
            return Err(Fault::new(2, self.length));
        }
        self.rest = rest;
        Ok(rates)
    }
}

fn walk(file: &[u8], listener: &mut impl Listener) -> Result<Version, Fault> {
    let mut reader = Reader::<WIDE>::new(file);
    if &reader.field()? != b"SCgf" {
        return Err(Fault::new(3, 0));
    }
    let version = Version::of(reader.int32()?).ok_or(Fault::new(4, 4))?;
    match version {
        Version::One => body(reader.with::<NARROW>(), listener)?,
        Version::Two => body(reader, listener)?,
    }
    Ok(version)
}

/// All after the version.
fn body<const WIDTH: usize>(
    mut reader: Reader<WIDTH>,
    listener: &mut impl Listener,
) -> Result<(), Fault> {
    let count = reader.short_count(MOST_DEFINITIONS)?;
    let mut names = Vec::with_capacity(count);
    let mut outputs = Vec::new();
    for _ in 0..count {
        let start = reader.place();
        let added = reader.added;
        let name = definition(&mut reader, &mut outputs, listener)?;
        // The limit is on what it takes in version 2.
        if reader.place() - start + (reader.added - added) > MOST_BYTES {
            return Err(Fault::new(9, start));
        }
        if names.contains(&name) {
            return Err(Fault::new(10, start));
        }
        names.push(name);
    }
    if reader.rest.is_empty() {
        Ok(())
    } else {
        Err(Fault::new(11, reader.place()))
    }
}

/// Reads one definition and answers its name. `outputs` is room for each unit's number of outputs.
fn definition<'a, const WIDTH: usize>(
    reader: &mut Reader<'a, WIDTH>,
    outputs: &mut Vec<usize>,
    listener: &mut impl Listener,
) -> Result<&'a [u8], Fault> {
    let start = reader.place();
    let name = reader.name()?;
    if name.is_empty() {
        return Err(Fault::new(6, start));
    }
    let most = i32::MAX as usize;
    let constants = reader.count(most)?;
    let constant_values = reader.floats(constants)?;
    let parameters = reader.count(MOST_PARAMETERS)?;
    let initial = reader.floats(parameters)?;
    listener.definition(name, constant_values, initial);

    for _ in 0..reader.count(most)? {
        let name = reader.name()?;
        let index = reader.index(parameters)?;
        listener.parameter(name, index);
    }

    outputs.clear();
    for _ in 0..reader.count(most)? {
        let class = reader.name()?;
        let rate = reader.rate()?;
        let input_count = reader.count(most)?;
        let output_count = reader.count(most)?;
        let special = reader.int16()?;
        listener.unit(class, rate, special);
        for _ in 0..input_count {
            let place = reader.place();
            let unit = reader.number()?;
            let bound = if unit == -1 {
                constants
            } else {
                *usize::try_from(unit)
                    .ok()
                    .and_then(|unit| outputs.get(unit))
                    .ok_or(Fault::new(8, place))?
            };
            let index = reader.index(bound)?;
            listener.input(Input { unit, index });
        }
        listener.outputs(reader.outputs(output_count)?);
        outputs.push(output_count);
    }

    for _ in 0..reader.short_count(i16::MAX as usize)? {
        let name = reader.name()?;
        let values = reader.floats(parameters)?;
        listener.variant(name, values);
    }
    Ok(name)
}
