//! Files of many kinds, valid and damaged, in either version: what readers are compared on.

mod broken;
mod damaged;

use crate::{write_as, Definition, Fault, Input, Random, Shape, Unit, Version, Written};
use crate::{MOST_BYTES, MOST_DEFINITIONS};
use broken::break_one;
use std::ops::Range;

/// What is known of a file before it is read.
#[derive(Clone, Copy, Debug)]
pub enum Known<'a> {
    Nothing,
    /// The answer to it, by the writer's map of the fields.
    Answer(Result<(), Fault>),
    /// The answer likewise, and the definitions that were written.
    Written(&'a [Definition], Result<(), Fault>),
}

/// A kind of files.
#[derive(Clone, Copy)]
pub struct Kind {
    pub name: &'static str,
    make: fn(&mut Files),
}

impl Kind {
    pub const ALL: [Kind; 13] = [
        Kind::new("valid", valid),
        Kind::new("limit", limit),
        Kind::new("cut", damaged::cut),
        Kind::new("field", damaged::field),
        Kind::new("byte", damaged::byte),
        Kind::new("two bytes", damaged::two_bytes),
        Kind::new("inserted or deleted", damaged::inserted_or_deleted),
        Kind::new("broken definition", broken::definition),
        Kind::new("many units", many_units),
        Kind::new("over-long", over_long),
        Kind::new("long file", long_file),
        Kind::new("noise", damaged::noise),
        Kind::new("splice", damaged::splice),
    ];

    const fn new(name: &'static str, make: fn(&mut Files)) -> Kind {
        Kind { name, make }
    }

    /// Hands on each file of the kind, written in some version.
    pub fn each(&self, version: Version, random: Random, take: &mut dyn FnMut(&[u8], Known)) {
        self.one_in(1, version, random, take);
    }

    /// The same of one file in so many.
    pub fn one_in(
        &self,
        share: usize,
        version: Version,
        random: Random,
        take: &mut dyn FnMut(&[u8], Known),
    ) {
        let mut files = Files {
            version,
            random,
            share,
            take,
        };
        (self.make)(&mut files);
    }
}

/// Files of one kind and version in the making.
struct Files<'a> {
    version: Version,
    random: Random,
    share: usize,
    take: &'a mut dyn FnMut(&[u8], Known),
}

impl Files<'_> {
    /// The rounds that are made of so many.
    fn rounds(&self, count: usize) -> Range<usize> {
        0..count / self.share
    }

    fn open(&mut self, file: &[u8]) {
        (self.take)(file, Known::Nothing);
    }

    fn answered(&mut self, file: &[u8], answer: Result<(), Fault>) {
        (self.take)(file, Known::Answer(answer));
    }

    fn write(&self, definitions: &[Definition]) -> Written {
        write_as(self.version, definitions)
    }

    /// Definitions, right or wrong, as the writer writes them.
    fn written(&mut self, definitions: &[Definition]) {
        let file = self.write(definitions);
        let answer = file.fault().map_or(Ok(()), Err);
        (self.take)(&file.bytes, Known::Written(definitions, answer));
    }

    /// A valid file of a few definitions of any shape, mostly small ones.
    fn few(&mut self) -> Written {
        let count = self.random.one_of(&[0, 1, 1, 1, 2, 2, 3, 3]);
        let shapes = match self.random.below(3) {
            0 => &Shape::ALL[..],
            _ => &Shape::ALL[..2],
        };
        let definitions = self.random.definitions(count, shapes);
        self.write(&definitions)
    }
}

/// Valid files of every shape, with 0 to 32 definitions, and each with a byte more.
fn valid(files: &mut Files) {
    for round in files.rounds(20_000) {
        let count = match round % 8 {
            0 => files.random.up_to(MOST_DEFINITIONS),
            _ => files.random.below(4),
        };
        let shapes = match files.random.below(2) {
            0 => &Shape::ALL[..],
            _ => &Shape::ALL[..2],
        };
        let definitions = files.random.definitions(count, shapes);
        let mut file = files.write(&definitions).bytes;
        (files.take)(&file, Known::Written(&definitions, Ok(())));
        let end = file.len();
        file.push(files.random.byte());
        files.answered(&file, Err(Fault::new(11, end)));
    }
}

/// Definitions of just 2,047, 2,048 and 2,049 bytes, alone and among others: in version 2, which the
/// limit is on, and in the file's own version.
fn limit(files: &mut Files) {
    for round in files.rounds(3000) {
        let shape = Shape::ALL[round % Shape::ALL.len()];
        let count = 1 + files.random.below(3);
        let mut definitions = files.random.definitions(count, &Shape::ALL[..2]);
        let place = files.random.below(count);
        let mut definition = files.random.short_definition(&shape);
        let measured = match files.random.below(4) {
            0 => files.version,
            _ => Version::Two,
        };
        let bytes = MOST_BYTES - 1 + files.random.below(3);
        if let Some(missing) = bytes.checked_sub(definition.size_in(measured)) {
            let bytes = definition.size() + missing;
            files.random.lengthen(&mut definition, bytes);
        }
        definitions[place] = definition;
        files.written(&definitions);
    }
}

/// As many of the shortest units as fit in the limit, and some more. One has an output, and the last
/// unit takes it, or the output past it.
fn many_units(files: &mut Files) {
    for count in 160..=180 {
        for from in 0..count - 1 {
            let mut units = vec![Unit::default(); count];
            units[from].outputs.push(1);
            let index = files.random.below(2) as i32;
            units[count - 1].inputs.push(Input {
                unit: from as i32,
                index,
            });
            let name = b"u".to_vec();
            let definition = Definition {
                name,
                units,
                ..Definition::default()
            };
            files.written(&[definition]);
        }
    }
}

/// Definitions past the limit, with more units than fit in it. Those faultless to their end are 9.
fn over_long(files: &mut Files) {
    let many = Shape {
        units: 420,
        outputs: 3,
        inputs: 3,
        ..Shape::SMALL
    };
    for round in files.rounds(2000) {
        let random = &mut files.random;
        let mut definitions = random.definitions(2, &[Shape::SMALL]);
        let mut long = random.definition(&many);
        if round % 50 == 0 {
            let longer = Shape {
                units: 6000,
                ..many
            };
            long = random.definition(&longer);
        }
        definitions.insert(random.below(3), long);
        files.written(&definitions);
        for _ in 0..1 + files.random.below(3) {
            break_one(&mut files.random, files.version, &mut definitions);
        }
        files.written(&definitions);
    }
}

/// Files of 32 definitions, up to the longest that is accepted, and of 33.
fn long_file(files: &mut Files) {
    for round in files.rounds(200) {
        let mut definitions = files.random.definitions(MOST_DEFINITIONS, &Shape::ALL);
        if round % 4 == 0 {
            for definition in &mut definitions {
                files.random.lengthen(definition, MOST_BYTES);
            }
        }
        files.written(&definitions);
        let file = files.write(&definitions);
        for _ in 0..10 {
            let mut bytes = file.bytes.clone();
            damaged::damage(&mut files.random, &mut bytes);
            files.open(&bytes);
            bytes.truncate(files.random.below(bytes.len()));
            files.open(&bytes);
        }
        let last = definitions[MOST_DEFINITIONS - 1].clone();
        let early = files.random.below(MOST_DEFINITIONS);
        definitions[MOST_DEFINITIONS - 1].name = definitions[early].name.clone();
        files.written(&definitions);
        definitions.push(last);
        files.written(&definitions);
    }
}
