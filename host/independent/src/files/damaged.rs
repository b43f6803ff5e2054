//! Files that were damaged after they were written.

use super::Files;
use crate::{Fault, Field, Random, Rule, Shape, Written};

/// Extreme values of a field of two or four bytes.
const EXTREMES: [i32; 15] = [
    i32::MIN,
    i32::MIN + 1,
    -65536,
    -32768,
    -32767,
    -2,
    -1,
    0,
    1,
    32,
    33,
    256,
    32767,
    i32::MAX - 1,
    i32::MAX,
];

/// Small files cut at every byte. A cut field that is also bad is cut first.
pub fn cut(files: &mut Files) {
    for _ in files.rounds(400) {
        let count = files.random.below(4);
        let definitions = files.random.definitions(count, &Shape::ALL[..2]);
        let file = files.write(&definitions);
        cut_everywhere(files, &file);
    }
    for shape in Shape::ALL {
        let definitions = files.random.definitions(1, &[shape]);
        let file = files.write(&definitions);
        cut_everywhere(files, &file);
    }
}

fn cut_everywhere(files: &mut Files, file: &Written) {
    for length in 0..file.bytes.len() {
        let field = *file.field_at(length).expect("each byte is in a field");
        let expected = Err(Fault::new(2, field.start));
        let mut bytes = file.bytes[..length].to_vec();
        files.answered(&bytes, expected);
        // A name's length byte stays.
        let kept = match field.rule {
            Rule::Name { .. } => 1,
            _ => 0,
        };
        if length > field.start + kept {
            let bad = files.random.one_of(&[0, 128, 255]);
            bytes[field.start + kept..].fill(bad);
            files.answered(&bytes, expected);
        }
    }
}

/// Each field of a file in turn with values at and past its bounds.
pub fn field(files: &mut Files) {
    for round in files.rounds(260) {
        let shape = Shape::ALL[round % Shape::ALL.len()];
        let count = 1 + files.random.below(2);
        let definitions = files.random.definitions(count, &[Shape::SMALL, shape]);
        let file = files.write(&definitions);
        // Long files have many fields alike.
        let most = 60;
        let fields = file.fields.len();
        let first = files.random.below(fields.saturating_sub(most) + 1);
        let chosen = file.fields[..3]
            .iter()
            .chain(&file.fields[first..fields.min(first + most)]);
        for field in chosen {
            for value in values(&mut files.random, field, &file) {
                let mut bytes = file.bytes.clone();
                bytes[field.start..field.end].copy_from_slice(&value);
                match (field.fault(&value), field.rule) {
                    (Some(number), _) => {
                        files.answered(&bytes, Err(Fault::new(number, field.start)));
                    }
                    (None, Rule::Rate | Rule::Any) => files.answered(&bytes, Ok(())),
                    _ => files.open(&bytes),
                }
            }
        }
    }
}

/// Values for a field, good and bad. A name keeps its length.
fn values(random: &mut Random, field: &Field, file: &Written) -> Vec<Vec<u8>> {
    let now = &file.bytes[field.start..field.end];
    let near = |number: i32| [-1, 0, 1].map(|d| number.wrapping_add(d));
    let numbers: Vec<i32> = match field.rule {
        Rule::End { .. } => return Vec::new(),
        Rule::Magic => vec![
            0,
            -1,
            i32::from_be_bytes(*b"SCge"),
            i32::from_be_bytes(*b"scgf"),
        ],
        Rule::Version => near(2).into_iter().chain(EXTREMES).collect(),
        Rule::Count(most) => near(most).into_iter().chain(EXTREMES).collect(),
        // Every one now and then: a file has many rates.
        Rule::Rate => match random.below(8) {
            0 => (-128..=127).collect(),
            _ => vec![-128, -2, -1, 0, 1, 2, 3, 4, 5, 127],
        },
        Rule::Index(first, below) => {
            let ends = near(first).into_iter().chain(near(below));
            ends.chain([random.one_of(&EXTREMES)]).collect()
        }
        Rule::Any => vec![random.one_of(&EXTREMES)],
        Rule::Name { .. } => {
            let bytes = [0, 1, 127, 128, 128 + random.below(128) as u8, 255];
            let places: Vec<usize> = (1..now.len()).collect();
            return bytes
                .into_iter()
                .filter(|_| !places.is_empty())
                .map(|byte| {
                    let mut name = now.to_vec();
                    name[random.one_of(&places)] = byte;
                    name
                })
                .collect();
        }
    };
    let width = now.len();
    numbers
        .into_iter()
        .map(|number| number.to_be_bytes()[4 - width..].to_vec())
        .collect()
}

/// A new byte, often one that matters.
fn new_byte(random: &mut Random) -> u8 {
    match random.below(3) {
        0 => random.byte(),
        1 => random.one_of(&[0, 1, 2, 3, 31, 32, 33, 126, 127, 128, 254, 255]),
        _ => random.below(20) as u8,
    }
}

/// Changes a byte.
pub fn damage(random: &mut Random, bytes: &mut [u8]) {
    let place = random.below(bytes.len());
    bytes[place] = match random.below(2) {
        0 => new_byte(random),
        _ => bytes[place] ^ (1 << random.below(8)),
    };
}

pub fn byte(files: &mut Files) {
    for _ in files.rounds(1000) {
        let file = files.few();
        for _ in 0..40 {
            let mut bytes = file.bytes.clone();
            damage(&mut files.random, &mut bytes);
            files.open(&bytes);
        }
    }
}

pub fn two_bytes(files: &mut Files) {
    for _ in files.rounds(1000) {
        let file = files.few();
        for _ in 0..40 {
            let mut bytes = file.bytes.clone();
            damage(&mut files.random, &mut bytes);
            damage(&mut files.random, &mut bytes);
            files.open(&bytes);
        }
    }
}

pub fn inserted_or_deleted(files: &mut Files) {
    for _ in files.rounds(1000) {
        let file = files.few();
        for _ in 0..40 {
            let mut bytes = file.bytes.clone();
            for _ in 0..1 + files.random.below(3) {
                let place = files.random.below(bytes.len());
                if files.random.below(2) == 0 {
                    bytes.insert(place, new_byte(&mut files.random));
                } else {
                    bytes.remove(place);
                }
            }
            files.open(&bytes);
        }
    }
}

/// Bytes that nobody wrote as a file: any, any after a header, and few kinds after a header.
pub fn noise(files: &mut Files) {
    for _ in files.rounds(20_000) {
        let random = &mut files.random;
        let mut bytes = match random.below(4) {
            0 => Vec::new(),
            1 => b"SCgf".to_vec(),
            _ => {
                let count = random.one_of(&[1, 1, 2, 32]);
                let version = files.version.field().to_be_bytes();
                [b"SCgf".as_slice(), &version, &[0, count]].concat()
            }
        };
        let length = random.below(120);
        let few = random.below(3) > 0;
        bytes.extend((0..length).map(|_| match (few, random.below(8)) {
            (true, 0) => random.one_of(&[1, 2, 3, 255]),
            (true, 1) => 1,
            (true, _) => 0,
            (false, _) => random.byte(),
        }));
        files.open(&bytes);
    }
}

/// The beginning of one file with the end of another.
pub fn splice(files: &mut Files) {
    for _ in files.rounds(400) {
        let first = files.few();
        let second = files.few();
        for _ in 0..25 {
            let cut = files.random.below(first.bytes.len());
            let rest = files.random.below(second.bytes.len());
            let bytes = [&first.bytes[..cut], &second.bytes[rest..]].concat();
            files.open(&bytes);
        }
    }
}
