//! "Floats may be any 32 bits and are kept bit for bit": NaNs, quiet and signalling, of both signs,
//! on every way that a float goes through the engine.

mod common;

use common::desk::{float, Desk};
use common::{say, seed};
use independent::{write, Definition, Random, Variant, MOST_BYTES, MOST_DEFINITIONS};

/// All exponent bits; a NaN has them and some of the lower bits.
const EXPONENT: u32 = 0x7f80_0000;
const LOWER: u32 = 0x007f_ffff;
const SIGN: u32 = 0x8000_0000;

/// As many controls as a synth can have.
const CONTROLS: usize = 32;

/// Of both signs: those with one lower bit and with all but one, those about the quiet bit and at the
/// ends, and one in so many of the rest.
fn sample(seed: u64, step: usize) -> Vec<u32> {
    let bits = (0..23).flat_map(|bit| [1 << bit, LOWER ^ (1 << bit)]);
    let ends =
        (1..40).flat_map(|near| [near, LOWER + 1 - near, 0x40_0000 - near, 0x3f_ffff + near]);
    let first = 1 + Random::new(seed).below(step) as u32;
    let rest = (first..=LOWER).step_by(step);
    let lower: Vec<u32> = bits.chain(ends).chain(rest).collect();
    let of = |sign: u32| lower.iter().map(move |lower| sign | EXPONENT | lower);
    of(0).chain(of(SIGN)).collect()
}

fn is_nan(pattern: u32) -> bool {
    f32::from_bits(pattern).is_nan()
}

/// A definition that holds these as its constants, its initial values and a variant's values.
fn holding(patterns: &[u32]) -> Definition {
    let names =
        (0..patterns.len()).map(|index| (format!("c{index:02}").into_bytes(), index as i32));
    let variant = Variant {
        name: b"v".to_vec(),
        values: patterns.to_vec(),
    };
    Definition {
        name: b"nan".to_vec(),
        constants: patterns.to_vec(),
        initial: patterns.to_vec(),
        parameters: names.collect(),
        variants: vec![variant],
        ..Definition::default()
    }
}

/// What the controls read, by index and by name.
fn read(desk: &mut Desk) -> Vec<u32> {
    let by_name = |index: usize| format!("c{index:02}");
    let values: Vec<u32> = (0..CONTROLS)
        .map(|index| desk.read(1000, index as i32))
        .collect();
    for (index, value) in values.iter().enumerate().step_by(5) {
        assert_eq!(desk.read_named(1000, &by_name(index)), *value);
    }
    values
}

#[test]
fn every_way_keeps_nans() {
    let mut patterns = sample(seed(), 509);
    patterns.truncate(patterns.len() / CONTROLS * CONTROLS);
    assert!(patterns.len() >= 30_000 && patterns.iter().all(|&pattern| is_nan(pattern)));
    say(&format!("{} NaNs on every way", patterns.len()));
    let mut desk = Desk::with(&[]);
    for chunk in patterns.chunks_exact(CONTROLS) {
        // A file, its export, and a new synth's controls.
        let file = write(&[holding(chunk)]).bytes;
        desk.done(1, [0; 5], &file);
        assert_eq!(desk.export(), file);
        desk.synth("nan", 1000, 0);
        assert_eq!(read(&mut desk), chunk);
        // A tree's reply ends with each control's name and float.
        let reply = desk.reply(25, [0, 1, 0, 0, 0], b"");
        let shown = reply[reply.len() - 8 * CONTROLS..]
            .chunks_exact(8)
            .map(float);
        assert!(shown.eq(chunk.iter().copied()));
        // Sets by index, by name and by the group; the values turned by one.
        let mut turned = chunk.to_vec();
        turned.rotate_left(1);
        for (index, &pattern) in turned.iter().enumerate() {
            let (at, value) = (index as i32, pattern as i32);
            match index % 4 {
                0 => desk.done(13, [1000, at, 0, 0, value], b""),
                1 => desk.set(1000, &format!("c{index:02}"), pattern),
                2 => desk.set(0, &format!("c{index:02}"), pattern),
                _ => desk.done(15, [1000, at, 1, 0, value], b""),
            }
        }
        assert_eq!(read(&mut desk), turned);
        // Buses, and controls that follow them.
        for (bus, &pattern) in chunk.iter().enumerate() {
            let value = pattern as i32;
            match bus % 2 {
                0 => desk.done(19, [bus as i32, 0, 0, 0, value], b""),
                _ => desk.done(20, [bus as i32, 0, 2, 0, value], b""),
            }
            let reply = desk.reply(23, [bus as i32, 0, 0, 0, 0], b"");
            assert_eq!(float(&reply), pattern);
            desk.done(17, [1000, bus as i32, bus as i32, 0, 0], b"");
        }
        assert_eq!(read(&mut desk), chunk);
        // The own floats return.
        for index in 0..CONTROLS {
            let name = format!("c{index:02}");
            desk.done(18, [1000, 0, -1, 0, 0], name.as_bytes());
        }
        assert_eq!(read(&mut desk), turned);
        desk.done(5, [1000, 0, 0, 0, 0], b"");
    }
}

/// All of them, as constants, in files that are loaded one over the other.
#[test]
fn files_and_exports_keep_every_nan() {
    let mut desk = Desk::with(&[]);
    let mut patterns = [0, SIGN]
        .into_iter()
        .flat_map(|sign| (1..=LOWER).map(move |low| sign | EXPONENT | low));
    let mut count = 0;
    loop {
        let mut definitions = Vec::new();
        for at in 0..MOST_DEFINITIONS {
            let mut definition = Definition {
                name: format!("{at:02}").into_bytes(),
                ..Definition::default()
            };
            let room = (MOST_BYTES - definition.size()) / 4;
            definition.constants.extend(patterns.by_ref().take(room));
            count += definition.constants.len();
            definitions.push(definition);
        }
        let file = write(&definitions).bytes;
        desk.done(1, [0; 5], &file);
        assert!(desk.export() == file);
        if definitions
            .iter()
            .all(|definition| definition.constants.is_empty())
        {
            break;
        }
    }
    say(&format!("{count} NaNs through files and exports"));
    assert_eq!(count, 2 * LOWER as usize);
}
