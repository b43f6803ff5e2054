//! What a control's name covers, by paper 02, 6/14: worked out by hand, and seen by how far a fill goes.

use independent::{write, Command, Definition, Engine, Fault, Key, Value};

const SYNTH: i32 = 1000;
const GROUP: i32 = 1;

/// An engine with group 1 that holds a synth with so many controls, and these names at these indices.
fn engine_of(controls: usize, names: &[(&str, i32)]) -> Engine {
    let definition = Definition {
        name: b"array".to_vec(),
        initial: vec![0; controls],
        parameters: (names.iter())
            .map(|(name, index)| (name.as_bytes().to_vec(), *index))
            .collect(),
        ..Definition::default()
    };
    let mut engine = Engine::new();
    for command in [
        Command::Receive(&write(&[definition]).bytes),
        Command::NewGroup {
            number: GROUP,
            action: 0,
            target: 0,
        },
        Command::NewSynth {
            definition: b"array",
            number: SYNTH,
            action: 0,
            target: GROUP,
        },
    ] {
        assert_eq!(engine.apply(&command, &mut []), Ok(0), "{command:?}");
    }
    engine
}

/// Fills with 7. Answers the refusal's number, or 0, and which controls are 7 then.
fn filled(engine: &Engine, node: i32, key: Key, count: i32) -> (u32, Vec<usize>) {
    let mut engine = engine.clone();
    let fill = Command::Fill {
        node,
        key,
        count,
        value: Value::Float(7),
    };
    let answer = engine.apply(&fill, &mut []);
    let synth = engine.view().nodes[2].synth.clone().expect("a synth");
    let set = (0..synth.controls.len()).filter(|&index| synth.controls[index].own == 7);
    let number = answer.map_or_else(|fault: Fault| fault.number, |_| 0);
    (number, set.collect())
}

/// A name covers so many controls from an index on: no more are filled, and what more is asked for is
/// refused on a synth, past the last control with 21.
fn covers(engine: &Engine, controls: usize, name: &str, index: usize, width: usize) {
    let key = Key::Name(name.as_bytes());
    for count in 0..=controls + 2 {
        let reached: Vec<usize> = (index..index + count.min(width)).collect();
        let expected = match count {
            _ if index + count > controls => (21, Vec::new()),
            _ if count > width => (28, Vec::new()),
            _ => (0, reached.clone()),
        };
        let context = format!("{name} {count}");
        let count = count as i32;
        assert_eq!(filled(engine, SYNTH, key, count), expected, "{context}");
        for group in [GROUP, 0] {
            assert_eq!(
                filled(engine, group, key, count),
                (0, reached.clone()),
                "{context}"
            );
        }
    }
    for node in [SYNTH, GROUP] {
        assert_eq!(filled(engine, node, key, -1), (21, Vec::new()), "{name}");
    }
    assert_eq!(filled(engine, GROUP, key, i32::MAX).1.len(), width);
}

#[test]
fn amps_and_pan() {
    let engine = engine_of(5, &[("amps", 0), ("pan", 4)]);
    let amps = Key::Name(b"amps");
    assert_eq!(filled(&engine, SYNTH, amps, 4), (0, vec![0, 1, 2, 3]));
    assert_eq!(filled(&engine, SYNTH, amps, 5), (28, vec![]));
    assert_eq!(filled(&engine, SYNTH, amps, 6), (21, vec![]));
    assert_eq!(filled(&engine, GROUP, amps, 5), (0, vec![0, 1, 2, 3]));
    covers(&engine, 5, "amps", 0, 4);
    covers(&engine, 5, "pan", 4, 1);
}

#[test]
fn names_in_every_arrangement() {
    // Each definition's names at their indices, and what each name covers.
    type Names = &'static [(&'static str, i32)];
    type Widths = &'static [(&'static str, usize, usize)];
    let arrangements: [(usize, Names, Widths); 8] = [
        (1, &[("a", 0)], &[("a", 0, 1)]),
        (32, &[("a", 0)], &[("a", 0, 32)]),
        (32, &[("a", 31)], &[("a", 31, 1)]),
        // Index 0 has no name.
        (6, &[("a", 2)], &[("a", 2, 4)]),
        // Not in the order of the indices.
        (
            6,
            &[("c", 5), ("b", 3), ("a", 1)],
            &[("a", 1, 2), ("b", 3, 2), ("c", 5, 1)],
        ),
        // Several names on one index.
        (
            6,
            &[("a", 1), ("b", 1), ("c", 4), ("d", 1)],
            &[("a", 1, 3), ("b", 1, 3), ("d", 1, 3), ("c", 4, 2)],
        ),
        // A name's first entry decides where it is; its others end what covers them all the same.
        (
            8,
            &[("a", 0), ("a", 3), ("b", 2), ("a", 6)],
            &[("a", 0, 2), ("b", 2, 1)],
        ),
        (
            8,
            &[("a", 5), ("a", 1), ("b", 0), ("", 7)],
            &[("a", 5, 2), ("b", 0, 1), ("", 7, 1)],
        ),
    ];
    for (controls, names, widths) in arrangements {
        let engine = engine_of(controls, names);
        for &(name, index, width) in widths {
            covers(&engine, controls, name, index, width);
        }
        let none = Key::Name(b"nobody");
        assert_eq!(filled(&engine, SYNTH, none, 0), (21, vec![]));
        assert_eq!(filled(&engine, GROUP, none, 3), (0, vec![]));
    }
}

#[test]
fn indices_are_as_before() {
    let engine = engine_of(5, &[("amps", 0), ("pan", 4)]);
    for start in 0..=7 {
        for count in 0..=7 {
            let reached: Vec<usize> = (start..5.min(start + count)).collect();
            let key = Key::Index(start as i32);
            let expected = if start + count <= 5 {
                (0, reached.clone())
            } else {
                (21, Vec::new())
            };
            let count = count as i32;
            assert_eq!(filled(&engine, SYNTH, key, count), expected);
            assert_eq!(filled(&engine, GROUP, key, count), (0, reached));
        }
    }
}

/// Sets and maps by name reach the first control alone, and are not refused with 28.
#[test]
fn one_control_by_name() {
    let mut engine = engine_of(5, &[("amps", 0), ("pan", 4)]);
    let key = Key::Name(b"amps");
    for node in [SYNTH, GROUP] {
        let value = Value::Integer(1);
        let set = Command::Set { node, key, value };
        assert_eq!(engine.apply(&set, &mut []), Ok(0));
        let bus = 9;
        let map = Command::Map { node, key, bus };
        assert_eq!(engine.apply(&map, &mut []), Ok(0));
        let synth = engine.view().nodes[2].synth.clone().expect("a synth");
        let first = synth.controls[0];
        assert_eq!((first.own, first.bus), (1f32.to_bits(), Some(9)));
        let others = synth.controls[1..].iter();
        assert!(others
            .clone()
            .all(|other| (other.own, other.bus) == (0, None)));
    }
}

/// 17, 23, 21 and then 28.
#[test]
fn the_order_of_refusals() {
    let mut engine = engine_of(5, &[("amps", 0), ("pan", 4)]);
    let mut refused = |node, name: &'static [u8], count, value| {
        let key = Key::Name(name);
        let fill = Command::Fill {
            node,
            key,
            count,
            value,
        };
        engine.apply(&fill, &mut []).map_err(|fault| fault.number)
    };
    let (bad, good) = (Value::Integer(1 << 25), Value::Integer(1));
    assert_eq!(refused(7, b"amps", 5, bad), Err(17));
    assert_eq!(refused(SYNTH, b"amps", 5, bad), Err(23));
    assert_eq!(refused(SYNTH, b"amps", 6, good), Err(21));
    assert_eq!(refused(SYNTH, b"amp", 5, good), Err(21));
    assert_eq!(refused(SYNTH, b"amps", 5, good), Err(28));
    assert_eq!(refused(GROUP, b"amps", 5, bad), Err(23));
    assert_eq!(refused(SYNTH, b"amps", 0, good), Ok(0));
}
