//! The files in examples/ are what the independent writer makes of these definitions. With
//! LIMUDVEK_WRITE_EXAMPLES set, they are written.

use independent::{check, write_as, Definition, Input, Unit, Version};
use std::fs;
use std::path::Path;

#[test]
fn the_files_are_those_written_here() {
    let folder = Path::new(env!("CARGO_MANIFEST_DIR")).join("../../examples");
    let files = [
        ("ping.scsyndef", Version::Two, vec![ping()]),
        (
            "rain.scsyndef",
            Version::Two,
            vec![rain(["amp", "fade", "pan"])],
        ),
        (
            "rain-reordered.scsyndef",
            Version::Two,
            vec![rain(["pan", "amp", "fade"])],
        ),
        ("strings.scsyndef", Version::Two, vec![strings(), hall()]),
        (
            "strings-original.scsyndef",
            Version::One,
            vec![strings(), hall()],
        ),
    ];
    for (name, version, definitions) in files {
        let file = write_as(version, &definitions).bytes;
        assert_eq!(check(&file), Ok(()));
        let path = folder.join(name);
        if std::env::var_os("LIMUDVEK_WRITE_EXAMPLES").is_some() {
            fs::write(&path, &file).expect("it can be written");
        }
        assert_eq!(fs::read(&path).expect("it can be read"), file, "{name}");
    }
}

/// The paper's example.
fn ping() -> Definition {
    definition("ping", &[], &[("freq", 440.0)])
}

fn definition(name: &str, constants: &[f32], controls: &[(&str, f32)]) -> Definition {
    let bits = |value: &f32| value.to_bits();
    let controls = controls.iter().enumerate();
    Definition {
        name: name.as_bytes().to_vec(),
        constants: constants.iter().map(bits).collect(),
        initial: controls
            .clone()
            .map(|(_, (_, value))| bits(value))
            .collect(),
        parameters: controls
            .map(|(index, (name, _))| (name.as_bytes().to_vec(), index as i32))
            .collect(),
        ..Definition::default()
    }
}

/// An output of a unit, or a constant where the unit is -1.
fn from(unit: i32, index: i32) -> Input {
    Input { unit, index }
}

fn unit(class: &str, rate: i8, special: i16, inputs: &[Input], outputs: usize) -> Unit {
    Unit {
        class: class.as_bytes().to_vec(),
        rate,
        special,
        inputs: inputs.to_vec(),
        outputs: vec![rate; outputs],
    }
}

/// Pink noise, its level following `amp` in `fade` seconds, with its controls in this order.
fn rain(order: [&str; 3]) -> Definition {
    let controls = order.map(|name| match name {
        "amp" => (name, 0.25),
        "fade" => (name, 2.0),
        _ => (name, 0.0),
    });
    let control = |name: &str| {
        let index = order.iter().position(|&control| control == name);
        from(0, index.expect("it is one of the three") as i32)
    };
    Definition {
        units: vec![
            unit("Control", 1, 0, &[], 3),
            unit("Lag", 1, 0, &[control("amp"), control("fade")], 1),
            unit("PinkNoise", 2, 0, &[], 1),
            unit("BinaryOpUGen", 2, 2, &[from(2, 0), from(1, 0)], 1),
            unit("Pan2", 2, 0, &[from(3, 0), control("pan"), from(-1, 1)], 2),
            unit("Out", 2, 0, &[from(-1, 0), from(4, 0), from(4, 1)], 0),
        ],
        ..definition("rain", &[0.0, 1.0], &controls)
    }
}

/// A tone with its level.
fn strings() -> Definition {
    let controls = [("freq", 220.0), ("amp", 0.125)];
    Definition {
        units: vec![
            unit("Control", 1, 0, &[], 2),
            unit("Saw", 2, 0, &[from(0, 0)], 1),
            unit("BinaryOpUGen", 2, 2, &[from(1, 0), from(0, 1)], 1),
            unit("Out", 2, 0, &[from(-1, 0), from(2, 0)], 0),
        ],
        ..definition("strings", &[0.0], &controls)
    }
}

/// A room for what sounds before it. Its name has a space, and one of its controls no name.
fn hall() -> Definition {
    let mut hall = definition("great hall", &[0.0], &[("mix", 0.5), ("room size", 0.75)]);
    hall.initial.push(0.5f32.to_bits());
    let control = |index| from(0, index);
    hall.units = vec![
        unit("Control", 1, 0, &[], 3),
        unit("In", 2, 0, &[from(-1, 0)], 1),
        unit(
            "FreeVerb",
            2,
            0,
            &[from(1, 0), control(0), control(1), control(2)],
            1,
        ),
        unit("ReplaceOut", 2, 0, &[from(-1, 0), from(2, 0)], 0),
    ];
    hall
}
