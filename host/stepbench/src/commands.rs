//! The states and the commands that are timed.

use independent::{write, Call, Definition, Engine, Input, Unit};

/// A definition with so many controls and a few units.
pub fn definition(name: String, controls: usize) -> Definition {
    let input = Input { unit: 0, index: 0 };
    let control = Unit {
        class: b"Control".to_vec(),
        rate: 1,
        outputs: vec![1; controls],
        ..Unit::default()
    };
    let other = Unit {
        class: b"BinaryOpUGen".to_vec(),
        rate: 2,
        special: 2,
        inputs: vec![input; 2],
        outputs: vec![2],
    };
    let names = (0..controls).map(|index| (format!("control{index}").into_bytes(), index as i32));
    Definition {
        name: name.into_bytes(),
        initial: vec![0x3f80_0000; controls],
        parameters: names.collect(),
        units: [vec![control], vec![other; 4]].concat(),
        ..Definition::default()
    }
}

/// Eight definitions of eight controls.
pub fn definitions() -> Vec<Definition> {
    (0..8)
        .map(|name| definition(format!("definition{name}"), 8))
        .collect()
}

/// Sends a command that is accepted and does not reply.
pub fn done(engine: &mut Engine, call: &Call) {
    let command = call.command().expect("it is known");
    assert_eq!(engine.apply(&command, &mut []), Ok(0), "{call:?}");
}

/// An engine of so many nodes: four groups, and synths in them by turns, from number 10 on.
pub fn engine_of(nodes: usize, definitions: &[Definition]) -> Engine {
    let mut engine = Engine::new();
    let mut send = |call: Call| done(&mut engine, &call);
    send(Call::new(1, [0; 5], &write(definitions).bytes));
    for group in 1..=4 {
        send(Call::new(4, [group, 1, 0, 0, 0], b""));
    }
    for synth in 0..nodes as i32 - 5 {
        let name = &definitions[synth as usize % definitions.len()].name;
        send(Call::new(3, [10 + synth, 1, 1 + synth % 4, 0, 0], name));
    }
    engine
}

/// For each command what is repeated: it alone, or with one that undoes it.
pub fn commands(nodes: usize) -> Vec<(&'static str, Vec<Call>)> {
    let last = 10 + nodes as i32 - 6;
    let name = b"definition3".as_slice();
    let float = |number: f32| number.to_bits() as i32;
    let one = write(&definitions()[..1]).bytes;
    let all = write(&definitions()).bytes;
    let mut list = vec![
        (
            "/d_recv of one definition",
            vec![Call::new(1, [0; 5], &one)],
        ),
        (
            "/d_recv of eight definitions",
            vec![Call::new(1, [0; 5], &all)],
        ),
        (
            "/d_free, /d_recv",
            vec![
                Call::new(2, [0; 5], b"definition0"),
                Call::new(1, [0; 5], &one),
            ],
        ),
        (
            "/s_new by action 4",
            vec![
                Call::new(3, [5000, 4, last, 0, 0], name),
                Call::new(3, [last, 4, 5000, 0, 0], name),
            ],
        ),
        (
            "/n_before, /n_after",
            vec![
                Call::new(8, [10, last, 0, 0, 0], b""),
                Call::new(9, [10, last, 0, 0, 0], b""),
            ],
        ),
        (
            "/n_before of a group",
            vec![
                Call::new(8, [4, 1, 0, 0, 0], b""),
                Call::new(9, [4, 3, 0, 0, 0], b""),
            ],
        ),
        (
            "/g_head, /g_tail",
            vec![
                Call::new(10, [2, 10, 0, 0, 0], b""),
                Call::new(11, [3, 10, 0, 0, 0], b""),
            ],
        ),
        (
            "/n_run",
            vec![
                Call::new(12, [last, 0, 0, 0, 0], b""),
                Call::new(12, [last, 1, 0, 0, 0], b""),
            ],
        ),
        (
            "/n_set by index",
            vec![Call::new(13, [last, 3, 0, 0, float(0.5)], b"")],
        ),
        (
            "/n_set by name",
            vec![Call::new(14, [last, 0, 0, 0, float(0.5)], b"control6")],
        ),
        (
            "/n_set of the root by name",
            vec![Call::new(14, [0, 0, 0, 0, float(0.5)], b"control6")],
        ),
        ("/n_fill", vec![Call::new(15, [last, 0, 8, 1, 5], b"")]),
        (
            "/n_fill by name",
            vec![Call::new(16, [last, 0, 1, 1, 5], b"control6")],
        ),
        (
            "/n_fill of the root",
            vec![Call::new(15, [0, 0, 8, 1, 5], b"")],
        ),
        ("/n_map", vec![Call::new(17, [last, 3, 7, 0, 0], b"")]),
        ("/c_set", vec![Call::new(19, [7, 0, 0, 0, float(2.0)], b"")]),
        (
            "/c_fill of 64",
            vec![Call::new(20, [7, 0, 64, 0, float(2.0)], b"")],
        ),
        (
            "/s_get by name",
            vec![Call::new(22, [last, 0, 0, 0, 0], b"control6")],
        ),
        ("/c_get", vec![Call::new(23, [7, 0, 0, 0, 0], b"")]),
        ("/n_query", vec![Call::new(24, [last, 0, 0, 0, 0], b"")]),
        ("/g_queryTree 0 0", vec![Call::new(25, [0; 5], b"")]),
        (
            "/g_queryTree 0 1",
            vec![Call::new(25, [0, 1, 0, 0, 0], b"")],
        ),
        ("/status", vec![Call::new(26, [0; 5], b"")]),
        ("export", vec![Call::new(27, [0; 5], b"")]),
        (
            "/n_free of no node, refused",
            vec![Call::new(5, [9999, 0, 0, 0, 0], b"")],
        ),
        (
            "/n_free of the root, refused",
            vec![Call::new(5, [0; 5], b"")],
        ),
        (
            "/n_free, /s_new",
            vec![
                Call::new(5, [last, 0, 0, 0, 0], b""),
                Call::new(3, [last, 1, 1 + (last - 10) % 4, 0, 0], name),
            ],
        ),
    ];
    if nodes < 256 {
        let group = Call::new(4, [5001, 1, 3, 0, 0], b"");
        let in_group = Call::new(3, [5000, 1, 5001, 0, 0], name);
        let free_group = Call::new(5, [5001, 0, 0, 0, 0], b"");
        list.push(("/g_new, /n_free", vec![group.clone(), free_group.clone()]));
        if nodes < 255 {
            let (free_all, deep) = (
                Call::new(6, [5001, 0, 0, 0, 0], b""),
                Call::new(7, [5001, 0, 0, 0, 0], b""),
            );
            list.push((
                "/g_new, /s_new, /g_freeAll, /n_free",
                vec![
                    group.clone(),
                    in_group.clone(),
                    free_all,
                    free_group.clone(),
                ],
            ));
            list.push((
                "/g_new, /s_new, /g_deepFree, /n_free",
                vec![group, in_group, deep, free_group],
            ));
        }
    }
    list
}
