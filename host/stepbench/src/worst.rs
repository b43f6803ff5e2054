//! The most that a call takes: states and commands made to take long. Each is sent to a copy of its state, and
//! the time of the copy is taken off.

use super::State;
use crate::clock::least;
use crate::commands::{definition, done};
use independent::engine::packed;
use independent::{write, Call, Definition, Engine, Unit, MOST_BYTES};
use std::cell::RefCell;
use std::hint::black_box;

/// Tells of each the microseconds in all, of the state check alone and of plain Rust, which has no check.
pub fn measure() {
    println!();
    print!(
        "{:60} {:>9}",
        "the most that a call takes, microseconds", "Rust"
    );
    println!(" {:>9} {:>9}", "apply", "check");
    let file = write(&long()).bytes;
    let other = {
        let mut definitions = long();
        definitions
            .iter_mut()
            .for_each(|definition| definition.name[254] = b'y');
        write(&definitions).bytes
    };
    let name = long_name(6);
    let held = || holding(&long(), 255);
    let set = |node| Call::new(14, [node, 0, 0, 0, 0], &name);
    let fill = Call::new(15, [0, 0, 32, 0, 0], b"");
    let query = Call::new(25, [0, 1, 0, 0, 0], b"");
    let load = |file: &[u8]| Call::new(1, [0; 5], file);
    row(
        "/d_recv of 32 long definitions, all new",
        &Engine::new(),
        load(&file),
    );
    row("again, none held", &holding(&long(), 0), load(&file));
    row(
        "of other names, all slots held: refused",
        &held(),
        load(&other),
    );
    row("/n_set of the root by a long name", &held(), set(0));
    row("/n_fill of the root", &held(), fill);
    row("/g_queryTree of 255 synths of 32 controls", &shown(), query);
    row(
        "export of 32 long definitions",
        &held(),
        Call::new(27, [0; 5], b""),
    );
    for (what, op) in [("/g_queryTree", 25), ("/g_freeAll", 6), ("/g_deepFree", 7)] {
        let what = format!("{what} of groups, each within the one before");
        row(&what, &nested(), Call::new(op, [0; 5], b""));
    }
    let (run, last) = (Call::new(12, [0, 0, 0, 0, 0], b""), nested_last());
    row("/n_run of the root, of them", &nested(), run);
    row(
        "/g_head of the deepest, of them",
        &nested(),
        Call::new(10, [0, last, 0, 0, 0], b""),
    );
    let free = Call::new(5, [256 * 1024, 0, 0, 0, 0], b"");
    row(
        "/n_free of no node, numbers of one remainder by 1,024",
        &numbered(),
        free,
    );
}

fn row(what: &str, model: &Engine, call: Call) {
    let command = call.command().expect("it is known");
    let state = State::of(model);
    let (rust, proved) = (RefCell::new(model.clone()), RefCell::new(state.clone()));
    let mut reply = vec![0; state.reply.len()];
    let put_back = || {
        let mut proved = proved.borrow_mut();
        proved.words.copy_from_slice(&state.words);
        proved.arena.copy_from_slice(&state.arena);
    };
    let own = packed(model.clone().apply(&command, &mut reply));
    assert_eq!(proved.borrow_mut().apply(&call), own, "{what}");
    let times = least(vec![
        Box::new(|| *rust.borrow_mut() = black_box(model.clone())),
        Box::new(|| {
            *rust.borrow_mut() = model.clone();
            black_box(rust.borrow_mut().apply(&command, &mut reply)).ok();
        }),
        Box::new(put_back),
        Box::new(|| {
            put_back();
            black_box(proved.borrow_mut().apply(&call));
        }),
        Box::new(|| {
            put_back();
            proved.borrow_mut().check();
        }),
    ]);
    let [rust, apply, check] =
        [(1, 0), (3, 2), (4, 2)].map(|(with, without)| (times[with] - times[without]) / 1e3);
    println!("{what:60} {rust:>9.1} {apply:>9.1} {check:>9.1}");
}

/// A name of 255 bytes that differs from the others of its family in its first byte alone.
fn long_name(which: usize) -> Vec<u8> {
    let mut name = vec![b'x'; 255];
    name[0] = b'0' + which as u8;
    name
}

/// 32 definitions with such names and six controls that have such names, and as many units as there is room for.
fn long() -> Vec<Definition> {
    let one = |which| {
        let mut definition = Definition {
            name: long_name(which),
            initial: vec![0; 7],
            parameters: (1..7)
                .map(|index| (long_name(index), index as i32))
                .collect(),
            ..Definition::default()
        };
        while definition.size() + 12 <= MOST_BYTES {
            definition.units.push(Unit::default());
        }
        definition
    };
    (0..32).map(one).collect()
}

/// These definitions, and so many synths of them by turns.
fn holding(definitions: &[Definition], synths: i32) -> Engine {
    let mut engine = Engine::new();
    done(
        &mut engine,
        &Call::new(1, [0; 5], &write(definitions).bytes),
    );
    for synth in 0..synths {
        let name = &definitions[synth as usize % definitions.len()].name;
        done(&mut engine, &Call::new(3, [1 + synth, 1, 0, 0, 0], name));
    }
    engine
}

/// 255 synths of 32 controls with names, of 32 definitions.
fn shown() -> Engine {
    let one = |which| definition(format!("definition{which:02}"), 32);
    let definitions: Vec<Definition> = (0..32).map(one).collect();
    holding(&definitions, 255)
}

/// 127 groups, each within the one before, with a synth at the tail of each and of the root.
fn nested() -> Engine {
    let mut engine = holding(&[definition("small".to_string(), 1)], 1);
    for group in 1..=127 {
        let above = if group == 1 { 0 } else { 999 + group };
        done(
            &mut engine,
            &Call::new(4, [1000 + group, 0, above, 0, 0], b""),
        );
        done(
            &mut engine,
            &Call::new(3, [2000 + group, 1, 1000 + group, 0, 0], b"small"),
        );
    }
    engine
}

/// The deepest synth of those.
fn nested_last() -> i32 {
    2127
}

/// 255 synths whose numbers have one remainder by 1,024.
fn numbered() -> Engine {
    let mut engine = holding(&[definition("small".to_string(), 1)], 0);
    for synth in 1..256 {
        done(
            &mut engine,
            &Call::new(3, [1024 * synth, 1, 0, 0, 0], b"small"),
        );
    }
    engine
}
