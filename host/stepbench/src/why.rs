//! Why a number is silent: the proved answer, with the time of the state check taken off, against plain
//! Rust. The answer looks at the rows while the check goes over them, so the check is timed by another call
//! that makes it and little else, an empty list. What that takes more than `why` on the way to its check is
//! taken off by both calls on a state that is refused at once: rather too much, since a processor goes some
//! of that way while it checks. So what is shown is at least what `why` takes.

use super::State;
use crate::clock::least;
use crate::commands::{definition, done, engine_of};
use independent::{write, Call, Engine, Reason};
use std::cell::RefCell;
use std::hint::black_box;

/// Reasons in words, and which they are.
type Kind = (&'static str, fn(Reason) -> bool);

const KINDS: [Kind; 6] = [
    ("no such node", |reason| reason == Reason::NoSuchNode),
    ("a group", |reason| reason == Reason::Group),
    ("off by its own flag", |reason| reason == Reason::Off),
    ("an ancestor is off", |reason| {
        matches!(reason, Reason::AncestorOff(_))
    }),
    ("running", |reason| matches!(reason, Reason::Running(_))),
    ("all of these", |_| true),
];

/// Tells of each size and each reason the mean over the numbers that have it.
pub fn measure() {
    println!();
    print!("{:44} {:>9}", "why a number is silent", "Rust");
    println!(" {:>9} {:>9} {:>9} {:>7}", "whole", "check", "why", "ratio");
    for nodes in [8, 64, 256] {
        for (tree, engine) in [("", flat(nodes)), (", deep", deep(nodes))] {
            let view = engine.view();
            let live = view.nodes.iter().map(|node| node.number);
            let numbers: Vec<i32> = live.flat_map(|number| [number, number + 5000]).collect();
            for (what, is) in KINDS {
                let asked: Vec<i32> = (numbers.iter().copied())
                    .filter(|&number| is(engine.why(number)))
                    .collect();
                if !asked.is_empty() {
                    row(&format!("{nodes} nodes{tree}: {what}"), &engine, &asked);
                }
            }
        }
    }
}

fn row(what: &str, engine: &Engine, numbers: &[i32]) {
    let state = State::of(engine);
    let proved = |number: &i32| engine::why(black_box(*number) as u32, &state.words, &state.arena);
    for number in numbers {
        assert_eq!(proved(number), engine.why(*number).packed());
    }
    let checked = RefCell::new(state.clone());
    let empty = RefCell::new(State {
        words: Vec::new(),
        arena: Vec::new(),
        reply: Vec::new(),
    });
    let times = least(vec![
        Box::new(|| {
            for number in numbers {
                black_box(engine.why(black_box(*number)).packed());
            }
        }),
        Box::new(|| {
            for number in numbers {
                black_box(proved(number));
            }
        }),
        Box::new(|| {
            for _ in numbers {
                black_box(checked.borrow_mut().nothing());
            }
        }),
        Box::new(|| {
            for _ in numbers {
                black_box(empty.borrow_mut().nothing());
            }
        }),
        Box::new(|| {
            for number in numbers {
                let state = empty.borrow();
                black_box(engine::why(
                    black_box(*number) as u32,
                    &state.words,
                    &state.arena,
                ));
            }
        }),
    ]);
    let each = |way: usize| times[way] / numbers.len() as f64;
    let (rust, whole) = (each(0), each(1));
    let check = each(2) - each(3) + each(4);
    let why = whole - check;
    print!("{what:44} {rust:>9.1} {whole:>9.1} {check:>9.1}");
    println!(" {why:>9.1} {:>7.2}", why / rust);
}

/// Four groups with synths in them by turns: those of group 2 are off, and group 3 is.
fn flat(nodes: usize) -> Engine {
    let mut engine = engine_of(nodes, &[definition("small".to_string(), 1)]);
    for synth in (11..nodes as i32 + 5).step_by(4) {
        done(&mut engine, &Call::new(12, [synth, 0, 0, 0, 0], b""));
    }
    done(&mut engine, &Call::new(12, [3, 0, 0, 0, 0], b""));
    engine
}

/// Groups, each within the one before, with a synth in each: every third is off, and the groups are from
/// the middle on. One synth more, so that the nodes are even in number.
fn deep(nodes: usize) -> Engine {
    let mut engine = Engine::new();
    let file = write(&[definition("small".to_string(), 1)]).bytes;
    done(&mut engine, &Call::new(1, [0; 5], &file));
    done(&mut engine, &Call::new(3, [1000, 1, 0, 0, 0], b"small"));
    let groups = nodes as i32 / 2 - 1;
    for group in 1..=groups {
        let synth = 1000 + group;
        done(&mut engine, &Call::new(4, [group, 1, group - 1, 0, 0], b""));
        done(
            &mut engine,
            &Call::new(3, [synth, 1, group, 0, 0], b"small"),
        );
        if group % 3 == 0 {
            done(&mut engine, &Call::new(12, [synth, 0, 0, 0, 0], b""));
        }
        if group > groups / 2 {
            done(&mut engine, &Call::new(12, [group, 0, 0, 0, 0], b""));
        }
    }
    engine
}
