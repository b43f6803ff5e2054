//! The steps of commands that don't reply: each as a list of as many as a list takes, so that the one state check
//! is a small part, and is taken off; against both plain engines, which do the same commands one by one.

use super::State;
use crate::clock::least;
use crate::commands::{commands, definitions, engine_of};
use crate::lists::engines;
use independent::engine::packed;
use independent::{lend_list, Call, MOST_COMMANDS};
use std::cell::RefCell;
use std::hint::black_box;

/// Tells of each size and each command the nanoseconds a command and the ratios.
pub fn measure() {
    println!();
    println!("A command of a list of {MOST_COMMANDS} like it, without the state check: nanoseconds a command of the independent");
    println!("engine (Rust), of plain Rust written for speed (fast) and of the proved step.");
    for nodes in [8, 64, 256] {
        println!();
        print!(
            "{:44} {:>9} {:>9} {:>9}",
            format!("{nodes} nodes"),
            "Rust",
            "fast",
            "step"
        );
        println!(" {:>8} {:>8}", "to Rust", "to fast");
        for (name, calls) in commands(nodes) {
            let loads = calls.iter().any(|call| call.op < 3);
            let replies = calls.iter().any(|call| call.op > 20);
            if !loads && !replies && !name.ends_with("refused") {
                row(name, nodes, &calls);
            }
        }
    }
}

fn row(name: &str, nodes: usize, calls: &[Call]) {
    let many = MOST_COMMANDS / calls.len() * calls.len();
    let all: Vec<Call> = calls.iter().cycle().take(many).cloned().collect();
    let (items, bytes) = lend_list(&all);
    let model = engine_of(nodes, &definitions());
    let mut state = State::of(&model);
    let (mut rust, mut fast) = engines(nodes);
    let accepted = 256 * many as u64;
    let list = engine::list(&items, &bytes, &mut state.words, &mut state.arena);
    assert_eq!(list, accepted, "{name}");
    let check = RefCell::new(state.clone());
    let times = least(vec![
        Box::new(|| {
            for call in calls {
                let command = call.command().expect("it is known");
                black_box(packed(rust.apply(&command, &mut [])));
            }
        }),
        Box::new(|| {
            for call in calls {
                let command = call.command().expect("it is known");
                black_box(fast.apply(command).expect("it is accepted"));
            }
        }),
        Box::new(|| {
            let list = engine::list(&items, &bytes, &mut state.words, &mut state.arena);
            assert_eq!(black_box(list), accepted);
        }),
        Box::new(|| check.borrow_mut().check()),
    ]);
    let each = |time: f64| time / calls.len() as f64;
    let (rust, fast) = (each(times[0]), each(times[1]));
    let step = (times[2] - times[3]) / many as f64;
    print!("{name:44} {rust:>9.1} {fast:>9.1} {step:>9.1}");
    println!(" {:>8.2} {:>8.2}", step / rust, step / fast);
}
