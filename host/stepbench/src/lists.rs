//! Ten thousand commands that don't reply, in lists of 512: the proved list call against plain Rust that
//! does the same, the independent engine and one written for speed; and what it saves against sending
//! them one by one.

use super::State;
use crate::clock::least;
use crate::commands::{definitions, engine_of};
use crate::fast::Fast;
use independent::{layout, lend_list, read_list, write, Call, Engine, Random, MOST_COMMANDS};
use std::cell::RefCell;
use std::hint::black_box;

const COMMANDS: usize = 10_000;

/// A list as it is lent, and how many commands it has.
struct Lent {
    items: Vec<u32>,
    bytes: Vec<u8>,
    count: usize,
}

/// Tells of each size the nanoseconds a command, the ratios, and the share of the state check.
pub fn measure() {
    println!();
    println!("{COMMANDS} commands in lists of {MOST_COMMANDS}: nanoseconds a command of the independent engine (Rust), of");
    println!("plain Rust written for speed (fast), of the proved list call and its share of state checks, and");
    println!("of the proved engine one by one.");
    print!("{:10} {:>9} {:>9} {:>9}", "", "Rust", "fast", "list");
    print!(" {:>8} {:>8} {:>8}", "to Rust", "to fast", "checks");
    println!(" {:>11}", "one by one");
    for nodes in [8, 64, 256] {
        row(nodes);
    }
}

fn row(nodes: usize) {
    let calls = evening(nodes);
    let lists: Vec<Lent> = calls
        .chunks(MOST_COMMANDS)
        .map(|calls| {
            let (items, bytes) = lend_list(calls);
            let count = calls.len();
            Lent {
                items,
                bytes,
                count,
            }
        })
        .collect();
    let (mut model, mut fast) = engines(nodes);
    let mut state = State::of(&model);
    same(&lists, &mut model, &mut fast, &mut state);
    let mut by_one = state.clone();
    let check = RefCell::new(state.clone());
    let mut plain = || {
        for list in &lists {
            let commands = read_list(&list.items, &list.bytes).expect("it is a list");
            let listed = model.list(&commands, |_, _| {});
            assert_eq!(black_box(listed.accepted), list.count);
        }
    };
    let mut quick = || {
        for list in &lists {
            assert_eq!(fast.list(&list.items, &list.bytes), Some(list.count));
        }
    };
    let mut proved = || {
        for list in &lists {
            let answer = engine::list(&list.items, &list.bytes, &mut state.words, &mut state.arena);
            assert_eq!(answer, 256 * list.count as u64);
        }
    };
    let mut one_by_one = || {
        for call in &calls {
            assert_eq!(black_box(by_one.apply(call)), 0);
        }
    };
    // All go the same way, and from here on again and again.
    plain();
    quick();
    proved();
    one_by_one();
    let times = least(vec![
        Box::new(&mut plain),
        Box::new(&mut quick),
        Box::new(&mut proved),
        Box::new(&mut one_by_one),
        Box::new(|| check.borrow_mut().check()),
    ]);
    let each = |place: usize| times[place] / COMMANDS as f64;
    let [rust, quick, list, by_one_time] = [0, 1, 2, 3].map(each);
    let checks = times[4] * lists.len() as f64 / COMMANDS as f64;
    print!(
        "{:10} {rust:>9.0} {quick:>9.0} {list:>9.0}",
        format!("{nodes} nodes")
    );
    print!(" {:>8.2} {:>8.2}", list / rust, list / quick);
    print!(" {:>7.1}%", 100.0 * checks / list);
    println!(" {by_one_time:>11.0}");
}

/// Plays the lists once: all three end alike.
fn same(lists: &[Lent], model: &mut Engine, fast: &mut Fast, state: &mut State) {
    for Lent {
        items,
        bytes,
        count,
    } in lists
    {
        let commands = read_list(items, bytes).expect("it is a list");
        assert_eq!(model.list(&commands, |_, _| {}).accepted, *count);
        assert_eq!(fast.list(items, bytes), Some(*count));
        let answer = engine::list(items, bytes, &mut state.words, &mut state.arena);
        assert_eq!(answer, 256 * *count as u64);
    }
    let view = model.view();
    assert!(layout::view(&state.words, &state.arena) == view);
    let own = |number: &i32| {
        let node = view.nodes.iter().find(|node| node.number == *number);
        let synth = node.and_then(|node| node.synth.as_ref());
        let controls = &synth.expect("it is one that runs").controls;
        (
            *number,
            controls.iter().map(|control| control.own).collect(),
        )
    };
    assert!(fast.running() == view.order.iter().map(own).collect::<Vec<_>>());
}

/// Both plain engines with so many nodes.
pub fn engines(nodes: usize) -> (Engine, Fast) {
    let definitions = definitions();
    let model = engine_of(nodes, &definitions);
    let mut fast = Fast::new();
    let mut send = |call: Call| {
        let command = call.command().expect("it is known");
        fast.apply(command).expect("it is accepted");
    };
    send(Call::new(1, [0; 5], &write(&definitions).bytes));
    for group in 1..=4 {
        send(Call::new(4, [group, 1, 0, 0, 0], b""));
    }
    for synth in 0..nodes as i32 - 5 {
        let name = &definitions[synth as usize % definitions.len()].name;
        send(Call::new(3, [10 + synth, 1, 1 + synth % 4, 0, 0], name));
    }
    (model, fast)
}

/// Commands as an evening has them, each accepted, after which the same numbers live: so they can be
/// played again and again.
fn evening(nodes: usize) -> Vec<Call> {
    let mut random = Random::new(5);
    let synths = nodes - 5;
    let mut calls = Vec::with_capacity(COMMANDS);
    while calls.len() < COMMANDS {
        let synth = 10 + random.below(synths) as i32;
        let other = 10 + (synth - 10 + 1 + random.below(synths - 1) as i32) % synths as i32;
        let group = 1 + random.below(4) as i32;
        let index = random.below(8) as i32;
        let name = format!("control{index}").into_bytes();
        let float = (random.below(1000) as f32 / 100.0).to_bits() as i32;
        let bus = random.below(4096) as i32;
        let room = COMMANDS - calls.len();
        let call = match random.below(100) {
            0..=24 => Call::new(13, [synth, index, 0, 0, float], b""),
            25..=44 => Call::new(14, [synth, 0, 0, 0, float], &name),
            45..=46 => Call::new(14, [group, 0, 0, 0, float], &name),
            47..=50 => Call::new(15, [synth, 0, 8, 0, float], b""),
            51..=56 => Call::new(18, [synth, 0, bus, 0, 0], &name),
            57..=70 => Call::new(19, [bus, 0, 0, 0, float], b""),
            71..=72 => Call::new(20, [bus.min(4000), 0, 64, 0, float], b""),
            73..=80 => Call::new(12, [synth, random.below(2) as i32, 0, 0, 0], b""),
            81..=84 => Call::new(8, [synth, other, 0, 0, 0], b""),
            85..=88 => Call::new(11, [group, synth, 0, 0, 0], b""),
            _ if room > 1 => {
                let name = format!("definition{index}").into_bytes();
                calls.push(Call::new(5, [synth, 0, 0, 0, 0], b""));
                Call::new(3, [synth, 1, group, 0, 0], &name)
            }
            _ => Call::new(12, [synth, 1, 0, 0, 0], b""),
        };
        calls.push(call);
    }
    calls
}
