//! The proved engine's time as a multiple of the independent Rust engine's, for the same commands in
//! one run: whole (`apply`), with the time of its state check taken off (`step`), and in lists, where the
//! check is a small part; and messages against commands as they are, their reading and writing against
//! plain Rust; the lookup of a node; lists; why a number is silent; saved settings; and the most that a call takes.
//!
//! Run it from `host/`, after `./archives engine`, by `cargo run --release -p stepbench`; words after `--`, as `lists`, ask
//! for parts of it.

mod clock;
mod commands;
mod fast;
mod lists;
mod lookups;
mod messages;
mod settings;
mod steps;
mod store;
mod why;
mod worst;

use clock::{least, SAMPLES};
use commands::{commands, definition, definitions, engine_of};
use independent::engine::packed;
use independent::{layout, well_formed, Call, Definition, Engine, Random, Unit, MOST_BYTES};
use std::cell::RefCell;
use std::hint::black_box;

const REPLY: usize = 1 << 20;

/// The two runs of the proved engine, and room for a reply.
#[derive(Clone)]
struct State {
    words: Vec<u32>,
    arena: Vec<u8>,
    reply: Vec<u8>,
}

impl State {
    fn of(engine: &Engine) -> State {
        let (words, arena) = layout::state(&engine.view());
        assert!(well_formed(&words, &arena));
        State {
            words,
            arena,
            reply: vec![0; REPLY],
        }
    }

    fn apply(&mut self, call: &Call) -> u64 {
        engine::apply(
            call.op,
            call.numbers,
            &call.bytes,
            &mut self.words,
            &mut self.arena,
            &mut self.reply,
        )
    }

    /// The state check alone: `/n_run` with a flag of 2, which is refused right behind it.
    fn check(&mut self) {
        assert_eq!(self.apply(&Call::new(12, [0, 2, 0, 0, 0], b"")), 13);
    }

    /// An empty list, which is the state check and nothing behind it.
    fn nothing(&mut self) -> u64 {
        engine::list(&[], b"", &mut self.words, &mut self.arena)
    }
}

/// The parts, each by the word that asks for it alone.
const PARTS: [(&str, fn()); 9] = [
    ("commands", every_command),
    ("steps", steps::measure),
    ("lookups", lookups::measure),
    ("lists", lists::measure),
    ("messages", messages::measure),
    ("why", why::measure),
    ("settings", settings::measure),
    ("checks", checks),
    ("worst", worst::measure),
];

fn main() {
    println!("Proved engine against independent Rust engine, the same commands on the same state.");
    println!("Times are nanoseconds a command, each the least of {SAMPLES} samples in turns.");
    let asked: Vec<String> = std::env::args().skip(1).collect();
    for (word, part) in PARTS {
        if asked.is_empty() || asked.iter().any(|asked| asked == word) {
            part();
        }
    }
}

fn every_command() {
    println!("Of commands that undo each other the mean is given.");
    for nodes in [8, 64, 256] {
        println!();
        print!("{:44} {:>9}", format!("{nodes} nodes"), "Rust");
        println!(
            " {:>9} {:>7} {:>9} {:>7}",
            "apply", "ratio", "step", "ratio"
        );
        for (name, calls) in commands(nodes) {
            measure(name, nodes, &calls);
        }
    }
}

fn measure(name: &str, nodes: usize, calls: &[Call]) {
    let model = engine_of(nodes, &definitions());
    let mut reply = vec![0; REPLY];
    let mut rust = model.clone();
    let mut plain = |call: &Call| {
        let command = call.command().expect("it is known");
        packed(rust.apply(&command, &mut reply))
    };
    let mut state = State::of(&model);
    for call in calls {
        assert_eq!(state.apply(call), plain(call), "{call:?}");
    }
    let state = RefCell::new(state);
    let times = least(vec![
        Box::new(|| {
            for call in calls {
                black_box(plain(call));
            }
        }),
        Box::new(|| {
            for call in calls {
                black_box(state.borrow_mut().apply(call));
            }
        }),
        Box::new(|| state.borrow_mut().check()),
    ]);
    let each = |time: f64| time / calls.len() as f64;
    let (rust, apply) = (each(times[0]), each(times[1]));
    let step = apply - times[2];
    print!("{name:44} {rust:>9.0} {apply:>9.0} {:>7.2}", apply / rust);
    println!(" {step:>9.0} {:>7.2}", step / rust);
}

/// The check of states that differ in one thing: where its time goes.
fn checks() {
    println!();
    println!("{:44} {:>9}", "the state check alone", "check");
    let long = |count: usize| -> Vec<Definition> {
        let mut random = Random::new(1);
        let mut definitions: Vec<Definition> = (0..count)
            .map(|name| definition(format!("long{name:02}"), 32))
            .collect();
        for definition in &mut definitions {
            random.lengthen(definition, MOST_BYTES);
        }
        definitions
    };
    let units = |count: usize| -> Vec<Definition> {
        let mut definitions = long(count);
        for definition in &mut definitions {
            definition.constants.clear();
            while definition.size() < MOST_BYTES - 12 {
                definition.units.push(Unit::default());
            }
        }
        definitions
    };
    let small = || vec![definition("small".to_string(), 1)];
    let states = [
        ("fresh", Engine::new()),
        ("8 nodes, one small definition", engine_of(8, &small())),
        ("64 nodes, one small definition", engine_of(64, &small())),
        ("256 nodes, one small definition", engine_of(256, &small())),
        (
            "256 nodes of 32 controls, one definition",
            engine_of(256, &long(1)),
        ),
        (
            "8 nodes, 32 definitions of 2,048 bytes",
            engine_of(8, &long(32)),
        ),
        (
            "8 nodes, 32 definitions, most units",
            engine_of(8, &units(32)),
        ),
        (
            "256 nodes, 32 definitions of 2,048 bytes",
            engine_of(256, &long(32)),
        ),
    ];
    for (name, engine) in states {
        let mut state = State::of(&engine);
        let times = least(vec![Box::new(|| state.check())]);
        println!("{name:44} {:>9.0}", times[0]);
    }
}
