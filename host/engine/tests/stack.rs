//! Every call of the engine on a thread with 128 KB of stack: on fresh, wide, deep and damaged states, each command at its edges, with
//! long files and names; as numbers, as a message and in lists; and saved settings in long stores.

mod common;
#[path = "../../stack.rs"]
mod stack;

use common::damage::hurt;
use common::desk::Desk;
use common::osc::{edges, KINDS};
use common::shapes::sized;
use engine::settings;
use independent::settings::contents;
use independent::{
    check, lend_list, Call, Definition, Named, Random, Saved, Setting, MOST_COMMANDS,
};
use stack::{long_files, on_little_stack};

/// The most nodes besides the root.
const NODES: i32 = 255;

/// The two runs.
#[derive(Clone)]
struct State {
    words: Vec<u32>,
    arena: Vec<u8>,
}

impl State {
    fn of(desk: &Desk) -> State {
        State {
            words: desk.0.words().to_vec(),
            arena: desk.0.arena().to_vec(),
        }
    }

    /// What a command is answered as numbers, as a message and alone in a list, each time from this state; and why its node is silent.
    fn answers(&self, call: &Call, buffers: &mut Buffers) -> [u64; 5] {
        let Call { op, numbers, bytes } = call;
        let Buffers { message, reply } = buffers;
        let mut state = self.clone();
        let applied = engine::apply(
            *op,
            *numbers,
            bytes,
            &mut state.words,
            &mut state.arena,
            reply,
        );
        let mut state = self.clone();
        let written = engine::write_message(*op, *numbers, bytes, message);
        let message = &message[..(written >> 8) as usize];
        let read = engine::message(message, &mut state.words, &mut state.arena, reply);
        let mut state = self.clone();
        let (items, bytes) = lend_list(std::slice::from_ref(call));
        let listed = engine::list(&items, &bytes, &mut state.words, &mut state.arena);
        let why = engine::why(numbers[0], &state.words, &state.arena);
        [applied, written, read, listed, why]
    }
}

/// Room for messages and replies.
struct Buffers {
    message: Vec<u8>,
    reply: Vec<u8>,
}

impl Buffers {
    /// Room for a command with so many bytes, and for every reply.
    fn of(bytes: usize) -> Buffers {
        Buffers {
            message: vec![0; bytes + 100],
            reply: vec![0; 1 << 18],
        }
    }
}

/// As many definitions as there are slots, each with as many controls as there can be.
fn definitions() -> Vec<Definition> {
    let name = |place: u8| String::from(char::from(b'@' + place));
    (0..32).map(|place| sized(&name(place), 32)).collect()
}

/// As many synths as there can be, side by side.
fn wide() -> Desk {
    let mut desk = Desk::with(&definitions());
    for number in 1..=NODES {
        let name = [b'@' + (number % 32) as u8];
        desk.done(3, [number, 1, 0, 0, 0], &name);
    }
    desk
}

/// As many groups as there can be, one in the other, and a synth in the last.
fn deep() -> Desk {
    let mut desk = Desk::with(&definitions());
    for number in 1..NODES {
        desk.group(number, number - 1);
    }
    desk.synth("@", NODES, NODES - 1);
    desk
}

fn call(op: u32, numbers: [i32; 5], bytes: &[u8]) -> Call {
    Call::new(op, numbers, bytes)
}

/// Every command at its edges, and with a name that is longer than any.
fn commands() -> Vec<Call> {
    let mut calls: Vec<Call> = (0..=KINDS + 1).flat_map(edges).collect();
    calls.extend((1..=KINDS).map(|op| call(op, [1, 0, 0, 0, 0], &vec![b'n'; 60_000])));
    calls
}

#[test]
fn commands_on_all_states() {
    let calls = commands();
    for desk in [Desk::with(&[]), wide(), deep()] {
        let state = State::of(&desk);
        let mut buffers = Buffers::of(60_000);
        let accepted = on_little_stack(|| {
            let answers = calls.iter().map(|call| state.answers(call, &mut buffers));
            answers.filter(|answers| answers[0] % 256 == 0).count()
        });
        assert!(accepted > 100, "{accepted} accepted");
    }
}

#[test]
fn commands_on_damaged_states() {
    let calls = commands();
    let mut random = Random::new(1);
    let mut buffers = Buffers::of(60_000);
    for desk in [wide(), deep()] {
        for place in 0..1_000 {
            let mut state = State::of(&desk);
            hurt(
                1 + place % 3,
                &mut random,
                &mut state.words,
                &mut state.arena,
            );
            let call = &calls[random.below(calls.len())];
            on_little_stack(|| state.answers(call, &mut buffers));
        }
    }
}

#[test]
fn long_definitions() {
    let state = State::of(&wide());
    for file in long_files() {
        let fault = check(&file).expect_err("it is refused");
        let refused = u64::from(fault.number) + (fault.place << 8);
        let mut buffers = Buffers::of(file.len());
        let call = call(1, [0; 5], &file);
        let [applied, _, read, listed, _] = on_little_stack(|| state.answers(&call, &mut buffers));
        assert_eq!([applied, read], [refused; 2]);
        assert_eq!(listed, u64::from(fault.number) + (fault.place << 24));
    }
}

/// The longest replies, and a load of as many definitions as there are slots.
#[test]
fn long_replies() {
    let mut state = State::of(&wide());
    let mut buffers = Buffers::of(1 << 16);
    let tree = call(25, [0, 1, 0, 0, 0], b"");
    let [length, _, again, ..] = on_little_stack(|| state.answers(&tree, &mut buffers));
    assert!(
        length == again && length % 256 == 0 && length >> 8 > 65_000,
        "{length}"
    );
    let export = call(27, [0; 5], b"");
    let [length, ..] = on_little_stack(|| state.answers(&export, &mut buffers));
    assert_eq!(length % 256, 0);
    let file = buffers.reply[..(length >> 8) as usize].to_vec();
    state = State::of(&Desk::with(&[]));
    let load = call(1, [0; 5], &file);
    let [applied, _, read, ..] = on_little_stack(|| state.answers(&load, &mut buffers));
    assert_eq!([applied, read], [0, 0]);
}

#[test]
fn long_lists() {
    let lists: [fn(i32) -> Call; 6] = [
        |_| call(14, [0, 0, 0, 0, 7], b"c31"),
        |_| call(16, [0, 0, 9, 0, 7], b"c0"),
        |_| call(18, [0, 0, 5, 0, 0], b"c5"),
        |place| call(11, [0, 1 + place % NODES, 0, 0, 0], b""),
        |place| call(12, [1 + place % NODES, place % 2, 0, 0, 0], b""),
        |place| call(5, [1 + place, 0, 0, 0, 0], b""),
    ];
    for (desk, list) in [wide(), deep()]
        .iter()
        .flat_map(|desk| lists.map(|list| (desk, list)))
    {
        for count in [MOST_COMMANDS, MOST_COMMANDS + 1] {
            let calls: Vec<Call> = (0..count as i32).map(list).collect();
            let (items, bytes) = lend_list(&calls);
            let mut state = State::of(desk);
            on_little_stack(|| engine::list(&items, &bytes, &mut state.words, &mut state.arena));
        }
    }
}

/// Stores of 64 KB, of as many names and of as many settings as there is room for, and one that is empty.
#[test]
fn long_stores() {
    let setting = |at: usize| Setting {
        name: format!("c{at}").into_bytes(),
        value: 7,
    };
    let named = |at: usize| Named {
        name: format!("n{at}").into_bytes(),
        highest: 1,
        versions: Vec::new(),
    };
    let one = Named {
        name: b"A".to_vec(),
        highest: 1,
        versions: vec![Saved {
            version: 1,
            settings: (0..5_000).map(setting).collect(),
        }],
    };
    let names: Vec<Named> = (0..3_000).map(named).collect();
    for entries in [names, vec![one], Vec::new()] {
        let mut store = contents(&entries);
        store.resize(1 << 16, 0);
        for desk in [wide(), deep()] {
            let State { mut words, arena } = State::of(&desk);
            for node in [1, NODES as u32, u32::MAX] {
                on_little_stack(|| {
                    settings::recall(b"A", 1, node, &store, &mut words, &arena);
                    settings::save(node, &words, &arena, &mut store);
                    settings::drop_version(b"A", 2, &mut store);
                });
            }
        }
    }
}

#[test]
fn sizes_and_a_fresh_engine() {
    let mut state = State::of(&wide());
    let sizes = on_little_stack(|| [engine::words(), engine::arena()]);
    assert_eq!(sizes, [state.words.len(), state.arena.len()]);
    let fresh = on_little_stack(|| engine::fresh(&mut state.words, &mut state.arena));
    assert_eq!(fresh, 0);
}
