//! Messages: the proved engine's time for one against its time for the same command as it is, and what
//! reading and writing alone cost against plain Rust.

use super::State;
use crate::clock::least;
use crate::commands::{commands, definitions, engine_of};
use independent::{read_message, write_message, Call, Engine};
use std::hint::black_box;

/// The engine whose commands are compared with messages.
const NODES: usize = 64;

/// Tells of each command that has an address, and of long messages that are refused with 27.
pub fn measure() {
    println!();
    println!("Messages: nanoseconds of a command as it is (apply) and as a message, {NODES} nodes; what the");
    println!(
        "message takes more on a fresh engine, whose check is short (read), beside plain Rust that"
    );
    println!("only reads it; and the proved writer beside plain Rust that writes it.");
    print!("{:36} {:>9} {:>9} {:>7}", "", "apply", "message", "ratio");
    print!(" {:>8} {:>8} {:>7}", "read", "Rust", "ratio");
    println!(" {:>8} {:>8} {:>7}", "write", "Rust", "ratio");
    for (name, calls) in commands(NODES) {
        if calls.iter().all(|call| written(call).is_some()) {
            command(name, &calls);
        }
    }
    let ints = [&b",iii"[..], &[b'i'; 1000]].concat();
    let ints = [&b"/n_free\0"[..], &ints, &[0; 4], &[0; 4 * 1003]].concat();
    long("1,003 integers, refused 27", &ints);
    let name = [&b"/n_free\0,s\0\0"[..], &[b'n'; 4000], &[0; 4]].concat();
    long("a name of 4,000 bytes, refused 27", &name);
    let bytes = [&b"/n_free\0,b\0\0\0\0\x0f\xa0"[..], &[7; 4000]].concat();
    long("4,000 bytes, refused 27", &bytes);
}

fn written(call: &Call) -> Option<Vec<u8>> {
    let mut message = vec![0; call.bytes.len() + 64];
    let length = write_message(&call.command()?, &mut message).ok()?;
    message.truncate(length);
    Some(message)
}

impl State {
    fn message(&mut self, message: &[u8]) -> u64 {
        engine::message(message, &mut self.words, &mut self.arena, &mut self.reply)
    }
}

/// Commands that undo each other, as they are and as messages.
fn command(name: &str, calls: &[Call]) {
    let messages: Vec<Vec<u8>> = calls.iter().filter_map(written).collect();
    let mut out = vec![0; 1 << 16];
    let mut plain_out = out.clone();
    for (call, message) in calls.iter().zip(&messages) {
        let answer = engine::write_message(call.op, call.numbers, &call.bytes, &mut out);
        assert_eq!(answer, 256 * message.len() as u64);
        assert_eq!(out[..message.len()], message[..]);
    }
    let (full, fresh) = (engine_of(NODES, &definitions()), Engine::new());
    let mut states = [&full, &full, &fresh, &fresh].map(State::of);
    let [applied, sent, fresh_applied, fresh_sent] = &mut states;
    let times = least(vec![
        apply_all(calls, &messages, applied),
        send_all(&messages, sent),
        apply_all(calls, &messages, fresh_applied),
        send_all(&messages, fresh_sent),
        Box::new(|| {
            for message in &messages {
                let _ = black_box(read_message(black_box(message)));
            }
        }),
        Box::new(|| {
            for call in calls.iter().map(black_box) {
                let answer = engine::write_message(call.op, call.numbers, &call.bytes, &mut out);
                black_box(answer);
            }
        }),
        Box::new(|| {
            for call in calls.iter().map(black_box) {
                let command = call.command().expect("it is known");
                let _ = black_box(write_message(&command, &mut plain_out));
            }
        }),
    ]);
    let times: Vec<f64> = times.iter().map(|time| time / calls.len() as f64).collect();
    row(name, &times);
}

/// Applies the commands, which answer as their messages do.
fn apply_all<'a>(
    calls: &'a [Call],
    messages: &[Vec<u8>],
    state: &'a mut State,
) -> Box<dyn FnMut() + 'a> {
    let mut other = state.clone();
    for (call, message) in calls.iter().zip(messages) {
        assert_eq!(state.apply(call), other.message(message), "{call:?}");
    }
    Box::new(move || {
        for call in calls {
            black_box(state.apply(black_box(call)));
        }
    })
}

fn send_all<'a>(messages: &'a [Vec<u8>], state: &'a mut State) -> Box<dyn FnMut() + 'a> {
    Box::new(move || {
        for message in messages {
            black_box(state.message(black_box(message)));
        }
    })
}

/// A message that no command is: beside it the state check alone.
fn long(name: &str, message: &[u8]) {
    let (full, fresh) = (engine_of(NODES, &definitions()), Engine::new());
    let mut states = [&full, &full, &fresh, &fresh].map(State::of);
    let [checked, sent, fresh_checked, fresh_sent] = &mut states;
    assert_eq!(sent.message(message), 27);
    assert!(read_message(message).is_err_and(|fault| fault.number == 27));
    let messages = [message.to_vec()];
    let times = least(vec![
        Box::new(|| checked.check()),
        send_all(&messages, sent),
        Box::new(|| fresh_checked.check()),
        send_all(&messages, fresh_sent),
        Box::new(|| {
            let _ = black_box(read_message(black_box(message)));
        }),
    ]);
    row(name, &times);
}

/// The times of applying and of the message, of both on a fresh engine, of plain reading, and of both
/// writers if there are some.
fn row(name: &str, times: &[f64]) {
    let (apply, message, read, plain) = (times[0], times[1], times[3] - times[2], times[4]);
    print!(
        "{name:36} {apply:>9.0} {message:>9.0} {:>7.2}",
        message / apply
    );
    print!(" {read:>8.0} {plain:>8.0} {:>7.1}", read / plain);
    if let [write, plain] = times[5..] {
        print!(" {write:>8.0} {plain:>8.0} {:>7.1}", write / plain);
    }
    println!();
}
