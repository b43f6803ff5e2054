//! The proved reader and writer of messages against the independent ones.
//!
//! After each message the answer, the whole reply buffer, and every word and byte of the state must be
//! the same. The seed is printed; LIMUDVEK_SEED sets it.

mod common;

use common::desk::definition;
use common::osc::{self, PING};
use common::pair::Pair;
use common::tally::{check, Tally};
use common::{seed, sequences, spread};
use engine::{Engine, Refused, UNKNOWN};
use independent::engine::{packed, Commands, Theme};
use independent::layout::{COUNT, INDEX, ORDER_LENGTH, RESIDENT};
use independent::{write, write_message, Call, Command, Random};

/// The message of a call by the independent writer.
fn written(call: &Call) -> Vec<u8> {
    let command = call.command().expect("it is known");
    let mut message = vec![0; call.bytes.len() + 64];
    let length = write_message(&command, &mut message);
    message.truncate(length.expect("it can be written"));
    message
}

/// Two engines with definitions, groups, synths, a mapped control and a generated number.
fn prepared(random: &mut Random) -> Pair {
    let mut pair = Pair::fresh(random);
    let more = [definition("n", &["freq", "", "n"], &[1, 2, 3])];
    for call in [
        Call::new(1, [0; 5], PING),
        Call::new(1, [0; 5], &write(&more).bytes),
        Call::new(4, [1, 1, 0, 0, 0], b""),
        Call::new(4, [2, 1, 1, 0, 0], b""),
        Call::new(3, [1000, 1, 1, 0, 0], b"ping"),
        Call::new(3, [1001, 0, 2, 0, 0], b"n"),
        Call::new(18, [1001, 0, 7, 0, 0], b"freq"),
        Call::new(19, [7, 0, 0, 1, 2], b""),
        Call::new(3, [-1, 1, 2, 0, 0], b"ping"),
    ] {
        pair.expect(0, &call, random).expect("both accept it");
    }
    pair
}

/// Every address with values at their edges; each of these messages with one fault; each with a part
/// that is another.
#[test]
fn both_engines_agree_on_messages() {
    let seed = seed();
    let start = prepared(&mut Random::new(seed));
    let edges = (1..osc::KINDS).flat_map(osc::edges);
    let mut messages: Vec<Vec<u8>> = edges.map(|call| written(&call)).collect();
    // What a kind has no use for is no part of its message.
    messages.sort();
    messages.dedup();
    let tallies = spread(messages.len(), |place| {
        let mut random = Random::new(seed.wrapping_add((place as u64) << 32));
        let message = &messages[place];
        let mut pair = start.clone();
        let mut tally = Tally::default();
        let mut send = |message: &[u8], changed: bool| match pair.message(message, &mut random) {
            Ok(answer) => {
                tally.add("messages", 1);
                tally.count("messages without fault", !changed);
                tally.count("accepted", answer == 0);
                tally.count("refusals of a file", (2..=12).contains(&answer));
                tally.count("refusals of a command", matches!(answer, 13..=25 | 28));
                tally.count("refusal 26", answer == 26);
                tally.count("refusal 27", answer == 27);
            }
            Err(what) => panic!("LIMUDVEK_SEED={seed}, {what}: {message:02x?}"),
        };
        send(message, false);
        osc::recast(message, |message| send(message, true));
        // Of each address, and of the files all.
        if place % 4 == 0 || message.starts_with(b"/d_recv") {
            osc::damaged(message, |message| send(message, true));
        }
        tally
    });
    check(
        &tallies,
        &[
            ("messages", 200_000),
            ("messages without fault", 1_000),
            ("accepted", 10_000),
            ("refusals of a file", 1_000),
            ("refusals of a command", 10_000),
            ("refusal 26", 50_000),
            ("refusal 27", 20_000),
        ],
    );
}

/// A random sequence of commands, some sent as they are, some as messages, some as damaged ones.
struct Mixed {
    random: Random,
    commands: Commands,
    pair: Pair,
    tally: Tally,
}

impl Mixed {
    fn new(mut random: Random) -> Mixed {
        let theme = random.one_of(&Theme::ALL);
        Mixed {
            commands: Commands::new(Random::new(random.bits()), theme),
            pair: Pair::fresh(&mut random),
            random,
            tally: Tally::default(),
        }
    }

    fn turn(&mut self) -> Result<(), String> {
        let call = self.commands.next(&self.pair.model);
        let mut message = vec![0; call.bytes.len() + 64];
        let (op, numbers) = (call.op, call.numbers);
        let answer = engine::write_message(op, numbers, &call.bytes, &mut message);
        message.truncate((answer / 256) as usize);
        let random = &mut self.random;
        let sent = match (answer % 256, random.below(8)) {
            (0, 0) => {
                let place = random.below(message.len());
                message[place] = random.byte();
                self.pair.message(&message, random)
            }
            (0, 1) => {
                message.truncate(random.below(message.len()));
                self.pair.message(&message, random)
            }
            (0, 2..=5) => {
                self.tally.add("messages", 1);
                self.pair.message(&message, random)
            }
            _ => self.pair.send(&call, random),
        };
        let answer = sent.map_err(|what| format!("{what}: {call:?} {message:02x?}"))?;
        self.tally.count("accepted", answer == 0);
        self.tally.count("refusal 26", answer == 26);
        self.tally.count("refusal 27", answer == 27);
        Ok(())
    }
}

#[test]
fn commands_and_messages_on_one_engine() {
    let tallies = sequences(60, 1500, Mixed::new, Mixed::turn, |mixed| mixed.tally);
    check(
        &tallies,
        &[
            ("messages", 30_000),
            ("accepted", 30_000),
            ("refusal 26", 5_000),
            ("refusal 27", 300),
        ],
    );
}

#[test]
fn a_broken_state_is_refused_before_any_message() {
    let mut random = Random::new(seed());
    let start = prepared(&mut random);
    let status = written(&Call::new(26, [0; 5], b""));
    let load = written(&Call::new(1, [0; 5], PING));
    let cut = &load[..load.len() - 1];
    let messages = [&status, &load, cut, b"", b"/quit\0\0\0,\0\0\0", b"quit"];
    let broken = |change: &dyn Fn(&mut Pair)| {
        let mut pair = start.clone();
        change(&mut pair);
        pair.expected_words.clone_from(&pair.words);
        pair.expected_arena.clone_from(&pair.arena);
        for message in messages {
            pair.refuse_message(message).expect("it is refused by 1");
        }
    };
    broken(&|pair| pair.words[COUNT] = 0);
    broken(&|pair| pair.words[ORDER_LENGTH] += 1);
    broken(&|pair| pair.words[RESIDENT] = 2);
    broken(&|pair| pair.words[INDEX] = 1);
    broken(&|pair| pair.arena[0] = 0);
    broken(&|pair| _ = pair.words.pop());
    broken(&|pair| _ = pair.arena.pop());
    broken(&|pair| pair.words.push(0));
    broken(&|pair| pair.arena.push(0));
    broken(&|pair| pair.words.clear());
    broken(&|pair| pair.arena.clear());
}

/// What the writer answers and writes, with buffers of some lengths. Answers how many were compared.
fn compare_writers(call: &Call, random: &mut Random) -> usize {
    let command = Command::of(call.op, call.numbers, &call.bytes);
    let expected = |out: &mut [u8]| match &command {
        Some(command) => packed(write_message(command, out)),
        None => UNKNOWN,
    };
    let most = call.bytes.len() + 64;
    let length = (expected(&mut vec![0; most]) / 256) as usize;
    let rooms = [
        0,
        length.saturating_sub(1),
        length,
        length + 1,
        length + random.below(40),
        random.below(most),
    ];
    for room in rooms {
        let filling = random.byte();
        let (mut out, mut expected_out) = (vec![filling; room], vec![filling; room]);
        let answer = engine::write_message(call.op, call.numbers, &call.bytes, &mut out);
        assert_eq!(
            answer,
            expected(&mut expected_out),
            "room {room}: {call:02x?}"
        );
        assert!(out == expected_out, "room {room}: {call:02x?}");
    }
    rooms.len()
}

#[test]
fn both_writers_agree() {
    let seed = seed();
    let kinds = (0..32).chain([255, 256, 257, 283, 1 << 31, u32::MAX]);
    let kinds: Vec<u32> = kinds.collect();
    let tallies = spread(kinds.len(), |place| {
        let mut random = Random::new(seed.wrapping_add((place as u64) << 32));
        let mut tally = Tally::default();
        for edge in osc::edges(kinds[place]) {
            tally.add("written", compare_writers(&edge, &mut random));
        }
        for numbers in [[1000, 0, 0, 0, 5], [-1, i32::MIN, i32::MAX, 1, -5]] {
            for bytes in [osc::names(), osc::bad_names(), osc::files()].concat() {
                let call = Call::new(kinds[place], numbers, &bytes);
                tally.add("written", compare_writers(&call, &mut random));
            }
            for mark in [2, 3, 256, 257, -1, i32::MIN] {
                let [a, b, c, _, e] = numbers;
                for bytes in [&b"freq"[..], b"\0"] {
                    let call = Call::new(kinds[place], [a, b, c, mark, e], bytes);
                    tally.add("written", compare_writers(&call, &mut random));
                }
            }
        }
        tally
    });
    check(&tallies, &[("written", 50_000)]);
}

#[test]
fn the_longest_file_that_is_written() {
    // Its pages are never touched: either refusal comes before a byte is copied.
    let file = vec![0; 1 << 31];
    let mut out = [7; 100];
    assert_eq!(engine::write_message(1, [0; 5], &file, &mut out), 26);
    assert_eq!(engine::write_message(1, [0; 5], &file[1..], &mut out), 24);
    // Where there is a name, the length is no matter.
    assert_eq!(engine::write_message(2, [0; 5], &file[..9], &mut out), 26);
    assert_eq!(out, [7; 100]);
}

#[test]
fn a_message_of_many_arguments() {
    let mut random = Random::new(seed());
    let mut pair = prepared(&mut random);
    let ints = vec![independent::Argument::Int(0); 10_000];
    let mut message = osc::osc(b"/n_free", &ints, [0; 3]);
    assert_eq!(pair.message(&message, &mut random), Ok(27));
    let last = message.len() - 1;
    message.truncate(last);
    assert_eq!(pair.message(&message, &mut random), Ok(26));
    let long = osc::osc(&vec![b'/'; 100_000], &[], [0; 3]);
    assert_eq!(pair.message(&long, &mut random), Ok(27));
}

/// By hand: a desk's bytes, and what comes back.
#[test]
fn a_show_in_bytes() {
    let mut engine = Engine::new();
    let mut reply = [7; 40];
    let mut send = |message: &[u8]| {
        let answer = engine.message(message, &mut reply);
        answer.map(|length| reply[..length].to_vec())
    };
    let load = [&b"/d_recv\0,b\0\0\0\0\0\x2e"[..], PING, b"\0\0"].concat();
    assert_eq!(send(&load), Ok(vec![]));
    let synth = b"/s_new\0\0,siii\0\0\0ping\0\0\0\0\0\0\x03\xe8\0\0\0\x01\0\0\0\0";
    assert_eq!(send(synth), Ok(vec![]));
    let refused = |number, place| Err(Refused { number, place });
    assert_eq!(send(synth), refused(15, 0));
    let set = b"/n_set\0\0,isf\0\0\0\0\0\0\x03\xe8freq\0\0\0\0\x43\x5c\0\0";
    assert_eq!(send(set), Ok(vec![]));
    let get = b"/s_get\0\0,is\0\0\0\x03\xe8freq\0\0\0\0";
    // What it answers is the message that sets it.
    assert_eq!(send(get), Ok(set.to_vec()));
    // A place is the file's: one byte is missing in its last field, from 8 on.
    let cut = b"/d_recv\0,b\0\0\0\0\0\x09SCgf\0\0\0\x02\0\0\0\0";
    assert_eq!(send(cut), refused(2, 8));
    let other = b"/d_recv\0,b\0\0\0\0\0\x09SCgf\0\0\0\x03\0\0\0\0";
    assert_eq!(send(other), refused(4, 4));
    // 26 before 27, and both before the rest.
    assert_eq!(send(b""), refused(26, 0));
    assert_eq!(send(b"/n_free\0,i\0\0\0\0\0"), refused(26, 0));
    assert_eq!(send(b"/quit\0\0\0,i\0\0\0\0\0"), refused(26, 0));
    assert_eq!(send(b"/quit\0\0\0,\0\0\0"), refused(27, 0));
    assert_eq!(send(b"/n_free\0,f\0\0\0\0\0\0"), refused(27, 0));
    assert_eq!(send(b"/n_free\0,i\0\0\0\0\0\0"), refused(18, 0));
}
