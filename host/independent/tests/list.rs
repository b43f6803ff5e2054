//! Lists of commands by hand, from paper 02, 5/14, on the independent engine.

use independent::{lend_list, read_list, write, Call, Definition, Engine, Fault, Listed, ITEM};

fn refused(number: u32, place: u64, accepted: usize) -> Listed {
    Listed {
        accepted,
        refused: Some(Fault { number, place }),
    }
}

fn accepted(count: usize) -> Listed {
    Listed {
        accepted: count,
        refused: None,
    }
}

fn group(number: i32) -> Call {
    Call::new(4, [number, 1, 0, 0, 0], b"")
}

/// Sends a list as it is lent. Answers none where it is no list.
fn send(engine: &mut Engine, calls: &[Call]) -> Option<Listed> {
    let (items, bytes) = lend_list(calls);
    let commands = read_list(&items, &bytes)?;
    let mut told = 0;
    let listed = engine.list(&commands, |_, command| {
        assert_eq!(*command, commands[told]);
        told += 1;
    });
    assert_eq!(told, listed.accepted);
    Some(listed)
}

fn numbers(engine: &Engine) -> Vec<i32> {
    let nodes = engine.view().nodes;
    nodes.iter().map(|node| node.number).collect()
}

#[test]
fn it_stops_at_the_first_refusal_and_what_was_done_stays() {
    let mut engine = Engine::new();
    let calls = [group(1), group(2), group(1), group(3)];
    assert_eq!(send(&mut engine, &calls), Some(refused(15, 0, 2)));
    assert_eq!(numbers(&engine), [0, 1, 2]);
    assert_eq!(send(&mut engine, &calls), Some(refused(15, 0, 0)));
    let calls = [group(3), group(4)];
    assert_eq!(send(&mut engine, &calls), Some(accepted(2)));
    assert_eq!(numbers(&engine), [0, 1, 2, 3, 4]);
}

#[test]
fn an_empty_list_is_accepted() {
    let mut engine = Engine::new();
    let before = engine.view();
    assert_eq!(send(&mut engine, &[]), Some(accepted(0)));
    assert_eq!(engine.view(), before);
    assert_eq!(accepted(0).packed(), 0);
}

#[test]
fn a_file_is_loaded_and_used_or_refused_with_its_place() {
    let mut engine = Engine::new();
    let ping = Definition {
        name: b"ping".to_vec(),
        ..Definition::default()
    };
    let mut file = write(&[ping]).bytes;
    let new = |number| Call::new(3, [number, 1, 0, 0, 0], b"ping");
    let calls = [Call::new(1, [0; 5], &file), new(1000), group(5)];
    assert_eq!(send(&mut engine, &calls), Some(accepted(3)));
    file.push(0);
    let calls = [new(1001), Call::new(1, [0; 5], &file), new(1002)];
    let end = file.len() as u64 - 1;
    assert_eq!(send(&mut engine, &calls), Some(refused(11, end, 1)));
    assert_eq!(refused(11, end, 1).packed(), 11 + 256 + (end << 24));
    assert_eq!(numbers(&engine), [0, 1000, 5, 1001]);
}

#[test]
fn too_many_or_one_that_replies_is_refused_whole() {
    let mut engine = Engine::new();
    let sets: Vec<Call> = (0..513)
        .map(|bus| Call::new(19, [bus, 0, 0, 1, 7], b""))
        .collect();
    assert_eq!(send(&mut engine, &sets), Some(refused(34, 0, 0)));
    assert_eq!(engine.view(), Engine::new().view());
    assert_eq!(send(&mut engine, &sets[..512]), Some(accepted(512)));
    assert_eq!(engine.view().buses[511], 7f32.to_bits());
    assert_eq!(engine.view().buses[512], 0);
    let before = engine.view();
    for op in 21..=27 {
        for place in [0, 1, 2] {
            // One that would be refused stands before it, or one that would be accepted.
            for first in [group(0), group(1)] {
                let mut calls = vec![first.clone(), first];
                calls.insert(place, Call::new(op, [0; 5], b""));
                assert_eq!(send(&mut engine, &calls), Some(refused(34, 0, 0)), "{op}");
            }
        }
    }
    assert_eq!(engine.view(), before);
}

#[test]
fn what_is_no_list() {
    let call = Call::new(14, [1000, 0, 0, 1, 5], b"freq");
    let (items, bytes) = lend_list(&[group(1), call.clone(), call]);
    let read = |items: &[u32]| read_list(items, &bytes).map(|commands| commands.len());
    assert_eq!(read(&items), Some(3));
    assert_eq!(read(&[]), Some(0));
    for length in 0..items.len() {
        let whole = (length % ITEM == 0).then_some(length / ITEM);
        assert_eq!(read(&items[..length]), whole, "{length}");
    }
    let with = |word: usize, value: u32| {
        let mut items = items.clone();
        items[2 * ITEM + word] = value;
        read(&items).is_some()
    };
    // The kind, and that of the value.
    assert!(with(0, 28) && !with(0, 0) && !with(0, 29) && !with(0, u32::MAX));
    assert!(with(4, 0) && with(4, 1) && !with(4, 2) && !with(4, 257));
    // Numbers that it takes or does not take.
    assert!((1..6)
        .filter(|&word| word != 4)
        .all(|word| with(word, u32::MAX)));
    // Four words that are 0.
    assert!((8..12).all(|word| with(word, 0) && !with(word, 1) && !with(word, 1 << 31)));
    // Bytes that are there: eight in all, of which the last four are this one's.
    assert!(with(6, 0) && with(6, 4) && !with(6, 5) && !with(6, u32::MAX));
    assert!(with(7, 0) && with(7, 4) && !with(7, 5) && !with(7, u32::MAX - 3));
    // None, from the end and from past it.
    let none_at = |start: u32| {
        let mut items = items.clone();
        items[2 * ITEM + 6] = start;
        items[2 * ITEM + 7] = 0;
        read(&items).is_some()
    };
    assert!(none_at(0) && none_at(8) && !none_at(9) && !none_at(u32::MAX));
    // Also where the command takes no bytes, or no value.
    let mut other = items.clone();
    other[7] = 9;
    assert_eq!(read(&other), None);
    other[7] = 8;
    other[4] = 2;
    assert_eq!(read(&other), Some(3));
}

#[test]
fn an_item_is_its_command() {
    let call = Call::new(16, [-1, 0, 3, 0, 0x3f00_0000], b"amps");
    let (mut items, bytes) = lend_list(std::slice::from_ref(&call));
    let command = call.command().expect("it is one");
    assert_eq!(read_list(&items, &bytes), Some(vec![command]));
    // A part of the bytes.
    items[6..8].copy_from_slice(&[1, 2]);
    let part = Call {
        bytes: b"mp".to_vec(),
        ..call
    };
    assert_eq!(
        read_list(&items, &bytes),
        part.command().map(|one| vec![one])
    );
}
