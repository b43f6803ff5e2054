//! The lent state: views written and read back, and each rule of a well-formed state once.

use independent::engine::{Commands, Theme};
use independent::layout::{self, record, row_words, write_index};
use independent::layout::{ARENA, INDEX, ORDER, ORDER_LENGTH, RECORD, RESIDENT, ROW, WORDS};
use independent::layout::{BUS, CONTROL, COUNT, GROUP, LATEST, LENGTH, NEXT, NODE, NONE_LEFT};
use independent::{leave, well_formed, write, Call, Definition, Engine, Random, MOST_BYTES};

/// Sends random commands and looks at some of the states.
#[test]
fn states_are_well_formed_and_read_back() {
    let mut reply = vec![0; 1 << 20];
    let mut answers = [0; 29];
    for (seed, theme) in (1..=40).zip(Theme::ALL.into_iter().cycle()) {
        let mut engine = Engine::new();
        let (mut words, mut arena) = layout::state(&engine.view());
        let mut commands = Commands::new(Random::new(seed), theme);
        for round in 0..1000 {
            let call = commands.next(&engine);
            let Some(command) = call.command() else {
                continue;
            };
            let answer = engine.apply(&command, &mut reply);
            answers[answer.err().map_or(0, |fault| fault.number as usize)] += 1;
            let view = engine.view();
            if answer.is_ok() {
                leave(call.op, &view, &mut words, &mut arena);
            }
            if round % 20 == 0 {
                assert!(well_formed(&words, &arena));
                assert_eq!(layout::view(&words, &arena), view);
                let (words, arena) = layout::state(&view);
                assert!(well_formed(&words, &arena));
                assert_eq!(layout::view(&words, &arena), view);
                assert_eq!(Engine::of(&view).view(), view);
            }
        }
    }
    let total: usize = answers.iter().sum();
    assert!(answers[0] > total / 3, "{answers:?}");
    assert!(answers[0] < 4 * total / 5, "{answers:?}");
}

#[test]
fn the_parts_lie_where_the_page_says() {
    assert_eq!((WORDS, ARENA), (22_339, 65_536));
    assert_eq!([LENGTH, RESIDENT, NODE], [4, 36, 68]);
    assert_eq!([ORDER, CONTROL, BUS, INDEX], [1348, 1603, 17_987, 22_083]);
    assert_eq!(row_words(2, 3), 1603 + 128..1603 + 134);
    let (words, arena) = layout::state(&Engine::new().view());
    assert_eq!(words[..4], [1, 0, 4_294_967_288, 0]);
    assert_eq!(words[NODE..NODE + RECORD], [0, 0, 1, GROUP, 0]);
    assert_eq!(words.iter().filter(|&&word| word != 0).count(), 4);
    assert!(arena.iter().all(|&byte| byte == 0));
}

/// A state with groups 1 and 2, synths 10 (off), 11 and -8, and the definitions `a` and `b`, of
/// which `a` is retired: 0 [1 [10 2 [11]] -8].
fn example() -> (Vec<u32>, Vec<u8>) {
    let mut engine = Engine::new();
    let definition = |name: &[u8], initial: usize| Definition {
        name: name.to_vec(),
        initial: vec![7; initial],
        ..Definition::default()
    };
    let file = write(&[definition(b"a", 2), definition(b"b", 3)]).bytes;
    let calls: [(u32, [i32; 3], &[u8]); 8] = [
        (1, [0, 0, 0], &file),
        (4, [1, 1, 0], b""),
        (3, [10, 1, 1], b"a"),
        (4, [2, 1, 1], b""),
        (3, [11, 1, 2], b"b"),
        (3, [-1, 1, 0], b"b"),
        (12, [10, 0, 0], b""),
        (2, [0, 0, 0], b"a"),
    ];
    for (op, [a, b, c], bytes) in calls {
        let call = Call {
            op,
            numbers: [a as u32, b as u32, c as u32, 0, 0],
            bytes: bytes.to_vec(),
        };
        let command = call.command().expect("it is a command");
        assert_eq!(engine.apply(&command, &mut []), Ok(0));
    }
    layout::state(&engine.view())
}

/// The word of a record.
fn word(place: usize, field: usize) -> usize {
    NODE + RECORD * place + field
}

/// The example with some of its words changed.
fn changed(changes: &[(usize, u32)]) -> (Vec<u32>, Vec<u8>) {
    let (mut words, arena) = example();
    for &(place, new) in changes {
        assert_ne!(words[place], new, "word {place} stays");
        words[place] = new;
    }
    (words, arena)
}

/// Whether the example is well formed then.
fn holds(changes: &[(usize, u32)]) -> bool {
    let (words, arena) = changed(changes);
    well_formed(&words, &arena)
}

/// The same with the index that the changed records ask for.
fn holds_indexed(changes: &[(usize, u32)]) -> bool {
    let (mut words, arena) = changed(changes);
    if words[COUNT] <= 256 {
        write_index(&mut words);
    }
    well_formed(&words, &arena)
}

#[test]
fn sizes() {
    let (words, arena) = example();
    assert!(well_formed(&words, &arena));
    assert!(!well_formed(&words[1..], &arena));
    assert!(!well_formed(&words, &arena[1..]));
    assert!(!well_formed(&[], &[]));
    assert!(!well_formed(&[words.as_slice(), &[0]].concat(), &arena));
    assert!(!well_formed(&words, &[arena.as_slice(), &[0]].concat()));
}

#[test]
fn nodes() {
    let (words, _) = example();
    assert_eq!(words[COUNT], 6);
    let numbers = [0, 1, 10, 2, 11, -8i32 as u32];
    for (place, number) in numbers.into_iter().enumerate() {
        assert_eq!(record(&words, place).number, number);
    }
    let bad: &[&[(usize, u32)]] = &[
        &[(COUNT, 0)],
        &[(COUNT, 257)],
        &[(COUNT, u32::MAX)],
        // A record of zeros follows: a second root.
        &[(COUNT, 7)],
        // The synth that runs last is gone, but not from the order.
        &[(COUNT, 5)],
        // The root.
        &[(word(0, 0), 9)],
        &[(word(0, 1), 1)],
        &[(word(0, 3), 1)],
        // Depths.
        &[(word(1, 1), 0)],
        &[(word(1, 1), 2)],
        &[(word(3, 1), 3)],
        &[(word(4, 1), 4)],
        &[(word(4, 1), u32::MAX)],
        // A group turned synth with a node below it.
        &[(word(3, 3), 1), (word(3, 4), 9)],
        // Numbers.
        &[(word(1, 0), 10)],
        &[(word(1, 0), 0)],
        &[(word(1, 0), -8i32 as u32)],
        &[(word(3, 0), -9i32 as u32), (NEXT, -20i32 as u32)],
        &[
            (word(5, 0), -9i32 as u32),
            (ORDER + 1, -9i32 as u32),
            (LATEST, -9i32 as u32),
        ],
        &[
            (word(5, 0), -7i32 as u32),
            (ORDER + 1, -7i32 as u32),
            (LATEST, -7i32 as u32),
        ],
        // Flags, slots, rows.
        &[(word(1, 2), 2)],
        &[(word(2, 2), 2)],
        &[(word(4, 3), 33)],
        &[(word(4, 3), 5)],
        &[(word(4, 4), 256)],
        &[(word(4, 4), 0)],
        // Next and latest.
        &[(NEXT, -7i32 as u32)],
        &[(NEXT, NONE_LEFT - 1)],
        &[(NEXT, -8i32 as u32)],
        &[(NEXT, 0)],
        &[(LATEST, 1)],
        &[(LATEST, 99)],
        // Order.
        &[(ORDER_LENGTH, 1)],
        &[(ORDER_LENGTH, 3)],
        &[(ORDER_LENGTH, 256)],
        &[(ORDER_LENGTH, u32::MAX)],
        &[(ORDER, 10)],
        &[(word(2, 2), 1)],
        &[(word(0, 2), 0)],
    ];
    for changes in bad {
        assert!(!holds_indexed(changes), "{changes:?}");
    }
    let good: &[&[(usize, u32)]] = &[
        &[(word(1, 0), i32::MAX as u32)],
        &[(word(3, 1), 1), (word(4, 1), 2)],
        &[(word(4, 1), 1)],
        &[(word(5, 1), 3)],
        &[(word(4, 4), 255)],
        // Rows of groups are not looked at.
        &[(word(0, 4), 1 << 31)],
        &[(word(1, 4), 1)],
        &[(NEXT, NONE_LEFT)],
        &[(NEXT, i32::MIN as u32)],
        &[(NEXT, -10i32 as u32)],
        &[(LATEST, 0)],
        &[(LATEST, 10)],
        &[(word(0, 2), 0), (ORDER_LENGTH, 0)],
        &[(word(3, 2), 0), (ORDER_LENGTH, 1), (ORDER, -8i32 as u32)],
        // Past the counts.
        &[(word(6, 0), 10), (word(6, 1), 77), (word(6, 2), 5)],
        &[(word(255, 3), 99)],
        &[(ORDER + 2, 10)],
        &[(ORDER + 254, 10)],
    ];
    for changes in good {
        assert!(holds_indexed(changes), "{changes:?}");
    }
}

#[test]
fn index() {
    let (words, _) = example();
    assert_eq!(words[INDEX..INDEX + 7], [0, 1, 3, 2, 4, 5, 0]);
    let entries = |changes: &[(usize, u32)]| -> bool {
        let changes = changes.iter().map(|&(entry, new)| (INDEX + entry, new));
        holds(&changes.collect::<Vec<_>>())
    };
    let bad: &[&[(usize, u32)]] = &[
        // Two are swapped.
        &[(1, 3), (2, 1)],
        &[(0, 5), (5, 0)],
        // No node has the place.
        &[(0, 6)],
        &[(5, 6)],
        &[(3, 256)],
        &[(5, u32::MAX)],
        // One is twice there, and another missing.
        &[(1, 0)],
        &[(2, 1)],
        &[(4, 5)],
        &[(5, 4)],
        // One has another position: the last is the first, as if numbers had signs, or the first the last.
        &[(0, 5), (1, 0), (2, 1), (3, 3), (4, 2), (5, 4)],
        &[(0, 1), (1, 3), (2, 2), (3, 4), (4, 5), (5, 0)],
        // One is missing, and those behind it have moved up.
        &[(1, 3), (2, 2), (3, 4), (4, 5), (5, 0)],
        &[(5, 0)],
        // By place, not by number.
        &[(2, 2), (3, 3)],
    ];
    for changes in bad {
        assert!(!entries(changes), "{changes:?}");
    }
    let good: &[&[(usize, u32)]] = &[&[(6, 6)], &[(6, u32::MAX), (7, 1)], &[(255, u32::MAX)]];
    for changes in good {
        assert!(entries(changes), "{changes:?}");
    }
    // A number that changes with the index as it was: behind its neighbours' numbers, and among them.
    assert!(!holds(&[(word(1, 0), 3)]));
    assert!(!holds(&[(word(2, 0), 12)]));
    assert!(holds(&[(word(2, 0), 9)]));
}

/// A command of the tree leaves the index past the new count as it was, and any other all of it.
#[test]
fn the_index_after_commands() {
    let (mut words, mut arena) = example();
    let past = [-7i32 as u32, 1, 2, 3];
    words[INDEX + 6..][..past.len()].copy_from_slice(&past);
    let mut engine = Engine::of(&layout::view(&words, &arena));
    let mut send = |op: u32, numbers: [i32; 5], expected: [u32; 10]| {
        let call = Call::new(op, numbers, b"");
        let command = call.command().expect("it is a command");
        assert_eq!(engine.apply(&command, &mut []), Ok(0));
        leave(op, &engine.view(), &mut words, &mut arena);
        assert_eq!(words[INDEX..][..10], expected, "{call:?}");
        assert!(well_formed(&words, &arena));
    };
    // 0 [5 1 [10 2 [11]] -8], then 1 before 5, then 2 freed with 11, then all.
    send(4, [5, 0, 0, 0, 0], [0, 2, 4, 1, 3, 5, 6, 1, 2, 3]);
    send(19, [0, 0, 0, 0, 7], [0, 2, 4, 1, 3, 5, 6, 1, 2, 3]);
    send(8, [1, 5, 0, 0, 0], [0, 1, 3, 5, 2, 4, 6, 1, 2, 3]);
    send(12, [2, 0, 0, 0, 0], [0, 1, 3, 5, 2, 4, 6, 1, 2, 3]);
    send(5, [2, 0, 0, 0, 0], [0, 1, 3, 2, 4, 4, 6, 1, 2, 3]);
    send(6, [0, 0, 0, 0, 0], [0, 1, 3, 2, 4, 4, 6, 1, 2, 3]);
}

#[test]
fn slots_and_controls() {
    let (words, arena) = example();
    assert_eq!(words[RESIDENT..RESIDENT + 3], [0, 1, 0]);
    assert_eq!(words[LENGTH..LENGTH + 3], [28, 32, 0]);
    let control = |row: usize, index: usize| CONTROL + ROW * row + 2 * index + 1;
    let bad: &[&[(usize, u32)]] = &[
        &[(RESIDENT, 2)],
        &[(RESIDENT + 1, 2)],
        &[(RESIDENT + 31, 2)],
        &[(RESIDENT + 31, 1)],
        &[(LENGTH, 27)],
        &[(LENGTH, 29)],
        &[(LENGTH + 1, 2049)],
        &[(LENGTH + 1, u32::MAX)],
        &[(control(0, 1), 4097)],
        &[(control(1, 2), u32::MAX)],
    ];
    for changes in bad {
        assert!(!holds(changes), "{changes:?}");
    }
    let good: &[&[(usize, u32)]] = &[
        &[(RESIDENT, 1)],
        &[(RESIDENT + 1, 0)],
        &[(LENGTH + 2, u32::MAX)],
        &[(control(0, 1), 4096)],
        &[(control(0, 1) - 1, u32::MAX)],
        // Past the parameters, and in rows that no synth has.
        &[(control(0, 2), 4097)],
        &[(control(9, 0), u32::MAX)],
        &[(BUS, u32::MAX)],
    ];
    for changes in good {
        assert!(holds(changes), "{changes:?}");
    }
    let formed = |place: usize, byte: u8, resident: u32| {
        let (mut words, mut arena) = example();
        words[RESIDENT] = resident;
        arena[place] = byte;
        well_formed(&words, &arena)
    };
    // A name twice among residents, and twice with one of them retired.
    assert_eq!(arena[..2], *b"\x01a");
    assert!(!formed(1, b'b', 1));
    assert!(formed(1, b'b', 0));
    assert!(!formed(0, 0, 0));
    assert!(!formed(MOST_BYTES + 1, 128, 0));
    // Past a definition, and in a free slot.
    assert!(formed(28, 255, 0));
    assert!(formed(2 * MOST_BYTES, 255, 0));
}
