//! Why a number is silent, by hand from paper 02, 7/14.

use independent::{write, Command, Definition, Engine, Reason};

/// Sends commands that are accepted.
fn done(engine: &mut Engine, commands: &[Command]) {
    for command in commands {
        assert_eq!(engine.apply(command, &mut []), Ok(0), "{command:?}");
    }
}

/// A new synth at a group's tail.
fn synth(number: i32, group: i32) -> Command<'static> {
    Command::NewSynth {
        definition: b"ping",
        number,
        action: 1,
        target: group,
    }
}

/// A new group at a group's tail.
fn group(number: i32, above: i32) -> Command<'static> {
    Command::NewGroup {
        number,
        action: 1,
        target: above,
    }
}

/// 0 [1 [10 2 [11 3 [12 -8]]] 13].
fn engine() -> Engine {
    let mut engine = Engine::new();
    let ping = Definition {
        name: b"ping".to_vec(),
        ..Definition::default()
    };
    done(
        &mut engine,
        &[
            Command::Receive(&write(&[ping]).bytes),
            group(1, 0),
            synth(10, 1),
            group(2, 1),
            synth(11, 2),
            group(3, 2),
            synth(12, 3),
            synth(13, 0),
            synth(-1, 3),
        ],
    );
    engine
}

/// The reasons of the five synths, in the order of the tree.
fn reasons(engine: &Engine) -> [Reason; 5] {
    [10, 11, 12, -8, 13].map(|number| engine.why(number))
}

#[test]
fn running_places_count_from_1() {
    let mut engine = engine();
    assert_eq!(reasons(&engine), [1, 2, 3, 4, 5].map(Reason::Running));
    done(&mut engine, &[Command::Before(13, 1)]);
    assert_eq!(reasons(&engine), [2, 3, 4, 5, 1].map(Reason::Running));
    done(&mut engine, &[Command::Run(11, 0)]);
    let expected = [
        Reason::Running(2),
        Reason::Off,
        Reason::Running(3),
        Reason::Running(4),
        Reason::Running(1),
    ];
    assert_eq!(reasons(&engine), expected);
}

#[test]
fn the_off_ancestor_nearest_the_root() {
    let mut engine = engine();
    let place = Reason::Running;
    let under = Reason::AncestorOff;
    done(&mut engine, &[Command::Run(3, 0)]);
    let expected = [place(1), place(2), under(3), under(3), place(3)];
    assert_eq!(reasons(&engine), expected);
    done(&mut engine, &[Command::Run(1, 0)]);
    let expected = [under(1), under(1), under(1), under(1), place(1)];
    assert_eq!(reasons(&engine), expected);
    // Its own flag comes first.
    done(&mut engine, &[Command::Run(12, 0)]);
    let expected = [under(1), under(1), Reason::Off, under(1), place(1)];
    assert_eq!(reasons(&engine), expected);
    // The root is an ancestor too, of 13 the only one.
    done(&mut engine, &[Command::Run(0, 0)]);
    let expected = [under(0), under(0), Reason::Off, under(0), under(0)];
    assert_eq!(reasons(&engine), expected);
    done(&mut engine, &[Command::Run(0, 1), Command::Run(1, 1)]);
    let expected = [place(1), place(2), Reason::Off, under(3), place(3)];
    assert_eq!(reasons(&engine), expected);
}

#[test]
fn groups_and_numbers_of_nothing() {
    let mut engine = engine();
    // Off or on, a group is a group.
    for flag in [1, 0] {
        for number in [0, 1, 2, 3] {
            done(&mut engine, &[Command::Run(number, flag)]);
            assert_eq!(engine.why(number), Reason::Group);
        }
    }
    for number in [4, 9, 14, -2, -7, -9, i32::MIN, i32::MAX] {
        assert_eq!(engine.why(number), Reason::NoSuchNode, "{number}");
    }
}

/// -1 is the latest synth while that very synth lives.
#[test]
fn the_latest_synth() {
    let mut engine = engine();
    assert_eq!(engine.why(-1), engine.why(-8));
    assert_eq!(engine.why(-1), Reason::Running(4));
    done(&mut engine, &[Command::Run(-1, 0)]);
    assert_eq!(engine.why(-1), Reason::Off);
    done(&mut engine, &[Command::Free(-1)]);
    assert_eq!(engine.why(-1), Reason::NoSuchNode);
    assert_eq!(engine.why(-8), Reason::NoSuchNode);
    assert_eq!(Engine::new().why(-1), Reason::NoSuchNode);
    // Its number lives again, and is another node's.
    done(
        &mut engine,
        &[synth(14, 0), Command::Free(14), group(14, 0)],
    );
    assert_eq!(engine.why(-1), Reason::NoSuchNode);
    assert_eq!(engine.why(14), Reason::Group);
}

#[test]
fn as_one_number() {
    for (reason, packed) in [
        (Reason::NoSuchNode, 0x100),
        (Reason::Group, 0x200),
        (Reason::Off, 0x300),
        (Reason::AncestorOff(0), 0x400),
        (Reason::AncestorOff(i32::MAX), 0x7fff_ffff_0400),
        (Reason::Running(1), 0x1_0500),
        (Reason::Running(255), 0xff_0500),
    ] {
        assert_eq!(reason.packed(), packed);
    }
}
