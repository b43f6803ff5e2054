//! The paper's examples on the proved engine, and what the exported function takes and answers.

mod common;

use common::desk::Desk;
use engine::{Engine, Refused, UNKNOWN};

/// "ping" with one parameter "freq", 440.0.
const PING: &[u8] = b"SCgf\0\0\0\x02\0\x01\x04ping\0\0\0\0\0\0\0\x01\x43\xdc\0\0\
    \0\0\0\x01\x04freq\0\0\0\0\0\0\0\0\0\0";

/// Root holding group 1 holding "ping" 1000.
fn with_ping() -> Desk {
    let mut desk = Desk(Engine::new());
    desk.done(1, [0; 5], PING);
    desk.group(1, 0);
    desk.synth("ping", 1000, 1);
    desk
}

/// What "freq" of 1000 reads.
fn freq(desk: &mut Desk) -> f32 {
    f32::from_bits(desk.read_named(1000, "freq"))
}

#[test]
fn the_running_order() {
    let mut desk = with_ping();
    desk.done(3, [1001, 2, 1000, 0, 0], b"ping");
    assert_eq!(desk.order(), [1001, 1000]);
    desk.done(12, [1, 0, 0, 0, 0], b"");
    assert_eq!(desk.order(), [0; 0]);
}

#[test]
fn refused_moves() {
    let mut desk = with_ping();
    desk.refused(19, 10, [1, 1, 0, 0, 0], b"");
    desk.refused(19, 8, [1000, 1000, 0, 0, 0], b"");
    desk.refused(18, 5, [0; 5], b"");
}

#[test]
fn a_mapped_control_reads_the_bus() {
    let mut desk = with_ping();
    assert_eq!(freq(&mut desk), 440.0);
    desk.done(19, [7, 0, 0, 0, 2f32.to_bits() as i32], b"");
    desk.done(18, [1000, 0, 7, 0, 0], b"freq");
    assert_eq!(freq(&mut desk), 2.0);
    desk.done(18, [1000, 0, -1, 0, 0], b"freq");
    assert_eq!(freq(&mut desk), 440.0);
}

#[test]
fn the_whole_tree_reply() {
    let mut desk = with_ping();
    let reply = desk.reply(25, [0; 5], b"");
    assert_eq!(reply.len(), 68);
    assert_eq!(
        reply,
        b"/g_queryTree.reply\0\0,iiiiiiis\0\0\0\
          \0\0\0\0\0\0\0\0\0\0\0\x01\0\0\0\x01\0\0\0\x01\0\0\x03\xe8\xff\xff\xff\xffping\0\0\0\0"
    );
    let reply = desk.reply(25, [0, -5, 0, 0, 0], b"");
    assert_eq!(reply.len(), 88);
    assert_eq!(
        reply,
        b"/g_queryTree.reply\0\0,iiiiiiisisf\0\0\0\0\
          \0\0\0\x01\0\0\0\0\0\0\0\x01\0\0\0\x01\0\0\0\x01\0\0\x03\xe8\xff\xff\xff\xffping\0\0\0\0\
          \0\0\0\x01freq\0\0\0\0\x43\xdc\0\0"
    );
}

#[test]
fn two_hundred_and_fifty_five_new_nodes() {
    let mut desk = with_ping();
    for number in 2..255 {
        desk.done(3, [number, 0, 1, 0, 0], b"ping");
    }
    desk.refused(20, 3, [255, 0, 1, 0, 0], b"ping");
    desk.refused(20, 4, [255, 0, 1, 0, 0], b"");
    desk.done(3, [255, 4, 2, 0, 0], b"ping");
    desk.done(4, [2, 4, 255, 0, 0], b"");
    let counts = b"/status.reply\0\0\0,iiii\0\0\0\0\0\0\0\0\0\0\xfd\0\0\0\x03\0\0\0\x01";
    let expected = desk.reply(26, [0; 5], b"");
    assert_eq!(expected, counts);
}

#[test]
fn files_load_and_come_back() {
    let mut desk = Desk(Engine::new());
    let none = b"SCgf\0\0\0\x02\0\0";
    desk.done(1, [0; 5], none);
    assert_eq!(desk.export(), none);
    let place = Refused {
        number: 2,
        place: 8,
    };
    assert_eq!(desk.send(1, [0; 5], &none[..9]), Err(place));
    desk.done(1, [0; 5], PING);
    assert_eq!(desk.export(), PING);
    desk.done(2, [0; 5], b"ping");
    desk.refused(16, 2, [0; 5], b"ping");
    assert_eq!(desk.export(), none);
}

#[test]
fn unknown_kinds_and_marks_change_nothing() {
    let mut desk = with_ping();
    for op in [0, 28, 255, 256, u32::MAX] {
        desk.refused(UNKNOWN as u32, op, [1000, 0, 0, 0, 0], b"freq");
    }
    for op in [13, 14, 15, 16, 19, 20] {
        for mark in [2, -1, 256] {
            desk.refused(UNKNOWN as u32, op, [1000, 0, 0, mark, 0], b"freq");
        }
    }
}
