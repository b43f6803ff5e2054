//! The paper's examples and rules on the independent engine.

use independent::engine::packed;
use independent::{write, Command, Definition, Engine, Fault, Key, Unit, Value, View};

/// An engine and short ways to send it commands.
struct Desk(Engine);

impl Desk {
    /// A fresh engine with the definition "ping".
    fn with_ping() -> Desk {
        let mut desk = Desk(Engine::new());
        desk.load(&[definition("ping", &["freq"], &[440.0])]);
        desk
    }

    fn send(&mut self, command: Command) -> Result<usize, Fault> {
        let before = self.0.view();
        let answer = self.0.apply(&command, &mut [0; 4096]);
        if answer.is_err() {
            assert_eq!(self.0.view(), before, "{command:?} was refused");
        }
        answer
    }

    fn done(&mut self, command: Command) {
        assert_eq!(self.send(command), Ok(0), "{command:?}");
    }

    fn refused(&mut self, number: u32, command: Command) {
        let fault = Fault { number, place: 0 };
        assert_eq!(self.send(command), Err(fault), "{command:?}");
    }

    fn load(&mut self, definitions: &[Definition]) {
        self.done(Command::Receive(&write(definitions).bytes));
    }

    fn synth(&mut self, name: &str, number: i32, action: i32, target: i32) {
        self.done(new_synth(name, number, action, target));
    }

    fn group(&mut self, number: i32, action: i32, target: i32) {
        self.done(new_group(number, action, target));
    }

    /// The whole reply. Bytes past it stay, and a buffer one byte shorter is refused and stays.
    fn reply(&mut self, command: Command) -> Vec<u8> {
        let mut buffer = vec![0xa5; 4096];
        let length = self.0.apply(&command, &mut buffer).expect("it replies");
        assert!(buffer[length..].iter().all(|&byte| byte == 0xa5));
        let mut short = vec![0xa5; length - 1];
        let answer = self.0.apply(&command, &mut short);
        assert_eq!(answer.map_err(|fault| fault.number), Err(24));
        assert!(short.iter().all(|&byte| byte == 0xa5));
        buffer.truncate(length);
        buffer
    }

    /// A control's value by its name.
    fn value(&mut self, node: i32, name: &str) -> f32 {
        let key = Key::Name(name.as_bytes());
        let reply = self.reply(Command::Get { node, key });
        let last = reply.last_chunk().expect("a float is last");
        f32::from_be_bytes(*last)
    }

    fn order(&self) -> Vec<i32> {
        self.0.view().order
    }

    /// The numbers with their depths.
    fn tree(&self) -> Vec<(i32, usize)> {
        let nodes = self.0.view().nodes;
        nodes.iter().map(|node| (node.number, node.depth)).collect()
    }
}

fn new_synth(name: &str, number: i32, action: i32, target: i32) -> Command<'_> {
    Command::NewSynth {
        definition: name.as_bytes(),
        number,
        action,
        target,
    }
}

fn new_group(number: i32, action: i32, target: i32) -> Command<'static> {
    Command::NewGroup {
        number,
        action,
        target,
    }
}

fn set(node: i32, name: &str, value: f32) -> Command<'_> {
    Command::Set {
        node,
        key: Key::Name(name.as_bytes()),
        value: Value::Float(value.to_bits()),
    }
}

fn map(node: i32, name: &str, bus: i32) -> Command<'_> {
    Command::Map {
        node,
        key: Key::Name(name.as_bytes()),
        bus,
    }
}

fn fill(node: i32, start: i32, count: i32) -> Command<'static> {
    Command::Fill {
        node,
        key: Key::Index(start),
        count,
        value: Value::Integer(5),
    }
}

fn definition(name: &str, controls: &[&str], values: &[f32]) -> Definition {
    let parameters = controls.iter().enumerate();
    Definition {
        name: name.as_bytes().to_vec(),
        initial: values.iter().map(|value| value.to_bits()).collect(),
        parameters: parameters
            .map(|(index, name)| (name.as_bytes().to_vec(), index as i32))
            .collect(),
        ..Definition::default()
    }
}

#[test]
fn the_running_order() {
    let mut desk = Desk::with_ping();
    desk.group(1, 1, 0);
    desk.synth("ping", 1000, 1, 1);
    desk.synth("ping", 1001, 2, 1000);
    assert_eq!(desk.order(), [1001, 1000]);
    desk.done(Command::Run(1, 0));
    assert_eq!(desk.order(), []);
    desk.done(Command::Run(1, 1));
    desk.done(Command::Run(0, 0));
    assert_eq!(desk.order(), []);
    desk.done(Command::Run(0, 1));
    desk.done(Command::Run(-1, 0));
    assert_eq!(desk.order(), [1000]);
}

#[test]
fn refused_moves() {
    let mut desk = Desk::with_ping();
    desk.group(1, 1, 0);
    desk.synth("ping", 1000, 1, 1);
    desk.refused(19, Command::Head(1, 1));
    desk.refused(19, Command::Before(1000, 1000));
    desk.refused(18, Command::Free(0));
    desk.refused(19, Command::Before(1, 1000));
    desk.refused(19, Command::After(1, 1000));
    desk.refused(18, Command::Tail(1000, 1));
    desk.refused(18, Command::Before(0, 1000));
    desk.refused(18, Command::Before(1000, 0));
    desk.refused(18, Command::Head(1, 0));
    desk.refused(17, Command::Before(0, 5));
    desk.refused(17, Command::Before(5, 0));
    desk.refused(17, Command::Head(1000, 5));
    desk.done(Command::Head(0, 1000));
    assert_eq!(desk.tree(), [(0, 0), (1000, 1), (1, 1)]);
}

#[test]
fn a_mapped_control_reads_the_bus() {
    let mut desk = Desk::with_ping();
    desk.synth("ping", 1000, 1, 0);
    assert_eq!(desk.value(1000, "freq"), 440.0);
    let value = Value::Float(2f32.to_bits());
    desk.done(Command::SetBus { bus: 7, value });
    desk.done(map(1000, "freq", 7));
    assert_eq!(desk.value(1000, "freq"), 2.0);
    desk.done(map(1000, "freq", -1));
    assert_eq!(desk.value(1000, "freq"), 440.0);
    desk.done(map(1000, "freq", 7));
    desk.done(set(1000, "freq", 3.0));
    assert_eq!(desk.value(1000, "freq"), 3.0);
}

#[test]
fn the_whole_tree_reply() {
    let mut desk = Desk::with_ping();
    desk.group(1, 1, 0);
    desk.synth("ping", 1000, 1, 1);
    let ints = |numbers: &[i32]| -> Vec<u8> {
        let numbers = numbers.iter();
        numbers.flat_map(|number| number.to_be_bytes()).collect()
    };
    let query = |flag| Command::QueryTree { group: 0, flag };
    let reply = desk.reply(query(0));
    let expected = [
        b"/g_queryTree.reply\0\0".as_slice(),
        b",iiiiiiis\0\0\0",
        &ints(&[0, 0, 1, 1, 1, 1000, -1]),
        b"ping\0\0\0\0",
    ]
    .concat();
    assert_eq!(expected.len(), 68);
    assert_eq!(reply, expected);

    let expected = [
        b"/g_queryTree.reply\0\0".as_slice(),
        b",iiiiiiisisf\0\0\0\0",
        &ints(&[1, 0, 1, 1, 1, 1000, -1]),
        b"ping\0\0\0\0",
        &ints(&[1]),
        b"freq\0\0\0\0",
        &440f32.to_be_bytes(),
    ]
    .concat();
    assert_eq!(expected.len(), 88);
    for flag in [1, 2, -1, i32::MIN] {
        assert_eq!(desk.reply(query(flag)), expected);
    }

    desk.done(map(1000, "freq", 4095));
    let expected = [
        b"/g_queryTree.reply\0\0".as_slice(),
        b",iiiiisiss\0\0",
        &ints(&[1, 1, 1, 1000, -1]),
        b"ping\0\0\0\0",
        &ints(&[1]),
        b"freq\0\0\0\0",
        b"c4095\0\0\0",
    ]
    .concat();
    let query = Command::QueryTree { group: 1, flag: 1 };
    assert_eq!(desk.reply(query), expected);
}

#[test]
fn node_info() {
    let mut desk = Desk::with_ping();
    desk.group(1, 1, 0);
    desk.synth("ping", -1, 1, 1);
    desk.synth("ping", 7, 1, 1);
    desk.synth("ping", -1, 3, 1);
    let mut expect = |node: i32, numbers: &[i32]| {
        let tags: &[u8] = match numbers.len() {
            5 => b",iiiii\0\0",
            _ => b",iiiiiii\0\0\0\0",
        };
        let mut expected = [b"/n_info\0".as_slice(), tags].concat();
        for number in numbers {
            expected.extend_from_slice(&number.to_be_bytes());
        }
        assert_eq!(desk.reply(Command::Query(node)), expected, "{node}");
    };
    expect(0, &[0, -1, -1, -1, 1, 1, -9]);
    expect(1, &[1, 0, -1, -9, 1, -8, 7]);
    expect(7, &[7, 1, -8, -1, 0]);
    expect(-1, &[-9, 0, 1, -1, 0]);
    desk.done(Command::FreeAll(1));
    let mut expected = b"/n_info\0,iiiiiii\0\0\0\0".to_vec();
    for number in [1, 0, -1, -9, 1, -1, -1] {
        expected.extend_from_slice(&i32::to_be_bytes(number));
    }
    assert_eq!(desk.reply(Command::Query(1)), expected);
    desk.refused(17, Command::Query(-9));
}

#[test]
fn values_as_asked() {
    let mut desk = Desk::with_ping();
    desk.synth("ping", -1, 1, 0);
    let by_name = desk.reply(Command::Get {
        node: -1,
        key: Key::Name(b"freq"),
    });
    assert_eq!(
        by_name,
        b"/n_set\0\0,isf\0\0\0\0\xff\xff\xff\xf8freq\0\0\0\0\x43\xdc\0\0"
    );
    let key = Key::Index(0);
    let by_index = desk.reply(Command::Get { node: -1, key });
    assert_eq!(
        by_index,
        b"/n_set\0\0,iif\0\0\0\0\xff\xff\xff\xf8\0\0\0\0\x43\xdc\0\0"
    );
    desk.refused(18, Command::Get { node: 0, key });
    for index in [1, -1, i32::MIN, i32::MAX] {
        let key = Key::Index(index);
        desk.refused(21, Command::Get { node: -1, key });
    }
    // A NaN's bits stay.
    let value = Value::Float(0xff80_0001);
    desk.done(Command::SetBus { bus: 4095, value });
    let reply = desk.reply(Command::GetBus(4095));
    assert_eq!(reply, b"/c_set\0\0,if\0\0\0\x0f\xff\xff\x80\0\x01");
    desk.refused(22, Command::GetBus(4096));
    desk.refused(22, Command::GetBus(-1));
}

#[test]
fn status_counts() {
    let mut desk = Desk::with_ping();
    let mut pad = definition("pad", &[], &[]);
    pad.units = vec![Unit::default(); 3];
    desk.load(&[pad]);
    desk.group(1, 0, 0);
    desk.synth("pad", 2, 0, 1);
    desk.synth("pad", 3, 0, 1);
    desk.synth("ping", 4, 0, 1);
    desk.done(Command::Delete(b"pad"));
    let expected = b"/status.reply\0\0\0,iiii\0\0\0\0\0\0\x06\0\0\0\x03\0\0\0\x02\0\0\0\x01";
    assert_eq!(desk.reply(Command::Status), expected);
}

#[test]
fn two_hundred_and_fifty_five_new_nodes() {
    let mut desk = Desk::with_ping();
    for number in 1..=255 {
        match number % 3 {
            0 => desk.group(number, 0, 0),
            _ => desk.synth("ping", number, 1, 0),
        }
    }
    desk.refused(20, new_synth("ping", 300, 1, 0));
    desk.refused(20, new_synth("ping", -1, 1, 0));
    desk.refused(20, new_group(300, 2, 1));
    desk.synth("ping", 300, 4, 1);
    desk.group(1, 4, 300);
    assert_eq!(desk.0.view().nodes.len(), 256);
    assert_eq!(desk.order().len(), 169);
    desk.refused(15, new_group(1, 4, 1));
}

#[test]
fn refusals_of_new_nodes_in_their_order() {
    let mut desk = Desk::with_ping();
    desk.group(1, 1, 0);
    desk.synth("ping", 5, 1, 1);
    desk.refused(13, new_synth("no", -2, 5, 9));
    desk.refused(13, new_synth("no", -2, -1, 9));
    desk.refused(14, new_synth("no", -2, 4, 9));
    desk.refused(15, new_synth("no", 5, 4, 5));
    desk.refused(15, new_synth("no", 0, 4, 9));
    desk.refused(16, new_synth("no", 6, 4, 9));
    desk.refused(17, new_synth("ping", 6, 4, 9));
    desk.refused(18, new_synth("ping", 6, 4, 0));
    desk.refused(18, new_synth("ping", 6, 2, 0));
    desk.refused(18, new_synth("ping", 6, 1, 5));
    desk.refused(14, new_group(-1, 0, 0));
    desk.refused(15, new_group(0, 0, 0));
    desk.0.set_next(None);
    desk.refused(18, new_synth("ping", -1, 1, 5));
    desk.refused(25, new_synth("ping", -1, 1, 0));
    for number in 10..263 {
        desk.synth("ping", number, 0, 1);
    }
    desk.refused(25, new_synth("ping", -1, 1, 0));
    desk.refused(20, new_synth("ping", 9, 1, 0));
}

#[test]
fn generated_numbers_end() {
    let mut desk = Desk::with_ping();
    desk.synth("ping", -1, 0, 0);
    desk.synth("ping", -1, 0, 0);
    assert_eq!(desk.order(), [-9, -8]);
    desk.0.set_next(Some(i32::MIN + 1));
    desk.synth("ping", -1, 0, 0);
    desk.synth("ping", -1, 0, 0);
    assert_eq!(desk.order(), [i32::MIN, i32::MIN + 1, -9, -8]);
    desk.refused(25, new_synth("ping", -1, 0, 0));
    desk.done(Command::FreeAll(0));
    desk.refused(25, new_synth("ping", -1, 0, 0));
    assert_eq!(desk.0.view().next, None);
}

#[test]
fn the_latest_synth_and_no_other() {
    let mut desk = Desk::with_ping();
    desk.refused(17, Command::Query(-1));
    desk.synth("ping", 5, 0, 0);
    desk.synth("ping", 6, 0, 0);
    desk.done(Command::Free(6));
    // The number lives again, but as a group.
    desk.group(6, 0, 0);
    desk.refused(17, Command::Free(-1));
    desk.synth("ping", 7, 0, 0);
    desk.group(8, 4, 7);
    desk.refused(17, Command::Free(-1));
    desk.synth("ping", 7, 0, 8);
    desk.done(Command::DeepFree(0));
    desk.refused(17, Command::Free(-1));
    desk.synth("ping", -1, 0, 8);
    desk.refused(17, Command::Free(-8));
    desk.done(Command::Free(-1));
    desk.refused(17, Command::Free(-1));
}

#[test]
fn frees() {
    let mut desk = Desk::with_ping();
    for (group, above) in [(1, 0), (2, 1), (3, 2)] {
        desk.group(group, 1, above);
        desk.synth("ping", group + 10, 1, group);
        desk.synth("ping", group + 20, 0, group);
    }
    let mut other = Desk(desk.0.clone());
    desk.done(Command::DeepFree(2));
    let left = [(0, 0), (1, 1), (21, 2), (11, 2), (2, 2), (3, 3)];
    assert_eq!(desk.tree(), left);
    desk.done(Command::DeepFree(0));
    assert_eq!(desk.tree(), [(0, 0), (1, 1), (2, 2), (3, 3)]);
    other.refused(18, Command::DeepFree(11));
    other.refused(18, Command::FreeAll(11));
    other.done(Command::FreeAll(2));
    assert_eq!(other.tree(), [(0, 0), (1, 1), (21, 2), (11, 2), (2, 2)]);
    other.done(Command::Free(1));
    assert_eq!(other.tree(), [(0, 0)]);
}

#[test]
fn an_old_synth_keeps_its_shape() {
    let mut desk = Desk(Engine::new());
    desk.load(&[definition("rain", &["amp", "fade"], &[0.5, 2.0])]);
    desk.synth("rain", 1, 1, 0);
    desk.done(Command::Delete(b"rain"));
    desk.refused(16, new_synth("rain", 2, 1, 0));
    desk.refused(16, Command::Delete(b"rain"));
    desk.load(&[definition("rain", &["fade", "amp"], &[3.0, 0.25])]);
    desk.synth("rain", 2, 1, 0);
    desk.done(set(0, "fade", 9.0));
    assert_eq!(
        (desk.value(1, "amp"), desk.value(1, "fade")),
        (0.5, 9.0),
        "the old synth"
    );
    assert_eq!((desk.value(2, "amp"), desk.value(2, "fade")), (0.25, 9.0));
    let residents = |view: &View| -> Vec<Option<bool>> {
        let slots = view.slots.iter().take(3);
        slots
            .map(|slot| slot.as_ref().map(|slot| slot.resident))
            .collect()
    };
    assert_eq!(
        residents(&desk.0.view()),
        [Some(false), Some(true), None],
        "a slot each"
    );
    // The old definition's slot is free with its last synth.
    desk.done(Command::Free(1));
    assert_eq!(residents(&desk.0.view()), [None, Some(true), None]);
    desk.load(&[definition("snow", &[], &[])]);
    assert_eq!(residents(&desk.0.view()), [Some(true), Some(true), None]);
}

#[test]
fn slots_and_refusal_12() {
    let names: Vec<String> = (0..40).map(|name| format!("d{name}")).collect();
    let some = |range: std::ops::Range<usize>| -> Vec<Definition> {
        let names = names[range].iter();
        names.map(|name| definition(name, &[], &[])).collect()
    };
    let mut desk = Desk(Engine::new());
    desk.load(&some(0..32));
    desk.refused(12, Command::Receive(&write(&some(32..33)).bytes));
    // A name that is there gives its slot up.
    desk.load(&some(3..9));
    desk.refused(12, Command::Receive(&write(&some(30..34)).bytes));
    // Not where a synth holds it.
    desk.synth("d5", 1, 0, 0);
    desk.refused(12, Command::Receive(&write(&some(5..6)).bytes));
    desk.done(Command::Delete(b"d7"));
    desk.load(&some(5..6));
    let slots = desk.0.view().slots;
    let resident = |slot: usize| slots[slot].as_ref().is_some_and(|slot| slot.resident);
    assert!(!resident(5) && resident(7));
    desk.refused(12, Command::Receive(&write(&some(32..33)).bytes));
    desk.done(Command::Free(1));
    desk.load(&some(32..33));
    desk.load(&[]);
    // A file's own faults come first, with their place.
    let mut file = write(&some(33..34)).bytes;
    file.push(0);
    let place = file.len() - 1;
    let answer = desk.send(Command::Receive(&file));
    assert_eq!(answer, Err(Fault::new(11, place)));
    assert_eq!(packed(answer), 11 + 256 * place as u64);
}

#[test]
fn an_export_is_the_file() {
    let mut desk = Desk(Engine::new());
    assert_eq!(desk.reply(Command::Export), write(&[]).bytes);
    let definitions = [
        definition("a", &["x"], &[1.0]),
        definition("b", &[], &[]),
        definition("c", &["y", "y"], &[f32::NAN, 2.0]),
    ];
    desk.load(&definitions);
    assert_eq!(desk.reply(Command::Export), write(&definitions).bytes);
    // By slot, not by load: `b` goes to the slot that `a` left.
    let [a, b, c] = definitions;
    desk.done(Command::Delete(b"a"));
    desk.load(std::slice::from_ref(&b));
    desk.load(std::slice::from_ref(&a));
    let expected = write(&[b, a, c]).bytes;
    assert_eq!(desk.reply(Command::Export), expected);
}

#[test]
fn fills() {
    let mut desk = Desk(Engine::new());
    desk.load(&[
        definition("four", &["a", "b", "c", "d"], &[1.0, 2.0, 3.0, 4.0]),
        definition("two", &["d", "c"], &[1.0, 2.0]),
        definition("none", &[], &[]),
    ]);
    desk.synth("four", 1, 1, 0);
    desk.synth("two", 2, 1, 0);
    desk.synth("none", 3, 1, 0);
    let values = |desk: &Desk, node: usize| -> Vec<f32> {
        let nodes = desk.0.view().nodes;
        let synth = nodes[node].synth.as_ref().expect("a synth");
        let controls = synth.controls.iter();
        controls
            .map(|control| f32::from_bits(control.own))
            .collect()
    };
    desk.done(fill(1, 2, 2));
    assert_eq!(values(&desk, 1), [1.0, 2.0, 5.0, 5.0]);
    desk.done(fill(1, 4, 0));
    desk.done(fill(3, 0, 0));
    for (start, count) in [
        (3, 2),
        (5, 0),
        (4, 1),
        (-1, 1),
        (-1, 0),
        (0, -1),
        (1, -1),
        (i32::MAX, i32::MAX),
    ] {
        desk.refused(21, fill(1, start, count));
    }
    desk.done(fill(0, 1, 2));
    assert_eq!(values(&desk, 1), [1.0, 5.0, 5.0, 5.0]);
    assert_eq!(values(&desk, 2), [1.0, 5.0]);
    desk.done(fill(0, i32::MAX, i32::MAX));
    desk.refused(21, fill(0, -1, 0));
    desk.refused(21, fill(0, 0, -1));
    let by_name = |node, name: &'static [u8], count| Command::Fill {
        node,
        key: Key::Name(name),
        count,
        value: Value::Float(7f32.to_bits()),
    };
    // Each name covers one control.
    desk.done(by_name(0, b"d", 2));
    assert_eq!(values(&desk, 1), [1.0, 5.0, 5.0, 7.0]);
    assert_eq!(values(&desk, 2), [7.0, 5.0]);
    desk.refused(21, by_name(1, b"d", 2));
    desk.refused(28, by_name(2, b"d", 2));
    desk.refused(21, by_name(3, b"d", 0));
    desk.done(by_name(0, b"nobody", 2));
    desk.refused(21, by_name(0, b"nobody", -1));
}

#[test]
fn values_that_are_integers() {
    let mut desk = Desk::with_ping();
    desk.synth("ping", 1, 0, 0);
    let set = |number| Command::Set {
        node: 1,
        key: Key::Index(0),
        value: Value::Integer(number),
    };
    for (number, value) in [
        (0, 0f32),
        (1, 1.0),
        (-3, -3.0),
        (16_777_216, 16_777_216.0),
        (-16_777_216, -16_777_216.0),
    ] {
        desk.done(set(number));
        assert_eq!(desk.value(1, "freq").to_bits(), value.to_bits());
    }
    for number in [16_777_217, -16_777_217, i32::MAX, i32::MIN] {
        desk.refused(23, set(number));
        let value = Value::Integer(number);
        desk.refused(23, Command::SetBus { bus: 0, value });
        desk.refused(22, Command::SetBus { bus: 4096, value });
        desk.refused(
            23,
            Command::FillBuses {
                start: 4096,
                count: 0,
                value,
            },
        );
    }
}

#[test]
fn bus_ranges() {
    let mut desk = Desk(Engine::new());
    let fill = |start, count| Command::FillBuses {
        start,
        count,
        value: Value::Integer(1),
    };
    desk.done(fill(4096, 0));
    desk.done(fill(4090, 6));
    for (start, count) in [
        (4097, 0),
        (4096, 1),
        (4090, 7),
        (-1, 1),
        (0, -1),
        (i32::MAX, i32::MAX),
    ] {
        desk.refused(22, fill(start, count));
    }
    let buses = desk.0.view().buses;
    assert_eq!(buses.iter().filter(|&&bus| bus != 0).count(), 6);
    desk.done(fill(0, 4096));
    let one = 1f32.to_bits();
    assert!(desk.0.view().buses.iter().all(|&bus| bus == one));
}

#[test]
fn a_control_without_a_name_shows_its_index() {
    let mut desk = Desk(Engine::new());
    let mut two = definition("two", &[], &[1.0, 2.0]);
    two.parameters = vec![
        (b"late".to_vec(), 1),
        (b"later".to_vec(), 1),
        (b"late".to_vec(), 0),
    ];
    desk.load(&[two]);
    desk.synth("two", 1, 0, 0);
    // The first entry of a name, and the first name of an index.
    desk.done(set(1, "late", 8.0));
    let reply = desk.reply(Command::QueryTree { group: 0, flag: 1 });
    let expected = b"late\0\0\0\0\x3f\x80\0\0late\0\0\0\0\x41\0\0\0";
    assert!(reply.ends_with(expected), "{reply:?}");

    desk.load(&[definition("two", &[], &[1.0])]);
    desk.synth("two", 2, 4, 1);
    let reply = desk.reply(Command::QueryTree { group: 0, flag: 1 });
    assert!(reply.ends_with(b"two\0\0\0\0\x01\0\0\0\0\x3f\x80\0\0"));
}
