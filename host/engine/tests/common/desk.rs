//! The proved engine alone, with short ways to send it commands.

use engine::{Engine, Refused};
use independent::{write, Definition};

pub struct Desk(pub Engine);

impl Desk {
    /// A fresh engine that has loaded these.
    pub fn with(definitions: &[Definition]) -> Desk {
        let mut desk = Desk(Engine::new());
        desk.load(definitions);
        desk
    }

    pub fn send(&mut self, op: u32, numbers: [i32; 5], bytes: &[u8]) -> Result<usize, Refused> {
        let numbers = numbers.map(|number| number as u32);
        self.0.apply(op, numbers, bytes, &mut [])
    }

    pub fn done(&mut self, op: u32, numbers: [i32; 5], bytes: &[u8]) {
        assert_eq!(self.send(op, numbers, bytes), Ok(0), "{op} {numbers:?}");
    }

    /// The command is refused, and changes nothing.
    pub fn refused(&mut self, number: u32, op: u32, numbers: [i32; 5], bytes: &[u8]) {
        let before = self.0.clone();
        let refused = Refused { number, place: 0 };
        assert_eq!(
            self.send(op, numbers, bytes),
            Err(refused),
            "{op} {numbers:?}"
        );
        assert!(self.0.words() == before.words() && self.0.arena() == before.arena());
    }

    pub fn load(&mut self, definitions: &[Definition]) {
        self.done(1, [0; 5], &write(definitions).bytes);
    }

    /// A new synth at the tail of a group.
    pub fn synth(&mut self, name: &str, number: i32, group: i32) {
        self.done(3, [number, 1, group, 0, 0], name.as_bytes());
    }

    /// A new group at the tail of a group.
    pub fn group(&mut self, number: i32, group: i32) {
        self.done(4, [number, 1, group, 0, 0], b"");
    }

    /// Sets a control, or that of all below a group, to a float of these bits.
    pub fn set(&mut self, node: i32, name: &str, pattern: u32) {
        self.done(14, [node, 0, 0, 0, pattern as i32], name.as_bytes());
    }

    /// The whole reply. Bytes past it stay, and a buffer one byte shorter is refused and stays.
    pub fn reply(&mut self, op: u32, numbers: [i32; 5], bytes: &[u8]) -> Vec<u8> {
        let numbers = numbers.map(|number| number as u32);
        // Trees and exports are long.
        let room = if matches!(op, 25 | 27) {
            1 << 17
        } else {
            1 << 11
        };
        let mut reply = vec![0xa5; room];
        let length = self.0.apply(op, numbers, bytes, &mut reply);
        let length = length.expect("it replies");
        assert!(reply[length..].iter().all(|&byte| byte == 0xa5));
        let mut short = vec![0xa5; length - 1];
        let answer = self.0.apply(op, numbers, bytes, &mut short);
        assert_eq!(answer.map_err(|refused| refused.number), Err(24));
        assert!(short.iter().all(|&byte| byte == 0xa5));
        reply.truncate(length);
        reply
    }

    /// What a control of a synth reads, by its index.
    pub fn read(&mut self, node: i32, index: i32) -> u32 {
        float(&self.reply(21, [node, index, 0, 0, 0], b""))
    }

    /// What a synth's first controls read.
    pub fn read_all(&mut self, node: i32, controls: usize) -> Vec<u32> {
        (0..controls as i32)
            .map(|index| self.read(node, index))
            .collect()
    }

    /// What a control of a synth reads, by its name.
    pub fn read_named(&mut self, node: i32, name: &str) -> u32 {
        float(&self.reply(22, [node, 0, 0, 0, 0], name.as_bytes()))
    }

    pub fn export(&mut self) -> Vec<u8> {
        self.reply(27, [0; 5], b"")
    }

    pub fn order(&self) -> &[u32] {
        let words = self.0.words();
        &words[1348..1348 + words[1] as usize]
    }
}

/// The float that a reply ends with.
pub fn float(reply: &[u8]) -> u32 {
    u32::from_be_bytes(*reply.last_chunk().expect("a float is last"))
}

/// A definition with these controls.
pub fn definition(name: &str, controls: &[&str], values: &[u32]) -> Definition {
    let names = controls.iter().enumerate();
    Definition {
        name: name.as_bytes().to_vec(),
        initial: values.to_vec(),
        parameters: names
            .map(|(index, name)| (name.as_bytes().to_vec(), index as i32))
            .collect(),
        ..Definition::default()
    }
}
