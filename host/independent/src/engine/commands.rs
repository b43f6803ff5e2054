//! Random commands, most of them plausible for the engine that they are meant for.

use super::slots::Covered;
use super::tree::{Kind, ROOT};
use super::{Engine, BUSES, MOST_NODES};
use crate::{write_as, Call, Definition, Random, Shape, Version, MOST_BYTES};

/// Numbers at the edges of what a node can be named by.
pub const EDGES: [i32; 12] = [
    i32::MIN,
    i32::MIN + 1,
    -9,
    -8,
    -7,
    -2,
    -1,
    0,
    1,
    2,
    i32::MAX - 1,
    i32::MAX,
];

/// Names of controls. Definitions share them, with other indices.
const CONTROLS: [&[u8]; 9] = [
    b"freq",
    b"amp",
    b"pan",
    b"gate",
    b"out",
    b"",
    b"fade time",
    b"cutoff",
    b"mod",
];

/// Patterns of floats that are easily lost: signed zeros, infinities, NaNs quiet and signalling.
const FLOATS: [u32; 10] = [
    0,
    0x8000_0000,
    0x7f80_0000,
    0xff80_0000,
    0x7fc0_0000,
    0xffc0_0000,
    0x7f80_0001,
    0x7fbf_ffff,
    0xffff_ffff,
    0x0000_0001,
];

/// What a sequence of commands is mostly about.
#[derive(Clone, Copy, Debug, PartialEq, Eq)]
pub enum Theme {
    /// Some of everything.
    Mixed,
    /// As many nodes as there can be.
    Crowd,
    /// Groups within groups.
    Deep,
    /// Definitions that come and go.
    Library,
    /// Controls and buses.
    Controls,
}

impl Theme {
    pub const ALL: [Theme; 5] = [
        Theme::Mixed,
        Theme::Crowd,
        Theme::Deep,
        Theme::Library,
        Theme::Controls,
    ];

    /// How often each kind of command comes, by its number; 0 stands for the unknown.
    fn weights(self) -> [usize; 28] {
        // 0, definitions, new, free, moves, run, set, fill, map, buses, get, the other queries
        match self {
            Theme::Mixed => [
                1, 6, 3, 16, 8, 4, 1, 1, 4, 4, 4, 4, 6, 4, 4, 3, 6, 4, 4, 3, 3, 3, 3, 3, 5, 4, 2, 2,
            ],
            Theme::Crowd => [
                1, 1, 0, 40, 14, 2, 0, 0, 6, 6, 6, 6, 6, 1, 1, 1, 1, 1, 1, 1, 1, 1, 1, 1, 6, 2, 2,
                1,
            ],
            Theme::Deep => [
                1, 1, 0, 12, 40, 2, 1, 1, 12, 12, 12, 12, 8, 1, 1, 1, 1, 1, 1, 1, 1, 1, 1, 1, 8, 2,
                2, 1,
            ],
            Theme::Library => [
                1, 24, 12, 24, 3, 10, 1, 1, 1, 1, 1, 1, 1, 1, 6, 1, 8, 1, 4, 1, 1, 1, 3, 1, 1, 3,
                4, 6,
            ],
            Theme::Controls => [
                1, 3, 2, 8, 3, 2, 0, 0, 1, 1, 1, 1, 2, 12, 12, 12, 24, 12, 12, 10, 10, 8, 8, 8, 1,
                6, 1, 1,
            ],
        }
    }
}

/// A node as a sender knows it.
struct Known {
    number: i32,
    /// The slot of a synth.
    slot: Option<usize>,
}

/// Makes commands.
#[derive(Clone, Debug)]
pub struct Commands {
    pub random: Random,
    theme: Theme,
    /// New numbers are mostly at most this.
    numbers: usize,
    /// How many names of definitions there are.
    names: usize,
}

impl Commands {
    pub fn new(mut random: Random, theme: Theme) -> Commands {
        let numbers = match theme {
            Theme::Crowd | Theme::Deep => 400,
            _ => random.one_of(&[12, 40, 100]),
        };
        let names = match theme {
            Theme::Library => random.one_of(&[6, 40, 60]),
            _ => 8,
        };
        Commands {
            random,
            theme,
            numbers,
            names,
        }
    }

    fn chance(&mut self, percent: usize) -> bool {
        self.random.below(100) < percent
    }

    fn any(&mut self) -> i32 {
        match self.random.below(3) {
            0 => self.random.bits() as i32,
            1 => self.random.below(64) as i32 - 16,
            _ => self.random.one_of(&EDGES),
        }
    }

    /// The next command for an engine. What its kind has no use for is left at random.
    pub fn next(&mut self, engine: &Engine) -> Call {
        let weights = self.theme.weights();
        let mut at = self.random.below(weights.iter().sum());
        let mut op = 0;
        while at >= weights[op] {
            at -= weights[op];
            op += 1;
        }
        self.kind(op as u32, engine)
    }

    /// A command of a kind.
    pub fn kind(&mut self, op: u32, engine: &Engine) -> Call {
        let nodes = known(engine);
        let mut call = Call {
            op,
            numbers: [0; 5].map(|_| self.any() as u32),
            bytes: Vec::new(),
        };
        if self.chance(20) {
            let length = self.random.below(12);
            call.bytes = self.random.name(length);
        }
        let mut numbers = call.numbers.map(|pattern| pattern as i32);
        match op {
            0 => {
                call.op = self
                    .random
                    .one_of(&[0, 28, 29, 255, 256, 283, 1 << 31, u32::MAX])
            }
            1 => call.bytes = self.file(),
            2 => call.bytes = self.definition_name(engine),
            3 | 4 => {
                if op == 3 {
                    call.bytes = self.definition_name(engine);
                }
                numbers[0] = self.new_number(&nodes, op == 3);
                numbers[1] = self.action(nodes.len() == MOST_NODES);
                numbers[2] = self.target(numbers[1], &nodes);
            }
            5 => numbers[0] = self.node(&nodes),
            6 | 7 | 25 => {
                numbers[0] = self.group(&nodes);
                if op == 25 {
                    numbers[1] = self.random.one_of(&[0, 0, 1, 1, 1, -1, 2, i32::MIN]);
                }
            }
            8 | 9 => {
                numbers[0] = self.node(&nodes);
                numbers[1] = self.node(&nodes);
            }
            10 | 11 => {
                numbers[0] = self.group(&nodes);
                numbers[1] = self.node(&nodes);
            }
            12 => {
                numbers[0] = self.node(&nodes);
                numbers[1] = self.random.one_of(&[0, 0, 0, 1, 1, 1, 1, 2, -1, 256]);
            }
            13..=18 | 21 | 22 => {
                numbers[0] = match op {
                    21 | 22 => self.synth(&nodes),
                    _ => self.node(&nodes),
                };
                let slot = nodes
                    .iter()
                    .find(|node| node.number == numbers[0])
                    .and_then(|node| node.slot);
                match op {
                    14 | 16 | 18 | 22 => call.bytes = self.control_name(slot, engine),
                    _ => numbers[1] = self.index(slot, engine),
                }
                let kept = slot.map(|slot| engine.slots.kept(slot));
                numbers[2] = match op {
                    15 => self.count(None),
                    16 => self.count(kept.and_then(|kept| kept.lookup(&call.bytes))),
                    _ => self.bus(true),
                };
                (numbers[3], numbers[4]) = self.value();
            }
            19 | 20 | 23 => {
                numbers[0] = self.bus(false);
                if op == 20 && self.chance(70) {
                    let room = BUSES as i32 - numbers[0].clamp(0, BUSES as i32);
                    numbers[2] = self.random.up_to(room as usize + 1) as i32;
                } else if op == 20 {
                    numbers[2] = self.count(None);
                }
                (numbers[3], numbers[4]) = self.value();
            }
            24 => numbers[0] = self.node(&nodes),
            _ => {}
        }
        call.numbers = numbers.map(|number| number as u32);
        call
    }

    fn node_of(&mut self, nodes: &[Known], fits: impl Fn(&Known) -> bool) -> i32 {
        let fitting: Vec<i32> = nodes
            .iter()
            .filter(|node| node.number > 0 && fits(node))
            .map(|node| node.number)
            .collect();
        match self.random.below(100) {
            0..=77 if !fitting.is_empty() => self.random.one_of(&fitting),
            78..=84 => -1,
            0..=87 => 0,
            88..=90 => nodes[self.random.below(nodes.len())].number,
            91..=93 => self.random.below(self.numbers) as i32 + 1,
            _ => self.random.one_of(&EDGES),
        }
    }

    fn node(&mut self, nodes: &[Known]) -> i32 {
        self.node_of(nodes, |_| true)
    }

    fn synth(&mut self, nodes: &[Known]) -> i32 {
        self.node_of(nodes, |node| node.slot.is_some())
    }

    fn group(&mut self, nodes: &[Known]) -> i32 {
        if self.chance(12) {
            return 0;
        }
        self.node_of(nodes, |node| node.slot.is_none())
    }

    fn new_number(&mut self, nodes: &[Known], synth: bool) -> i32 {
        match self.random.below(100) {
            0..=4 => nodes[self.random.below(nodes.len())].number,
            5..=8 => self.random.one_of(&EDGES),
            9..=28 if synth => -1,
            _ => {
                let number = self.random.below(self.numbers) as i32 + 1;
                let live = nodes.iter().any(|node| node.number == number);
                if live && self.chance(80) {
                    let free = (1..).find(|new| nodes.iter().all(|node| node.number != *new));
                    free.unwrap_or(number)
                } else {
                    number
                }
            }
        }
    }

    fn action(&mut self, full: bool) -> i32 {
        match (self.random.below(100), self.theme) {
            (0..=4, _) => self
                .random
                .one_of(&[-1, 5, 6, 256, 260, i32::MIN, i32::MAX]),
            (5..=7, _) => 4,
            (8..=27, _) if full => 4,
            (8..=20, Theme::Mixed | Theme::Library) => 4,
            (..=60, Theme::Deep) => 0,
            _ => self.random.below(4) as i32,
        }
    }

    fn target(&mut self, action: i32, nodes: &[Known]) -> i32 {
        let newest = nodes.iter().rev().find(|node| node.slot.is_none());
        match (action, newest) {
            (0 | 1, Some(group)) if self.theme == Theme::Deep && self.chance(60) => group.number,
            (0 | 1, _) => self.group(nodes),
            _ => self.node(nodes),
        }
    }

    /// A value as the exported function takes it: float or integer, and its pattern.
    fn value(&mut self) -> (i32, i32) {
        match self.random.below(20) {
            0..=7 => (0, self.random.bits() as i32),
            8..=11 => (0, self.random.one_of(&FLOATS) as i32),
            12..=15 => (1, self.random.below(2000) as i32 - 1000),
            16..=18 => {
                let ends = [0, 16_777_215, 16_777_216, 16_777_217, 33_554_432, i32::MAX];
                let number: i32 = self.random.one_of(&ends);
                (
                    1,
                    if self.chance(50) {
                        number
                    } else {
                        !number + self.random.below(2) as i32
                    },
                )
            }
            _ => {
                let mark = self.random.one_of(&[0, 1, 1, 2, 256, -1]);
                (mark, self.any())
            }
        }
    }

    fn bus(&mut self, none: bool) -> i32 {
        match self.random.below(20) {
            0..=3 if none => -1,
            0..=12 => self.random.below(BUSES) as i32,
            13..=15 => self.random.below(4) as i32,
            16..=17 => self.random.one_of(&[0, 4094, 4095]),
            18 => self.random.one_of(&[4096, 4097, -2, -1, 65536]),
            _ => self.random.one_of(&EDGES),
        }
    }

    /// How many controls or buses. For a name mostly about as many as it covers.
    fn count(&mut self, covered: Option<Covered>) -> i32 {
        match (self.random.below(20), covered) {
            (0..=15, Some(covered)) => (covered.width + self.random.below(4)) as i32 - 1,
            (0..=3, _) => 0,
            (4..=15, _) => self.random.below(6) as i32,
            (16..=17, _) => self.random.one_of(&[31, 32, 33]),
            _ => self.any(),
        }
    }

    fn index(&mut self, slot: Option<usize>, engine: &Engine) -> i32 {
        let most = slot.map_or(6, |slot| engine.slots.kept(slot).definition.initial.len());
        match self.random.below(20) {
            0..=1 => self.any(),
            2..=3 => most as i32,
            _ => self.random.up_to(most.saturating_sub(1)) as i32,
        }
    }

    fn control_name(&mut self, slot: Option<usize>, engine: &Engine) -> Vec<u8> {
        let own = slot.map(|slot| &engine.slots.kept(slot).definition.parameters);
        match (own, self.random.below(20)) {
            (Some(own), 0..=14) if !own.is_empty() => own[self.random.below(own.len())].0.clone(),
            (_, 15..=16) => {
                let length = self.random.one_of(&[1, 4, 255, 256, 700]);
                (0..length).map(|_| self.random.byte()).collect()
            }
            (_, 17) => {
                let mut name = self.random.one_of(&CONTROLS).to_vec();
                name.push(self.random.one_of(b"\0x"));
                name
            }
            _ => self.random.one_of(&CONTROLS).to_vec(),
        }
    }

    fn name(&mut self) -> Vec<u8> {
        let name = self.random.below(self.names);
        match name {
            0 => b"rain".to_vec(),
            1 => vec![b'n'; 255],
            _ => format!("def {name}").into_bytes(),
        }
    }

    fn definition_name(&mut self, engine: &Engine) -> Vec<u8> {
        let residents = engine.slots.slots.iter().filter(|slot| slot.resident);
        let names: Vec<&Vec<u8>> = residents
            .flat_map(|slot| &slot.kept)
            .map(|kept| &kept.definition.name)
            .collect();
        match self.random.below(20) {
            0 => {
                let length = self.random.one_of(&[0, 1, 255, 256, 300]);
                (0..length).map(|_| self.random.byte()).collect()
            }
            1..=2 => self.name(),
            _ if names.is_empty() => self.name(),
            _ => names[self.random.below(names.len())].clone(),
        }
    }

    /// A definition that shares its name and its controls' names with others.
    pub fn definition(&mut self) -> Definition {
        let shape = match self.random.below(12) {
            0 => self.random.one_of(&Shape::ALL),
            1 => Shape::EMPTY,
            _ => Shape {
                initial: 10,
                parameters: 9,
                ..Shape::SMALL
            },
        };
        let mut definition = self.random.definition(&shape);
        definition.name = self.name();
        for (name, _) in &mut definition.parameters {
            if self.random.below(10) > 0 {
                *name = self.random.one_of(&CONTROLS).to_vec();
            }
        }
        if self.chance(2) && definition.size() < MOST_BYTES {
            self.random.lengthen(&mut definition, MOST_BYTES);
        }
        definition
    }

    /// A file that is mostly without fault.
    pub fn file(&mut self) -> Vec<u8> {
        let count = match (self.theme, self.random.below(20)) {
            (_, 0) => 0,
            (Theme::Library, 1..=2) => self.random.up_to(33),
            (_, 3..=6) => 1 + self.random.below(6),
            _ => 1,
        };
        let mut definitions: Vec<Definition> = Vec::new();
        let repeats = self.chance(3);
        for _ in 0..count {
            let definition = self.definition();
            let short = definition.size() <= MOST_BYTES || self.chance(3);
            let new = definitions
                .iter()
                .all(|other| other.name != definition.name);
            if short && (new || repeats) {
                definitions.push(definition);
            }
        }
        let version = self.random.one_of(&Version::ALL);
        let mut bytes = write_as(version, &definitions).bytes;
        match self.random.below(50) {
            0 => bytes.truncate(self.random.below(bytes.len())),
            1 => bytes.push(self.random.byte()),
            2..=4 => {
                let place = self.random.below(bytes.len());
                bytes[place] = self.random.one_of(&[0, 1, 2, 3, 33, 127, 128, 255]);
            }
            _ => {}
        }
        bytes
    }
}

fn known(engine: &Engine) -> Vec<Known> {
    let mut nodes = vec![Known {
        number: engine.tree.node(ROOT).number,
        slot: None,
    }];
    engine.tree.below(ROOT, &mut |node, _| {
        nodes.push(Known {
            number: node.number,
            slot: match &node.kind {
                Kind::Group(_) => None,
                Kind::Synth(synth) => Some(synth.slot),
            },
        });
    });
    nodes
}
