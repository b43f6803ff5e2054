//! Both engines with some synths, and stores to try on them.

use crate::common::pair::Pair;
use crate::common::settings::drop_both;
use crate::common::shapes::shaped;
use crate::common::stores::{self, DAMAGE};
use crate::common::tally::Tally;
use independent::engine::{Commands, Theme, EDGES};
use independent::layout::{records, Record};
use independent::settings::contents;
use independent::{read_store, write, Call, Named, Random};

/// The answers that are counted, by the number of the refusal.
pub const SAVES: [(&str, u32); 7] = [
    ("saves accepted", 0),
    ("saves refused with 31", 31),
    ("saves refused with 17", 17),
    ("saves refused with 18", 18),
    ("saves refused with 30", 30),
    ("saves refused with 33", 33),
    ("saves refused with 1", 1),
];
pub const RECALLS: [(&str, u32); 6] = [
    ("recalls accepted", 0),
    ("recalls refused with 31", 31),
    ("recalls refused with 17", 17),
    ("recalls refused with 18", 18),
    ("recalls refused with 32", 32),
    ("recalls refused with 1", 1),
];
pub const DROPS: [(&str, u32); 3] = [
    ("drops accepted", 0),
    ("drops refused with 31", 31),
    ("drops refused with 32", 32),
];

pub fn count(tally: &mut Tally, answers: &[(&'static str, u32)], number: u32) {
    let answer = answers.iter().find(|(_, refusal)| *refusal == number);
    let (what, _) = answer.unwrap_or_else(|| panic!("the answer {number} is none of its own"));
    tally.add(what, 1);
}

/// Names of definitions, which stores have too.
const DEFINITIONS: usize = 5;

/// Both engines with some synths, and stores to try on them.
pub struct Stage {
    pub random: Random,
    pub commands: Commands,
    pub pair: Pair,
    pub tally: Tally,
}

impl Stage {
    pub fn new(mut random: Random) -> Stage {
        let commands = Commands::new(Random::new(random.bits()), Theme::Controls);
        let mut stage = Stage {
            commands,
            pair: Pair::fresh(&mut random),
            random,
            tally: Tally::default(),
        };
        for at in 0..DEFINITIONS {
            stage.load(at);
        }
        for (number, group) in [(1, 0), (2, 1)] {
            stage.done(&Call::new(4, [number, 1, group, 0, 0], b""));
        }
        for at in 0..2 * DEFINITIONS {
            let number = if at % 4 == 3 { -1 } else { 10 + at as i32 };
            let name = format!("shape {}", at % DEFINITIONS);
            let group = stage.random.below(3) as i32;
            stage.done(&Call::new(3, [number, 1, group, 0, 0], name.as_bytes()));
        }
        // Old synths keep their shapes.
        stage.load(0);
        stage.load(1);
        stage
    }

    /// Loads a definition of some shape under one of the names.
    fn load(&mut self, at: usize) {
        let shape = shaped(&mut self.random, at);
        self.done(&Call::new(1, [0; 5], &write(&[shape]).bytes));
    }

    fn done(&mut self, call: &Call) {
        let sent = self.pair.expect(0, call, &mut self.random);
        sent.expect("both accept it");
    }

    pub fn names(&self) -> Vec<Vec<u8>> {
        (0..DEFINITIONS)
            .map(|at| format!("shape {at}").into_bytes())
            .collect()
    }

    /// A node, mostly a synth that lives.
    pub fn node(&mut self) -> i32 {
        let nodes = records(&self.pair.words);
        let numbers = |synths: bool| -> Vec<i32> {
            let kind = |node: &&Record| !synths || (!node.is_group() && (node.number as i32) > 0);
            let nodes = nodes.iter().filter(kind);
            nodes.map(|node| node.number as i32).collect()
        };
        let (synths, all) = (numbers(true), numbers(false));
        match self.random.below(20) {
            0..=14 if !synths.is_empty() => self.random.one_of(&synths),
            15 => -1,
            16 => self.random.one_of(&[0, 1, 2]),
            17 => self.random.one_of(&all),
            18 => 10 + self.random.below(30) as i32,
            _ => self.random.one_of(&EDGES),
        }
    }

    /// A name and a version, mostly of the store.
    pub fn version(&mut self, entries: &[Named]) -> (Vec<u8>, u32) {
        let random = &mut self.random;
        let with: Vec<&Named> = entries
            .iter()
            .filter(|entry| !entry.versions.is_empty())
            .collect();
        if !with.is_empty() && random.below(8) > 0 {
            let entry = with[random.below(with.len())];
            let saved = &entry.versions[random.up_to(entry.versions.len() - 1)];
            return (entry.name.clone(), saved.version);
        }
        let names = [&b""[..], b"\xff", b"shape 0", b"shape\0", &[b'n'; 256]];
        let name = match (entries.is_empty(), random.below(3)) {
            (false, 0..=1) => entries[random.below(entries.len())].name.clone(),
            _ => random.one_of(&names).to_vec(),
        };
        let version = random.one_of(&[0, 1, 2, 17, u32::MAX - 1, u32::MAX, 1 << 31]);
        (name, version)
    }

    /// The bytes of a store in a run that is as long, or longer with anything behind a 0.
    fn lent(&mut self, mut bytes: Vec<u8>) -> Vec<u8> {
        let random = &mut self.random;
        let length = bytes.len();
        match random.below(4) {
            0 => {}
            1 => bytes.resize(length + random.below(600), 0),
            2 => {
                bytes.push(0);
                let more = random.below(500);
                bytes.extend((0..more).map(|_| random.byte()));
                self.tally.add("anything behind the closing 0", 1);
            }
            _ => bytes.resize(length + 3000, 0),
        }
        bytes
    }

    /// A store of some kind, and the entries that it was made of.
    pub fn store(&mut self) -> (Vec<u8>, Vec<Named>) {
        let names = self.names();
        let entries = stores::entries(&mut self.random, &names);
        let bytes = contents(&entries);
        let store = match self.random.below(20) {
            0..=6 => {
                self.tally.add("well-formed stores", 1);
                self.lent(bytes)
            }
            7..=13 => match self.damaged(&entries) {
                Some(store) => store,
                None => self.lent(bytes),
            },
            14 => self.cut(bytes),
            15 => self.changed(bytes),
            16..=17 => {
                self.tally.add("stores of 0 to 40 bytes", 1);
                stores::short(&mut self.random, &entries)
            }
            _ => self.tight(&entries),
        };
        (store, entries)
    }

    /// A store that is damaged in one way. What the way settles is 31.
    fn damaged(&mut self, entries: &[Named]) -> Option<Vec<u8>> {
        let way = self.random.below(DAMAGE.len());
        let damaged = stores::damaged(&mut self.random, entries, way)?;
        self.tally.add(damaged.way, 1);
        let store = self.lent(damaged.bytes);
        let formed = read_store(&store).is_some();
        assert!(
            !(damaged.settled && formed),
            "{}: {store:02x?}",
            damaged.way
        );
        self.tally
            .count("damaged, and well formed nonetheless", formed);
        Some(store)
    }

    fn cut(&mut self, mut bytes: Vec<u8>) -> Vec<u8> {
        self.tally.add("cut stores", 1);
        bytes.truncate(self.random.up_to(bytes.len()));
        bytes
    }

    fn changed(&mut self, bytes: Vec<u8>) -> Vec<u8> {
        self.tally.add("stores with another byte", 1);
        let mut store = self.lent(bytes);
        if !store.is_empty() {
            let place = self.random.below(store.len());
            store[place] = match self.random.below(3) {
                0 => self.random.byte(),
                1 => store[place] ^ (1 << self.random.below(8)),
                _ => self.random.one_of(&[0, 1, 2, 3, 4, 5, 127, 128, 255]),
            };
        }
        store
    }

    /// A store that a save fills to its last byte, or that is one byte too short for it.
    fn tight(&mut self, entries: &[Named]) -> Vec<u8> {
        let node = self.node();
        let mut store = contents(entries);
        let length = store.len();
        store.resize(length + 20_000, 0);
        let saved = self.pair.model.save(node, &mut store);
        let full = match (saved, read_store(&store)) {
            (Ok(_), Some(after)) => contents(&after).len(),
            _ => length,
        };
        let short = self.random.below(2);
        let mut store = contents(entries);
        store.resize(full - short * usize::from(full > length), 0);
        let before = store.clone();
        match self.pair.save(node, &mut store) {
            Ok(answer) if saved.is_ok() => {
                let expected = if short == 0 { 0 } else { 33 };
                assert_eq!(answer % 256, expected, "node {node}: {before:02x?}");
                let what = ["full to the last byte", "one byte short"][short];
                self.tally.add(what, 1);
            }
            Ok(_) => {}
            Err(what) => panic!("{what}: node {node}, {before:02x?}"),
        }
        before
    }

    /// A store, a save, a recall and a drop of it; and now and then a command.
    pub fn turn(&mut self) -> Result<(), String> {
        let (store, entries) = self.store();
        self.tally.add("stores", 1);
        let read = read_store(&store);
        let node = self.node();
        let (name, version) = self.version(read.as_ref().unwrap_or(&entries));
        let said = |what: String| {
            format!("{what}: {node}, version {version} of {name:02x?}, {store:02x?}")
        };
        self.recalled(&name, version, node, &store, read.as_deref())
            .map_err(said)?;
        self.saved(node, &store, read.as_deref()).map_err(said)?;
        let mut after = store.clone();
        let dropped = drop_both(&name, version, &mut after).map_err(said)?;
        count(&mut self.tally, &DROPS, dropped);
        if self.random.below(4) == 0 {
            self.command()?;
        }
        Ok(())
    }

    fn recalled(
        &mut self,
        name: &[u8],
        version: u32,
        node: i32,
        store: &[u8],
        read: Option<&[Named]>,
    ) -> Result<(), String> {
        let entry = read.and_then(|entries| entries.iter().find(|entry| entry.name == name));
        let saved = entry.and_then(|entry| {
            let mut versions = entry.versions.iter();
            versions.find(|saved| saved.version == version)
        });
        let answer = match saved {
            Some(saved) if self.random.below(8) == 0 => {
                self.tally.add("recalls beside their sets by name", 1);
                self.pair.recall_by_sets(name, saved, node, store)?
            }
            _ => self.pair.recall(name, version, node, store)?,
        };
        count(&mut self.tally, &RECALLS, answer);
        let many = saved.is_some_and(|saved| saved.settings.len() > 32);
        self.tally
            .count("recalls of more than 32 settings", answer == 0 && many);
        Ok(())
    }

    fn saved(&mut self, node: i32, store: &[u8], read: Option<&[Named]>) -> Result<(), String> {
        let mut after = store.to_vec();
        let answer = self.pair.save(node, &mut after)?;
        count(&mut self.tally, &SAVES, (answer % 256) as u32);
        let last = answer == 256 * u64::from(u32::MAX);
        self.tally.count("saves as the last version", last);
        let after = read_store(&after);
        let most = |entries: &[Named]| {
            let versions = entries.iter().map(|entry| entry.versions.len());
            versions.max().unwrap_or(0)
        };
        let sixteenth = answer % 256 == 0
            && after.as_deref().map(most) == Some(16)
            && read.map(most) < Some(16);
        self.tally.count("saves as the 16th version", sixteenth);
        let unsorted = read.is_some_and(|entries| !entries.is_sorted_by_key(|entry| &entry.name));
        let accepted = answer % 256 == 0;
        self.tally
            .count("saves among names out of order", accepted && unsorted);
        Ok(())
    }

    /// A command between two stores: of controls, or one that makes, frees or reloads.
    pub fn command(&mut self) -> Result<(), String> {
        let op = self
            .random
            .one_of(&[3, 3, 5, 12, 13, 14, 14, 17, 18, 18, 19]);
        let full = self.pair.model.nodes() > 16;
        let op = if full && op == 3 { 5 } else { op };
        if self.random.below(200) == 0 {
            let at = self.random.below(DEFINITIONS);
            let shape = shaped(&mut self.random, at);
            let call = Call::new(1, [0; 5], &write(&[shape]).bytes);
            self.pair.send(&call, &mut self.random)?;
        }
        if self.random.below(400) == 0 {
            self.pair.shuffle(&mut self.random);
        }
        let call = self.commands.kind(op, &self.pair.model);
        let sent = self.pair.send(&call, &mut self.random);
        sent.map(|_| ()).map_err(|what| format!("{what}: {call:?}"))
    }
}
