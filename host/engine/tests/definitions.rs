//! Definitions that come, go and stay in use: slots, old shapes and the export.
//!
//! By hand from the paper first, then at random against the independent engine. The random part also
//! keeps its own account of what each name means and what each synth was made from, and works out
//! from it what the paper says of refusal 12, of the export and of where a set lands.

mod common;

use common::desk::{definition, float, Desk};
use common::pair::Pair;
use common::sequences;
use common::tally::{check, Tally};
use independent::engine::SLOTS;
use independent::{read, write, write_as, Call, Definition, Random, Shape, Version};
use independent::{MOST_BYTES, MOST_DEFINITIONS};
use std::collections::{BTreeMap, BTreeSet};
use std::rc::Rc;

const RAIN_AMP: u32 = 0x3f00_0000;
const RAIN_FADE: u32 = 0x4000_0000;
const NEW_FADE: u32 = 0x4040_0000;
const NEW_AMP: u32 = 0x3e80_0000;
const SET: u32 = 0x4110_0000;

/// `rain` as the old synth has it, and with its controls in another order.
fn rains() -> [Definition; 2] {
    [
        definition("rain", &["amp", "fade"], &[RAIN_AMP, RAIN_FADE]),
        definition("rain", &["fade", "amp", "wet"], &[NEW_FADE, NEW_AMP, 7]),
    ]
}

/// A definition without anything but its name.
fn empty(number: usize) -> Definition {
    definition(&format!("d{number:02}"), &[], &[])
}

fn names(file: &[u8]) -> Vec<String> {
    let definitions = read(file).expect("an export is readable");
    let text = |definition: Definition| String::from_utf8(definition.name).expect("it is ASCII");
    definitions.into_iter().map(text).collect()
}

#[test]
fn a_set_lands_on_the_old_shapes_index() {
    let rains = rains();
    let (old, new) = rains.split_at(1);
    // Deleted and loaded again, or loaded over.
    for deleted in [true, false] {
        let mut desk = Desk::with(old);
        desk.group(1, 0);
        desk.synth("rain", 1000, 1);
        if deleted {
            desk.done(2, [0; 5], b"rain");
            desk.refused(16, 3, [1001, 1, 1, 0, 0], b"rain");
            desk.refused(16, 2, [0; 5], b"rain");
        }
        desk.load(new);
        desk.set(1000, "fade", SET);
        assert_eq!([0, 1].map(|index| desk.read(1000, index)), [RAIN_AMP, SET]);
        // The old synth has no third control, by index or by name.
        desk.refused(21, 14, [1000, 0, 0, 0, 5], b"wet");
        desk.refused(21, 13, [1000, 2, 0, 0, 5], b"");
        desk.refused(21, 22, [1000, 0, 0, 0, 0], b"wet");
        // A new synth has the new shape; a set of the group finds each one's own.
        desk.synth("rain", 1001, 1);
        desk.set(1, "amp", 11);
        desk.set(1, "wet", 12);
        let values = [(1000, 2), (1001, 3)]
            .map(|(node, count)| Vec::from_iter((0..count).map(|index| desk.read(node, index))));
        assert_eq!(values, [vec![11, SET], vec![NEW_FADE, 11, 12]]);
        // So do a fill and a map by name.
        desk.done(16, [1, 0, 1, 0, 13], b"fade");
        desk.done(19, [7, 0, 0, 0, 14], b"");
        desk.done(18, [1, 0, 7, 0, 0], b"amp");
        let values = [(1000, 2), (1001, 3)]
            .map(|(node, count)| Vec::from_iter((0..count).map(|index| desk.read(node, index))));
        assert_eq!(values, [vec![14, 13], vec![13, 14, 12]]);
        // The export has the new one alone.
        assert_eq!(desk.export(), write(new).bytes);
    }
}

#[test]
fn a_retired_slot_is_free_with_its_last_synth() {
    let rains = rains();
    let (old, new) = rains.split_at(1);
    let ways: [fn(&mut Desk); 4] = [
        |desk| desk.done(5, [1001, 0, 0, 0, 0], b""),
        |desk| desk.done(6, [1, 0, 0, 0, 0], b""),
        |desk| desk.done(7, [0; 5], b""),
        |desk| desk.done(3, [2000, 4, 1001, 0, 0], b"d01"),
    ];
    for free in ways {
        let mut desk = Desk::with(old);
        desk.load(&Vec::from_iter((1..SLOTS).map(empty)));
        desk.group(1, 0);
        desk.synth("rain", 1000, 1);
        desk.synth("rain", 1001, 1);
        // Held by two, then by one: no slot.
        let file = write(new).bytes;
        desk.refused(12, 1, [0; 5], &file);
        desk.done(2, [0; 5], b"rain");
        desk.refused(12, 1, [0; 5], &file);
        desk.done(5, [1000, 0, 0, 0, 0], b"");
        desk.refused(12, 1, [0; 5], &file);
        free(&mut desk);
        desk.done(1, [0; 5], &file);
        // It has taken the lowest slot, so it is exported first.
        assert_eq!(names(&desk.export())[..2], ["rain", "d01"]);
    }
}

#[test]
fn refusal_12_just_at_its_bound() {
    for residents in 0..=MOST_DEFINITIONS {
        for replaced in [0, 1, residents / 2, residents] {
            let replaced = replaced.min(residents);
            let mut desk = Desk::with(&Vec::from_iter((0..residents).map(empty)));
            let before = desk.export();
            let first = residents - replaced;
            // Names from `first` on: so many replace, and the rest are new.
            let file = |count: usize| Vec::from_iter((first..first + count).map(empty));
            let most = SLOTS - first;
            if most < MOST_DEFINITIONS {
                let bytes = write(&file(most + 1)).bytes;
                desk.refused(12, 1, [0; 5], &bytes);
                assert_eq!(desk.export(), before, "whole or not at all");
            }
            desk.load(&file(most));
            assert_eq!(names(&desk.export()).len(), SLOTS);
            desk.refused(12, 1, [0; 5], &write(&[empty(99)]).bytes);
            // Nothing, and a name that is there, still load.
            desk.load(&[]);
            desk.load(&[empty(31)]);
        }
    }
}

#[test]
fn three_fit_and_the_fourth_does_not() {
    let mut desk = Desk::with(&Vec::from_iter((0..SLOTS - 3).map(empty)));
    let before = desk.export();
    let file = Vec::from_iter((40..44).map(empty));
    desk.refused(12, 1, [0; 5], &write(&file).bytes);
    assert_eq!(desk.export(), before);
    desk.refused(16, 3, [1000, 1, 0, 0, 0], b"d40");
    desk.load(&file[..3]);
    assert_eq!(names(&desk.export())[29..], ["d40", "d41", "d42"]);
}

#[test]
fn the_lowest_free_slots_in_file_order() {
    let mut desk = Desk::with(&Vec::from_iter((0..5).map(empty)));
    desk.synth("d03", 1000, 0);
    for name in ["d00", "d02", "d03"] {
        desk.done(2, [0; 5], name.as_bytes());
    }
    // Slots 0 and 2 are free, 3 is held, 1 is given up by its name.
    desk.load(&[empty(8), empty(1), empty(7), empty(6)]);
    let order = ["d08", "d01", "d07", "d04", "d06"];
    assert_eq!(names(&desk.export()), order);
    let mut other = Desk::with(&[]);
    other.done(1, [0; 5], &desk.export());
    assert_eq!(other.export(), desk.export());
}

const SEQUENCES: usize = 50;
const LENGTH: usize = 1500;

/// Names of controls. The definitions share them, at other indices.
const CONTROLS: [&[u8]; 5] = [b"amp", b"fade", b"freq", b"pan", b""];
const GROUPS: [i32; 2] = [901, 902];

#[test]
fn libraries_agree() {
    let tallies = sequences(SEQUENCES, LENGTH, Library::new, Library::turn, Library::end);
    check(
        &tallies,
        &[
            ("operations", 100_000),
            ("loads", 5000),
            ("loads of version 1 files", 2000),
            ("loads that take the last free slot", 500),
            ("loads of one more than fit", 500),
            ("files with a fault", 500),
            ("exports loaded into a fresh engine", 1000),
            ("sets of an old shape's index", 800),
        ],
    );
}

/// Both engines, and an account of their definitions.
struct Library {
    random: Random,
    pair: Pair,
    /// Others, which exports are loaded into.
    fresh: Pair,
    /// How many names are used again and again.
    names: usize,
    /// One load in so many is made to fit, or to be one too many.
    fits: usize,
    /// What each name means.
    meant: BTreeMap<Vec<u8>, Rc<Definition>>,
    /// What each synth was made from.
    synths: BTreeMap<i32, Rc<Definition>>,
    tally: Tally,
}

impl Library {
    fn new(mut random: Random) -> Library {
        let pair = Pair::fresh(&mut random);
        let fresh = Pair::fresh(&mut random);
        let mut library = Library {
            names: random.one_of(&[2, 6, 33, 50]),
            fits: random.one_of(&[3, 40]),
            random,
            pair,
            fresh,
            meant: BTreeMap::new(),
            synths: BTreeMap::new(),
            tally: Tally::default(),
        };
        for group in GROUPS {
            let call = Call::new(4, [group, 1, 0, 0, 0], b"");
            let made = library.pair.expect(0, &call, &mut library.random);
            made.expect("a group is made");
        }
        library
    }

    fn end(mut self) -> Tally {
        let operations = self.pair.sent + self.fresh.sent;
        self.tally.add("operations", operations);
        self.tally
    }

    fn turn(&mut self) -> Result<(), String> {
        match self.random.below(100) {
            0..=19 => self.load()?,
            20..=31 => {
                let name = self.resident();
                self.delete(name)?;
            }
            32..=55 => self.synth()?,
            56..=64 => self.free()?,
            65..=94 => self.set()?,
            95 => self.sweep()?,
            96..=97 => self.clear()?,
            98 => self.pair.shuffle(&mut self.random),
            _ => self.pair.compare_views()?,
        }
        Ok(())
    }

    fn name(&mut self) -> Vec<u8> {
        format!("name {}", self.random.below(self.names)).into_bytes()
    }

    /// The name of a resident, mostly.
    fn resident(&mut self) -> Vec<u8> {
        if self.meant.is_empty() || self.random.below(12) == 0 {
            return self.name();
        }
        let at = self.random.below(self.meant.len());
        let name = self.meant.keys().nth(at);
        name.expect("there are so many").clone()
    }

    fn definition(&mut self, name: Vec<u8>) -> Definition {
        let shape = match self.random.below(16) {
            0 => self.random.one_of(&Shape::ALL),
            1 => Shape::EMPTY,
            _ => Shape {
                initial: 6,
                parameters: 6,
                units: 2,
                ..Shape::SMALL
            },
        };
        let mut definition = self.random.short_definition(&shape);
        definition.name = name;
        for (control, _) in &mut definition.parameters {
            *control = self.random.one_of(&CONTROLS).to_vec();
        }
        // Mostly every control has a name, from one on that is another each time.
        let count = definition.initial.len();
        if count > 1 && self.random.below(4) > 0 {
            let first = self.random.below(CONTROLS.len());
            let name = |index: usize| CONTROLS[(first + index) % CONTROLS.len()].to_vec();
            let names = (0..count).map(|index| (name(index), index as i32));
            definition.parameters.splice(0..0, names);
        }
        if self.random.below(50) == 0 && definition.size() < MOST_BYTES {
            let bytes = MOST_BYTES + self.random.below(2);
            self.random.lengthen(&mut definition, bytes);
        }
        definition
    }

    /// How many slots stay taken where these names are loaded: those that a synth holds, and those of
    /// residents under other names.
    fn staying(&self, names: &BTreeSet<Vec<u8>>) -> usize {
        let held = self.synths.values();
        let others = self.meant.iter().filter(|(name, _)| !names.contains(*name));
        let slots = held.chain(others.map(|(_, definition)| definition));
        let slots: BTreeSet<*const Definition> = slots.map(Rc::as_ptr).collect();
        slots.len()
    }

    fn load(&mut self) -> Result<(), String> {
        let mut names = BTreeSet::new();
        let count = self.random.one_of(&[0, 1, 1, 1, 2, 4, 10]);
        for _ in 0..count {
            names.insert(match self.random.below(3) {
                0 => self.resident(),
                _ => self.name(),
            });
        }
        // As many as fit, or one more: a name that is resident makes its own room.
        if self.random.below(self.fits) == 0 {
            let more = self.random.below(2);
            for other in 0..2 * SLOTS {
                if names.len() >= SLOTS - self.staying(&names) + more {
                    break;
                }
                names.insert(format!("other {other}").into_bytes());
            }
        }
        let mut definitions: Vec<Definition> = Vec::new();
        for name in names {
            let place = self.random.below(definitions.len() + 1);
            definitions.insert(place, self.definition(name));
        }
        let names = definitions.iter();
        let names = names.map(|definition| definition.name.clone()).collect();
        let room = SLOTS - self.staying(&names);
        let version = self.random.one_of(&Version::ALL);
        let mut file = write_as(version, &definitions);
        if self.random.below(20) == 0 && !definitions.is_empty() {
            // The last definition is cut.
            let end = file.bytes.len() - 1 - self.random.below(10);
            file.bytes.truncate(end);
            self.tally.count("files with a fault", true);
            let call = Call::new(1, [0; 5], &file.bytes);
            let answer = self.pair.send(&call, &mut self.random)?;
            if !(2..=11).contains(&answer) {
                return Err(format!("answer {answer} to a file that is cut"));
            }
            return self.export();
        }
        let fault = file.fault().map(|fault| fault.number);
        let refusal = match fault {
            Some(number) => number,
            None if definitions.len() > room => 12,
            None => 0,
        };
        self.pair.expect(
            refusal,
            &Call::new(1, [0; 5], &file.bytes),
            &mut self.random,
        )?;
        let tally = &mut self.tally;
        tally.count("files with a fault", fault.is_some());
        tally.count("loads", refusal == 0);
        tally.count(
            "loads of version 1 files",
            refusal == 0 && version == Version::One,
        );
        tally.count(
            "loads that take the last free slot",
            refusal == 0 && definitions.len() == room,
        );
        tally.count(
            "loads of one more than fit",
            refusal == 12 && definitions.len() == room + 1,
        );
        if refusal == 0 {
            for definition in definitions {
                let name = definition.name.clone();
                self.meant.insert(name, Rc::new(definition));
            }
        }
        self.export()
    }

    /// The export reads as what the names mean, and a fresh engine takes it and gives it back.
    fn export(&mut self) -> Result<(), String> {
        let call = Call::new(27, [0; 5], b"");
        let file = self.pair.ask(&call)?.to_vec();
        let definitions = read(&file).map_err(|fault| format!("{fault:?} of an export"))?;
        let sorted: BTreeMap<&Vec<u8>, &Definition> = definitions
            .iter()
            .map(|definition| (&definition.name, definition))
            .collect();
        let meant = self.meant.iter();
        if !meant.map(|(name, kept)| (name, &**kept)).eq(sorted) {
            return Err("the export is not of what the names mean".to_string());
        }
        if self.random.below(3) == 0 {
            self.tally.count("exports loaded into a fresh engine", true);
            self.fresh.renew();
            let load = Call::new(1, [0; 5], &file);
            let answer = self.fresh.send(&load, &mut self.random)?;
            if answer != 0 || self.fresh.ask(&call)? != file {
                return Err("an export is not taken and given back".to_string());
            }
        }
        Ok(())
    }

    /// Deletes a few definitions or most of them.
    fn clear(&mut self) -> Result<(), String> {
        let part = 1 + self.random.below(4);
        for name in self.meant.keys().cloned().collect::<Vec<_>>() {
            if self.random.below(4) < part {
                self.delete(name)?;
            }
        }
        Ok(())
    }

    fn delete(&mut self, name: Vec<u8>) -> Result<(), String> {
        let refusal = match self.meant.remove(&name) {
            Some(_) => 0,
            None => 16,
        };
        self.pair
            .expect(refusal, &Call::new(2, [0; 5], &name), &mut self.random)
    }

    /// A live synth's number, if there is one.
    fn live(&mut self) -> Option<i32> {
        let at = self.random.below(self.synths.len().max(1));
        self.synths.keys().nth(at).copied()
    }

    /// The number of a synth whose definition's name means another one by now, if there is one.
    fn old(&mut self) -> Option<i32> {
        let is_old = |synth: &Rc<Definition>| {
            let today = self.meant.get(&synth.name);
            today.is_some_and(|today| !Rc::ptr_eq(today, synth))
        };
        let old = self.synths.iter().filter(|(_, synth)| is_old(synth));
        let old: Vec<i32> = old.map(|(number, _)| *number).collect();
        (!old.is_empty()).then(|| self.random.one_of(&old))
    }

    /// A new synth, now and then in the place of another.
    fn synth(&mut self) -> Result<(), String> {
        if self.synths.len() >= 60 {
            return self.sweep();
        }
        let number = 1 + self.random.below(800) as i32;
        let name = self.resident();
        let replaced = match self.random.below(5) {
            0 => self.live(),
            _ => None,
        };
        let refusal = match self.meant.get(&name) {
            _ if self.synths.contains_key(&number) => 15,
            None => 16,
            Some(_) => 0,
        };
        let numbers = match replaced {
            Some(synth) => [number, 4, synth, 0, 0],
            None => [number, 1, self.random.one_of(&GROUPS), 0, 0],
        };
        self.pair
            .expect(refusal, &Call::new(3, numbers, &name), &mut self.random)?;
        if refusal == 0 {
            replaced.map(|synth| self.synths.remove(&synth));
            self.synths.insert(number, self.meant[&name].clone());
        }
        Ok(())
    }

    fn free(&mut self) -> Result<(), String> {
        let Some(number) = self.live() else {
            return Ok(());
        };
        self.synths.remove(&number);
        self.pair.expect(
            0,
            &Call::new(5, [number, 0, 0, 0, 0], b""),
            &mut self.random,
        )
    }

    /// Frees all synths.
    fn sweep(&mut self) -> Result<(), String> {
        self.synths.clear();
        self.pair
            .expect(0, &Call::new(7, [0; 5], b""), &mut self.random)
    }

    /// Sets a control by its name, and reads it by the index that the synth's own definition has.
    fn set(&mut self) -> Result<(), String> {
        let control = self.random.one_of(&CONTROLS);
        let pattern = self.random.bits() as i32;
        let index = |definition: &Definition| {
            let mut entries = definition.parameters.iter();
            let entry = entries.find(|(name, _)| name == control);
            entry.map(|(_, index)| *index)
        };
        let number = match self.random.below(8) {
            0 => None,
            1..=5 => self.old(),
            _ => self.live(),
        };
        let Some(number) = number else {
            let group = self.random.one_of(&[0, GROUPS[0], GROUPS[1]]);
            return self.pair.expect(
                0,
                &Call::new(14, [group, 0, 0, 0, pattern], control),
                &mut self.random,
            );
        };
        let own = index(&self.synths[&number]);
        let refusal = if own.is_some() { 0 } else { 21 };
        self.pair.expect(
            refusal,
            &Call::new(14, [number, 0, 0, 0, pattern], control),
            &mut self.random,
        )?;
        let Some(own) = own else {
            return Ok(());
        };
        let get = Call::new(21, [number, own, 0, 0, 0], b"");
        if float(self.pair.ask(&get)?) != pattern as u32 {
            return Err(format!("the set of {number} is not at {own}"));
        }
        let today = self.meant.get(&self.synths[&number].name);
        let today = today.and_then(|definition| index(definition));
        self.tally.count(
            "sets of an old shape's index",
            today.is_some_and(|index| index != own),
        );
        Ok(())
    }
}
