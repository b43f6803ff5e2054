//! The engine of the paper in plain Rust: what the proved engine is compared with.

mod commands;
mod query;
mod reply;
mod settings;
mod slots;
mod tree;
mod view;
mod why;

use crate::{read_versioned, write, Command, Fault, Key, Value, Version};
use slots::{Covered, Kept, Slots};
use tree::{Kind, Place, Synth, Tree, ROOT};

pub use commands::{Commands, Theme, EDGES};
pub use slots::SLOTS;
pub use tree::Control;
pub use view::{NodeView, SlotView, SynthView, View};
pub use why::Reason;

pub const MOST_NODES: usize = 256;
pub const BUSES: usize = 4096;

/// The first generated number, and the last.
pub const FIRST_GENERATED: i32 = -8;
pub const LAST_GENERATED: i32 = i32::MIN;

/// Integers up to this, and down to its negative, are values.
const MOST_INTEGER: u32 = 16_777_216;

/// The answer to what is no command of `apply`.
const UNKNOWN: u32 = 255;

/// How an engine answers: the length of the reply or the export, 0 for other commands.
pub type Answer = Result<usize, Fault>;

/// An answer as the exported function gives it.
pub fn packed(answer: Answer) -> u64 {
    match answer {
        Ok(length) => 256 * length as u64,
        Err(fault) => u64::from(fault.number) + 256 * fault.place,
    }
}

fn refuse<T>(number: u32) -> Result<T, Fault> {
    Err(Fault { number, place: 0 })
}

/// Gives a refusal unless something holds.
fn need(holds: bool, number: u32) -> Result<(), Fault> {
    if holds {
        Ok(())
    } else {
        refuse(number)
    }
}

#[derive(Clone, Debug)]
pub struct Engine {
    tree: Tree,
    slots: Slots,
    buses: Vec<u32>,
    /// The running order.
    order: Vec<i32>,
    /// The next number to be generated, if any is left.
    next: Option<i32>,
    /// The latest synth made by `/s_new`, if it lives.
    latest: Option<i32>,
}

impl Default for Engine {
    fn default() -> Engine {
        Engine::new()
    }
}

impl Engine {
    /// A fresh engine.
    pub fn new() -> Engine {
        Engine {
            tree: Tree::new(),
            slots: Slots::new(),
            buses: vec![0; BUSES],
            order: Vec::new(),
            next: Some(FIRST_GENERATED),
            latest: None,
        }
    }

    /// Does a command, or refuses it and changes nothing.
    pub fn apply(&mut self, command: &Command, reply: &mut [u8]) -> Answer {
        match *command {
            Command::Get { node, key } => return self.get(node, key, reply),
            Command::GetBus(bus) => return self.get_bus(bus, reply),
            Command::Query(node) => return self.query(node, reply),
            Command::QueryTree { group, flag } => return self.query_tree(group, flag, reply),
            Command::Status => return self.status(reply),
            Command::Export => return self.export(reply),
            // It takes a store too, which `recall` is lent.
            Command::Recall { .. } => return refuse(UNKNOWN),
            Command::Receive(file) => match read_versioned(file)? {
                (Version::One, definitions) => {
                    let twin = write(&definitions).bytes;
                    self.slots.load(definitions, &twin)
                }
                (Version::Two, definitions) => self.slots.load(definitions, file),
            },
            Command::Delete(name) => need(self.slots.retire(name), 16),
            Command::NewSynth {
                definition,
                number,
                action,
                target,
            } => self.new_synth(definition, number, action, target),
            Command::NewGroup {
                number,
                action,
                target,
            } => self.new_group(number, action, target),
            Command::Free(node) => self.free(node),
            Command::FreeAll(group) => self.free_all(group),
            Command::DeepFree(group) => self.deep_free(group),
            Command::Before(node, other) => self.shift_beside(node, other, Place::Before),
            Command::After(node, other) => self.shift_beside(node, other, Place::After),
            Command::Head(group, node) => self.shift_into(group, node, Place::Head),
            Command::Tail(group, node) => self.shift_into(group, node, Place::Tail),
            Command::Run(node, flag) => self.run(node, flag),
            Command::Set { node, key, value } => self.set(node, key, value),
            Command::Fill {
                node,
                key,
                count,
                value,
            } => self.fill(node, key, count, value),
            Command::Map { node, key, bus } => self.map(node, key, bus),
            Command::SetBus { bus, value } => self.fill_buses(bus, 1, value),
            Command::FillBuses {
                start,
                count,
                value,
            } => self.fill_buses(start, count, value),
        }?;
        Ok(0)
    }

    /// The node that a command names.
    fn find(&self, number: i32) -> Result<usize, Fault> {
        let number = match number {
            -1 => self.latest,
            0.. => Some(number),
            _ => None,
        };
        let place = number.and_then(|number| self.tree.find(number));
        place.map_or_else(|| refuse(17), Ok)
    }

    fn group(&self, number: i32) -> Result<usize, Fault> {
        let place = self.find(number)?;
        need(self.tree.node(place).is_group(), 18)?;
        Ok(place)
    }

    fn keep_order(&mut self) {
        self.order.clear();
        self.tree.running(ROOT, &mut self.order);
    }

    fn new_synth(
        &mut self,
        definition: &[u8],
        number: i32,
        action: i32,
        target: i32,
    ) -> Result<(), Fault> {
        need((0..=4).contains(&action), 13)?;
        need(number >= -1, 14)?;
        need(number == -1 || self.tree.find(number).is_none(), 15)?;
        let Some(slot) = self.slots.resident(definition) else {
            return refuse(16);
        };
        let (target, place) = self.place(action, target)?;
        let number = match (number, self.next) {
            (-1, None) => return refuse(25),
            (-1, Some(next)) => next,
            _ => number,
        };
        need(action == 4 || self.tree.count() < MOST_NODES, 20)?;
        if self.next == Some(number) {
            self.next = number.checked_sub(1);
        }
        self.slots.hold(slot);
        let initial = &self.slots.kept(slot).definition.initial;
        let controls = initial.iter().map(|&own| Control { own, bus: None });
        let controls = controls.collect();
        self.tree
            .add(number, Kind::Synth(Synth { slot, controls }), place);
        if action == 4 {
            self.remove(target);
        }
        self.latest = Some(number);
        self.keep_order();
        Ok(())
    }

    fn new_group(&mut self, number: i32, action: i32, target: i32) -> Result<(), Fault> {
        need((0..=4).contains(&action), 13)?;
        need(number >= 0, 14)?;
        need(self.tree.find(number).is_none(), 15)?;
        let (target, place) = self.place(action, target)?;
        need(action == 4 || self.tree.count() < MOST_NODES, 20)?;
        self.tree.add(number, Kind::Group(Vec::new()), place);
        if action == 4 {
            self.remove(target);
            self.keep_order();
        }
        Ok(())
    }

    /// The target of an add action, and where the new node goes. With action 4 the target is to go
    /// from behind it.
    fn place(&self, action: i32, target: i32) -> Result<(usize, Place), Fault> {
        let target = self.find(target)?;
        let place = match action {
            0 => Place::Head(target),
            1 => Place::Tail(target),
            2 | 4 => Place::Before(target),
            _ => Place::After(target),
        };
        let fits = match place {
            Place::Head(group) | Place::Tail(group) => self.tree.node(group).is_group(),
            Place::Before(node) | Place::After(node) => node != ROOT,
        };
        need(fits, 18)?;
        Ok((target, place))
    }

    /// Takes out a subtree.
    fn remove(&mut self, place: usize) {
        let (slots, latest) = (&mut self.slots, &mut self.latest);
        self.tree.free(place, &mut |node| gone(node, slots, latest));
    }

    fn free(&mut self, number: i32) -> Result<(), Fault> {
        let place = self.find(number)?;
        need(place != ROOT, 18)?;
        self.remove(place);
        self.keep_order();
        Ok(())
    }

    fn free_all(&mut self, number: i32) -> Result<(), Fault> {
        let group = self.group(number)?;
        let (slots, latest) = (&mut self.slots, &mut self.latest);
        self.tree
            .free_all(group, &mut |node| gone(node, slots, latest));
        self.keep_order();
        Ok(())
    }

    fn deep_free(&mut self, number: i32) -> Result<(), Fault> {
        let group = self.group(number)?;
        let (slots, latest) = (&mut self.slots, &mut self.latest);
        self.tree
            .deep_free(group, &mut |node| gone(node, slots, latest));
        self.keep_order();
        Ok(())
    }

    fn shift_beside(
        &mut self,
        node: i32,
        other: i32,
        place: fn(usize) -> Place,
    ) -> Result<(), Fault> {
        let node = self.find(node)?;
        let other = self.find(other)?;
        need(node != ROOT && other != ROOT, 18)?;
        self.shift(node, other, place)
    }

    fn shift_into(
        &mut self,
        group: i32,
        node: i32,
        place: fn(usize) -> Place,
    ) -> Result<(), Fault> {
        let group = self.find(group)?;
        let node = self.find(node)?;
        need(self.tree.node(group).is_group() && node != ROOT, 18)?;
        self.shift(node, group, place)
    }

    fn shift(&mut self, node: usize, to: usize, place: fn(usize) -> Place) -> Result<(), Fault> {
        need(!self.tree.is_in(to, node), 19)?;
        self.tree.shift(node, place(to));
        self.keep_order();
        Ok(())
    }

    fn run(&mut self, node: i32, flag: i32) -> Result<(), Fault> {
        need(flag == 0 || flag == 1, 13)?;
        let place = self.find(node)?;
        self.tree.turn(place, flag == 1);
        self.keep_order();
        Ok(())
    }

    /// Changes so many controls from the one that is named on, of a synth or of every synth below a group
    /// that has it. A synth must have them all, and a name must cover them; below a group a synth's are
    /// changed as far as that goes.
    fn change(
        &mut self,
        place: usize,
        first: First,
        count: usize,
        change: impl Fn(&mut Control),
    ) -> Result<(), Fault> {
        if let Some(synth) = self.tree.synth(place) {
            let Some(covered) = first.lookup(self.slots.kept(synth.slot)) else {
                return refuse(21);
            };
            need(covered.index + count <= synth.controls.len(), 21)?;
            need(count <= covered.width, 28)?;
        }
        let slots = &self.slots;
        self.tree.each_synth(place, &mut |synth| {
            if let Some(Covered { index, width }) = first.lookup(slots.kept(synth.slot)) {
                let end = index + count.min(width);
                if let Some(controls) = synth.controls.get_mut(index..end) {
                    controls.iter_mut().for_each(&change);
                }
            }
        });
        Ok(())
    }

    fn set(&mut self, node: i32, key: Key, value: Value) -> Result<(), Fault> {
        let place = self.find(node)?;
        let own = pattern(value)?;
        let set = |control: &mut Control| *control = Control { own, bus: None };
        self.change(place, key.first()?, 1, set)
    }

    fn fill(&mut self, node: i32, key: Key, count: i32, value: Value) -> Result<(), Fault> {
        let place = self.find(node)?;
        let own = pattern(value)?;
        let start = key.first()?;
        let Ok(count) = usize::try_from(count) else {
            return refuse(21);
        };
        let set = |control: &mut Control| *control = Control { own, bus: None };
        self.change(place, start, count, set)
    }

    fn map(&mut self, node: i32, key: Key, bus: i32) -> Result<(), Fault> {
        let place = self.find(node)?;
        let bus = match bus {
            -1 => None,
            _ => Some(bus_index(bus)?),
        };
        self.change(place, key.first()?, 1, |control| control.bus = bus)
    }

    fn fill_buses(&mut self, start: i32, count: i32, value: Value) -> Result<(), Fault> {
        let (Ok(start), Ok(count)) = (usize::try_from(start), usize::try_from(count)) else {
            return refuse(22);
        };
        let Some(buses) = self.buses.get_mut(start..start + count) else {
            return refuse(22);
        };
        buses.fill(pattern(value)?);
        Ok(())
    }

    /// How many nodes there are, with the root.
    pub fn nodes(&self) -> usize {
        self.tree.count()
    }

    /// Whether a number is that of a synth whose definition's name means another one by now.
    pub fn is_old_synth(&self, number: i32) -> bool {
        let place = self.tree.find(number);
        place
            .and_then(|place| self.tree.synth(place))
            .is_some_and(|synth| {
                let name = &self.slots.kept(synth.slot).definition.name;
                let resident = self.slots.resident(name);
                resident.is_some_and(|slot| slot != synth.slot)
            })
    }

    /// Sets the next number to be generated, as no command does.
    pub fn set_next(&mut self, next: Option<i32>) {
        self.next = next;
    }
}

/// What becomes of the slots and of the latest synth where a node is freed.
fn gone(node: &tree::Node, slots: &mut Slots, latest: &mut Option<i32>) {
    if let Kind::Synth(synth) = &node.kind {
        slots.release(synth.slot);
        if *latest == Some(node.number) {
            *latest = None;
        }
    }
}

/// A value's 32 bits.
fn pattern(value: Value) -> Result<u32, Fault> {
    match value {
        Value::Float(pattern) => Ok(pattern),
        Value::Integer(number) => {
            need(number.unsigned_abs() <= MOST_INTEGER, 23)?;
            Ok((number as f32).to_bits())
        }
    }
}

fn bus_index(bus: i32) -> Result<usize, Fault> {
    match usize::try_from(bus) {
        Ok(bus) if bus < BUSES => Ok(bus),
        _ => refuse(22),
    }
}

/// The first control that a command names: an index from 0, or a name.
#[derive(Clone, Copy)]
enum First<'a> {
    Index(usize),
    Name(&'a [u8]),
}

impl<'a> Key<'a> {
    fn first(self) -> Result<First<'a>, Fault> {
        match self {
            Key::Name(name) => Ok(First::Name(name)),
            Key::Index(index) => {
                usize::try_from(index).map_or_else(|_| refuse(21), |index| Ok(First::Index(index)))
            }
        }
    }
}

impl First<'_> {
    /// Where it stands among a synth's controls, and how far it goes: an index goes up to the last.
    fn lookup(self, kept: &Kept) -> Option<Covered> {
        match self {
            First::Index(index) => Some(Covered {
                index,
                width: kept.definition.initial.len().saturating_sub(index),
            }),
            First::Name(name) => kept.lookup(name),
        }
    }
}
