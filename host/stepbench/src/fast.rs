//! An engine in plain Rust that is written for speed, for the commands of a list: nodes in a fixed table
//! with links, found by a hash of their numbers, and nothing allocated but by a load.
//!
//! It is no model: the commands that are timed are accepted, and where one is refused it says so and
//! stops, but not by which number.

use independent::{read, Command, Definition, Key, Value, ITEM, MOST_COMMANDS};

const NODES: usize = 256;
const SLOTS: usize = 32;
const BUSES: usize = 4096;
const CONTROLS: usize = 32;

/// The slot of a group.
const GROUP: u8 = SLOTS as u8;

/// No node, in a link and in the table of numbers.
const NONE: u16 = u16::MAX;

/// Twice the nodes or more, so that a search meets an empty place soon.
const PLACES: usize = 1024;

#[derive(Clone, Copy)]
struct Node {
    number: i32,
    slot: u8,
    on: bool,
    parent: u16,
    before: u16,
    after: u16,
    head: u16,
    tail: u16,
}

/// The own floats and the buses plus 1 of a node's controls.
#[derive(Clone, Copy)]
struct Row {
    own: [u32; CONTROLS],
    bus: [u16; CONTROLS],
}

#[derive(Default)]
struct Slot {
    definition: Option<Definition>,
    resident: bool,
    synths: u16,
}

pub struct Fast {
    nodes: Box<[Node; NODES]>,
    rows: Box<[Row; NODES]>,
    unused: Vec<u16>,
    /// Of a number, from its hash on, the place of its node.
    places: Box<[u16; PLACES]>,
    slots: Vec<Slot>,
    buses: Box<[u32; BUSES]>,
    order: Vec<i32>,
    next: i32,
    latest: u16,
}

fn hash(number: i32) -> usize {
    ((number as u32).wrapping_mul(0x9e37_79b1) >> 22) as usize
}

impl Fast {
    pub fn new() -> Fast {
        let root = Node {
            number: 0,
            slot: GROUP,
            on: true,
            parent: NONE,
            before: NONE,
            after: NONE,
            head: NONE,
            tail: NONE,
        };
        let row = Row {
            own: [0; CONTROLS],
            bus: [0; CONTROLS],
        };
        let mut fast = Fast {
            nodes: Box::new([root; NODES]),
            rows: Box::new([row; NODES]),
            unused: (1..NODES as u16).rev().collect(),
            places: Box::new([NONE; PLACES]),
            slots: (0..SLOTS).map(|_| Slot::default()).collect(),
            buses: Box::new([0; BUSES]),
            order: Vec::with_capacity(NODES),
            next: -8,
            latest: NONE,
        };
        fast.places[hash(0)] = 0;
        fast
    }

    /// Does the commands of a list as it is lent. Answers how many were accepted, or none where it is no
    /// list or is refused whole.
    pub fn list(&mut self, items: &[u32], bytes: &[u8]) -> Option<usize> {
        let whole = items.len() % ITEM == 0 && items.len() / ITEM <= MOST_COMMANDS;
        let silent = |item| command(item, bytes).is_some_and(|command| !command.replies());
        if !whole || !items.chunks_exact(ITEM).all(silent) {
            return None;
        }
        let mut accepted = 0;
        for item in items.chunks_exact(ITEM) {
            if self.apply(command(item, bytes)?).is_none() {
                break;
            }
            accepted += 1;
        }
        Some(accepted)
    }

    /// The running order, and the own floats of the synths in it: what two engines are compared by.
    pub fn running(&self) -> Vec<(i32, Vec<u32>)> {
        let own = |&number: &i32| {
            let place = self.find(number).expect("it lives") as usize;
            let controls = self.controls(place);
            (number, self.rows[place].own[..controls].to_vec())
        };
        self.order.iter().map(own).collect()
    }

    pub fn apply(&mut self, command: Command) -> Option<()> {
        match command {
            Command::Receive(file) => self.load(file),
            Command::Delete(name) => {
                let slot = self.resident(name)?;
                self.slots[slot].resident = false;
                self.release(slot)
            }
            Command::NewSynth {
                definition,
                number,
                action,
                target,
            } => {
                let slot = self.resident(definition)?;
                let number = match number {
                    -1 => self.next,
                    _ => number,
                };
                let place = self.put(number, slot as u8, action, target)?;
                self.next -= i32::from(number == self.next);
                self.slots[slot].synths += 1;
                let initial = &self.slots[slot].definition.as_ref()?.initial;
                let row = &mut self.rows[place as usize];
                row.own[..initial.len()].copy_from_slice(initial);
                row.bus[..initial.len()].fill(0);
                self.latest = place;
                self.keep_order()
            }
            Command::NewGroup {
                number,
                action,
                target,
            } => {
                self.put(number, GROUP, action, target)?;
                if action == 4 {
                    self.keep_order()?;
                }
                Some(())
            }
            Command::Free(node) => {
                let place = self.meant(node).filter(|&place| place != 0)?;
                self.unlink(place);
                self.drop(place);
                self.keep_order()
            }
            Command::FreeAll(group) => {
                let group = self.group(group)?;
                while let Some(child) = some(self.nodes[group as usize].head) {
                    self.unlink(child);
                    self.drop(child);
                }
                self.keep_order()
            }
            Command::DeepFree(group) => {
                let group = self.group(group)?;
                self.deep_free(group);
                self.keep_order()
            }
            Command::Before(node, other) => self.shift(node, other, 2),
            Command::After(node, other) => self.shift(node, other, 3),
            Command::Head(group, node) => self.shift(node, group, 0),
            Command::Tail(group, node) => self.shift(node, group, 1),
            Command::Run(node, flag) => {
                let place = self.meant(node)? as usize;
                if !(0..=1).contains(&flag) {
                    return None;
                }
                self.nodes[place].on = flag == 1;
                self.keep_order()
            }
            Command::Set { node, key, value } => {
                let own = pattern(value)?;
                self.change(node, key, 1, |row, at| {
                    row.own[at] = own;
                    row.bus[at] = 0;
                })
            }
            Command::Fill {
                node,
                key,
                count,
                value,
            } => {
                let own = pattern(value)?;
                let count = usize::try_from(count).ok()?;
                self.change(node, key, count, |row, at| {
                    row.own[at] = own;
                    row.bus[at] = 0;
                })
            }
            Command::Map { node, key, bus } => {
                let bus = u16::try_from(bus + 1).ok()?;
                if bus as usize > BUSES {
                    return None;
                }
                self.change(node, key, 1, |row, at| row.bus[at] = bus)
            }
            Command::SetBus { bus, value } => {
                *self.buses.get_mut(usize::try_from(bus).ok()?)? = pattern(value)?;
                Some(())
            }
            Command::FillBuses {
                start,
                count,
                value,
            } => {
                let (start, count) = (usize::try_from(start).ok()?, usize::try_from(count).ok()?);
                self.buses
                    .get_mut(start..start + count)?
                    .fill(pattern(value)?);
                Some(())
            }
            _ => None,
        }
    }
}

impl Fast {
    fn find(&self, number: i32) -> Option<u16> {
        let mut at = hash(number);
        loop {
            let place = some(self.places[at])?;
            if self.nodes[place as usize].number == number {
                return Some(place);
            }
            at = (at + 1) % PLACES;
        }
    }

    /// Takes a number out of the table, and moves up those that were put behind it.
    fn forget(&mut self, number: i32) {
        let mut hole = hash(number);
        while self.nodes[self.places[hole] as usize].number != number {
            hole = (hole + 1) % PLACES;
        }
        let mut at = hole;
        loop {
            at = (at + 1) % PLACES;
            let Some(place) = some(self.places[at]) else {
                break;
            };
            let home = hash(self.nodes[place as usize].number);
            if (at + PLACES - home) % PLACES >= (at + PLACES - hole) % PLACES {
                self.places[hole] = place;
                hole = at;
            }
        }
        self.places[hole] = NONE;
    }

    /// The node that a command names.
    fn meant(&self, number: i32) -> Option<u16> {
        match number {
            -1 => some(self.latest),
            0.. => self.find(number),
            _ => None,
        }
    }

    fn group(&self, number: i32) -> Option<u16> {
        let place = self.meant(number)?;
        (self.nodes[place as usize].slot == GROUP).then_some(place)
    }

    fn controls(&self, place: usize) -> usize {
        let slot = &self.slots[self.nodes[place].slot as usize];
        slot.definition
            .as_ref()
            .map_or(0, |definition| definition.initial.len())
    }

    fn resident(&self, name: &[u8]) -> Option<usize> {
        self.slots.iter().position(|slot| {
            let definition = slot.definition.as_ref().filter(|_| slot.resident);
            definition.is_some_and(|definition| definition.name == name)
        })
    }

    fn release(&mut self, slot: usize) -> Option<()> {
        let slot = &mut self.slots[slot];
        if !slot.resident && slot.synths == 0 {
            slot.definition = None;
        }
        Some(())
    }

    fn load(&mut self, file: &[u8]) -> Option<()> {
        let definitions = read(file).ok()?;
        let goes = |slot: &Slot| {
            let definition = slot.definition.as_ref();
            definition.is_none_or(|definition| {
                let again = definitions.iter().any(|new| new.name == definition.name);
                slot.synths == 0 && again
            })
        };
        if definitions.len() > self.slots.iter().filter(|slot| goes(slot)).count() {
            return None;
        }
        for definition in &definitions {
            if let Some(slot) = self.resident(&definition.name) {
                self.slots[slot].resident = false;
                self.release(slot);
            }
        }
        for definition in definitions {
            let free = self.slots.iter_mut().find(|slot| slot.definition.is_none());
            *free? = Slot {
                definition: Some(definition),
                resident: true,
                synths: 0,
            };
        }
        Some(())
    }

    /// Puts in a new node that is on.
    fn put(&mut self, number: i32, slot: u8, action: i32, target: i32) -> Option<u16> {
        if !(0..=4).contains(&action) || number == 0 || self.find(number).is_some() {
            return None;
        }
        let target = self.meant(target)?;
        if action < 2 && self.nodes[target as usize].slot != GROUP || action >= 2 && target == 0 {
            return None;
        }
        if action == 4 && self.unused.is_empty() {
            // The target's place is the new node's.
            let (parent, before) = {
                let node = self.nodes[target as usize];
                (node.parent, node.before)
            };
            self.unlink(target);
            self.drop(target);
            let place = self.unused.pop()?;
            self.begin(place, number, slot);
            self.link(place, parent, before);
            return Some(place);
        }
        let place = self.unused.pop()?;
        self.begin(place, number, slot);
        self.join(place, target, action)?;
        if action == 4 {
            self.unlink(target);
            self.drop(target);
        }
        Some(place)
    }

    fn begin(&mut self, place: u16, number: i32, slot: u8) {
        self.nodes[place as usize] = Node {
            number,
            slot,
            on: true,
            parent: NONE,
            before: NONE,
            after: NONE,
            head: NONE,
            tail: NONE,
        };
        let mut at = hash(number);
        while self.places[at] != NONE {
            at = (at + 1) % PLACES;
        }
        self.places[at] = place;
    }

    /// Links a node where an add action says.
    fn join(&mut self, place: u16, target: u16, action: i32) -> Option<()> {
        let node = self.nodes[target as usize];
        let (parent, before) = match action {
            0 => (target, NONE),
            1 => (target, node.tail),
            2 | 4 => (node.parent, node.before),
            3 => (node.parent, target),
            _ => return None,
        };
        self.link(place, parent, before);
        Some(())
    }

    /// Links a node below a parent, behind a sibling or at the head.
    fn link(&mut self, place: u16, parent: u16, before: u16) {
        let after = match some(before) {
            Some(before) => std::mem::replace(&mut self.nodes[before as usize].after, place),
            None => std::mem::replace(&mut self.nodes[parent as usize].head, place),
        };
        match some(after) {
            Some(after) => self.nodes[after as usize].before = place,
            None => self.nodes[parent as usize].tail = place,
        }
        let node = &mut self.nodes[place as usize];
        (node.parent, node.before, node.after) = (parent, before, after);
    }

    fn unlink(&mut self, place: u16) {
        let Node {
            parent,
            before,
            after,
            ..
        } = self.nodes[place as usize];
        match some(before) {
            Some(before) => self.nodes[before as usize].after = after,
            None => self.nodes[parent as usize].head = after,
        }
        match some(after) {
            Some(after) => self.nodes[after as usize].before = before,
            None => self.nodes[parent as usize].tail = before,
        }
    }

    /// Frees a node with all below it.
    fn drop(&mut self, place: u16) {
        let node = self.nodes[place as usize];
        self.forget(node.number);
        self.unused.push(place);
        if node.slot != GROUP {
            if self.latest == place {
                self.latest = NONE;
            }
            self.slots[node.slot as usize].synths -= 1;
            self.release(node.slot as usize);
        }
        let mut child = node.head;
        while let Some(place) = some(child) {
            child = self.nodes[place as usize].after;
            self.drop(place);
        }
    }

    fn deep_free(&mut self, group: u16) {
        let mut child = self.nodes[group as usize].head;
        while let Some(place) = some(child) {
            child = self.nodes[place as usize].after;
            if self.nodes[place as usize].slot == GROUP {
                self.deep_free(place);
            } else {
                self.unlink(place);
                self.drop(place);
            }
        }
    }

    fn shift(&mut self, node: i32, to: i32, action: i32) -> Option<()> {
        let (node, to) = (self.meant(node)?, self.meant(to)?);
        let fits = if action < 2 {
            self.nodes[to as usize].slot == GROUP
        } else {
            to != 0
        };
        if node == 0 || !fits {
            return None;
        }
        let mut above = to;
        while above != 0 {
            if above == node {
                return None;
            }
            above = self.nodes[above as usize].parent;
        }
        self.unlink(node);
        self.join(node, to, action)?;
        self.keep_order()
    }

    /// Works out the running order: down where a group is on, else on.
    fn keep_order(&mut self) -> Option<()> {
        self.order.clear();
        let mut at = 0;
        loop {
            let node = &self.nodes[at as usize];
            if node.on && node.slot != GROUP {
                self.order.push(node.number);
            }
            let mut next = if node.on { node.head } else { NONE };
            while next == NONE {
                if at == 0 {
                    return Some(());
                }
                next = self.nodes[at as usize].after;
                if next == NONE {
                    at = self.nodes[at as usize].parent;
                }
            }
            at = next;
        }
    }

    /// Changes so many controls of a synth, or of each below a group that has them.
    fn change(
        &mut self,
        node: i32,
        key: Key,
        count: usize,
        change: impl Fn(&mut Row, usize) + Copy,
    ) -> Option<()> {
        let place = self.meant(node)?;
        if self.nodes[place as usize].slot != GROUP {
            let (start, width) = self.covered(place, key)?;
            if start + count > self.controls(place as usize) || count > width {
                return None;
            }
            let row = &mut self.rows[place as usize];
            (start..start + count).for_each(|at| change(row, at));
            return Some(());
        }
        if let Key::Index(..0) = key {
            return None;
        }
        let mut child = self.nodes[place as usize].head;
        while let Some(place) = some(child) {
            let Node {
                number,
                slot,
                after,
                ..
            } = self.nodes[place as usize];
            child = after;
            if slot == GROUP {
                self.change(number, key, count, change)?;
            } else if let Some((start, width)) = self.covered(place, key) {
                let end = start + count.min(width);
                let row = &mut self.rows[place as usize];
                (start..end).for_each(|at| change(row, at));
            }
        }
        Some(())
    }

    /// The first control that is meant, and how many there are from it on: of a name up to the next larger
    /// index that has one.
    fn covered(&self, place: u16, key: Key) -> Option<(usize, usize)> {
        let controls = self.controls(place as usize);
        match key {
            Key::Index(index) => {
                let index = usize::try_from(index).ok()?;
                Some((index, controls.saturating_sub(index)))
            }
            Key::Name(name) => {
                let slot = &self.slots[self.nodes[place as usize].slot as usize];
                let entries = &slot.definition.as_ref()?.parameters;
                let (_, index) = entries.iter().find(|(entry, _)| entry == name)?;
                let mut end = controls as i32;
                for (_, other) in entries {
                    if (index + 1..end).contains(other) {
                        end = *other;
                    }
                }
                Some((*index as usize, (end - index) as usize))
            }
        }
    }
}

fn some(place: u16) -> Option<u16> {
    (place != NONE).then_some(place)
}

/// The command of an item.
fn command<'a>(item: &[u32], bytes: &'a [u8]) -> Option<Command<'a>> {
    let &[op, a, b, c, d, e, start, length, 0, 0, 0, 0] = item else {
        return None;
    };
    let end = (start as usize).checked_add(length as usize)?;
    Command::of(op, [a, b, c, d, e], bytes.get(start as usize..end)?)
}

/// A value's 32 bits.
fn pattern(value: Value) -> Option<u32> {
    match value {
        Value::Float(pattern) => Some(pattern),
        Value::Integer(number) if number.unsigned_abs() <= 1 << 24 => {
            Some((number as f32).to_bits())
        }
        Value::Integer(_) => None,
    }
}
