//! The commands that reply, and the export.

use super::reply::{copy, Message};
use super::tree::{Control, Kind, Node};
use super::{bus_index, refuse, Answer, Engine};
use crate::Key;

impl Engine {
    /// What a control reads: the bus where it is mapped.
    fn value(&self, control: Control) -> u32 {
        control.bus.map_or(control.own, |bus| self.buses[bus])
    }

    pub(super) fn get(&self, node: i32, key: Key, reply: &mut [u8]) -> Answer {
        let place = self.find(node)?;
        let Some(synth) = self.tree.synth(place) else {
            return refuse(18);
        };
        let covered = key.first()?.lookup(self.slots.kept(synth.slot));
        let Some(&control) = covered.and_then(|covered| synth.controls.get(covered.index)) else {
            return refuse(21);
        };
        let mut message = Message::new();
        message.int(self.tree.node(place).number);
        match key {
            Key::Index(index) => message.int(index),
            Key::Name(name) => message.string(name),
        }
        message.float(self.value(control));
        message.write("/n_set", reply)
    }

    pub(super) fn get_bus(&self, bus: i32, reply: &mut [u8]) -> Answer {
        let pattern = self.buses[bus_index(bus)?];
        let mut message = Message::new();
        message.int(bus);
        message.float(pattern);
        message.write("/c_set", reply)
    }

    pub(super) fn query(&self, node: i32, reply: &mut [u8]) -> Answer {
        let place = self.find(node)?;
        let node = self.tree.node(place);
        let number =
            |place: Option<&usize>| place.map_or(-1, |&place| self.tree.node(place).number);
        let mut message = Message::new();
        message.int(node.number);
        match self.tree.parent(place) {
            Some(parent) => {
                let siblings = self.tree.node(parent).children();
                let position = self.tree.position(place);
                message.int(self.tree.node(parent).number);
                message.int(number(siblings[..position].last()));
                message.int(number(siblings.get(position + 1)));
            }
            None => (0..3).for_each(|_| message.int(-1)),
        }
        message.int(i32::from(node.is_group()));
        if node.is_group() {
            message.int(number(node.children().first()));
            message.int(number(node.children().last()));
        }
        message.write("/n_info", reply)
    }

    pub(super) fn query_tree(&self, group: i32, flag: i32, reply: &mut [u8]) -> Answer {
        let place = self.group(group)?;
        let group = self.tree.node(place);
        let mut message = Message::new();
        message.int(i32::from(flag != 0));
        message.int(group.number);
        message.int(group.children().len() as i32);
        self.tree.below(place, &mut |node, _| {
            self.tell(node, flag != 0, &mut message)
        });
        message.write("/g_queryTree.reply", reply)
    }

    /// One node of a tree reply.
    fn tell(&self, node: &Node, with_controls: bool, message: &mut Message) {
        message.int(node.number);
        let synth = match &node.kind {
            Kind::Group(children) => return message.int(children.len() as i32),
            Kind::Synth(synth) => synth,
        };
        let kept = self.slots.kept(synth.slot);
        message.int(-1);
        message.string(&kept.definition.name);
        if with_controls {
            message.int(synth.controls.len() as i32);
            for (index, control) in synth.controls.iter().enumerate() {
                match kept.name(index) {
                    Some(name) => message.string(name),
                    None => message.int(index as i32),
                }
                match control.bus {
                    Some(bus) => message.string(format!("c{bus}").as_bytes()),
                    None => message.float(control.own),
                }
            }
        }
    }

    pub(super) fn status(&self, reply: &mut [u8]) -> Answer {
        let held = self.slots.slots.iter().filter(|slot| slot.synths > 0);
        let (mut units, mut synths) = (0, 0);
        for slot in held {
            let definition = slot.kept.as_ref().map(|kept| &kept.definition);
            units += slot.synths * definition.map_or(0, |definition| definition.units.len());
            synths += slot.synths;
        }
        let groups = self.tree.count() - synths;
        let mut message = Message::new();
        for count in [units, synths, groups, self.slots.residents()] {
            message.int(count as i32);
        }
        message.write("/status.reply", reply)
    }

    pub(super) fn export(&self, buffer: &mut [u8]) -> Answer {
        let mut file = b"SCgf\0\0\0\x02\0".to_vec();
        file.push(self.slots.residents() as u8);
        for slot in self.slots.slots.iter().filter(|slot| slot.resident) {
            file.extend(slot.kept.iter().flat_map(|kept| &kept.bytes));
        }
        copy(&file, buffer)
    }
}
