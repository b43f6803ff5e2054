//! Why a number is silent, from paper 02, 7/14.

use super::Engine;

/// The first of these that is true.
#[derive(Clone, Copy, Debug, PartialEq, Eq)]
pub enum Reason {
    NoSuchNode,
    Group,
    /// A synth that is off by its own flag.
    Off,
    /// A synth that is on, below a group that is off: the number of the one nearest the root.
    AncestorOff(i32),
    /// A synth that runs: its place in the running order, from 1.
    Running(usize),
}

impl Reason {
    /// As the exported function answers.
    pub fn packed(self) -> u64 {
        let (reason, value) = match self {
            Reason::NoSuchNode => (1, 0),
            Reason::Group => (2, 0),
            Reason::Off => (3, 0),
            Reason::AncestorOff(number) => (4, number as u32),
            Reason::Running(place) => (5, place as u32),
        };
        reason << 8 | u64::from(value) << 16
    }
}

impl Engine {
    /// Why a number is silent, or where it runs. As it is no command, it can name a node below -1.
    pub fn why(&self, number: i32) -> Reason {
        let meant = match number {
            -1 => self.latest,
            _ => Some(number),
        };
        let Some(place) = meant.and_then(|number| self.tree.find(number)) else {
            return Reason::NoSuchNode;
        };
        let node = self.tree.node(place);
        if node.is_group() {
            return Reason::Group;
        }
        if !node.on {
            return Reason::Off;
        }
        // Going up, the last one that is off is nearest the root.
        let mut off = None;
        let mut at = place;
        while let Some(above) = self.tree.parent(at) {
            let group = self.tree.node(above);
            if !group.on {
                off = Some(group.number);
            }
            at = above;
        }
        match off {
            Some(number) => Reason::AncestorOff(number),
            None => {
                let before = self.order.iter().position(|&other| other == node.number);
                Reason::Running(1 + before.expect("what is on, with all above it, runs"))
            }
        }
    }
}
