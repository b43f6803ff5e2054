//! All that an engine holds, as plain data: what two engines are compared by.

use super::slots::{Kept, Slots};
use super::tree::{Control, Kind, Place, Synth, Tree, ROOT};
use super::Engine;
use crate::read_definition;

#[derive(Clone, Debug, PartialEq, Eq)]
pub struct View {
    /// Depth first, head to tail.
    pub nodes: Vec<NodeView>,
    pub order: Vec<i32>,
    pub next: Option<i32>,
    pub latest: Option<i32>,
    /// Of each slot the definition, or none where the slot is free.
    pub slots: Vec<Option<SlotView>>,
    pub buses: Vec<u32>,
}

#[derive(Clone, Debug, PartialEq, Eq)]
pub struct NodeView {
    pub number: i32,
    pub depth: usize,
    pub on: bool,
    /// None for a group.
    pub synth: Option<SynthView>,
}

#[derive(Clone, Debug, PartialEq, Eq)]
pub struct SynthView {
    pub slot: usize,
    pub controls: Vec<Control>,
}

#[derive(Clone, Debug, PartialEq, Eq)]
pub struct SlotView {
    /// In the version 2 encoding.
    pub bytes: Vec<u8>,
    pub resident: bool,
}

impl Engine {
    pub fn view(&self) -> View {
        let root = self.tree.node(ROOT);
        let mut nodes = vec![NodeView {
            number: root.number,
            depth: 0,
            on: root.on,
            synth: None,
        }];
        self.tree.below(ROOT, &mut |node, depth| {
            nodes.push(NodeView {
                number: node.number,
                depth,
                on: node.on,
                synth: match &node.kind {
                    Kind::Group(_) => None,
                    Kind::Synth(synth) => Some(SynthView {
                        slot: synth.slot,
                        controls: synth.controls.clone(),
                    }),
                },
            });
        });
        let slot = |slot: &super::slots::Slot| {
            slot.kept.as_ref().map(|kept| SlotView {
                bytes: kept.bytes.clone(),
                resident: slot.resident,
            })
        };
        View {
            nodes,
            order: self.order.clone(),
            next: self.next,
            latest: self.latest,
            slots: self.slots.slots.iter().map(slot).collect(),
            buses: self.buses.clone(),
        }
    }

    /// The engine that holds this. The view is one of a well-formed state.
    pub fn of(view: &View) -> Engine {
        let mut slots = Slots::new();
        for (slot, seen) in view.slots.iter().enumerate() {
            if let Some(seen) = seen {
                let definition = read_definition(&seen.bytes).expect("it is readable");
                slots.put(
                    slot,
                    Kept::new(definition, seen.bytes.clone()),
                    seen.resident,
                );
            }
        }
        let mut tree = Tree::new();
        tree.turn(ROOT, view.nodes[0].on);
        // The group last met at each depth.
        let mut groups = vec![ROOT];
        for node in &view.nodes[1..] {
            groups.truncate(node.depth);
            let kind = match &node.synth {
                None => Kind::Group(Vec::new()),
                Some(synth) => {
                    slots.hold(synth.slot);
                    Kind::Synth(Synth {
                        slot: synth.slot,
                        controls: synth.controls.clone(),
                    })
                }
            };
            let parent = *groups.last().expect("the root is the first");
            let place = tree.add(node.number, kind, Place::Tail(parent));
            tree.turn(place, node.on);
            if node.synth.is_none() {
                groups.push(place);
            }
        }
        Engine {
            tree,
            slots,
            buses: view.buses.clone(),
            order: view.order.clone(),
            next: view.next,
            latest: view.latest,
        }
    }
}
