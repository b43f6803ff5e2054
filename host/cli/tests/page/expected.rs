//! What a page is to show, by what the independent engine holds.

use super::replay::{Marks, Shown, ShownNode, ShownSynth};
use independent::engine::{Control, NodeView, SlotView};
use independent::{read_definition, Command, Engine, View};
use std::collections::{BTreeMap, BTreeSet};

/// A float as the page has it.
pub fn float(pattern: u32) -> String {
    match f32::from_bits(pattern) {
        float if float.is_nan() => format!("NaN {pattern:08x}"),
        float => format!("{float:?}"),
    }
}

/// The bytes of a name that is shown, in quotes or not.
pub fn bytes_of(shown: &str) -> Vec<u8> {
    let Some(inner) = shown.strip_prefix('"') else {
        return shown.as_bytes().to_vec();
    };
    let inner = inner.strip_suffix('"').expect("quotes close").as_bytes();
    let mut bytes = Vec::new();
    let mut at = 0;
    while at < inner.len() {
        let (byte, length) = match &inner[at..] {
            [b'\\', b'x', high, low, ..] => {
                let digits = [*high, *low].map(char::from).iter().collect::<String>();
                (u8::from_str_radix(&digits, 16).expect("two digits"), 4)
            }
            [b'\\', byte, ..] => (*byte, 2),
            [byte, ..] => (*byte, 1),
            [] => unreachable!("it is not the end"),
        };
        bytes.push(byte);
        at += length;
    }
    bytes
}

/// A name as it is to be shown; what needs no quotes may have none.
pub fn name(bytes: &[u8]) -> String {
    let plain = |byte: &u8| byte.is_ascii_graphic() && !matches!(byte, b'"' | b'#' | b'\\');
    let digits = bytes
        .strip_prefix(b"-")
        .or(bytes.strip_prefix(b"+"))
        .unwrap_or(bytes);
    let integer = !digits.is_empty() && digits.iter().all(u8::is_ascii_digit);
    if !bytes.is_empty() && bytes.iter().all(plain) && !integer {
        String::from_utf8_lossy(bytes).into_owned()
    } else {
        super::quoted(bytes)
    }
}

pub fn shown(view: &View, engine: &Engine) -> Shown {
    let definition = |slot: usize| {
        let slot = view.slots[slot].as_ref().expect("a slot that is held");
        read_definition(&slot.bytes).expect("it is readable")
    };
    let synth = |slot: usize, controls: &[Control]| {
        let definition = definition(slot);
        let control = |(index, control): (usize, &Control)| {
            let first = definition
                .parameters
                .iter()
                .find(|entry| entry.1 == index as i32);
            let shown = first.map_or_else(|| index.to_string(), |entry| name(&entry.0));
            let bus = control.bus.map_or(-1, |bus| bus as i64);
            (shown, float(control.own), bus)
        };
        ShownSynth {
            slot: slot as i64,
            definition: name(&definition.name),
            controls: controls.iter().enumerate().map(control).collect(),
        }
    };
    let node = |node: &NodeView| ShownNode {
        number: i64::from(node.number),
        depth: node.depth,
        on: node.on,
        synth: node
            .synth
            .as_ref()
            .map(|own| synth(own.slot, &own.controls)),
    };
    let mut definitions = Vec::new();
    for resident in [true, false] {
        for (slot, seen) in view.slots.iter().enumerate() {
            if let Some(seen) = seen.as_ref().filter(|seen| seen.resident == resident) {
                let length = resident.then_some(seen.bytes.len() as i64);
                definitions.push((slot as i64, name(&definition(slot).name), length));
            }
        }
    }
    Shown {
        nodes: view.nodes.iter().map(node).collect(),
        order: view.order.iter().map(|&number| i64::from(number)).collect(),
        latest: view.latest.map(i64::from),
        status: status(view, engine),
        definitions,
        buses: view.buses.iter().map(|&pattern| float(pattern)).collect(),
    }
}

fn status(view: &View, engine: &Engine) -> Vec<i64> {
    let synths: Vec<usize> = (view.nodes.iter())
        .filter_map(|node| Some(node.synth.as_ref()?.slot))
        .collect();
    let units = synths.iter().map(|&slot| {
        let slot = view.slots[slot].as_ref().expect("a slot that is held");
        read_definition(&slot.bytes)
            .expect("it is readable")
            .units
            .len() as i64
    });
    let residents = view.slots.iter().flatten().filter(|slot| slot.resident);
    let groups = engine.nodes() - synths.len();
    vec![
        units.sum(),
        synths.len() as i64,
        groups as i64,
        residents.count() as i64,
    ]
}

/// What an accepted command is to be marked with, by what was and what is. Of a move it is the node
/// that the command moves, where the tree is another then.
pub fn marks(before: &View, after: &View, command: Option<Command>) -> Marks {
    let nodes = |view: &View| -> BTreeMap<i64, NodeView> {
        let nodes = view.nodes.iter();
        nodes
            .map(|node| (i64::from(node.number), node.clone()))
            .collect()
    };
    let (old, new) = (nodes(before), nodes(after));
    let numbers =
        |of: &BTreeMap<i64, NodeView>, other: &BTreeMap<i64, NodeView>| -> BTreeSet<i64> {
            of.keys()
                .filter(|number| !other.contains_key(number))
                .copied()
                .collect()
        };
    let held = |view: &View, node: &NodeView| -> (bool, Vec<(Control, u32)>) {
        let controls = node.synth.iter().flat_map(|synth| &synth.controls);
        let reads = |control: &Control| control.bus.map_or(control.own, |bus| view.buses[bus]);
        (
            node.on,
            controls.map(|control| (*control, reads(control))).collect(),
        )
    };
    let changed = |number: &&i64| {
        old.get(number)
            .is_some_and(|node| held(before, node) != held(after, &new[number]))
    };
    let tree = |view: &View| -> Vec<(i32, usize)> {
        view.nodes
            .iter()
            .map(|node| (node.number, node.depth))
            .collect()
    };
    let moved = match command {
        Some(Command::Before(node, _) | Command::After(node, _)) => Some(node),
        Some(Command::Head(_, node) | Command::Tail(_, node)) => Some(node),
        _ => None,
    };
    let moved = moved.filter(|_| tree(before) != tree(after));
    let moved = moved.map(|node| {
        if node == -1 {
            before.latest.expect("a latest")
        } else {
            node
        }
    });
    Marks {
        came: numbers(&new, &old),
        freed: numbers(&old, &new),
        moved: moved.into_iter().map(i64::from).collect(),
        changed: new.keys().filter(changed).copied().collect(),
        again: Vec::new(),
        definitions: fates(before, after),
        gone: gone(before, after),
    }
}

fn name_in(slot: &SlotView) -> Vec<u8> {
    read_definition(&slot.bytes).expect("it is readable").name
}

/// The slot that a name means.
fn meant(view: &View, name: &[u8]) -> Option<usize> {
    let means = |slot: &Option<SlotView>| {
        slot.as_ref()
            .is_some_and(|slot| slot.resident && name_in(slot) == name)
    };
    view.slots.iter().position(means)
}

/// Whether a slot holds a definition that no name means.
fn retired(view: &View, slot: usize) -> bool {
    view.slots[slot].as_ref().is_some_and(|slot| !slot.resident)
}

/// What became of the definitions that did not stay as they were: 1 came, 2 the name meant another,
/// 3 retired.
fn fates(before: &View, after: &View) -> Vec<(i64, i64)> {
    let mut fates = Vec::new();
    for (slot, seen) in after.slots.iter().enumerate() {
        let Some(seen) = seen.as_ref().filter(|seen| seen.resident) else {
            continue;
        };
        match meant(before, &name_in(seen)) {
            None => fates.push((slot as i64, 1)),
            Some(old) if old == slot && before.slots[slot] == after.slots[slot] => {}
            Some(_) => fates.push((slot as i64, 2)),
        }
    }
    for slot in (0..after.slots.len()).filter(|&slot| retired(after, slot)) {
        if !retired(before, slot) {
            fates.push((slot as i64, 3));
        }
    }
    fates
}

fn gone(before: &View, after: &View) -> Vec<(i64, bool)> {
    let mut gone = Vec::new();
    for (slot, seen) in before.slots.iter().enumerate() {
        if let Some(seen) = seen.as_ref().filter(|seen| seen.resident) {
            if meant(after, &name_in(seen)).is_none() && !retired(after, slot) {
                gone.push((slot as i64, false));
            }
        }
    }
    for slot in (0..before.slots.len()).filter(|&slot| retired(before, slot)) {
        if !retired(after, slot) {
            gone.push((slot as i64, true));
        }
    }
    gone
}
