//! The page's data as JSON: the engine's answers at the start and, for each step, what differs. The
//! page puts them together again.
//!
//! A step is an object with the keys that it has use for:
//! - `freed`: the numbers of the nodes that are gone;
//! - `put`: nodes that came or moved, in the order of the tree, each with its number `n`, the group that
//!   it is `in` and its place `at` there. One that came has its run flag `on`, and, as a synth, its
//!   shape `s`, its `slot`, its `own` floats and, where one is mapped, its `bus` or -1 for each control;
//!   `again` is the line that freed the last node of this number, and that one's shape;
//! - `changed`: pairs of places and a change of the nodes there: the run flag `on`, and runs `c` of
//!   controls: first, how many, own float, bus, each of the last two null where it stays;
//! - `order`: the running order, as places; `latest`: what -1 means, or null; `status`: four numbers;
//! - `definitions`: slot, name, bytes or null where it is retired, and what became of it (0 stayed,
//!   1 came, 2 its name meant another before, 3 retired); `gone`: slot, name, 1 where it was retired;
//! - `buses`: runs of buses with another float: first, how many, float;
//! - `settings`: names under which saved settings are others: the name, its highest version, the versions that are gone, and those that came,
//!   each with its settings, pairs of a control's name and its float.
//!
//! Places are counted in the tree after the step, depth first, and written as runs: first, how many.
//! A shape is a definition's name with its controls, by its place in `shapes`, and -1 for a group.

use super::ask::{Answers, Definition, Node, Shape};
use super::compare::{compare, fate, gone, Change, Changed, Put};
use super::json::{float, list, or_null, runs, string, Object};
use super::settings;
use std::collections::HashMap;
use synthdef::show::quoted;

/// The shape of a group.
const GROUP: i64 = -1;

pub struct Data {
    /// The latest answers.
    before: Answers,
    /// By numbers of nodes that are gone, the line that freed the last and its shape.
    freed: HashMap<i32, (usize, i64)>,
    start: Object,
    steps: Vec<Object>,
}

impl Data {
    pub fn new(start: Answers) -> Data {
        let mut data = Data {
            before: Answers::default(),
            freed: HashMap::new(),
            start: Object::default(),
            steps: Vec::new(),
        };
        data.start = data.difference(0, [None; 2], start);
        data
    }

    /// Adds a step: its line, the nodes that it names, and the answers after it.
    pub fn step(&mut self, line: usize, named: [Option<i32>; 2], after: Answers) {
        let step = self.difference(line, named, after);
        self.steps.push(step);
    }

    /// The latest answers.
    pub fn answers(&self) -> &Answers {
        &self.before
    }

    /// All of it, a step a line.
    pub fn json(&self, shapes: &[Shape]) -> String {
        let shape = |shape: &Shape| {
            let controls = shape.controls.iter();
            let controls = controls.map(|control| string(&control.to_string()));
            list([string(&quoted(&shape.name)), list(controls)])
        };
        let shapes = list(shapes.iter().map(shape));
        let steps = self.steps.iter().map(|step| format!("\n{step}"));
        let mut data = Object::default();
        data.set("shapes", shapes);
        data.set("start", &self.start);
        data.set("steps", list(steps));
        data.to_string()
    }

    fn difference(&mut self, line: usize, named: [Option<i32>; 2], after: Answers) -> Object {
        let before = std::mem::take(&mut self.before);
        let difference = compare(&before, &after, named);
        let mut step = Object::default();
        for node in &before.nodes {
            if difference.freed.contains(&node.number) {
                let shape = shape(node);
                self.freed.insert(node.number, (line, shape));
            }
        }
        if !difference.freed.is_empty() {
            step.set("freed", list(&difference.freed));
        }
        if !difference.put.is_empty() {
            let put = |put: &Put| self.put(put, &after.nodes[put.place]);
            step.set("put", list(difference.put.iter().map(put)));
        }
        if !difference.changed.is_empty() {
            step.set("changed", changes(&difference.changed));
        }
        if difference.order {
            let place = |number: &i32| after.nodes.iter().position(|node| node.number == *number);
            step.set("order", runs(after.order.iter().filter_map(place)));
        }
        if difference.latest {
            step.set("latest", or_null(after.latest));
        }
        if difference.status {
            step.set("status", list(&after.status));
        }
        if difference.definitions {
            definitions(&before.definitions, &after.definitions, &mut step);
        }
        if !difference.buses.is_empty() {
            let runs = difference.buses.iter();
            let runs = runs.map(|run| {
                list([
                    run.first.to_string(),
                    run.count.to_string(),
                    float(run.float),
                ])
            });
            step.set("buses", list(runs));
        }
        if let Some(changes) = settings::changes(&before.settings, &after.settings) {
            step.set("settings", changes);
        }
        self.before = after;
        step
    }

    fn put(&self, put: &Put, node: &Node) -> Object {
        let mut object = Object::default();
        object.set("n", node.number);
        object.set("in", put.parent.unwrap_or(-1));
        object.set("at", put.index);
        if put.moved {
            return object;
        }
        object.set("on", u8::from(node.on));
        if let Some(synth) = &node.synth {
            object.set("s", synth.shape);
            object.set("slot", synth.slot);
            let controls = synth.controls.iter();
            object.set("own", list(controls.map(|control| float(control.own))));
            if synth.controls.iter().any(|control| control.bus.is_some()) {
                let controls = synth.controls.iter();
                object.set("bus", list(controls.map(|control| mapping(control.bus))));
            }
        }
        if let Some((line, shape)) = self.freed.get(&node.number) {
            object.set("again", format_args!("[{line},{shape}]"));
        }
        object
    }
}

/// A node's shape, by its place in the list of all.
fn shape(node: &Node) -> i64 {
    node.synth
        .as_ref()
        .map_or(GROUP, |synth| synth.shape as i64)
}

/// The changes, those that are alike together.
fn changes(changed: &[Changed]) -> String {
    let mut alike: Vec<(&Change, Vec<usize>)> = Vec::new();
    let mut found: HashMap<&Change, usize> = HashMap::new();
    for Changed { place, change } in changed {
        let at = *found.entry(change).or_insert_with(|| {
            alike.push((change, Vec::new()));
            alike.len() - 1
        });
        alike[at].1.push(*place);
    }
    list(alike.into_iter().map(|(change, places)| {
        let mut object = Object::default();
        if let Some(on) = change.on {
            object.set("on", u8::from(on));
        }
        if !change.controls.is_empty() {
            let runs = change.controls.iter().map(|run| {
                let (own, bus) = (or_null(run.own.map(float)), or_null(run.bus.map(mapping)));
                list([run.first.to_string(), run.count.to_string(), own, bus])
            });
            object.set("c", list(runs));
        }
        list([runs(places.into_iter()), object.to_string()])
    }))
}

/// A mapping, -1 where there is none.
fn mapping(bus: Option<usize>) -> String {
    bus.map_or_else(|| "-1".to_string(), |bus| bus.to_string())
}

fn definitions(before: &[Definition], after: &[Definition], step: &mut Object) {
    let now = after.iter().map(|definition| {
        let bytes = definition.bytes.as_ref().map(Vec::len);
        let fate = fate(definition, before) as u8;
        let (slot, name) = (definition.slot.to_string(), string(&definition.name));
        list([slot, name, or_null(bytes), fate.to_string()])
    });
    step.set("definitions", list(now));
    let gone = gone(before, after);
    if !gone.is_empty() {
        let gone = gone.iter().map(|definition| {
            let retired = u8::from(definition.bytes.is_none()).to_string();
            list([
                definition.slot.to_string(),
                string(&definition.name),
                retired,
            ])
        });
        step.set("gone", list(gone));
    }
}
