//! What a page shows at each step: its data, put together as the page's own script does it.

use super::json::Json;
use std::collections::{BTreeSet, HashMap};

/// All that is shown but for marks. Floats and names are text.
#[derive(Clone, Debug, Default, PartialEq)]
pub struct Shown {
    /// Depth first, head to tail.
    pub nodes: Vec<ShownNode>,
    pub order: Vec<i64>,
    pub latest: Option<i64>,
    pub status: Vec<i64>,
    /// Slot, name, and the length of a resident.
    pub definitions: Vec<(i64, String, Option<i64>)>,
    pub buses: Vec<String>,
}

#[derive(Clone, Debug, PartialEq)]
pub struct ShownNode {
    pub number: i64,
    pub depth: usize,
    pub on: bool,
    pub synth: Option<ShownSynth>,
}

/// A control is its name, its own float and its bus, or -1.
#[derive(Clone, Debug, PartialEq)]
pub struct ShownSynth {
    pub slot: i64,
    pub definition: String,
    pub controls: Vec<(String, String, i64)>,
}

/// The marks of a step.
#[derive(Debug, Default, PartialEq)]
pub struct Marks {
    pub came: BTreeSet<i64>,
    pub moved: BTreeSet<i64>,
    pub freed: BTreeSet<i64>,
    pub changed: BTreeSet<i64>,
    /// The nodes that came whose number was used before, with the line that freed the last.
    pub again: Vec<(i64, i64)>,
    /// The slots of definitions that did not stay as they were, with what became of them.
    pub definitions: Vec<(i64, i64)>,
    /// The slots of definitions that are gone, and whether they were retired.
    pub gone: Vec<(i64, bool)>,
}

struct Node {
    up: i64,
    children: Vec<i64>,
    node: ShownNode,
}

/// Saved settings under a name: its highest version, and the versions, each with its controls and their floats.
#[derive(Clone, Debug, Default, PartialEq)]
pub struct ShownSettings {
    pub name: String,
    pub highest: i64,
    pub versions: Vec<(i64, Vec<(String, String)>)>,
}

pub struct Replay<'a> {
    shapes: &'a [Json],
    nodes: HashMap<i64, Node>,
    pub shown: Shown,
    pub settings: Vec<ShownSettings>,
}

impl<'a> Replay<'a> {
    pub fn new(data: &'a Json) -> Replay<'a> {
        let mut replay = Replay {
            shapes: data.list_at("shapes"),
            nodes: HashMap::new(),
            settings: Vec::new(),
            shown: Shown {
                buses: vec!["0.0".to_string(); 4096],
                ..Shown::default()
            },
        };
        replay.step(data.get("start").expect("a start"));
        replay
    }

    pub fn step(&mut self, step: &Json) -> Marks {
        let mut marks = Marks::default();
        let puts = step.list_at("put");
        for put in puts {
            let number = number_at(put, "n");
            match put.get("on") {
                Some(_) => marks.came.insert(number),
                None => marks.moved.insert(number),
            };
        }
        marks.freed = step.list_at("freed").iter().map(Json::number).collect();
        for number in marks.moved.iter().chain(&marks.freed) {
            let up = self.nodes[number].up;
            let siblings = &mut self.nodes.get_mut(&up).expect("a parent").children;
            siblings.retain(|child| child != number);
        }
        self.nodes.retain(|number, _| !marks.freed.contains(number));
        for put in puts {
            self.put(put, &mut marks);
        }
        self.flatten();
        for pair in step.list_at("changed") {
            let [places, change] = pair.list() else {
                panic!("{pair:?} is no pair");
            };
            for place in places_of(places) {
                let number = self.shown.nodes[place].number;
                marks.changed.insert(number);
                alter(
                    &mut self.nodes.get_mut(&number).expect("a node").node,
                    change,
                );
            }
        }
        self.flatten();
        if let Some(order) = step.get("order") {
            let numbers = places_of(order).into_iter();
            self.shown.order = numbers
                .map(|place| self.shown.nodes[place].number)
                .collect();
        }
        if let Some(latest) = step.get("latest") {
            self.shown.latest = latest.some().map(Json::number);
        }
        if let Some(status) = step.get("status") {
            self.shown.status = status.list().iter().map(Json::number).collect();
        }
        if let Some(definitions) = step.get("definitions") {
            let definition = |definition: &Json| {
                let [slot, name, bytes, _] = definition.list() else {
                    panic!("{definition:?} is no definition");
                };
                let bytes = bytes.some().map(Json::number);
                (slot.number(), name.string().to_string(), bytes)
            };
            self.shown.definitions = definitions.list().iter().map(definition).collect();
        }
        for definition in step.list_at("definitions") {
            let [slot, .., fate] = definition.list() else {
                panic!("{definition:?} is no definition");
            };
            if fate.number() != 0 {
                marks.definitions.push((slot.number(), fate.number()));
            }
        }
        for definition in step.list_at("gone") {
            let [slot, _, retired] = definition.list() else {
                panic!("{definition:?} is no definition");
            };
            marks.gone.push((slot.number(), retired.number() == 1));
        }
        for run in step.list_at("buses") {
            let [first, count, float] = run.list() else {
                panic!("{run:?} is no run");
            };
            let first = first.number() as usize;
            let run = &mut self.shown.buses[first..first + count.number() as usize];
            run.fill(float.string().to_string());
        }
        for change in step.list_at("settings") {
            self.save(change);
        }
        marks
    }

    /// What a step did to the settings under a name.
    fn save(&mut self, change: &Json) {
        let [name, highest, gone, came] = change.list() else {
            panic!("{change:?} is no change of settings");
        };
        let name = name.string().to_string();
        let place = self.settings.iter().position(|entry| entry.name == name);
        let place = place.unwrap_or_else(|| {
            self.settings.push(ShownSettings {
                name,
                ..ShownSettings::default()
            });
            self.settings.len() - 1
        });
        let entry = &mut self.settings[place];
        entry.highest = highest.number();
        for number in gone.list().iter().map(Json::number) {
            let before = entry.versions.len();
            entry.versions.retain(|(own, _)| *own != number);
            assert_eq!(entry.versions.len(), before - 1, "what is gone was there");
        }
        let text = |json: &Json| json.string().to_string();
        for version in came.list() {
            let [number, settings] = version.list() else {
                panic!("{version:?} is no version");
            };
            let settings = settings.list().iter().map(Json::list);
            let settings = settings.map(|pair| (text(&pair[0]), text(&pair[1])));
            entry.versions.push((number.number(), settings.collect()));
        }
    }

    fn put(&mut self, put: &Json, marks: &mut Marks) {
        let (number, up) = (number_at(put, "n"), number_at(put, "in"));
        if let Some(on) = put.get("on") {
            let synth = put.get("s").map(|shape| {
                let shape = self.shapes[shape.number() as usize].list();
                let own = put.list_at("own").iter();
                let names = shape[1].list().iter().zip(own).enumerate();
                let bus =
                    |index: usize| put.get("bus").map_or(-1, |bus| bus.list()[index].number());
                let text = |json: &Json| json.string().to_string();
                ShownSynth {
                    slot: number_at(put, "slot"),
                    definition: text(&shape[0]),
                    controls: names
                        .map(|(index, (name, own))| (text(name), text(own), bus(index)))
                        .collect(),
                }
            });
            let node = ShownNode {
                number,
                depth: 0,
                on: on.number() == 1,
                synth,
            };
            let children = Vec::new();
            self.nodes.insert(number, Node { up, children, node });
            if let [line, _] = put.list_at("again") {
                marks.again.push((number, line.number()));
            }
        }
        self.nodes.get_mut(&number).expect("it is there").up = up;
        if let Some(parent) = self.nodes.get_mut(&up) {
            parent
                .children
                .insert(number_at(put, "at") as usize, number);
        }
    }

    fn flatten(&mut self) {
        self.shown.nodes.clear();
        let mut left = vec![(0, 0)];
        while let Some((number, depth)) = left.pop() {
            let Node { children, node, .. } = &self.nodes[&number];
            self.shown.nodes.push(ShownNode {
                depth,
                ..node.clone()
            });
            let children = children.iter().rev();
            left.extend(children.map(|&child| (child, depth + 1)));
        }
    }
}

fn number_at(json: &Json, key: &str) -> i64 {
    json.get(key).expect(key).number()
}

fn places_of(runs: &Json) -> Vec<usize> {
    let runs: Vec<usize> = runs
        .list()
        .iter()
        .map(|run| run.number() as usize)
        .collect();
    let runs = runs.chunks_exact(2);
    runs.flat_map(|run| run[0]..run[0] + run[1]).collect()
}

fn alter(node: &mut ShownNode, change: &Json) {
    if let Some(on) = change.get("on") {
        node.on = on.number() == 1;
    }
    for run in change.list_at("c") {
        let [first, count, own, bus] = run.list() else {
            panic!("{run:?} is no run of controls");
        };
        let first = first.number() as usize;
        let synth = node.synth.as_mut().expect("a synth has controls");
        for control in &mut synth.controls[first..first + count.number() as usize] {
            if let Some(own) = own.some() {
                control.1 = own.string().to_string();
            }
            if let Some(bus) = bus.some() {
                control.2 = bus.number();
            }
        }
    }
}
