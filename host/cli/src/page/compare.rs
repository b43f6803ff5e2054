//! What differs between the engine's answers before a command and those after it. What the command is
//! plays no part.

use super::ask::{Answers, Definition, Node};
use std::collections::{HashMap, HashSet};

/// Where nothing differs, all is empty or false.
#[derive(Debug, Default, PartialEq, Eq)]
pub struct Difference {
    /// Nodes that are gone, by their numbers, in the order before.
    pub freed: Vec<i32>,
    /// Nodes that came or moved, in the order after.
    pub put: Vec<Put>,
    /// Nodes that stayed and are not as they were, in the order after.
    pub changed: Vec<Changed>,
    pub order: bool,
    pub latest: bool,
    pub status: bool,
    pub definitions: bool,
    /// Buses that have another float.
    pub buses: Vec<BusRun>,
}

/// Buses in a row that have one float.
#[derive(Debug, PartialEq, Eq)]
pub struct BusRun {
    pub first: usize,
    pub count: usize,
    pub float: u32,
}

#[derive(Debug, PartialEq, Eq)]
pub struct Put {
    /// In the order after.
    pub place: usize,
    pub parent: Option<i32>,
    /// Among the parent's children.
    pub index: usize,
    /// Whether it was elsewhere before.
    pub moved: bool,
}

#[derive(Debug, PartialEq, Eq)]
pub struct Changed {
    pub place: usize,
    pub change: Change,
}

/// Empty where only a bus that a control follows has another float.
#[derive(Clone, Debug, Default, PartialEq, Eq, Hash)]
pub struct Change {
    /// The run flag.
    pub on: Option<bool>,
    pub controls: Vec<ControlRun>,
}

/// Controls in a row that changed alike.
#[derive(Clone, Debug, PartialEq, Eq, Hash)]
pub struct ControlRun {
    pub first: usize,
    pub count: usize,
    /// The own float, where it is another.
    pub own: Option<u32>,
    /// The mapping, where it is another.
    pub bus: Option<Option<usize>>,
}

/// What became of a definition.
#[derive(Clone, Copy, Debug, PartialEq, Eq)]
pub enum Fate {
    Stayed,
    Came,
    /// The name meant another definition before.
    Replaced,
    /// No name means it any more, and synths hold it.
    Retired,
}

/// Compares. Two neighbours that change places leave the same tree whichever of them moved; then the
/// one that `named` has first is said to have moved.
pub fn compare(before: &Answers, after: &Answers, named: [Option<i32>; 2]) -> Difference {
    let old = Tree::of(&before.nodes);
    let new = Tree::of(&after.nodes);
    let same = |number: &i32| match (old.node(*number), new.node(*number)) {
        (Some(old), Some(new)) => is_same(old, new),
        _ => false,
    };
    let mut staying: HashSet<i32> = HashSet::new();
    for (parent, children) in &new.children {
        if let Some(earlier) = old.children.get(parent) {
            let (earlier, children) = (earlier.iter().copied(), children.iter().copied());
            let earlier: Vec<i32> = earlier.filter(same).collect();
            staying.extend(keeping(&earlier, &children.collect::<Vec<_>>(), named));
        }
    }
    let buses = buses(&before.buses, &after.buses);
    let mut difference = Difference {
        order: before.order != after.order,
        latest: before.latest != after.latest,
        status: before.status != after.status,
        definitions: before.definitions != after.definitions,
        ..Difference::default()
    };
    let numbers = before.nodes.iter().map(|node| node.number);
    difference.freed = numbers.filter(|number| !same(number)).collect();
    for (place, node) in after.nodes.iter().enumerate() {
        let moved = same(&node.number);
        if !staying.contains(&node.number) {
            let (parent, index) = new.places[&node.number];
            difference.put.push(Put {
                place,
                parent,
                index,
                moved,
            });
        }
        if let Some(earlier) = old.node(node.number).filter(|_| moved) {
            let change = change(earlier, node);
            if change != Change::default() || follows(node, &buses) {
                difference.changed.push(Changed { place, change });
            }
        }
    }
    difference.buses = buses;
    difference
}

/// Whether a node before and a node after of one number are one node: a number that is taken is
/// given to no other, and a synth keeps its definition.
fn is_same(old: &Node, new: &Node) -> bool {
    match (&old.synth, &new.synth) {
        (None, None) => true,
        (Some(old), Some(new)) => old.slot == new.slot && old.shape == new.shape,
        _ => false,
    }
}

/// The nodes by their numbers.
struct Tree<'a> {
    nodes: HashMap<i32, &'a Node>,
    /// Each node's parent, and its place among the children.
    places: HashMap<i32, (Option<i32>, usize)>,
    /// Under none stands the root.
    children: HashMap<Option<i32>, Vec<i32>>,
}

impl<'a> Tree<'a> {
    fn of(nodes: &'a [Node]) -> Tree<'a> {
        let mut tree = Tree {
            nodes: HashMap::new(),
            places: HashMap::new(),
            children: HashMap::new(),
        };
        // The node last met at each depth.
        let mut above: Vec<i32> = Vec::new();
        for node in nodes {
            above.truncate(node.depth);
            let parent = above.last().copied();
            let children = tree.children.entry(parent).or_default();
            tree.nodes.insert(node.number, node);
            tree.places.insert(node.number, (parent, children.len()));
            children.push(node.number);
            above.push(node.number);
        }
        tree
    }

    fn node(&self, number: i32) -> Option<&'a Node> {
        self.nodes.get(&number).copied()
    }
}

/// The children that keep their order from the list before to the list after: as many as can, and of
/// several such choices one that leaves out a named number.
fn keeping(before: &[i32], after: &[i32], named: [Option<i32>; 2]) -> Vec<i32> {
    let common: Vec<(i32, usize)> = after
        .iter()
        .filter_map(|number| {
            let place = before.iter().position(|other| other == number)?;
            Some((*number, place))
        })
        .collect();
    if common.windows(2).all(|pair| pair[0].1 < pair[1].1) {
        return common.iter().map(|&(number, _)| number).collect();
    }
    // The heaviest list in the order before that ends with each. One more number weighs more than any
    // choice of named ones.
    let weight = |number: i32| match named {
        [Some(first), _] if first == number => 2,
        [_, Some(second)] if second == number => 3,
        _ => 4,
    };
    let mut best: Vec<(u32, Option<usize>)> = Vec::with_capacity(common.len());
    for (at, &(number, place)) in common.iter().enumerate() {
        let earlier = (0..at).filter(|&other| common[other].1 < place);
        let earlier = earlier.max_by_key(|&other| best[other].0);
        let below = earlier.map_or(0, |other| best[other].0);
        best.push((below + weight(number), earlier));
    }
    let mut kept = Vec::new();
    let mut at = (0..best.len()).max_by_key(|&at| best[at].0);
    while let Some(place) = at {
        kept.push(common[place].0);
        at = best[place].1;
    }
    kept
}

fn change(old: &Node, new: &Node) -> Change {
    let mut change = Change {
        on: (old.on != new.on).then_some(new.on),
        controls: Vec::new(),
    };
    let (Some(old), Some(new)) = (&old.synth, &new.synth) else {
        return change;
    };
    for (index, (old, new)) in old.controls.iter().zip(&new.controls).enumerate() {
        let own = (old.own != new.own).then_some(new.own);
        let bus = (old.bus != new.bus).then_some(new.bus);
        match change.controls.last_mut() {
            _ if old == new => {}
            Some(run) if run.first + run.count == index && (run.own, run.bus) == (own, bus) => {
                run.count += 1;
            }
            _ => change.controls.push(ControlRun {
                first: index,
                count: 1,
                own,
                bus,
            }),
        }
    }
    change
}

/// Whether a control of the node follows one of these buses.
fn follows(node: &Node, buses: &[BusRun]) -> bool {
    let among = |bus: usize| {
        let mut runs = buses.iter();
        runs.any(|run| (run.first..run.first + run.count).contains(&bus))
    };
    let mut controls = node.synth.iter().flat_map(|synth| &synth.controls);
    controls.any(|control| control.bus.is_some_and(among))
}

fn buses(before: &[u32], after: &[u32]) -> Vec<BusRun> {
    let mut runs: Vec<BusRun> = Vec::new();
    for (bus, &float) in after.iter().enumerate() {
        // A bus that was not there held zero.
        if before.get(bus).copied().unwrap_or(0) == float {
            continue;
        }
        match runs.last_mut() {
            Some(run) if run.first + run.count == bus && run.float == float => run.count += 1,
            _ => runs.push(BusRun {
                first: bus,
                count: 1,
                float,
            }),
        }
    }
    runs
}

/// What became of a definition that is there after.
pub fn fate(definition: &Definition, before: &[Definition]) -> Fate {
    let mut earlier = before.iter().filter(|other| other.name == definition.name);
    if before.contains(definition) {
        Fate::Stayed
    } else if definition.bytes.is_none() {
        Fate::Retired
    } else if earlier.any(|other| other.bytes.is_some()) {
        Fate::Replaced
    } else {
        Fate::Came
    }
}

/// The definitions that are gone: no name means them, and no synth holds them.
pub fn gone<'a>(before: &'a [Definition], after: &[Definition]) -> Vec<&'a Definition> {
    let stays = |old: &Definition| {
        after.iter().any(|new| match old.bytes {
            // Its name means something still, or it is held.
            Some(_) => new.name == old.name && (new.bytes.is_some() || new.slot == old.slot),
            None => new == old,
        })
    };
    before.iter().filter(|old| !stays(old)).collect()
}
