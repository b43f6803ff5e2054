//! The nodes: each group has the list of its children, each node its parent.

use std::collections::HashMap;
use std::mem;

/// The place of the root.
pub const ROOT: usize = 0;

#[derive(Clone, Copy, Debug, Default, PartialEq, Eq)]
pub struct Control {
    /// The own float's 32 bits.
    pub own: u32,
    pub bus: Option<usize>,
}

#[derive(Clone, Debug)]
pub struct Synth {
    pub slot: usize,
    pub controls: Vec<Control>,
}

#[derive(Clone, Debug)]
pub enum Kind {
    /// With its children, head to tail.
    Group(Vec<usize>),
    Synth(Synth),
}

#[derive(Clone, Debug)]
pub struct Node {
    pub number: i32,
    pub on: bool,
    pub kind: Kind,
    parent: usize,
}

/// Where a node is put.
#[derive(Clone, Copy, Debug)]
pub enum Place {
    Head(usize),
    Tail(usize),
    Before(usize),
    After(usize),
}

#[derive(Clone, Debug)]
pub struct Tree {
    /// Those at places in `unused` are free.
    nodes: Vec<Node>,
    unused: Vec<usize>,
    places: HashMap<i32, usize>,
}

impl Node {
    fn group(number: i32) -> Node {
        Node {
            number,
            on: true,
            kind: Kind::Group(Vec::new()),
            parent: ROOT,
        }
    }

    pub fn is_group(&self) -> bool {
        matches!(self.kind, Kind::Group(_))
    }

    pub fn children(&self) -> &[usize] {
        match &self.kind {
            Kind::Group(children) => children,
            Kind::Synth(_) => &[],
        }
    }
}

impl Tree {
    pub fn new() -> Tree {
        Tree {
            nodes: vec![Node::group(0)],
            unused: Vec::new(),
            places: HashMap::from([(0, ROOT)]),
        }
    }

    pub fn count(&self) -> usize {
        self.places.len()
    }

    pub fn find(&self, number: i32) -> Option<usize> {
        self.places.get(&number).copied()
    }

    pub fn node(&self, place: usize) -> &Node {
        &self.nodes[place]
    }

    pub fn synth(&self, place: usize) -> Option<&Synth> {
        match &self.nodes[place].kind {
            Kind::Synth(synth) => Some(synth),
            Kind::Group(_) => None,
        }
    }

    pub fn parent(&self, place: usize) -> Option<usize> {
        (place != ROOT).then(|| self.nodes[place].parent)
    }

    pub fn turn(&mut self, place: usize, on: bool) {
        self.nodes[place].on = on;
    }

    /// Whether a node is another or lies below it.
    pub fn is_in(&self, mut place: usize, subtree: usize) -> bool {
        while place != subtree {
            if place == ROOT {
                return false;
            }
            place = self.nodes[place].parent;
        }
        true
    }

    /// Where a node stands among its parent's children. The root has no such place.
    pub fn position(&self, place: usize) -> usize {
        let siblings = self.nodes[self.nodes[place].parent].children();
        let position = siblings.iter().position(|&sibling| sibling == place);
        position.expect("a node is a child of its parent")
    }

    fn children_mut(&mut self, group: usize) -> &mut Vec<usize> {
        match &mut self.nodes[group].kind {
            Kind::Group(children) => children,
            Kind::Synth(_) => unreachable!("a synth has no children"),
        }
    }

    fn attach(&mut self, place: usize, to: Place) {
        let (group, position) = match to {
            Place::Head(group) => (group, 0),
            Place::Tail(group) => (group, self.nodes[group].children().len()),
            Place::Before(node) => (self.nodes[node].parent, self.position(node)),
            Place::After(node) => (self.nodes[node].parent, self.position(node) + 1),
        };
        self.children_mut(group).insert(position, place);
        self.nodes[place].parent = group;
    }

    fn detach(&mut self, place: usize) {
        let position = self.position(place);
        let parent = self.nodes[place].parent;
        self.children_mut(parent).remove(position);
    }

    /// Puts in a new node that is on. Answers where it is kept.
    pub fn add(&mut self, number: i32, kind: Kind, to: Place) -> usize {
        let node = Node {
            kind,
            ..Node::group(number)
        };
        let place = match self.unused.pop() {
            Some(place) => {
                self.nodes[place] = node;
                place
            }
            None => {
                self.nodes.push(node);
                self.nodes.len() - 1
            }
        };
        self.places.insert(number, place);
        self.attach(place, to);
        place
    }

    /// Moves a node with all below it to a place outside of that.
    pub fn shift(&mut self, place: usize, to: Place) {
        self.detach(place);
        self.attach(place, to);
    }

    /// Takes out a node with all below it, and tells of each.
    pub fn free(&mut self, place: usize, freed: &mut impl FnMut(&Node)) {
        self.detach(place);
        self.drop(place, freed);
    }

    /// Takes out all below a group.
    pub fn free_all(&mut self, group: usize, freed: &mut impl FnMut(&Node)) {
        for child in mem::take(self.children_mut(group)) {
            self.drop(child, freed);
        }
    }

    /// Takes out the synths below a group.
    pub fn deep_free(&mut self, group: usize, freed: &mut impl FnMut(&Node)) {
        let mut children = mem::take(self.children_mut(group));
        children.retain(|&child| {
            let stays = self.nodes[child].is_group();
            if stays {
                self.deep_free(child, freed);
            } else {
                self.drop(child, freed);
            }
            stays
        });
        *self.children_mut(group) = children;
    }

    fn drop(&mut self, place: usize, freed: &mut impl FnMut(&Node)) {
        let node = mem::replace(&mut self.nodes[place], Node::group(0));
        self.places.remove(&node.number);
        self.unused.push(place);
        freed(&node);
        for &child in node.children() {
            self.drop(child, freed);
        }
    }

    /// The nodes below one, depth first, each with its depth below it.
    pub fn below<'a>(&'a self, place: usize, visit: &mut impl FnMut(&'a Node, usize)) {
        self.visit(place, 1, visit);
    }

    fn visit<'a>(&'a self, place: usize, depth: usize, visit: &mut impl FnMut(&'a Node, usize)) {
        for &child in self.nodes[place].children() {
            visit(&self.nodes[child], depth);
            self.visit(child, depth + 1, visit);
        }
    }

    /// Changes a synth, or every synth below a group.
    pub fn each_synth(&mut self, place: usize, change: &mut impl FnMut(&mut Synth)) {
        match &mut self.nodes[place].kind {
            Kind::Synth(synth) => change(synth),
            Kind::Group(children) => {
                for at in 0..children.len() {
                    let child = self.nodes[place].children()[at];
                    self.each_synth(child, change);
                }
            }
        }
    }

    /// Adds the running synths of a subtree to a list, depth first.
    pub fn running(&self, place: usize, order: &mut Vec<i32>) {
        let node = &self.nodes[place];
        if node.on {
            match &node.kind {
                Kind::Synth(_) => order.push(node.number),
                Kind::Group(children) => {
                    for &child in children {
                        self.running(child, order);
                    }
                }
            }
        }
    }
}
