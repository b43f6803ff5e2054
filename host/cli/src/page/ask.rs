//! What the engine answers between two commands: its replies to `/g_queryTree 0 1`, `/n_query -1` and
//! `/status`, its export, and, from the words of its state, what no reply says; and what the store of saved settings holds.

use crate::play::line::{self, Call};
use crate::play::message::{Argument, Message};
use crate::play::settings::{self, Named};
use crate::play::tree::{
    self, Kind, BUS, CONTROL, NODE, ORDER, ORDER_LENGTH, RECORD, RESIDENT, ROW,
};
use crate::play::{Applies, Player};
use synthdef::show::quoted;

/// Kinds of commands, by their numbers.
const N_QUERY: u32 = 24;
const STATUS: u32 = 26;

/// Where the lengths of the definitions lie in the words, and what a file has before its first one.
const LENGTH: usize = 4;
const HEADER: usize = 10;

const SLOTS: usize = 32;
const BUSES: usize = 4096;
const NO_SUCH_NODE: u32 = 17;

#[derive(Clone, Debug, Default, PartialEq, Eq)]
pub struct Answers {
    /// Depth first, head to tail.
    pub nodes: Vec<Node>,
    /// The running order.
    pub order: Vec<i32>,
    /// What -1 means as an existing node.
    pub latest: Option<i32>,
    /// The residents and then those that only synths hold, each by slots.
    pub definitions: Vec<Definition>,
    /// The pattern of each bus's float.
    pub buses: Vec<u32>,
    /// Units, synths, groups, residents.
    pub status: Vec<i32>,
    /// The saved settings, none where no store is lent.
    pub settings: Vec<Named>,
}

#[derive(Clone, Debug, PartialEq, Eq)]
pub struct Node {
    pub number: i32,
    pub depth: usize,
    pub on: bool,
    /// None for a group.
    pub synth: Option<Synth>,
}

#[derive(Clone, Debug, PartialEq, Eq)]
pub struct Synth {
    pub slot: usize,
    /// The place of its shape in the list of all.
    pub shape: usize,
    pub controls: Vec<Control>,
}

/// A definition's name, and its controls by name or index.
#[derive(Clone, Debug, PartialEq)]
pub struct Shape {
    pub name: Vec<u8>,
    pub controls: Vec<Argument>,
}

/// The pattern of a control's own float, and the bus that it is mapped to.
#[derive(Clone, Copy, Debug, PartialEq, Eq)]
pub struct Control {
    pub own: u32,
    pub bus: Option<usize>,
}

#[derive(Clone, Debug, PartialEq, Eq)]
pub struct Definition {
    pub slot: usize,
    /// As `play` shows it.
    pub name: String,
    /// A resident's bytes in the export; none where the definition is retired.
    pub bytes: Option<Vec<u8>>,
}

impl Answers {
    /// Asks all, and adds the shapes that are new. None where the answers are not as replies are, or do
    /// not fit together.
    pub fn ask(player: &mut Player<impl Applies>, shapes: &mut Vec<Shape>) -> Option<Answers> {
        let tree = message(player, line::QUERY_TREE, [0, 1, 0, 0, 0])?.ok()?;
        let status = message(player, STATUS, [0; 5])?.ok()?;
        let latest = match message(player, N_QUERY, [-1i32 as u32, 0, 0, 0, 0])? {
            Ok(info) => Some(int(info.arguments.first()?)?),
            Err(NO_SUCH_NODE) => None,
            Err(_) => return None,
        };
        let (0, length) = player.send(&Call::new(line::EXPORT, Vec::new())) else {
            return None;
        };
        let words = player.engine.words();
        let nodes = nodes(&tree, words, shapes)?;
        let held = held(&nodes, words, shapes);
        let mut definitions = residents(&player.reply[..length], words)?;
        definitions.extend(held);
        let order = words[ORDER..][..words[ORDER_LENGTH] as usize].iter();
        let order: Vec<i32> = order.map(|&number| number as i32).collect();
        let known = |number: &i32| nodes.iter().any(|node| node.number == *number);
        order.iter().chain(&latest).all(known).then_some(())?;
        let store = player.store.as_ref();
        let settings = store.map_or_else(Vec::new, |store| settings::entries(store.bytes()));
        Some(Answers {
            settings,
            order,
            latest,
            definitions,
            buses: words[BUS..][..BUSES].to_vec(),
            status: status.arguments.iter().map(int).collect::<Option<_>>()?,
            nodes,
        })
    }
}

/// The reply to a query, or the refusal's number.
fn message(
    player: &mut Player<impl Applies>,
    op: u32,
    numbers: [u32; 5],
) -> Option<Result<Message, u32>> {
    let bytes = Vec::new();
    match player.send(&Call { op, numbers, bytes }) {
        (0, length) => Message::read(&player.reply[..length]).map(Ok),
        (number, _) => Some(Err(number)),
    }
}

fn int(argument: &Argument) -> Option<i32> {
    match argument {
        Argument::Int(number) => Some(*number),
        _ => None,
    }
}

/// The nodes of the reply, which stand in the order of the records.
fn nodes(tree: &Message, words: &[u32], shapes: &mut Vec<Shape>) -> Option<Vec<Node>> {
    let mut node = |(place, node): (usize, tree::Node)| {
        let record = &words[NODE + RECORD * place..][..RECORD];
        let [number, depth, run, slot, row] = [0, 1, 2, 3, 4].map(|field| record[field]);
        (number as i32 == node.number && depth as usize == node.depth).then_some(())?;
        let synth = match node.kind {
            Kind::Group { .. } => None,
            Kind::Synth {
                definition,
                controls,
            } => {
                let own = words[CONTROL + ROW * row as usize..][..ROW]
                    .iter()
                    .step_by(2);
                let (names, values): (Vec<_>, Vec<_>) = controls.into_iter().unzip();
                Some(Synth {
                    slot: slot as usize,
                    controls: (values.iter().zip(own))
                        .map(|(shown, &own)| control(shown, own))
                        .collect::<Option<_>>()?,
                    shape: place_of(
                        Shape {
                            name: definition,
                            controls: names,
                        },
                        shapes,
                    ),
                })
            }
        };
        Some(Node {
            number: node.number,
            depth: node.depth,
            on: run == 1,
            synth,
        })
    };
    let nodes = tree::nodes(tree)?.into_iter().enumerate();
    nodes.map(&mut node).collect()
}

/// The place of a shape in the list, where it is put if it is new.
fn place_of(shape: Shape, shapes: &mut Vec<Shape>) -> usize {
    let place = shapes.iter().rposition(|known| *known == shape);
    place.unwrap_or_else(|| {
        shapes.push(shape);
        shapes.len() - 1
    })
}

/// A control as the reply shows it: its float, or c and the bus; behind that stands its own float.
fn control(shown: &Argument, own: u32) -> Option<Control> {
    match shown {
        Argument::Float(float) => Some(Control {
            own: float.to_bits(),
            bus: None,
        }),
        Argument::String(bus) => {
            let bus = std::str::from_utf8(bus.strip_prefix(b"c")?).ok()?;
            let bus = Some(bus.parse().ok()?);
            Some(Control { own, bus })
        }
        Argument::Int(_) | Argument::Bytes(_) => None,
    }
}

/// The definitions of the export.
fn residents(export: &[u8], words: &[u32]) -> Option<Vec<Definition>> {
    let mut found = Vec::new();
    let mut start = HEADER;
    for slot in (0..SLOTS).filter(|slot| words[RESIDENT + slot] == 1) {
        let end = start + words[LENGTH + slot] as usize;
        found.push(Definition {
            slot,
            name: quoted(synthdef::name(export, found.len() as u32)?),
            bytes: Some(export.get(start..end)?.to_vec()),
        });
        start = end;
    }
    (start == export.len()).then_some(found)
}

/// The definitions that synths hold and no name means.
fn held(nodes: &[Node], words: &[u32], shapes: &[Shape]) -> Vec<Definition> {
    let retired = (0..SLOTS).filter(|slot| words[RESIDENT + slot] == 0);
    let held = retired.filter_map(|slot| {
        let mut synths = nodes.iter().filter_map(|node| node.synth.as_ref());
        let synth = synths.find(|synth| synth.slot == slot)?;
        Some(Definition {
            slot,
            name: quoted(&shapes[synth.shape].name),
            bytes: None,
        })
    });
    held.collect()
}
