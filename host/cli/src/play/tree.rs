//! The tree of nodes, indented: as `/g_queryTree` replies, and with what the state knows besides.

use super::message::{Argument, Message};
use std::io::{self, Write};
use std::slice::Iter;
use synthdef::show::quoted;

/// Where the parts lie in the words, by docs/LAYOUT.md.
pub(crate) const ORDER_LENGTH: usize = 1;
pub(crate) const LATEST: usize = 3;
pub(crate) const RESIDENT: usize = 36;
pub(crate) const NODE: usize = 68;
pub(crate) const ORDER: usize = 1348;
pub(crate) const CONTROL: usize = 1603;
pub(crate) const BUS: usize = 17_987;
pub(crate) const RECORD: usize = 5;
pub(crate) const ROW: usize = 64;

/// A node of a reply.
pub(crate) struct Node {
    pub(crate) number: i32,
    pub(crate) depth: usize,
    pub(crate) kind: Kind,
}

pub(crate) enum Kind {
    Group {
        children: i32,
    },
    Synth {
        definition: Vec<u8>,
        /// Each with its name or index and what it shows.
        controls: Vec<(Argument, Argument)>,
    },
}

/// The nodes of a `/g_queryTree.reply`, the group itself first.
pub(crate) fn nodes(message: &Message) -> Option<Vec<Node>> {
    let mut arguments = message.arguments.iter();
    let with_controls = int(&mut arguments)? != 0;
    let mut nodes = Vec::new();
    // Of each group in hand, how many children are still to come.
    let mut left = vec![1];
    while !left.is_empty() {
        let depth = left.len() - 1;
        match left.last_mut() {
            Some(0) => {
                left.pop();
                continue;
            }
            Some(count) => *count -= 1,
            None => break,
        }
        let number = int(&mut arguments)?;
        let kind = match int(&mut arguments)? {
            -1 => Kind::Synth {
                definition: string(&mut arguments)?,
                controls: if with_controls {
                    let count = int(&mut arguments)?;
                    (0..count)
                        .map(|_| Some((arguments.next()?.clone(), arguments.next()?.clone())))
                        .collect::<Option<_>>()?
                } else {
                    Vec::new()
                },
            },
            children => {
                left.push(children);
                Kind::Group { children }
            }
        };
        nodes.push(Node {
            number,
            depth,
            kind,
        });
    }
    Some(nodes)
}

fn int(arguments: &mut Iter<Argument>) -> Option<i32> {
    match arguments.next()? {
        Argument::Int(number) => Some(*number),
        _ => None,
    }
}

fn string(arguments: &mut Iter<Argument>) -> Option<Vec<u8>> {
    match arguments.next()? {
        Argument::String(text) => Some(text.clone()),
        _ => None,
    }
}

/// Prints a reply to `/g_queryTree`, a node a line.
pub fn reply(message: &Message, out: &mut impl Write) -> io::Result<()> {
    let Some(nodes) = nodes(message) else {
        return writeln!(out, "  {message}");
    };
    writeln!(out, "  {}", quoted(&message.address))?;
    for node in nodes {
        write!(out, "  {:1$}{2} ", "", 2 * node.depth, node.number)?;
        match node.kind {
            Kind::Group { children } => write!(out, "group of {children}")?,
            Kind::Synth {
                definition,
                controls,
            } => {
                write!(out, "{}", quoted(&definition))?;
                for (place, (name, value)) in controls.iter().enumerate() {
                    let between = if place == 0 { ": " } else { ", " };
                    write!(out, "{between}{name} {value}")?;
                }
            }
        }
        writeln!(out)?;
    }
    Ok(())
}

/// Prints the whole tree, given the reply to `/g_queryTree 0 1` and the words of the state: what is
/// off, which definitions are no longer resident, mappings with the own floats behind them, and the
/// running order.
pub fn state(message: &Message, words: &[u32], out: &mut impl Write) -> io::Result<()> {
    let Some(nodes) = nodes(message) else {
        return writeln!(out, "  {message}");
    };
    for (place, node) in nodes.iter().enumerate() {
        // The records stand in the order of the reply.
        let record = &words[NODE + RECORD * place..][..RECORD];
        let [_, _, run, slot, row] = [0, 1, 2, 3, 4].map(|field| record[field] as usize);
        let indent = 2 + 2 * node.depth;
        write!(out, "{:indent$}{} ", "", node.number)?;
        let off = if run == 1 { "" } else { ", off" };
        match &node.kind {
            Kind::Group { .. } => writeln!(out, "group{off}")?,
            Kind::Synth {
                definition,
                controls,
            } => {
                let resident = words[RESIDENT + slot] == 1;
                let old = if resident { "" } else { ", not resident" };
                writeln!(out, "{}{old}{off}", quoted(definition))?;
                for (index, (name, value)) in controls.iter().enumerate() {
                    let word = CONTROL + ROW * row + 2 * index;
                    let own = f32::from_bits(words[word]);
                    write!(out, "{:indent$}  {name} ", "")?;
                    match (words[word + 1] as usize).checked_sub(1) {
                        None => writeln!(out, "{value}")?,
                        Some(bus) => {
                            let read = f32::from_bits(words[BUS + bus]);
                            writeln!(out, "{read:?} from bus {bus}, own {own:?}")?;
                        }
                    }
                }
            }
        }
    }
    write!(out, "  running:")?;
    for number in &words[ORDER..][..words[ORDER_LENGTH] as usize] {
        write!(out, " {}", *number as i32)?;
    }
    writeln!(out)
}
