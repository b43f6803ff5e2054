//! Writing a command as a message.

use super::form::{Argument, MOST_ARGUMENTS};
use super::refused;
use crate::{Command, Fault, Key, Value};

/// The longest file that a message can hold.
const LONGEST: usize = i32::MAX as usize;

/// Writes a command to the front of a buffer. Answers the message's length, or refuses with 26 a name
/// with a byte that is not from 1 to 127 or a file that is too long, then with 27 a command that has no
/// address, then with 24 a buffer that is too short.
pub fn write_message(command: &Command, buffer: &mut [u8]) -> Result<usize, Fault> {
    let (address, list) = parts(command).ok_or_else(|| without_address(command))?;
    let arguments = list.arguments();
    if !arguments.iter().all(Argument::can_be_written) {
        return Err(refused(26));
    }
    let tags = 1 + arguments.len();
    let length = padded(address.len())
        + padded(tags)
        + arguments.iter().map(Argument::length).sum::<usize>();
    let mut rest = buffer.get_mut(..length).ok_or(refused(24))?;
    put(address.as_bytes(), padded(address.len()), &mut rest);
    let mut text = [b','; 1 + MOST_ARGUMENTS];
    for (tag, argument) in text[1..].iter_mut().zip(arguments) {
        *tag = argument.tag();
    }
    put(&text[..tags], padded(tags), &mut rest);
    for argument in arguments {
        argument.put(&mut rest);
    }
    Ok(length)
}

/// The refusal of a command that has no address: 26 comes first, where it has a name.
fn without_address(command: &Command) -> Fault {
    match *command {
        Command::Recall { definition, .. } if !Argument::String(definition).can_be_written() => {
            refused(26)
        }
        _ => refused(27),
    }
}

/// The arguments of a command.
struct List<'a> {
    count: usize,
    first: [Argument<'a>; MOST_ARGUMENTS],
}

impl<'a> List<'a> {
    fn of(arguments: &[Argument<'a>]) -> List<'a> {
        let mut first = [Argument::Int(0); MOST_ARGUMENTS];
        first[..arguments.len()].copy_from_slice(arguments);
        List {
            count: arguments.len(),
            first,
        }
    }

    fn arguments(&self) -> &[Argument<'a>] {
        &self.first[..self.count]
    }
}

/// A command's address and arguments, none where it has no address.
fn parts<'a>(command: &Command<'a>) -> Option<(&'static str, List<'a>)> {
    use Argument::{Bytes, Int, String};
    let (address, arguments): (_, &[Argument]) = match *command {
        Command::Receive(file) => ("/d_recv", &[Bytes(file)]),
        Command::Delete(name) => ("/d_free", &[String(name)]),
        Command::NewSynth {
            definition,
            number,
            action,
            target,
        } => (
            "/s_new",
            &[String(definition), Int(number), Int(action), Int(target)],
        ),
        Command::NewGroup {
            number,
            action,
            target,
        } => ("/g_new", &[Int(number), Int(action), Int(target)]),
        Command::Free(node) => ("/n_free", &[Int(node)]),
        Command::FreeAll(group) => ("/g_freeAll", &[Int(group)]),
        Command::DeepFree(group) => ("/g_deepFree", &[Int(group)]),
        Command::Before(node, place) => ("/n_before", &[Int(node), Int(place)]),
        Command::After(node, place) => ("/n_after", &[Int(node), Int(place)]),
        Command::Head(group, node) => ("/g_head", &[Int(group), Int(node)]),
        Command::Tail(group, node) => ("/g_tail", &[Int(group), Int(node)]),
        Command::Run(node, flag) => ("/n_run", &[Int(node), Int(flag)]),
        Command::Set { node, key, value } => ("/n_set", &[Int(node), key.into(), value.into()]),
        Command::Fill {
            node,
            key,
            count,
            value,
        } => (
            "/n_fill",
            &[Int(node), key.into(), Int(count), value.into()],
        ),
        Command::Map { node, key, bus } => ("/n_map", &[Int(node), key.into(), Int(bus)]),
        Command::SetBus { bus, value } => ("/c_set", &[Int(bus), value.into()]),
        Command::FillBuses {
            start,
            count,
            value,
        } => ("/c_fill", &[Int(start), Int(count), value.into()]),
        Command::Get { node, key } => ("/s_get", &[Int(node), key.into()]),
        Command::GetBus(bus) => ("/c_get", &[Int(bus)]),
        Command::Query(node) => ("/n_query", &[Int(node)]),
        Command::QueryTree { group, flag } => ("/g_queryTree", &[Int(group), Int(flag)]),
        Command::Status => ("/status", &[]),
        Command::Export | Command::Recall { .. } => return None,
    };
    Some((address, List::of(arguments)))
}

impl<'a> From<Key<'a>> for Argument<'a> {
    fn from(key: Key<'a>) -> Argument<'a> {
        match key {
            Key::Index(index) => Argument::Int(index),
            Key::Name(name) => Argument::String(name),
        }
    }
}

impl From<Value> for Argument<'_> {
    fn from(value: Value) -> Self {
        match value {
            Value::Float(pattern) => Argument::Float(pattern),
            Value::Integer(number) => Argument::Int(number),
        }
    }
}

impl Argument<'_> {
    fn can_be_written(&self) -> bool {
        match self {
            Argument::Int(_) | Argument::Float(_) => true,
            Argument::String(text) => text.iter().all(|byte| (1..=127).contains(byte)),
            Argument::Bytes(bytes) => bytes.len() <= LONGEST,
        }
    }

    fn tag(&self) -> u8 {
        match self {
            Argument::Int(_) => b'i',
            Argument::Float(_) => b'f',
            Argument::String(_) => b's',
            Argument::Bytes(_) => b'b',
        }
    }

    /// How many bytes it takes.
    fn length(&self) -> usize {
        match self {
            Argument::Int(_) | Argument::Float(_) => 4,
            Argument::String(text) => padded(text.len()),
            Argument::Bytes(bytes) => 4 + bytes.len().next_multiple_of(4),
        }
    }

    fn put(&self, rest: &mut &mut [u8]) {
        match *self {
            Argument::Int(number) => put(&number.to_be_bytes(), 4, rest),
            Argument::Float(pattern) => put(&pattern.to_be_bytes(), 4, rest),
            Argument::String(text) => put(text, padded(text.len()), rest),
            Argument::Bytes(bytes) => {
                put(&(bytes.len() as u32).to_be_bytes(), 4, rest);
                put(bytes, bytes.len().next_multiple_of(4), rest);
            }
        }
    }
}

/// The length of a string with its one to four zeros.
fn padded(length: usize) -> usize {
    (length + 1).next_multiple_of(4)
}

/// Writes bytes, and zeros up to a length, to the front of what is left.
fn put(bytes: &[u8], length: usize, rest: &mut &mut [u8]) {
    let (front, back) = std::mem::take(rest).split_at_mut(length);
    let (text, padding) = front.split_at_mut(bytes.len());
    text.copy_from_slice(bytes);
    padding.fill(0);
    *rest = back;
}
