//! Reading a message as a command.

use super::form::{Argument, Message};
use super::refused;
use crate::{Command, Fault, Key, Value};

/// The command that a message is, with its name or file as a part of the message's bytes. Refused
/// with 26 where it is malformed, then with 27 where no command has this address and these tags.
pub fn read_message(bytes: &[u8]) -> Result<Command<'_>, Fault> {
    let message = Message::of(bytes).ok_or(refused(26))?;
    let arguments = message.arguments().ok_or(refused(27))?;
    command(message.address, arguments).ok_or(refused(27))
}

fn command<'a>(address: &[u8], arguments: &[Argument<'a>]) -> Option<Command<'a>> {
    use Argument::{Bytes, Int, String};
    Some(match (address, arguments) {
        (b"/d_recv", [Bytes(file)]) => Command::Receive(file),
        (b"/d_free", [String(name)]) => Command::Delete(name),
        (b"/s_new", &[String(definition), Int(number), Int(action), Int(target)]) => {
            Command::NewSynth {
                definition,
                number,
                action,
                target,
            }
        }
        (b"/g_new", &[Int(number), Int(action), Int(target)]) => Command::NewGroup {
            number,
            action,
            target,
        },
        (b"/n_free", &[Int(node)]) => Command::Free(node),
        (b"/g_freeAll", &[Int(group)]) => Command::FreeAll(group),
        (b"/g_deepFree", &[Int(group)]) => Command::DeepFree(group),
        (b"/n_before", &[Int(node), Int(place)]) => Command::Before(node, place),
        (b"/n_after", &[Int(node), Int(place)]) => Command::After(node, place),
        (b"/g_head", &[Int(group), Int(node)]) => Command::Head(group, node),
        (b"/g_tail", &[Int(group), Int(node)]) => Command::Tail(group, node),
        (b"/n_run", &[Int(node), Int(flag)]) => Command::Run(node, flag),
        (b"/n_set", &[Int(node), control, number]) => Command::Set {
            node,
            key: key(control)?,
            value: value(number)?,
        },
        (b"/n_fill", &[Int(node), control, Int(count), number]) => Command::Fill {
            node,
            key: key(control)?,
            count,
            value: value(number)?,
        },
        (b"/n_map", &[Int(node), control, Int(bus)]) => Command::Map {
            node,
            key: key(control)?,
            bus,
        },
        (b"/c_set", &[Int(bus), number]) => Command::SetBus {
            bus,
            value: value(number)?,
        },
        (b"/c_fill", &[Int(start), Int(count), number]) => Command::FillBuses {
            start,
            count,
            value: value(number)?,
        },
        (b"/s_get", &[Int(node), control]) => Command::Get {
            node,
            key: key(control)?,
        },
        (b"/c_get", &[Int(bus)]) => Command::GetBus(bus),
        (b"/n_query", &[Int(node)]) => Command::Query(node),
        (b"/g_queryTree", &[Int(group), Int(flag)]) => Command::QueryTree { group, flag },
        (b"/status", []) => Command::Status,
        _ => return None,
    })
}

/// A control: an index or a name.
fn key(argument: Argument) -> Option<Key> {
    match argument {
        Argument::Int(index) => Some(Key::Index(index)),
        Argument::String(name) => Some(Key::Name(name)),
        _ => None,
    }
}

/// A value: a float or an integer.
fn value(argument: Argument) -> Option<Value> {
    match argument {
        Argument::Float(pattern) => Some(Value::Float(pattern)),
        Argument::Int(number) => Some(Value::Integer(number)),
        _ => None,
    }
}
