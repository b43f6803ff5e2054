//! A list of commands in one call, from paper 02, 5/14, and how one is lent.

use crate::{Call, Command, Engine, Fault};

/// The most commands of a list.
pub const MOST_COMMANDS: usize = 512;

/// The words of an item: the command's kind, its five numbers, where its bytes start among those that
/// are lent, how many they are, and four that are 0.
pub const ITEM: usize = 12;
const SPARE: [u32; 4] = [0; 4];

/// What became of a list: how many commands were accepted, and the refusal that ended it.
#[derive(Clone, Copy, Debug, PartialEq, Eq)]
pub struct Listed {
    pub accepted: usize,
    pub refused: Option<Fault>,
}

impl Listed {
    /// A list that is refused whole.
    fn whole(number: u32) -> Listed {
        Listed {
            accepted: 0,
            refused: Some(Fault { number, place: 0 }),
        }
    }

    /// As the exported function answers.
    pub fn packed(&self) -> u64 {
        let (number, place) = self
            .refused
            .map_or((0, 0), |fault| (u64::from(fault.number), fault.place));
        number + ((self.accepted as u64) << 8) + (place << 24)
    }
}

impl Engine {
    /// Does commands one by one up to the first that is refused; those before it stay done, and
    /// `accepted` is told of each. A list that is too long, or holds a command that replies or a recall, is
    /// refused whole.
    pub fn list(
        &mut self,
        commands: &[Command],
        mut accepted: impl FnMut(&Engine, &Command),
    ) -> Listed {
        let goes_in_none = |command: &Command| command.replies() || command.needs_store();
        if commands.len() > MOST_COMMANDS || commands.iter().any(goes_in_none) {
            return Listed::whole(34);
        }
        for (place, command) in commands.iter().enumerate() {
            if let Err(fault) = self.apply(command, &mut []) {
                return Listed {
                    accepted: place,
                    refused: Some(fault),
                };
            }
            accepted(self, command);
        }
        Listed {
            accepted: commands.len(),
            refused: None,
        }
    }
}

/// The commands of a list as it is lent, or none where it is no list: not whole items, an item that is
/// no command, one of its spare words not 0, or bytes that are not there.
pub fn read_list<'a>(items: &[u32], bytes: &'a [u8]) -> Option<Vec<Command<'a>>> {
    let whole = items.chunks_exact(ITEM);
    if !whole.remainder().is_empty() {
        return None;
    }
    whole.map(|item| command(item, bytes)).collect()
}

fn command<'a>(item: &[u32], bytes: &'a [u8]) -> Option<Command<'a>> {
    let &[op, a, b, c, d, e, start, length, ref spare @ ..] = item else {
        return None;
    };
    let end = u64::from(start) + u64::from(length);
    let part = bytes.get(start as usize..usize::try_from(end).ok()?)?;
    Command::of(op, [a, b, c, d, e], part).filter(|_| *spare == SPARE)
}

/// Calls as a list is lent: the items, and the bytes of all, one after the other.
pub fn lend_list(calls: &[Call]) -> (Vec<u32>, Vec<u8>) {
    let (mut items, mut bytes) = (Vec::new(), Vec::new());
    for call in calls {
        let part = [bytes.len(), call.bytes.len()].map(|number| number as u32);
        items.push(call.op);
        items.extend(call.numbers);
        items.extend(part);
        items.extend(SPARE);
        bytes.extend_from_slice(&call.bytes);
    }
    (items, bytes)
}
