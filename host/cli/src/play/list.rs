//! A list in a script: the lines between `list` and `end`, sent in one call.

use super::line::Call;
use super::Applies;
use engine::{List, ListRefused};
use std::io::{self, Write};
use synthdef::{refusal, show};

/// The refusals of a list whole: of the state, and of the list. What else is refused is a command.
const STATE: u32 = 1;
const WHOLE: u32 = 34;

/// The first kind of command that goes in no list, and those from it on: what replies, and a recall.
const REPLIES: u32 = 21;

/// A command of a list, with the number of its line.
struct Entry {
    place: usize,
    text: String,
    call: Call,
}

/// A list whose end has not come.
pub struct Open {
    /// The line that says `list`.
    pub place: usize,
    entries: Vec<Entry>,
    /// The first line of it that can't be read.
    unread: Option<usize>,
}

impl Open {
    pub fn new(place: usize) -> Open {
        Open {
            place,
            entries: Vec::new(),
            unread: None,
        }
    }

    pub fn push(&mut self, place: usize, text: String, call: Call) {
        self.entries.push(Entry { place, text, call });
    }

    /// A line of it can't be read: it will not be sent.
    pub fn spoil(&mut self, place: usize) {
        self.unread.get_or_insert(place);
    }

    /// Sends the list, and prints the answer. A list of which a line can't be read is not sent.
    pub fn send(self, engine: &mut impl Applies, out: &mut impl Write) -> io::Result<()> {
        write!(out, "{}: ", self.shown())?;
        if let Some(place) = self.unread {
            return writeln!(out, "not sent, since line {place} can't be read");
        }
        let mut list = List::new();
        for Entry { call, .. } in &self.entries {
            if !list.push(call.op, call.numbers, &call.bytes) {
                return writeln!(out, "not sent, since its files and names are too long");
            }
        }
        match engine.list(&list) {
            Ok(_) => writeln!(out, "ok"),
            Err(refused) => self.refused(refused, out),
        }
    }

    /// What is printed before the answer.
    pub fn shown(&self) -> String {
        format!("list of {}", show::counted(self.entries.len(), "command"))
    }

    /// Prints which line was refused and why, and how many before it stay done.
    fn refused(&self, answer: ListRefused, out: &mut impl Write) -> io::Result<()> {
        let ListRefused { refused, accepted } = answer;
        let (number, reason) = (refused.number, refusal::reason(refused.number));
        write!(out, "refused {number}")?;
        match (number, self.entries.get(accepted)) {
            (STATE | WHOLE, _) | (_, None) => write!(out, ": {reason}")?,
            (_, Some(Entry { place, text, .. })) => {
                write!(out, " at line {place}, {text}: {reason}")?;
                if let 2..=11 = number {
                    write!(out, ", at byte {}", refused.place)?;
                }
                match accepted {
                    0 => write!(out, "; nothing was done")?,
                    1 => write!(out, "; the one before it stays done")?,
                    _ => write!(out, "; the {accepted} before it stay done")?,
                }
            }
        }
        let query = self.entries.iter().find(|entry| entry.call.op >= REPLIES);
        if let (WHOLE, Some(Entry { place, text, .. })) = (number, query) {
            write!(out, "; that of line {place} does: {text}")?;
        }
        writeln!(out)
    }
}
