//! Why a number is silent: the parts of the answer.

use super::Refused;

/// The first of these that is true.
#[derive(Clone, Copy, Debug, PartialEq, Eq)]
pub enum Reason {
    /// No node has this number; of -1, the latest synth does not live.
    NoSuchNode,
    Group,
    /// A synth that is off by its own flag.
    Off,
    /// A synth that is on, below a group that is off: the number of the one nearest the root.
    AncestorOff(i32),
    /// A synth that runs: its place in the running order, from 1.
    Running(u32),
}

/// The reason that an answer of `why` is.
pub(crate) fn unpacked(answer: u64) -> Result<Reason, Refused> {
    let value = (answer >> 16) as u32;
    match (answer as u8, (answer >> 8) as u8) {
        (0, 1) => Ok(Reason::NoSuchNode),
        (0, 2) => Ok(Reason::Group),
        (0, 3) => Ok(Reason::Off),
        (0, 4) => Ok(Reason::AncestorOff(value as i32)),
        (0, _) => Ok(Reason::Running(value)),
        (number, _) => Err(Refused {
            number: u32::from(number),
            place: 0,
        }),
    }
}
