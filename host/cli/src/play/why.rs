//! The answer to `why` in words.

use super::tree::{LATEST, ORDER_LENGTH};
use engine::Reason;

/// The number that stands for the latest synth.
const THE_LATEST: i32 = -1;
const ROOT: i32 = 0;

/// A reason as a sentence, given the number that was asked for and the words of the state.
pub fn sentence(number: i32, reason: Reason, words: &[u32]) -> String {
    let who = match number {
        THE_LATEST => format!("{}, the latest synth,", words[LATEST] as i32),
        _ => number.to_string(),
    };
    match reason {
        Reason::NoSuchNode if number == THE_LATEST => "there is no latest synth".to_string(),
        Reason::NoSuchNode => format!("there is no node {number}"),
        Reason::Group => format!("{who} is a group"),
        Reason::Off => format!("{who} is silent: it is off"),
        Reason::AncestorOff(ROOT) => format!("{who} is silent: the root is off"),
        Reason::AncestorOff(group) => format!("{who} is silent: group {group} above it is off"),
        Reason::Running(place) => {
            let all = words[ORDER_LENGTH];
            format!("{who} runs, {} of {all}", ordinal(place))
        }
    }
}

/// 1st, 2nd, 3rd, 4th and so on.
fn ordinal(place: u32) -> String {
    let ending = match (place % 100, place % 10) {
        (11..=13, _) => "th",
        (_, 1) => "st",
        (_, 2) => "nd",
        (_, 3) => "rd",
        _ => "th",
    };
    format!("{place}{ending}")
}
