//! Lists as they are lent, in many arrangements, and what can be wrong with one.

use independent::{Call, Random, ITEM};

/// Words of an item.
const START: usize = 6;
const LENGTH: usize = 7;
const SPARE: usize = 8;

/// Kinds of commands that take a value.
const VALUED: [u32; 6] = [13, 14, 15, 16, 19, 20];

/// Items and bytes for calls. Parts stand in any places: with bytes between them that are no one's, or in
/// one place where they are the same.
pub fn lend(calls: &[Call], random: &mut Random) -> (Vec<u32>, Vec<u8>) {
    let (mut items, mut bytes): (Vec<u32>, Vec<u8>) = (Vec::new(), Vec::new());
    let gaps = random.below(2) == 0;
    for (place, call) in calls.iter().enumerate() {
        let same = calls[..place]
            .iter()
            .rposition(|other| other.bytes == call.bytes);
        let start = match same.filter(|_| random.below(2) == 0) {
            Some(other) => items[ITEM * other + START],
            None => {
                if gaps {
                    let gap = random.below(3);
                    bytes.extend((0..gap).map(|_| random.byte()));
                }
                let start = bytes.len() as u32;
                bytes.extend_from_slice(&call.bytes);
                start
            }
        };
        items.push(call.op);
        items.extend(call.numbers);
        items.extend([start, call.bytes.len() as u32, 0, 0, 0, 0]);
    }
    if gaps {
        let past = random.below(3);
        bytes.extend((0..past).map(|_| random.byte()));
    }
    (items, bytes)
}

/// Ways to make items no list.
pub const SPOILT: [&str; 6] = [
    "items not whole",
    "an op that is none",
    "a value's kind that is none",
    "a spare word that is not 0",
    "bytes past the end",
    "no bytes, from past the end",
];

/// Makes items no list by one fault, at any item and the last more often. Answers which.
pub fn spoil(items: &mut Vec<u32>, bytes: &[u8], random: &mut Random) -> &'static str {
    let way = if items.is_empty() {
        0
    } else {
        random.below(SPOILT.len())
    };
    let place = ITEM * random.up_to((items.len() / ITEM).saturating_sub(1));
    let more = 1 + random.below(3) as u32;
    match way {
        0 => {
            let odd = 1 + random.below(ITEM - 1);
            match items.len().checked_sub(odd) {
                Some(length) if random.below(2) == 0 => items.truncate(length),
                _ => items.resize(items.len() + odd, 0),
            }
        }
        1 => items[place] = random.one_of(&[0, 29, 30, 255, 256, 260, 1 << 31, u32::MAX]),
        2 => {
            items[place] = random.one_of(&VALUED);
            items[place + 4] = random.one_of(&[2, 3, 256, 257, 1 << 31, u32::MAX]);
        }
        3 => {
            let word = place + SPARE + random.below(ITEM - SPARE);
            items[word] = random.one_of(&[1, 2, 256, 1 << 31, u32::MAX]);
        }
        4 => {
            let start = random.up_to(bytes.len());
            let left = (bytes.len() - start) as u32;
            items[place + START] = start as u32;
            // A sum past 32 bits too.
            let lengths = [
                left + 1,
                left + more,
                u32::MAX,
                0u32.wrapping_sub(start.max(1) as u32),
            ];
            items[place + LENGTH] = random.one_of(&lengths);
        }
        _ => {
            let past = bytes.len() as u32;
            items[place + START] = random.one_of(&[past + 1, past + more, u32::MAX]);
            items[place + LENGTH] = 0;
        }
    }
    SPOILT[way]
}
