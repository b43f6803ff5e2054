//! The lookup by number in tables of many sizes: every number that lives, and those beside it.

mod common;

use common::desk::definition;
use common::pair::Pair;
use common::{say, seed};
use independent::{layout, write, Call, Random};

/// Where the steps of a search by halves become one more, and the sizes around.
const SIZES: [usize; 26] = [
    1, 2, 3, 4, 5, 6, 7, 8, 9, 15, 16, 17, 31, 32, 33, 63, 64, 65, 127, 128, 129, 250, 253, 254,
    255, 256,
];

#[test]
fn numbers_and_those_beside_them() {
    let mut random = Random::new(seed());
    let [mut found, mut missing] = [0; 2];
    for _ in 0..4 {
        let mut pair = Pair::fresh(&mut random);
        let file = write(&[definition("voice", &["freq"], &[7])]).bytes;
        send(&mut pair, &Call::new(1, [0; 5], &file), &mut random);
        for size in SIZES {
            grow(&mut pair, size, &mut random);
            for record in layout::records(&pair.words) {
                let number = record.number as i32;
                for number in [number, number.wrapping_sub(1), number.wrapping_add(1)] {
                    let query = Call::new(24, [number, 0, 0, 0, 0], b"");
                    match send(&mut pair, &query, &mut random) {
                        17 => missing += 1,
                        _ => found += 1,
                    }
                }
            }
        }
    }
    say(&format!("{found} lookups found a node, {missing} did not"));
    assert!(found >= 5_000 && missing >= 5_000);
}

/// Adds nodes at any places, a few with generated numbers, until there are so many.
fn grow(pair: &mut Pair, size: usize, random: &mut Random) {
    while pair.model.nodes() < size {
        let records = layout::records(&pair.words);
        let target = records[random.below(records.len())].number as i32;
        let number = match random.below(4) {
            0 => random.below(600) as i32,
            1 => i32::MAX - random.below(600) as i32,
            2 => random.bits() as i32 & i32::MAX,
            _ => -1,
        };
        let op = 3 + random.below(2) as u32;
        let numbers = [number, random.below(4) as i32, target.max(0), 0, 0];
        send(pair, &Call::new(op, numbers, b"voice"), random);
    }
}

/// Sends a command to both. Answers the refusal's number, or 0.
fn send(pair: &mut Pair, call: &Call, random: &mut Random) -> u32 {
    let answer = pair.send(call, random);
    answer.unwrap_or_else(|what| panic!("{what}: {call:?}"))
}
