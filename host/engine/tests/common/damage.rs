//! States that commands lead to, and damage to their words and bytes.

use super::pair::Pair;
use independent::engine::{Commands, Theme, BUSES, MOST_NODES, SLOTS};
use independent::layout::{record, row_words, write_index, Record, ARENA, INDEX, RECORD, WORDS};
use independent::layout::{BUS, CONTROL, COUNT, LATEST, LENGTH, NEXT, NODE, ORDER, ORDER_LENGTH};
use independent::layout::{RESIDENT, ROW};
use independent::{running, Random, MOST_BYTES, MOST_PARAMETERS};

/// Values at the edges of what words can be.
const EDGES: [u32; 28] = [
    0,
    1,
    2,
    3,
    5,
    31,
    32,
    33,
    254,
    255,
    256,
    257,
    2047,
    2048,
    2049,
    4095,
    4096,
    4097,
    0x7fff_fffe,
    0x7fff_ffff,
    0x8000_0000,
    0x8000_0001,
    0xffff_fff6,
    0xffff_fff7,
    0xffff_fff8,
    0xffff_fff9,
    0xffff_fffe,
    0xffff_ffff,
];

/// A state that commands lead to, the model that holds the same, and more commands.
pub fn reach(random: &mut Random, place: usize) -> (Pair, Commands) {
    let theme = Theme::ALL[place % Theme::ALL.len()];
    let mut commands = Commands::new(Random::new(random.bits()), theme);
    let mut pair = Pair::fresh(random);
    let length = random.one_of(&[3, 30, 100, 300, 600]);
    for _ in 0..length {
        let call = commands.next(&pair.model);
        if let Err(what) = pair.send(&call, random) {
            panic!("{what}: {call:?}");
        }
    }
    assert_eq!(pair.compare_views(), Ok(()));
    if random.below(3) == 0 {
        pair.shuffle(random);
    }
    (pair, commands)
}

/// Changes so many words or bytes, and mends now and then what would be found at once: the running order,
/// the index.
pub fn hurt(times: usize, random: &mut Random, words: &mut [u32], arena: &mut [u8]) {
    for _ in 0..times {
        damage(random, words, arena);
    }
    if random.below(4) == 0 {
        mend_order(words);
    }
    if random.below(2) == 0 && words[COUNT] <= MOST_NODES as u32 {
        write_index(words);
    }
}

/// Changes a word or a byte, mostly one that is looked at.
fn damage(random: &mut Random, words: &mut [u32], arena: &mut [u8]) {
    let count = (words[COUNT] as usize).clamp(1, MOST_NODES);
    let node = random.below(count);
    let other = record(words, random.below(count));
    let Record { slot, row, .. } = record(words, node);
    let slot = (slot as usize).min(SLOTS - 1);
    let (word, neighbour) = match random.below(43) {
        0 => (COUNT, 0),
        1 => (ORDER_LENGTH, 0),
        2 => (NEXT, other.number),
        3 => (LATEST, other.number),
        4 => (LENGTH + random.below(SLOTS), 0),
        5 => (LENGTH + slot, words[LENGTH + random.below(SLOTS)]),
        6 => (RESIDENT + random.below(SLOTS), 1),
        7 => (RESIDENT + slot, 1),
        8..=10 => (NODE + RECORD * node, other.number),
        11..=14 => (NODE + RECORD * node + 1, other.depth),
        15..=16 => (NODE + RECORD * node + 2, 1),
        17..=19 => (NODE + RECORD * node + 3, other.slot),
        20..=22 => (NODE + RECORD * node + 4, other.row),
        // Just past the records.
        23 => (
            (NODE + RECORD * count + random.below(RECORD)).min(ORDER - 1),
            other.number,
        ),
        24..=25 => {
            let length = (words[ORDER_LENGTH] as usize).min(MOST_NODES - 2);
            (ORDER + random.up_to(length), other.number)
        }
        26 => (ORDER + random.below(MOST_NODES - 1), other.number),
        27..=29 => {
            let row = (row as usize).min(MOST_NODES - 1);
            let index = match random.below(4) {
                0 => random.below(MOST_PARAMETERS),
                _ => random.below(4),
            };
            let word = row_words(row, index).end + usize::from(random.below(4) > 0);
            (word, (BUSES + random.below(3)) as u32)
        }
        30 => (CONTROL + random.below(ROW * MOST_NODES), 0),
        31 => (BUS + random.below(BUSES), 0),
        32 => (random.below(WORDS), 0),
        40..=41 => (INDEX + random.below(count), random.below(count) as u32),
        // Just past the index.
        42 => (
            (INDEX + count).min(WORDS - 1),
            words[INDEX + random.below(count)],
        ),
        // Bytes.
        33..=37 => {
            let length = (words[LENGTH + slot] as usize).clamp(1, MOST_BYTES);
            let place = MOST_BYTES * slot + random.below(length);
            arena[place] = new_byte(random, arena[place]);
            return;
        }
        38 => {
            // One definition over another.
            let from = MOST_BYTES * random.below(SLOTS);
            arena.copy_within(from..from + MOST_BYTES, MOST_BYTES * slot);
            return;
        }
        _ => {
            let place = random.below(ARENA);
            arena[place] = new_byte(random, arena[place]);
            return;
        }
    };
    words[word] = match random.below(8) {
        0 => words[word].wrapping_add(1),
        1 => words[word].wrapping_sub(1),
        2 => words[word] ^ (1 << random.below(32)),
        3 => random.bits() as u32,
        4 => random.below(300) as u32,
        5 => random.one_of(&EDGES),
        _ => neighbour,
    };
}

fn new_byte(random: &mut Random, old: u8) -> u8 {
    match random.below(4) {
        0 => random.byte(),
        1 => old ^ (1 << random.below(8)),
        2 => old.wrapping_add(1),
        _ => random.one_of(&[0, 1, 2, 3, 127, 128, 255]),
    }
}

/// Writes the running order of the records, whatever they are.
fn mend_order(words: &mut [u32]) {
    let count = (words[COUNT] as usize).min(MOST_NODES);
    let mut records: Vec<Record> = (0..count).map(|place| record(words, place)).collect();
    for record in &mut records {
        record.depth = record.depth.min(MOST_NODES as u32);
    }
    let order = running(&records);
    words[ORDER_LENGTH] = order.len() as u32;
    for (word, number) in words[ORDER..CONTROL].iter_mut().zip(order) {
        *word = number;
    }
}
