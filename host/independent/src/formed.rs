//! When a state is well formed: the eleven rules of docs/LAYOUT.md, one function for a rule or two.

use crate::engine::{BUSES, FIRST_GENERATED, MOST_NODES, SLOTS};
use crate::layout::{records, row_words, slot_bytes, Record};
use crate::layout::{ARENA, INDEX, MOST_ORDER, WORDS};
use crate::layout::{COUNT, GROUP, LATEST, LENGTH, NEXT, NONE_LEFT, ORDER, ORDER_LENGTH, RESIDENT};
use crate::{read_definition, Definition, MOST_BYTES};
use std::collections::HashSet;

/// Whether refusal 1 is not given.
pub fn well_formed(words: &[u32], arena: &[u8]) -> bool {
    // Rules 1 and 2.
    if words.len() != WORDS || arena.len() != ARENA {
        return false;
    }
    let count = words[COUNT] as usize;
    if !(1..=MOST_NODES).contains(&count) {
        return false;
    }
    let records = records(words);
    if !nodes_formed(&records, words[NEXT], words[LATEST]) {
        return false;
    }
    let synths = || records.iter().filter(|record| !record.is_group());
    // Rule 8.
    let Some(order) = words[ORDER..ORDER + MOST_ORDER].get(..words[ORDER_LENGTH] as usize) else {
        return false;
    };
    if order != running(&records) || !index_formed(&records, &words[INDEX..][..count]) {
        return false;
    }
    let Some(definitions) = definitions(&records, words, arena) else {
        return false;
    };
    // Rule 10.
    synths().all(|synth| {
        let parameters = definitions[synth.slot as usize]
            .as_ref()
            .map_or(0, |definition| definition.initial.len());
        words[row_words(synth.row as usize, parameters)]
            .chunks_exact(2)
            .all(|pair| pair[1] <= BUSES as u32)
    })
}

/// Rules 2 to 7, of the records, the next number and the latest synth.
fn nodes_formed(records: &[Record], next: u32, latest: u32) -> bool {
    let synths = records.iter().filter(|record| !record.is_group());
    (1..=MOST_NODES).contains(&records.len())
        && depths(records)
        && numbers(records, next)
        && flags(records)
        && all_differ(synths.map(|synth| synth.row))
        && next_and_latest(records, next, latest)
}

fn all_differ<T: Eq + std::hash::Hash>(mut things: impl Iterator<Item = T>) -> bool {
    let mut seen = HashSet::new();
    things.all(|thing| seen.insert(thing))
}

/// Rule 3. There is a record.
fn depths(records: &[Record]) -> bool {
    let root = &records[0];
    root.number == 0
        && root.depth == 0
        && root.is_group()
        && records.windows(2).all(|pair| {
            let most = if pair[0].is_group() {
                u64::from(pair[0].depth) + 1
            } else {
                u64::from(pair[0].depth)
            };
            pair[1].depth >= 1 && u64::from(pair[1].depth) <= most
        })
}

/// Rules 4 and 5.
fn numbers(records: &[Record], next: u32) -> bool {
    let generated = |record: &Record| {
        !record.is_group() && record.number <= FIRST_GENERATED as u32 && record.number > next
    };
    all_differ(records.iter().map(|record| record.number))
        && records
            .iter()
            .all(|record| record.number <= i32::MAX as u32 || generated(record))
}

/// Rule 6, but for the rows' being different.
fn flags(records: &[Record]) -> bool {
    records.iter().all(|record| {
        record.run <= 1
            && record.slot <= GROUP
            && (record.is_group() || record.row < MOST_NODES as u32)
    })
}

/// Rule 7.
fn next_and_latest(records: &[Record], next: u32, latest: u32) -> bool {
    (NONE_LEFT..=FIRST_GENERATED as u32).contains(&next)
        && (latest == 0
            || records
                .iter()
                .any(|record| record.number == latest && !record.is_group()))
}

/// The running order worked out afresh.
pub fn running(records: &[Record]) -> Vec<u32> {
    let mut order = Vec::new();
    // Of the node in hand and each of its ancestors, whether it is on.
    let mut line: Vec<bool> = Vec::new();
    for record in records {
        line.truncate(record.depth as usize);
        line.push(record.run == 1);
        if !record.is_group() && line.iter().all(|&on| on) {
            order.push(record.number);
        }
    }
    order
}

/// Rule 11: each entry is a node's place, and the numbers of these nodes rise.
fn index_formed(records: &[Record], index: &[u32]) -> bool {
    let numbers = index.iter().map(|&place| {
        let record = records.get(place as usize)?;
        Some(record.number)
    });
    let numbers: Option<Vec<u32>> = numbers.collect();
    numbers.is_some_and(|numbers| numbers.is_sorted_by(|one, next| one < next))
}

/// Rule 9: the definitions of the taken slots.
fn definitions(records: &[Record], words: &[u32], arena: &[u8]) -> Option<Vec<Option<Definition>>> {
    let mut definitions = Vec::with_capacity(SLOTS);
    let mut names = HashSet::new();
    for slot in 0..SLOTS {
        let resident = match words[RESIDENT + slot] {
            0 => false,
            1 => true,
            _ => return None,
        };
        let held = records.iter().any(|record| record.slot == slot as u32);
        if !resident && !held {
            definitions.push(None);
            continue;
        }
        if words[LENGTH + slot] > MOST_BYTES as u32 {
            return None;
        }
        let definition = read_definition(slot_bytes(words, arena, slot))?;
        if resident && !names.insert(definition.name.clone()) {
            return None;
        }
        definitions.push(Some(definition));
    }
    Some(definitions)
}
