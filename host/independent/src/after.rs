//! What an accepted command leaves in the two lent runs, by docs/LAYOUT.md, word for word.

use crate::engine::{MOST_NODES, SLOTS};
use crate::layout::{record, records, row_words, write_index};
use crate::layout::{BUS, CONTROL, COUNT, GROUP, INDEX, LATEST, LENGTH, NEXT, NODE, NONE_LEFT};
use crate::layout::{ORDER, ORDER_LENGTH, RECORD, RESIDENT};
use crate::{View, MOST_BYTES, RECALL};
use std::collections::HashMap;

/// Brings a state from before an accepted command to the one after it, given what it then holds.
/// `op` is the command's kind.
pub fn leave(op: u32, after: &View, words: &mut [u32], arena: &mut [u8]) {
    match op {
        1 | 2 => slots(after, words, arena),
        3..=12 => tree(op, after, words),
        13..=18 | RECALL => controls(after, words, |_| true),
        19 | 20 => words[BUS..INDEX].copy_from_slice(&after.buses),
        _ => {}
    }
}

/// The flags of all slots, and the length and bytes of each definition that is new there.
fn slots(after: &View, words: &mut [u32], arena: &mut [u8]) {
    for slot in 0..SLOTS {
        let seen = after.slots[slot].as_ref();
        words[RESIDENT + slot] = u32::from(seen.is_some_and(|seen| seen.resident));
        if let Some(seen) = seen {
            let length = seen.bytes.len();
            words[LENGTH + slot] = length as u32;
            arena[MOST_BYTES * slot..][..length].copy_from_slice(&seen.bytes);
        }
    }
}

/// The first words, the records, the whole order, the index up to the count, and a new synth's
/// controls.
fn tree(op: u32, after: &View, words: &mut [u32]) {
    let before: HashMap<u32, u32> = records(words)
        .iter()
        .map(|record| (record.number, record.row))
        .collect();
    let mut rows_taken = [false; MOST_NODES];
    for node in after.nodes.iter().filter(|node| node.synth.is_some()) {
        if let Some(&row) = before.get(&(node.number as u32)) {
            rows_taken[row as usize] = true;
        }
    }
    let free = rows_taken.iter().position(|&taken| !taken);
    for (place, node) in after.nodes.iter().enumerate() {
        let number = node.number as u32;
        // A new group's row is 0, and a new synth's the lowest that no live synth has.
        let row = match (before.get(&number), &node.synth) {
            (Some(&row), _) => row,
            (None, None) => 0,
            (None, Some(_)) => free.expect("255 synths leave a row") as u32,
        };
        words[NODE + RECORD * place..][..RECORD].copy_from_slice(&[
            number,
            node.depth as u32,
            u32::from(node.on),
            node.synth.as_ref().map_or(GROUP, |synth| synth.slot as u32),
            row,
        ]);
    }
    words[COUNT] = after.nodes.len() as u32;
    words[ORDER_LENGTH] = after.order.len() as u32;
    words[NEXT] = after.next.map_or(NONE_LEFT, |number| number as u32);
    words[LATEST] = after.latest.unwrap_or(0) as u32;
    words[ORDER..CONTROL].fill(0);
    for (word, &number) in words[ORDER..].iter_mut().zip(&after.order) {
        *word = number as u32;
    }
    write_index(words);
    if op == 3 {
        controls(after, words, |number| !before.contains_key(&number));
    }
}

/// The controls of some synths, which the records already name.
fn controls(after: &View, words: &mut [u32], of: impl Fn(u32) -> bool) {
    for (place, node) in after.nodes.iter().enumerate() {
        let record = record(words, place);
        if let Some(synth) = node.synth.as_ref().filter(|_| of(record.number)) {
            let row = &mut words[row_words(record.row as usize, synth.controls.len())];
            for (pair, control) in row.chunks_exact_mut(2).zip(&synth.controls) {
                pair[0] = control.own;
                pair[1] = control.bus.map_or(0, |bus| bus as u32 + 1);
            }
        }
    }
}
