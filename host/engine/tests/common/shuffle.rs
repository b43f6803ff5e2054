//! What a well-formed state leaves open.

use independent::layout::{records, row_words, slot_bytes};
use independent::layout::{
    BUS, CONTROL, INDEX, LENGTH, NODE, ORDER, ORDER_LENGTH, RECORD, RESIDENT,
};
use independent::Random;

/// Puts anything into what a well-formed state leaves open, and gives the synths other rows.
pub fn shuffle(words: &mut [u32], arena: &mut [u8], random: &mut Random) {
    let records = records(words);
    let old = words[CONTROL..BUS].to_vec();
    words[CONTROL..BUS].fill_with(|| random.bits() as u32);
    let mut rows: Vec<usize> = (0..256).collect();
    for (place, record) in records.iter().enumerate() {
        let row = rows.swap_remove(random.below(rows.len()));
        let word = &mut words[NODE + RECORD * place + 4];
        if record.is_group() {
            *word = random.bits() as u32;
        } else {
            *word = row as u32;
            let slot = slot_bytes(words, arena, record.slot as usize);
            let definition = independent::read_definition(slot).expect("a taken slot is readable");
            let parameters = definition.initial.len();
            let from = row_words(record.row as usize, parameters);
            let from = &old[from.start - CONTROL..from.end - CONTROL];
            words[row_words(row, parameters)].copy_from_slice(from);
        }
    }
    words[NODE + RECORD * records.len()..ORDER].fill_with(|| random.bits() as u32);
    let past_order = ORDER + words[ORDER_LENGTH] as usize;
    words[past_order..CONTROL].fill_with(|| random.bits() as u32);
    words[INDEX + records.len()..].fill_with(|| random.bits() as u32);
    for slot in 0..independent::engine::SLOTS {
        let resident = words[RESIDENT + slot] == 1;
        let taken = resident || records.iter().any(|record| record.slot == slot as u32);
        let bytes = &mut arena[independent::MOST_BYTES * slot..][..independent::MOST_BYTES];
        if taken {
            bytes[words[LENGTH + slot] as usize..].fill_with(|| random.byte());
        } else {
            words[LENGTH + slot] = random.bits() as u32;
            bytes.fill_with(|| random.byte());
        }
    }
}
