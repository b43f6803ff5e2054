//! Where the parts of an engine lie in the two lent runs, by docs/LAYOUT.md: a state is read as a
//! view, and a view is written as a state.

use crate::engine::{Control, NodeView, SlotView, SynthView, View, BUSES, MOST_NODES, SLOTS};
use crate::{read_definition, MOST_BYTES, MOST_PARAMETERS};
use std::ops::Range;

/// The lengths of the two runs.
pub const WORDS: usize = INDEX + MOST_NODES;
pub const ARENA: usize = SLOTS * MOST_BYTES;

pub const COUNT: usize = 0;
pub const ORDER_LENGTH: usize = 1;
pub const NEXT: usize = 2;
pub const LATEST: usize = 3;
pub const LENGTH: usize = 4;
pub const RESIDENT: usize = LENGTH + SLOTS;
pub const NODE: usize = RESIDENT + SLOTS;
pub const ORDER: usize = NODE + RECORD * MOST_NODES;
pub const CONTROL: usize = ORDER + MOST_ORDER;
pub const BUS: usize = CONTROL + ROW * MOST_NODES;
pub const INDEX: usize = BUS + BUSES;

/// The words of a node's record, and of a row of controls.
pub const RECORD: usize = 5;
pub const ROW: usize = 2 * MOST_PARAMETERS;
pub const MOST_ORDER: usize = MOST_NODES - 1;

/// The slot word of a group.
pub const GROUP: u32 = SLOTS as u32;

/// The word `next` where no number is left.
pub const NONE_LEFT: u32 = i32::MAX as u32;

/// A node's record.
#[derive(Clone, Copy, Debug, PartialEq, Eq)]
pub struct Record {
    pub number: u32,
    pub depth: u32,
    pub run: u32,
    pub slot: u32,
    pub row: u32,
}

impl Record {
    pub fn is_group(&self) -> bool {
        self.slot == GROUP
    }
}

pub fn record(words: &[u32], place: usize) -> Record {
    let at = NODE + RECORD * place;
    Record {
        number: words[at],
        depth: words[at + 1],
        run: words[at + 2],
        slot: words[at + 3],
        row: words[at + 4],
    }
}

/// The records up to the count, which is at most 256.
pub fn records(words: &[u32]) -> Vec<Record> {
    let places = 0..words[COUNT] as usize;
    places.map(|place| record(words, place)).collect()
}

/// Writes the index afresh: the places of the records by rising number. Words past them stay.
pub fn write_index(words: &mut [u32]) {
    let mut places: Vec<u32> = (0..words[COUNT]).collect();
    places.sort_by_key(|&place| record(words, place as usize).number);
    words[INDEX..][..places.len()].copy_from_slice(&places);
}

/// The bytes of a slot's definition. Its length is at most the limit.
pub fn slot_bytes<'a>(words: &[u32], arena: &'a [u8], slot: usize) -> &'a [u8] {
    let start = MOST_BYTES * slot;
    &arena[start..start + words[LENGTH + slot] as usize]
}

/// The words of a row's first controls.
pub fn row_words(row: usize, controls: usize) -> Range<usize> {
    let start = CONTROL + ROW * row;
    start..start + 2 * controls
}

/// What a well-formed state holds.
pub fn view(words: &[u32], arena: &[u8]) -> View {
    let records = records(words);
    let mut slots = vec![None; SLOTS];
    let mut parameters = [0; SLOTS];
    for slot in 0..SLOTS {
        let resident = words[RESIDENT + slot] == 1;
        if resident || records.iter().any(|record| record.slot == slot as u32) {
            let bytes = slot_bytes(words, arena, slot).to_vec();
            let definition = read_definition(&bytes).expect("a taken slot is readable");
            parameters[slot] = definition.initial.len();
            slots[slot] = Some(SlotView { bytes, resident });
        }
    }
    let node = |record: &Record| NodeView {
        number: record.number as i32,
        depth: record.depth as usize,
        on: record.run == 1,
        synth: (!record.is_group()).then(|| {
            let slot = record.slot as usize;
            let row = row_words(record.row as usize, parameters[slot]);
            let control = |pair: &[u32]| Control {
                own: pair[0],
                bus: (pair[1] as usize).checked_sub(1),
            };
            SynthView {
                slot,
                controls: words[row].chunks_exact(2).map(control).collect(),
            }
        }),
    };
    let order = &words[ORDER..ORDER + words[ORDER_LENGTH] as usize];
    View {
        nodes: records.iter().map(node).collect(),
        order: order.iter().map(|&number| number as i32).collect(),
        next: (words[NEXT] != NONE_LEFT).then_some(words[NEXT] as i32),
        latest: (words[LATEST] != 0).then_some(words[LATEST] as i32),
        slots,
        buses: words[BUS..INDEX].to_vec(),
    }
}

/// A state that holds this; the synths have their rows by the order of the nodes.
pub fn state(view: &View) -> (Vec<u32>, Vec<u8>) {
    let mut words = vec![0; WORDS];
    let mut arena = vec![0; ARENA];
    words[COUNT] = view.nodes.len() as u32;
    words[ORDER_LENGTH] = view.order.len() as u32;
    words[NEXT] = view.next.map_or(NONE_LEFT, |number| number as u32);
    words[LATEST] = view.latest.unwrap_or(0) as u32;
    for (place, slot) in view.slots.iter().enumerate() {
        if let Some(slot) = slot {
            words[LENGTH + place] = slot.bytes.len() as u32;
            words[RESIDENT + place] = u32::from(slot.resident);
            arena[MOST_BYTES * place..][..slot.bytes.len()].copy_from_slice(&slot.bytes);
        }
    }
    let mut row = 0;
    for (place, node) in view.nodes.iter().enumerate() {
        let mut record = [
            node.number as u32,
            node.depth as u32,
            u32::from(node.on),
            GROUP,
            0,
        ];
        if let Some(synth) = &node.synth {
            record[3] = synth.slot as u32;
            record[4] = row as u32;
            let controls = synth.controls.iter();
            let controls = controls
                .flat_map(|control| [control.own, control.bus.map_or(0, |bus| bus as u32 + 1)]);
            let controls: Vec<u32> = controls.collect();
            words[row_words(row, synth.controls.len())].copy_from_slice(&controls);
            row += 1;
        }
        words[NODE + RECORD * place..][..RECORD].copy_from_slice(&record);
    }
    for (word, &number) in words[ORDER..].iter_mut().zip(&view.order) {
        *word = number as u32;
    }
    words[BUS..INDEX].copy_from_slice(&view.buses);
    write_index(&mut words);
    (words, arena)
}
