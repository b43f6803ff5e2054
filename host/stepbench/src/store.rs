//! Saved settings in plain Rust that is written for speed: the store stays bytes, one pass tests it, names are told apart by a hash, and
//! nothing is allocated but at the start.
//!
//! It is no model: what it answers is compared with the independent side before it is timed.

const NAME: u8 = 1;
const VERSION: u8 = 2;
const SETTING: u8 = 3;
const HIGHEST: u8 = 4;

/// A field's head, and a field of four bytes.
const HEAD: usize = 3;
const NUMBER: usize = HEAD + 4;

const MOST_VERSIONS: usize = 16;
const LONGEST_NAME: usize = 255;

/// More places than a store of 64 KB has fields.
const PLACES: usize = 1 << 15;

/// A synth: its definition's name, and its controls, each with a name and its float.
pub struct Synth {
    pub definition: Vec<u8>,
    pub names: Vec<Vec<u8>>,
    pub values: Vec<u32>,
}

/// Names that were seen, by their hashes: where each starts, and in which round.
pub struct Seen {
    places: Vec<(u32, u32)>,
    round: u32,
}

impl Seen {
    pub fn new() -> Seen {
        Seen {
            places: vec![(0, 0); PLACES],
            round: 0,
        }
    }

    /// Whether a name, which starts at a field, is new in this round.
    fn insert(&mut self, store: &[u8], at: usize, name: &[u8]) -> bool {
        let mut place = hash(name) as usize % PLACES;
        loop {
            let (other, round) = self.places[place];
            if round != self.round {
                self.places[place] = (at as u32, self.round);
                return true;
            }
            if same_field(store, other as usize, at) {
                return false;
            }
            place = (place + 1) % PLACES;
        }
    }
}

/// Whether two fields of one tag have the same name.
fn same_field(store: &[u8], one: usize, other: usize) -> bool {
    let tail = if store[one] == SETTING { 4 } else { 0 };
    let (a, b) = (length(store, one), length(store, other));
    a == b
        && store[one + HEAD..one + HEAD + a - tail] == store[other + HEAD..other + HEAD + b - tail]
}

fn hash(name: &[u8]) -> u64 {
    let mix =
        |hash: u64, word: u64| (hash.rotate_left(5) ^ word).wrapping_mul(0x517c_c1b7_2722_0a95);
    let mut hash = name.len() as u64;
    let mut rest = name;
    while let Some((word, after)) = rest.split_first_chunk::<8>() {
        hash = mix(hash, u64::from_le_bytes(*word));
        rest = after;
    }
    for &byte in rest {
        hash = mix(hash, u64::from(byte));
    }
    hash >> 32
}

fn length(store: &[u8], at: usize) -> usize {
    usize::from(store[at + 1]) << 8 | usize::from(store[at + 2])
}

fn number(store: &[u8], at: usize) -> u32 {
    let bytes = &store[at + HEAD..at + NUMBER];
    u32::from_be_bytes([bytes[0], bytes[1], bytes[2], bytes[3]])
}

/// Where the field after this one starts.
fn next(store: &[u8], at: usize) -> usize {
    at + HEAD + length(store, at)
}

fn is_name(name: &[u8]) -> bool {
    let outside = |found: bool, &byte: &u8| found | (byte.wrapping_sub(1) >= 127);
    name.len() <= LONGEST_NAME && !name.iter().fold(false, outside)
}

/// The length of a store's contents, none where it is not well formed.
#[inline(never)]
pub fn contents(store: &[u8], names: &mut Seen, controls: &mut Seen) -> Option<usize> {
    let (mut at, mut before) = (0, 0);
    let (mut highest, mut latest, mut count) = (0, 0, 0);
    names.round += 1;
    while at < store.len() && store[at] != 0 {
        let tag = store[at];
        if store.len() - at < HEAD || store.len() - at - HEAD < length(store, at) {
            return None;
        }
        let end = next(store, at);
        let bytes = &store[at + HEAD..end];
        match (tag, before) {
            (NAME, 0 | HIGHEST | VERSION | SETTING) => {
                let fits = !bytes.is_empty() && is_name(bytes);
                (fits && names.insert(store, at, bytes)).then_some(())?;
            }
            (HIGHEST, NAME) if bytes.len() == 4 => {
                (highest, latest, count) = (number(store, at), 0, 0);
                (highest > 0).then_some(())?;
            }
            (VERSION, HIGHEST | VERSION | SETTING) if bytes.len() == 4 => {
                let version = number(store, at);
                count += 1;
                let fits = version > latest && version <= highest && count <= MOST_VERSIONS;
                fits.then_some(())?;
                latest = version;
                controls.round += 1;
            }
            (SETTING, VERSION | SETTING) if bytes.len() >= 4 => {
                let name = &bytes[..bytes.len() - 4];
                (is_name(name) && controls.insert(store, at, name)).then_some(())?;
            }
            _ => return None,
        }
        (at, before) = (end, tag);
    }
    (before != NAME).then_some(at)
}

/// Where a name's entry starts and ends within the contents, none where it has none.
fn entry(store: &[u8], end: usize, name: &[u8]) -> Option<(usize, usize)> {
    let mut at = 0;
    while at < end {
        let found = store[at] == NAME && store[at + HEAD..next(store, at)] == *name;
        at = next(store, at);
        if found {
            let start = at - HEAD - name.len();
            while at < end && store[at] != NAME {
                at = next(store, at);
            }
            return Some((start, at));
        }
    }
    None
}

/// Where a version starts and ends, none where there is none.
fn version(store: &[u8], end: usize, name: &[u8], wanted: u32) -> Option<(usize, usize)> {
    let (start, stop) = entry(store, end, name)?;
    let mut at = next(store, start) + NUMBER;
    while at < stop {
        let found = store[at] == VERSION && number(store, at) == wanted;
        let from = at;
        at = next(store, at);
        if found {
            while at < stop && store[at] == SETTING {
                at = next(store, at);
            }
            return Some((from, at));
        }
    }
    None
}

pub fn save(synth: &Synth, store: &mut [u8], names: &mut Seen, controls: &mut Seen) -> u64 {
    let Some(end) = contents(store, names, controls) else {
        return 31;
    };
    let found = entry(store, end, &synth.definition);
    let (start, stop) = found.unwrap_or((end, end));
    let mut given = 0;
    if found.is_some() {
        let mut at = next(store, start);
        given = number(store, at);
        let mut count = 0;
        while at < stop {
            count += usize::from(store[at] == VERSION);
            at = next(store, at);
        }
        if count >= MOST_VERSIONS {
            return 30;
        }
    }
    let head = match found {
        Some(_) => 0,
        None => HEAD + synth.definition.len() + NUMBER,
    };
    let settings: usize = synth.names.iter().map(|name| NUMBER + name.len()).sum();
    let more = head + NUMBER + settings;
    if given == u32::MAX || end + more > store.len() {
        return 33;
    }
    store.copy_within(stop..end, stop + more);
    let mut at = stop;
    let highest = match found {
        Some(_) => next(store, start),
        None => {
            put(store, &mut at, NAME, &[&synth.definition]);
            at
        }
    };
    put(
        store,
        &mut { highest },
        HIGHEST,
        &[&(given + 1).to_be_bytes()],
    );
    at = stop + head;
    put(store, &mut at, VERSION, &[&(given + 1).to_be_bytes()]);
    for (name, value) in synth.names.iter().zip(&synth.values) {
        put(store, &mut at, SETTING, &[name, &value.to_be_bytes()]);
    }
    store[end + more..].fill(0);
    256 * u64::from(given + 1)
}

/// Writes a field, and goes behind it.
fn put(store: &mut [u8], at: &mut usize, tag: u8, parts: &[&[u8]]) {
    let length: usize = parts.iter().map(|part| part.len()).sum();
    store[*at] = tag;
    store[*at + 1..*at + HEAD].copy_from_slice(&(length as u16).to_be_bytes());
    *at += HEAD;
    for part in parts {
        store[*at..*at + part.len()].copy_from_slice(part);
        *at += part.len();
    }
}

pub fn recall(
    name: &[u8],
    wanted: u32,
    synth: &mut Synth,
    store: &[u8],
    names: &mut Seen,
    controls: &mut Seen,
) -> u32 {
    let Some(end) = contents(store, names, controls) else {
        return 31;
    };
    let Some((start, stop)) = version(store, end, name, wanted) else {
        return 32;
    };
    let mut at = start + NUMBER;
    while at < stop {
        let end = next(store, at);
        let own = &store[at + HEAD..end - 4];
        if let Some(index) = synth.names.iter().position(|name| name == own) {
            synth.values[index] = number(store, end - NUMBER);
        }
        at = end;
    }
    0
}

pub fn drop_version(
    name: &[u8],
    wanted: u32,
    store: &mut [u8],
    names: &mut Seen,
    controls: &mut Seen,
) -> u32 {
    let Some(end) = contents(store, names, controls) else {
        return 31;
    };
    let Some((start, stop)) = version(store, end, name, wanted) else {
        return 32;
    };
    store.copy_within(stop..end, start);
    store[end - (stop - start)..].fill(0);
    0
}
