//! Stores of saved settings: well-formed ones in every arrangement, and what can be wrong with one.

use super::shapes::NAMES;
use independent::settings::{HIGHEST, MOST_VERSIONS, NAME, SETTING, VERSION};
use independent::{Named, Random, Saved, Setting};

/// A field in the making. Its length is that of its bytes, or another.
#[derive(Clone, Debug)]
pub struct Field {
    pub tag: u8,
    pub bytes: Vec<u8>,
    pub length: Option<u16>,
}

impl Field {
    fn new(tag: u8, bytes: &[u8]) -> Field {
        Field {
            tag,
            bytes: bytes.to_vec(),
            length: None,
        }
    }

    fn number(tag: u8, number: u32) -> Field {
        Field::new(tag, &number.to_be_bytes())
    }

    fn setting(name: &[u8], value: u32) -> Field {
        Field::new(SETTING, &[name, &value.to_be_bytes()].concat())
    }
}

/// The fields of entries.
pub fn fields(entries: &[Named]) -> Vec<Field> {
    let mut fields = Vec::new();
    for entry in entries {
        fields.push(Field::new(NAME, &entry.name));
        fields.push(Field::number(HIGHEST, entry.highest));
        for saved in &entry.versions {
            fields.push(Field::number(VERSION, saved.version));
            let settings = saved.settings.iter();
            fields.extend(settings.map(|setting| Field::setting(&setting.name, setting.value)));
        }
    }
    fields
}

/// The bytes of fields.
pub fn bytes(fields: &[Field]) -> Vec<u8> {
    let mut bytes = Vec::new();
    for field in fields {
        let length = field.length.unwrap_or(field.bytes.len() as u16);
        bytes.push(field.tag);
        bytes.extend(length.to_be_bytes());
        bytes.extend_from_slice(&field.bytes);
    }
    bytes
}

/// Random entries, under names of which many are those that are given.
pub fn entries(random: &mut Random, known: &[Vec<u8>]) -> Vec<Named> {
    let count = random.one_of(&[0, 1, 1, 2, 2, 3, 5]);
    let mut entries: Vec<Named> = Vec::new();
    for _ in 0..count {
        let name = definition_name(random, known);
        if entries.iter().all(|entry| entry.name != name) {
            let entry = entry(random, name);
            entries.push(entry);
        }
    }
    entries
}

fn definition_name(random: &mut Random, known: &[Vec<u8>]) -> Vec<u8> {
    match random.below(8) {
        0 => vec![b'n'; random.one_of(&[1, 254, 255])],
        1 => {
            let length = 1 + random.below(6);
            random.name(length)
        }
        _ if known.is_empty() => b"unknown".to_vec(),
        _ => known[random.below(known.len())].clone(),
    }
}

/// What stands under a name: few versions or as many as there can be, from 1 on, with gaps, or the highest.
fn entry(random: &mut Random, name: Vec<u8>) -> Named {
    let count = random.one_of(&[0, 0, 1, 1, 1, 2, 3, 5, 15, 16, 16]);
    let mut versions: Vec<u32> = match random.below(4) {
        0..=1 => (1..=count).collect(),
        2 => (0..count).map(|_| 1 + random.bits() as u32 / 2).collect(),
        _ => (0..count)
            .map(|at| u32::MAX - random.below(2) as u32 - 2 * at)
            .collect(),
    };
    versions.sort();
    versions.dedup();
    let top = versions.last().copied().unwrap_or(random.below(3) as u32);
    let highest = match random.below(8) {
        0 => u32::MAX,
        1 => top.max(u32::MAX - 1),
        2 => top.saturating_add(random.below(3) as u32),
        _ => top,
    };
    // Longer versions where there are few of them.
    let most = if count < 4 { 12 } else { 4 };
    Named {
        name,
        highest: highest.max(1),
        versions: versions
            .into_iter()
            .map(|version| Saved {
                version,
                settings: settings(random, most),
            })
            .collect(),
    }
}

fn settings(random: &mut Random, most: usize) -> Vec<Setting> {
    // Now and then more than a definition has controls.
    let many = random.below(100) == 0;
    let count = if many { 40 } else { random.up_to(most) };
    let mut settings: Vec<Setting> = Vec::new();
    for at in 0..count {
        let name = match random.below(8) {
            _ if many && at > 4 => format!("c{at}").into_bytes(),
            0 => format!("c{at}").into_bytes(),
            1 => vec![b'c'; random.one_of(&[1, 3, 255])],
            _ => random.one_of(&NAMES).to_vec(),
        };
        if settings.iter().all(|other| other.name != name) {
            let value = random.bits() as u32;
            settings.push(Setting { name, value });
        }
    }
    settings
}

/// Ways to damage a store.
pub const DAMAGE: [&str; 22] = [
    "a tag above 4",
    "another tag",
    "another length",
    "a field missing",
    "a field twice",
    "two fields exchanged",
    "an empty definition name",
    "a definition name too long",
    "a control name too long",
    "a byte of a definition name",
    "a byte of a control name",
    "a version of 0",
    "a tag 4 of 0",
    "versions that do not rise",
    "a version above tag 4",
    "17 versions",
    "a name twice",
    "a control twice",
    "a version not of four bytes",
    "a tag 4 not of four bytes",
    "a tag 3 under four bytes",
    "no tag 4",
];

/// Of these ways, those that need not be refused, since they may leave a well-formed store.
const OPEN: [usize; 5] = [1, 2, 3, 4, 5];

/// A damaged store: which way, and whether 31 is settled by that.
pub struct Damaged {
    pub bytes: Vec<u8>,
    pub way: &'static str,
    pub settled: bool,
}

/// Damages a store in one way, none where it has no field for it.
pub fn damaged(random: &mut Random, entries: &[Named], way: usize) -> Option<Damaged> {
    let mut fields = fields(entries);
    match way {
        0..=5 => any_field(random, &mut fields, way)?,
        6..=10 | 18..=20 => field_of_a_kind(random, &mut fields, way)?,
        _ => entry_damaged(random, &mut fields, way)?,
    }
    Some(Damaged {
        bytes: bytes(&fields),
        way: DAMAGE[way],
        settled: !OPEN.contains(&way),
    })
}

/// Damage to whichever field.
fn any_field(random: &mut Random, fields: &mut Vec<Field>, way: usize) -> Option<()> {
    if fields.is_empty() {
        return None;
    }
    let place = random.up_to(fields.len() - 1);
    let other = random.below(fields.len());
    match way {
        0 => fields[place].tag = random.one_of(&[5, 6, 127, 128, 255]),
        1 => fields[place].tag = 1 + random.below(4) as u8,
        2 => {
            let length = fields[place].bytes.len() as u16;
            let more = random.one_of(&[1, 2, 4, 255, 256, 512, 0x8000]);
            let lengths = [length.wrapping_add(more), length.wrapping_sub(more), 0, 4];
            fields[place].length = Some(random.one_of(&lengths));
        }
        3 => _ = fields.remove(place),
        4 => {
            let again = fields[place].clone();
            fields.insert(random.one_of(&[place, other]), again);
        }
        _ => fields.swap(place, other),
    }
    Some(())
}

/// Damage to a field with a certain tag.
fn field_of_a_kind(random: &mut Random, fields: &mut [Field], way: usize) -> Option<()> {
    let tag = match way {
        6 | 7 | 9 => NAME,
        18 => VERSION,
        19 => HIGHEST,
        _ => SETTING,
    };
    let named = |field: &Field| field.tag == tag && (way != 10 || field.bytes.len() > 4);
    let places: Vec<usize> = (0..fields.len()).filter(|&at| named(&fields[at])).collect();
    if places.is_empty() {
        return None;
    }
    let bytes = &mut fields[random.one_of(&places)].bytes;
    let name = match tag {
        NAME => bytes.len(),
        _ => bytes.len().saturating_sub(4),
    };
    match way {
        6 => bytes.clear(),
        7 | 8 => {
            let more = random.one_of(&[256, 257, 512, 700]) - name;
            bytes.splice(0..0, vec![b'x'; more]);
        }
        9 | 10 => bytes[random.up_to(name - 1)] = random.one_of(&[0, 128, 129, 255]),
        18 | 19 => bytes.resize(random.one_of(&[0, 1, 3, 5, 8]), 1),
        _ => bytes.truncate(random.below(4)),
    }
    Some(())
}

/// Damage to an entry's versions, or one more of what there must be one of.
fn entry_damaged(random: &mut Random, fields: &mut Vec<Field>, way: usize) -> Option<()> {
    let with = |tag: u8, fields: &[Field]| -> Vec<usize> {
        (0..fields.len())
            .filter(|&at| fields[at].tag == tag)
            .collect()
    };
    let tag = match way {
        12 | 15 | 21 => HIGHEST,
        16 => NAME,
        17 => SETTING,
        _ => VERSION,
    };
    let places = with(tag, fields);
    if places.is_empty() {
        return None;
    }
    let place = random.one_of(&places);
    let highest = with(HIGHEST, &fields[..=place]);
    let highest = highest.last().map_or(place, |&at| at);
    match way {
        11 | 12 => fields[place] = Field::number(tag, 0),
        13 => {
            let again = fields[place].clone();
            fields.insert(place, again);
        }
        14 => {
            let most = u32::from_be_bytes(fields[highest].bytes[..].try_into().ok()?);
            fields[place] = Field::number(VERSION, most.checked_add(1)?);
        }
        15 => seventeen(place, fields),
        16 => {
            let again = fields[place].clone();
            fields.extend([again, Field::number(HIGHEST, 1)]);
        }
        17 => {
            let mut again = fields[place].clone();
            let last = again.bytes.len() - 1;
            again.bytes[last] ^= random.byte();
            let end = (place..fields.len()).find(|&at| fields[at].tag != SETTING);
            fields.insert(end.unwrap_or(fields.len()), again);
        }
        _ => _ = fields.remove(place),
    }
    Some(())
}

/// Gives an entry 17 versions, of which nothing else is wrong.
fn seventeen(highest: usize, fields: &mut Vec<Field>) {
    let behind = highest + 1;
    let end = (behind..fields.len()).find(|&at| fields[at].tag == NAME);
    let versions = (1..=MOST_VERSIONS as u32 + 1).map(|version| Field::number(VERSION, version));
    fields.splice(behind..end.unwrap_or(fields.len()), versions);
    fields[highest] = Field::number(HIGHEST, MOST_VERSIONS as u32 + 1);
}

/// Up to 40 bytes: of the tags and small lengths, or the front of a store.
pub fn short(random: &mut Random, entries: &[Named]) -> Vec<u8> {
    let length = random.below(41);
    let mut store = match random.below(3) {
        0 => bytes(&fields(entries)),
        1 => small_fields(random),
        _ => Vec::new(),
    };
    let small = [0, 0, 0, 0, 1, 1, 2, 3, 4, 4, 5, b'a'];
    while store.len() < length {
        store.push(random.one_of(&small));
    }
    store.truncate(length);
    store
}

/// An entry of the shortest fields, with one byte that may be another.
fn small_fields(random: &mut Random) -> Vec<u8> {
    let mut store =
        b"\x01\0\x01a\x04\0\x04\0\0\0\x02\x02\0\x04\0\0\0\x01\x03\0\x05a\0\0\0\0\x03\0\x04"
            .to_vec();
    if random.below(2) == 0 {
        let place = random.below(store.len());
        store[place] = random.one_of(&[0, 1, 2, 3, 4, 5, 6, 127, 128, 255]);
    }
    store
}
