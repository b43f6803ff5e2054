//! Saved settings: save, recall and drop, with the time of the state check taken off, against plain Rust written for speed; and what the test
//! of a full store takes.

use super::State;
use crate::clock::{least, least_of};
use crate::commands::{definition, done};
use crate::store::{self, Seen, Synth};
use engine::settings;
use independent::settings::contents;
use independent::{read_store, write, Call, Definition, Engine, Named, Saved, Setting};
use std::cell::RefCell;
use std::hint::black_box;

const STORE: usize = 65_536;
const CONTROLS: usize = 8;
const NAMES: usize = 32;

/// Samples of what takes long.
const FEW: usize = 5;

/// The two sets of names that plain Rust keeps.
struct Sets {
    names: Seen,
    controls: Seen,
}

impl Sets {
    fn new() -> RefCell<Sets> {
        RefCell::new(Sets {
            names: Seen::new(),
            controls: Seen::new(),
        })
    }
}

/// Tells of each number of versions what each call takes, and then what full stores take.
pub fn measure() {
    println!();
    print!("{:44} {:>9}", "saved settings", "Rust");
    println!(
        " {:>9} {:>9} {:>9} {:>7}",
        "whole", "check", "call", "ratio"
    );
    for versions in [1, 16, 500] {
        calls(versions);
    }
    println!();
    println!(
        "{:44} {:>9} {:>9} {:>7}",
        "a drop, full 64 KB", "Rust", "drop", "ratio"
    );
    for (what, entries) in [("names", many_names()), ("settings", many_settings())] {
        let mut store = contents(&entries);
        println!("{} bytes, {} {what}", store.len(), fields(&entries));
        store.resize(STORE, 0);
        let last = entries.last().expect("there is one");
        for version in [0, last.highest] {
            let how = if version == 0 {
                "refused with 32"
            } else {
                "accepted"
            };
            drops(&format!("many {what}: {how}"), &last.name, version, &store);
        }
    }
}

/// How many names and settings there are.
fn fields(entries: &[Named]) -> usize {
    let versions = entries.iter().flat_map(|entry| &entry.versions);
    let settings: usize = versions.map(|saved| saved.settings.len()).sum();
    entries.len() + settings
}

fn name_of(place: usize) -> String {
    format!("name{place:02}")
}

/// A synth of each name, 1000 and so on; 8 controls each.
fn engine() -> Engine {
    let mut engine = Engine::new();
    let definitions: Vec<Definition> = (0..NAMES)
        .map(|place| definition(name_of(place), CONTROLS))
        .collect();
    let file = write(&definitions).bytes;
    done(&mut engine, &Call::new(1, [0; 5], &file));
    for place in 0..NAMES {
        let number = 1000 + place as i32;
        let name = name_of(place);
        done(
            &mut engine,
            &Call::new(3, [number, 1, 0, 0, 0], name.as_bytes()),
        );
    }
    engine
}

/// So many versions, over as few names as can be or over all, of which the last has one less than the most.
fn saved(engine: &Engine, versions: usize) -> (Vec<u8>, usize) {
    let names = if versions > 16 { NAMES } else { 1 };
    let mut store = vec![0; STORE];
    for version in 0..versions {
        let node = 1000 + (version % names) as i32;
        engine.save(node, &mut store).expect("there is room");
    }
    (store, names - 1)
}

/// A save that makes so many, a recall of the newest, and its drop.
fn calls(versions: usize) {
    let what = match versions {
        1 => "1 version".to_string(),
        _ => format!("{versions} versions"),
    };
    let engine = engine();
    let (full, last) = saved(&engine, versions);
    let entries = read_store(&full).expect("it is formed");
    let newest = entries[last].highest;
    let name = name_of(last);
    let name = name.as_bytes();
    let mut fewer = full.clone();
    assert_eq!(independent::drop_version(name, newest, &mut fewer), Ok(()));
    // The version that a save gives is one more, since the newest was given.
    let node = 1000 + last as i32;
    let synth = RefCell::new(synth(&engine, last));
    let sets = Sets::new();
    let state = RefCell::new(State::of(&engine));
    let lent = RefCell::new(full.clone());
    let proved_save = || {
        let state = state.borrow();
        lent.borrow_mut().copy_from_slice(&fewer);
        settings::save(
            black_box(node) as u32,
            &state.words,
            &state.arena,
            &mut lent.borrow_mut(),
        )
    };
    let plain_save = || {
        let sets = &mut *sets.borrow_mut();
        lent.borrow_mut().copy_from_slice(&fewer);
        let mut lent = lent.borrow_mut();
        store::save(
            &synth.borrow(),
            &mut lent,
            &mut sets.names,
            &mut sets.controls,
        )
    };
    assert_eq!(proved_save(), 256 * u64::from(newest + 1));
    let after = lent.borrow().clone();
    assert_eq!(plain_save(), 256 * u64::from(newest + 1));
    assert!(after == *lent.borrow());
    let copy = |from: &[u8]| lent.borrow_mut().copy_from_slice(black_box(from));
    let times = least(vec![
        Box::new(|| _ = black_box(plain_save())),
        Box::new(|| _ = black_box(proved_save())),
        Box::new(|| copy(&fewer)),
        Box::new(|| _ = black_box(state.borrow_mut().nothing())),
    ]);
    row(
        &format!("{what}: save"),
        [times[0] - times[2], times[1] - times[2], times[3]],
    );
    let proved_recall = || {
        let State { words, arena, .. } = &mut *state.borrow_mut();
        settings::recall(name, newest, node as u32, &full, words, arena)
    };
    let plain_recall = || {
        let sets = &mut *sets.borrow_mut();
        let (names, controls) = (&mut sets.names, &mut sets.controls);
        store::recall(
            name,
            newest,
            &mut synth.borrow_mut(),
            &full,
            names,
            controls,
        )
    };
    assert_eq!((proved_recall(), plain_recall()), (0, 0));
    let times = least(vec![
        Box::new(|| _ = black_box(plain_recall())),
        Box::new(|| _ = black_box(proved_recall())),
        Box::new(|| _ = black_box(state.borrow_mut().nothing())),
    ]);
    row(&format!("{what}: recall"), [times[0], times[1], times[2]]);
    let [plain, proved] = dropped(name, newest, &full, &sets, None);
    row(&format!("{what}: drop"), [plain, proved, 0.0]);
}

fn row(what: &str, [rust, whole, check]: [f64; 3]) {
    let call = whole - check;
    print!("{what:44} {rust:>9.0} {whole:>9.0} {check:>9.0}");
    println!(" {call:>9.0} {:>7.2}", call / rust);
}

/// The times of a drop in plain Rust and of the proved one, without that of the copy which goes before.
fn dropped(
    name: &[u8],
    version: u32,
    full: &[u8],
    sets: &RefCell<Sets>,
    samples: Option<usize>,
) -> [f64; 2] {
    let lent = RefCell::new(full.to_vec());
    let copy = || lent.borrow_mut().copy_from_slice(black_box(full));
    let proved = || {
        copy();
        settings::drop_version(name, version, &mut lent.borrow_mut())
    };
    let plain = || {
        copy();
        let sets = &mut *sets.borrow_mut();
        let (names, controls) = (&mut sets.names, &mut sets.controls);
        store::drop_version(name, version, &mut lent.borrow_mut(), names, controls)
    };
    let answer = proved();
    let after = lent.borrow().clone();
    assert_eq!(plain(), answer);
    assert!(after == *lent.borrow());
    let works: Vec<Box<dyn FnMut() + '_>> = vec![
        Box::new(|| _ = black_box(plain())),
        Box::new(|| _ = black_box(proved())),
        Box::new(copy),
    ];
    let times = match samples {
        Some(samples) => least_of(samples, works),
        None => least(works),
    };
    [times[0] - times[2], times[1] - times[2]]
}

fn drops(what: &str, name: &[u8], version: u32, store: &[u8]) {
    let [plain, proved] = dropped(name, version, store, &Sets::new(), Some(FEW));
    println!(
        "{what:44} {plain:>9.0} {proved:>9.0} {:>7.2}",
        proved / plain
    );
}

/// A synth as plain Rust has it.
fn synth(engine: &Engine, place: usize) -> Synth {
    let view = engine.view();
    let node = view
        .nodes
        .iter()
        .find(|node| node.number == 1000 + place as i32);
    let synth = node.and_then(|node| node.synth.as_ref()).expect("a synth");
    let definition = definition(name_of(place), CONTROLS);
    let names = definition.parameters.iter().map(|(name, _)| name.clone());
    Synth {
        definition: definition.name.clone(),
        names: names.collect(),
        values: synth.controls.iter().map(|control| control.own).collect(),
    }
}

/// Three letters, another for each place.
fn letters(place: usize) -> Vec<u8> {
    [place / 676, place / 26 % 26, place % 26]
        .map(|letter| b'a' + letter as u8)
        .to_vec()
}

/// As many names as there is room for; the last has a version.
fn many_names() -> Vec<Named> {
    let count = (STORE - 7) / 13;
    let mut entries: Vec<Named> = (0..count)
        .map(|place| Named {
            name: letters(place),
            highest: 1,
            versions: Vec::new(),
        })
        .collect();
    let last = entries.last_mut().expect("there is one");
    last.versions.push(Saved {
        version: 1,
        settings: Vec::new(),
    });
    entries
}

/// As many settings as there is room for, all in one version; a second has none.
fn many_settings() -> Vec<Named> {
    let count = (STORE - 28) / 10;
    let setting = |place: usize| Setting {
        name: letters(place),
        value: 7,
    };
    let version = |version: u32, settings: usize| Saved {
        version,
        settings: (0..settings).map(setting).collect(),
    };
    vec![Named {
        name: b"name".to_vec(),
        highest: 2,
        versions: vec![version(1, count), version(2, 0)],
    }]
}
